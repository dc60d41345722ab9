//! The reference engine's view of the proved engine's tables: whether they pass
//! its question 17, the network that they stand for, names and labels.

use timo_reference::table::{self, Fault, Test};
use timo_reference::term::{Component, Ledger, Network};

use crate::timo::{Comp, Label, State, Table, WORDS};

/// The network, if the reference engine's question 17 is answered by yes.
pub fn network(table: &Table) -> Result<Network, Fault> {
    let components = words(&table.state);
    view(table, &components).network()
}

/// The components and the messages alone.
pub fn state(table: &Table) -> Result<(Vec<Component>, Ledger), Fault> {
    let components = words(&table.state);
    view(table, &components).network_state()
}

/// Whether the reference engine's question 17 would be answered by yes with a
/// test left out.
pub fn passes_without(table: &Table, test: Test) -> bool {
    let components = words(&table.state);
    let wrong = view(table, &components).without(test);
    wrong.question_17().is_ok()
}

fn view<'t>(table: &'t Table, components: &'t [u32]) -> table::Table<'t> {
    table::Table::new(table.words.as_slice(), components, table.state.n)
}

/// The words of all components, in use or not, and those behind them.
pub fn words(state: &State) -> Vec<u32> {
    let of_one = |c: &Comp| {
        let first = [c.loc, c.mark, c.place, c.timer];
        first
            .into_iter()
            .chain(c.vals)
            .chain([c.wait])
            .chain(c.spare)
    };
    let c = &state.c;
    let components = c.at.iter().flat_map(of_one);
    let ledger = [c.total_low, c.total_high, c.messages];
    components.chain(ledger).chain(c.spare).collect()
}

fn names(words: &[u32; WORDS]) -> table::Table<'_> {
    table::Table::new(words, &[], 0)
}

/// The name of a location by number.
pub fn location(words: &[u32; WORDS], l: u32) -> String {
    names(words).location(l as usize)
}

/// A label in letters; its numbers, if it is not one of the three sorts.
pub fn label(words: &[u32; WORDS], label: Label) -> String {
    let names = names(words);
    let location = |l: u32| names.location(l as usize);
    let a = label.a as usize;
    let what = match (label.kind, label.b) {
        (1, 0) => names.identifier(a),
        (2, 0) => names.location(a),
        (3, b) => format!("{}<{}>", names.channel(a), location(b)),
        _ => return format!("{label:?}"),
    };
    format!("{what}@{}", location(label.at))
}
