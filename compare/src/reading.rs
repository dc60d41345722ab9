//! A text through both readers, under an edition and with rights.

use timo_reference::calls::Engine;
use timo_reference::reading::MOST_PARTS;
use timo_reference::table::{EDITION, PARTS, PARTS_END, RIGHTS, RIGHTS_ROW, ROW};
use timo_reference::term::{self, Component, Network, Rights};
use timo_reference::{rights, writing};

use crate::agree::{equal, Agreed};
use crate::alike;
use crate::table;
use crate::timo::{self, Row, Settings, State, Table, WORDS};

/// What the words hold that are lent to reading.
const BLANK: u32 = 0xa5a5_a5a5;

/// A network in both engines.
#[derive(Clone)]
pub struct Pair {
    pub table: Table,
    pub network: Network,
}

impl Pair {
    /// What the network was read with.
    pub fn settings(&self) -> Settings {
        settings_of(&self.network)
    }
}

/// What a network was read with.
pub fn settings_of(network: &Network) -> Settings {
    ours(&network.settings())
}

/// What is given with a text, as the library takes it.
pub fn ours(settings: &term::Settings) -> Settings {
    with_rights(settings.edition, &settings.rights)
}

/// An edition with these rights, as the library takes it.
pub fn with_rights(edition: u32, rights: &Rights) -> Settings {
    let mut settings = Settings::all(edition);
    for (row, given) in settings.rights.iter_mut().zip(&rights.rows) {
        *row = Row {
            send: given.send,
            receive: given.receive,
            leave: given.leave,
        };
    }
    settings
}

/// What is given with a text, as the reference engine takes it.
pub fn theirs(settings: &Settings) -> term::Settings {
    let row = |row: &Row| term::Row {
        send: row.send,
        receive: row.receive,
        leave: row.leave,
    };
    term::Settings {
        edition: settings.edition,
        rights: Rights {
            rows: settings.rights.iter().map(row).collect(),
        },
    }
}

/// What both say of a text: its network, or the number of its refusal.
pub type Read = Result<Pair, u32>;

/// Reads a text by both engines into words of a fixed content.
pub fn read(text: &[u8], settings: Settings) -> Result<Read, String> {
    read_over(text, settings, timo::words_of(BLANK))
}

/// Reads a text by both engines under each edition with these rights: the same
/// number, or tables that are the same but for the word of the edition. Gives both.
pub fn read_under_both(text: &[u8], rights: &Rights) -> Result<Result<[Pair; 2], u32>, String> {
    let [one, two] = [1, 2].map(|edition| read(text, with_rights(edition, rights)));
    match (one?, two?) {
        (Ok(one), Ok(two)) => {
            let other = one.table.under_other_edition();
            yes(
                *other.words == *two.table.words,
                "words but for the edition",
            )?;
            yes(one.table.state == two.table.state, "state of both editions")?;
            Ok(Ok([one, two]))
        }
        (one, two) => {
            let number = one.err();
            equal("reading under editions 1 and 2", &number, &two.err())?;
            Ok(Err(number.unwrap_or(0)))
        }
    }
}

/// Reads a text by both engines. The words lent have any content: a refusal
/// leaves it, and a network does not depend on it.
pub fn read_over(
    text: &[u8],
    settings: Settings,
    mut words: Box<[u32; WORDS]>,
) -> Result<Read, String> {
    let before = words.clone();
    let reading = timo::read_into(text, settings, &mut words);
    let theirs = Engine::default().read(text, &theirs(&settings));
    let number = match &theirs {
        Ok(_) => 0,
        Err(refusal) => u32::from(refusal.number()),
    };
    equal("reading", &reading.code, &number)?;
    let Ok(network) = theirs else {
        yes(*words == *before, "words kept by a refused reading")?;
        let zero = reading.state == State::ZERO;
        yes(zero, "state of zeros after a refused reading")?;
        return Ok(Err(number));
    };
    let table = Table {
        words,
        state: reading.state,
    };
    yes(table.is_valid(), "question 17 of the table read")?;
    kept_behind(&table, &before)?;
    equal("edition", &table.words[EDITION], &settings.edition)?;
    yes(rights_stand(&table, &settings), "words of the rights")?;
    let ours = table::network(&table).map_err(alike::fault)?;
    equal_networks("the network read", &ours, &network)?;
    Ok(Ok(Pair { table, network }))
}

/// Whether the words of the rights are 1 where a right was given, else 0.
fn rights_stand(table: &Table, settings: &Settings) -> bool {
    let words = table.words[RIGHTS..].chunks(RIGHTS_ROW);
    words.zip(&settings.rights).all(|(words, row)| {
        let given = row.send.iter().chain(&row.receive).chain(&row.leave);
        words
            .iter()
            .copied()
            .eq(given.map(|right| u32::from(*right)))
    })
}

/// The words behind the last row, but for the edition and the rights, are as they
/// were, and those that no component in use has as its own are 0.
fn kept_behind(table: &Table, before: &[u32; WORDS]) -> Agreed {
    let rows = PARTS + ROW * (table.words[0] as usize).min(MOST_PARTS);
    let behind = table.words[rows..PARTS_END] == before[rows..PARTS_END];
    yes(behind, "words kept behind the last row")?;
    let spare = table.words[EDITION + 1..RIGHTS] == before[EDITION + 1..RIGHTS];
    yes(spare, "words kept behind the edition")?;
    let n = table.state.n;
    let zeros = table.state.beside(n) == State::ZERO.beside(n);
    yes(zeros, "zeros beside the components")
}

/// The edition, the rights, names by number, definitions in order, components in
/// order with their waits, and messages.
pub fn equal_networks(what: &str, ours: &Network, theirs: &Network) -> Agreed {
    if ours == theirs {
        return Ok(());
    }
    equal(what, &shown(ours), &shown(theirs))
}

/// A network letter by letter, with its numbering, its marks, waits and messages.
fn shown(network: &Network) -> Vec<String> {
    let script = &network.script;
    let names = [
        format!("edition {}", script.edition.number()),
        format!("locations {}", script.locations.join(" ")),
        format!("channels {}", script.channels.join(" ")),
        rights::print(&script.rights, script),
    ];
    let definitions = script.definitions.iter().map(writing::definition);
    let component = |c: &Component| format!("{}, wait {}", writing::component(c), c.wait);
    let components = network.components.iter().map(component);
    let lines = names.into_iter().chain(definitions).chain(components);
    lines.chain([format!("{:?}", network.ledger)]).collect()
}

fn yes(holds: bool, what: &str) -> Agreed {
    equal(what, &holds, &true)
}
