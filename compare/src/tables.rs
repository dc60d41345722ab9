//! Tables of every sort, made by hand from a valid one: words changed anywhere,
//! scopes with names of every sort, rows that nothing reaches, editions of every
//! number, rights of every word, waits and messages at their limits, words of any
//! content. Question 17 by both engines; where both say yes the network runs through
//! both, where both say no every call refuses 17.

use std::collections::{BTreeMap, BTreeSet};
use std::fmt;

use timo_reference::random::Random;
use timo_reference::table::{
    Test, CHANNELS, DEFINITIONS, EDITION, IN_SCOPE, LOCATIONS, NAME, OWN, PARTS, PARTS_END, RIGHTS,
    RIGHTS_ROW, ROW, SCOPE, SCRIPT,
};

use crate::agree::{equal, Agreed};
use crate::alike::{any_messages, refused_by_all};
use crate::differ::run_by_itself;
use crate::reading::Pair;
use crate::table;
use crate::timo::{Comp, State, Table};

/// A table with what was done to it.
pub struct Made {
    pub change: String,
    pub table: Table,
}

/// What question 17 said of many tables, by both engines.
#[derive(Debug, Default)]
pub struct Tally {
    pub passed: usize,
    /// How many were refused, by the reference engine's test.
    pub refused: BTreeMap<Test, usize>,
    /// Tests without which some table would have passed.
    pub needed: BTreeSet<Test>,
    /// How many were told apart, by the reference engine's test or by none,
    /// and what was said of the first.
    pub differ: BTreeMap<Option<Test>, (usize, String)>,
}

impl Tally {
    pub fn judge(&mut self, random: &mut Random, good: &Table, made: &Made) {
        let theirs = table::network(&made.table);
        let test = theirs.as_ref().err().map(|fault| fault.test);
        let agreed = equal("question 17", &made.table.is_valid(), &theirs.is_ok());
        let agreed = agreed.and_then(|()| match theirs {
            Ok(network) => {
                let table = made.table.clone();
                self.passed += 1;
                run_by_itself(random, Pair { table, network })
            }
            Err(fault) => {
                self.refusal(&made.table, fault.test);
                refused(good, &made.table)
            }
        });
        if let Err(what) = agreed {
            let said = format!("{}: {what}", made.change);
            self.differ.entry(test).or_insert((0, said)).0 += 1;
        }
    }

    /// Counts a table that a test refuses, perhaps alone.
    pub fn refusal(&mut self, table: &Table, test: Test) {
        *self.refused.entry(test).or_default() += 1;
        if !self.needed.contains(&test) && table::passes_without(table, test) {
            self.needed.insert(test);
        }
    }

    /// Nothing told apart, or the first of each sort.
    pub fn agreed(&self) -> Agreed {
        if self.differ.is_empty() {
            return Ok(());
        }
        let line = |(test, (count, first)): (&Option<Test>, &(usize, String))| {
            format!("{count} tables differ, test {test:?}; first {first}\n")
        };
        Err(self.differ.iter().map(line).collect())
    }
}

impl fmt::Display for Tally {
    fn fmt(&self, f: &mut fmt::Formatter<'_>) -> fmt::Result {
        write!(
            f,
            "{} stand for a network, {} refused 17 by {} different tests, {} of them alone",
            self.passed,
            self.refused.values().sum::<usize>(),
            self.refused.len(),
            self.needed.len()
        )
    }
}

fn refused(good: &Table, bad: &Table) -> Agreed {
    equal("same of a good and a bad table", &good.same(bad), &Err(17))?;
    refused_by_all(bad)
}

// --- tables ---------------------------------------------------------------------

/// A table made from a valid one, by one change or a few.
pub fn make(random: &mut Random, from: &Table) -> Made {
    let mut made = Made {
        change: String::new(),
        table: from.clone(),
    };
    let changes = random.weighted(&[0, 80, 15, 5]);
    for _ in 0..changes {
        let change = change(random, &mut made.table);
        made.change.push_str(&format!("[{change}]"));
    }
    made
}

fn change(random: &mut Random, table: &mut Table) -> String {
    match random.weighted(&[24, 12, 8, 8, 8, 16, 3, 4, 18, 3, 4, 10, 8, 2]) {
        0 => part_word(random, table),
        1 => scope_word(random, table),
        2 => script_word(random, table, "count", 0, 8),
        3 => name_word(random, table),
        4 => definition_word(random, table),
        5 => component_word(random, table),
        6 => number_in_use(random, table),
        7 => rows_exchanged(random, table),
        8 => tree_on_top(random, table),
        9 => script_word(random, table, "any word", 0, SCRIPT),
        10 => edition_word(random, table),
        11 => rights_words(random, table),
        12 => messages_words(random, table),
        _ => any_content(random, table),
    }
}

/// A content for a word: near it, at a limit, from another word, or any.
fn content(random: &mut Random, table: &Table, word: u32) -> u32 {
    let limits = [
        0, 1, 2, 3, 4, 5, 7, 8, 9, 63, 64, 65, 66, 71, 72, 255, 256, 4_095, 4_096, 99_588, 99_589,
        99_592, 99_599, 99_600, 99_791, 99_792, 111_884, 111_888, 999_999, 1_000_000, 1_000_001,
        1_000_002,
    ];
    match random.below(8) {
        0 => word.wrapping_add(1),
        1 => word.wrapping_sub(1),
        2 => random.below(table.words[0].clamp(1, 5_000) as usize) as u32,
        3 => table.words[random.below(SCRIPT)],
        4 => table.words[random.below(top(table))],
        5 => random.draw() as u32,
        6 => u32::MAX,
        _ => *random.pick(&limits),
    }
}

/// The first word past the rows in use.
fn top(table: &Table) -> usize {
    PARTS + ROW * (table.words[0] as usize).min(4_096)
}

/// Changes one of `count` words of the script from `first` on.
fn script_word(
    random: &mut Random,
    table: &mut Table,
    name: &str,
    first: usize,
    count: usize,
) -> String {
    let at = first + random.below(count.max(1));
    let at = at.min(SCRIPT - 1);
    let before = table.words[at];
    table.words[at] = content(random, table, before);
    format!("{name}: word {at} from {before} to {}", table.words[at])
}

/// Another edition or none: near the two, or with a bit too many.
fn edition_word(random: &mut Random, table: &mut Table) -> String {
    if random.chance(1, 4) {
        return script_word(random, table, "edition", EDITION, 1);
    }
    let words = [0, 1, 1, 2, 2, 3, 4, 256 + 1, 65_536 + 2, 0x8000_0001];
    table.words[EDITION] = *random.pick(&words);
    format!("edition {}", table.words[EDITION])
}

/// Some words of the rights of the first locations: 0, 1, or what is no right.
fn rights_words(random: &mut Random, table: &mut Table) -> String {
    let locations = (table.words[1] as usize).clamp(1, 64);
    let count = *random.pick(&[1, 4, 40]);
    for _ in 0..count {
        let row = RIGHTS + RIGHTS_ROW * random.below(locations);
        let below = *random.pick(&[4, 64]);
        let at = row + 64 * random.below(3) + random.below(below);
        table.words[at] = *random.pick(&[0, 0, 1, 2, 256 + 1, u32::MAX]);
    }
    format!("{count} words of the rights")
}

/// The count and the total, or one of the words behind the components.
fn messages_words(random: &mut Random, table: &mut Table) -> String {
    if random.chance(2, 3) {
        any_messages(random, table);
    } else {
        let k = random.below(16);
        let mut c = table.state.c;
        let word = match k {
            0 => &mut c.total_low,
            1 => &mut c.total_high,
            2 => &mut c.messages,
            _ => &mut c.spare[k - 3],
        };
        *word = content(random, table, *word);
        table.state.c = c;
    }
    let c = &table.state.c;
    format!("{} messages, total {}", c.messages, c.total())
}

fn part_word(random: &mut Random, table: &mut Table) -> String {
    let row = row(random, table);
    script_word(random, table, "part", row, ROW)
}

/// The first word of a row in use.
fn row(random: &mut Random, table: &Table) -> usize {
    let parts = (table.words[0] as usize).clamp(1, 4_096);
    PARTS + ROW * random.below(parts)
}

/// The number of names in scope or the place of one, in a row or in all rows
/// that have the same.
fn scope_word(random: &mut Random, table: &mut Table) -> String {
    let row = row(random, table);
    let held = (table.words[row + IN_SCOPE] as usize).clamp(1, 8);
    let at = row + IN_SCOPE + random.below(held + 1);
    let before = table.words[at];
    let after = match random.below(3) {
        0 => content(random, table, before),
        _ => name_at(random, table) as u32,
    };
    table.words[at] = after;
    if random.chance(1, 2) {
        for row in (PARTS..top(table)).step_by(ROW) {
            for word in &mut table.words[row + SCOPE..row + OWN] {
                if *word == before {
                    *word = after;
                }
            }
        }
    }
    format!("scope: word {at} from {before} to {after}")
}

/// A word where a name of some sort stands.
fn name_at(random: &mut Random, table: &Table) -> usize {
    let held = |count: u32| (count as usize).clamp(1, 32);
    match random.below(5) {
        0 => LOCATIONS + NAME * random.below(held(table.words[1])),
        1 => CHANNELS + NAME * random.below(held(table.words[2])),
        2 => DEFINITIONS + ROW * random.below(held(table.words[3])) + 2,
        3 => {
            let definition = DEFINITIONS + ROW * random.below(held(table.words[3]));
            definition + 2 + NAME * random.between(1, 4)
        }
        _ => row(random, table) + OWN,
    }
}

/// Letters of a name of some sort: another name, or one that is no name.
fn name_word(random: &mut Random, table: &mut Table) -> String {
    let at = name_at(random, table);
    if random.chance(1, 2) {
        return script_word(random, table, "name", at, NAME);
    }
    let name = write_name(random, table, at);
    format!("name at {at}: {name}")
}

/// Writes a name or what is almost one into four words.
fn write_name(random: &mut Random, table: &mut Table, at: usize) -> String {
    let names: [&[u8]; 20] = [
        b"x",
        b"y",
        b"v9",
        b"c",
        b"longestOfAllName",
        b"inn",
        b"s",
        b"stop",
        b"go",
        b"in",
        b"out",
        b"inf",
        b"S",
        b"X",
        b"A",
        b"9x",
        b"",
        b"x\0y",
        b"x ",
        b"x\xff",
    ];
    let name = *random.pick(&names);
    let mut bytes = [0; 16];
    bytes[..name.len()].copy_from_slice(name);
    for (k, four) in bytes.chunks(4).enumerate() {
        table.words[at + k] = u32::from_le_bytes([four[0], four[1], four[2], four[3]]);
    }
    name.escape_ascii().to_string()
}

fn definition_word(random: &mut Random, table: &mut Table) -> String {
    let held = (table.words[3] as usize).clamp(1, 32);
    let first = DEFINITIONS + ROW * random.below(held);
    script_word(random, table, "definition", first, ROW)
}

fn component_word(random: &mut Random, table: &mut Table) -> String {
    let p = random.below(table.state.n.clamp(1, 256));
    let before = table.state.c.at[p];
    let k = random.below(16);
    let mut after = before;
    let word = match k {
        0 => &mut after.loc,
        1 => &mut after.mark,
        2 => &mut after.place,
        3 => &mut after.timer,
        4..=11 => &mut after.vals[k - 4],
        12 => &mut after.wait,
        _ => &mut after.spare[k - 13],
    };
    *word = content(random, table, *word);
    let said = format!("component {p}: word {k} to {word}");
    table.state.c.at[p] = after;
    said
}

fn number_in_use(random: &mut Random, table: &mut Table) -> String {
    let n = table.state.n;
    let numbers = [0, 1, n.wrapping_sub(1), n + 1, 256, 257, usize::MAX];
    table.state.n = *random.pick(&numbers);
    format!("{} components in use", table.state.n)
}

fn rows_exchanged(random: &mut Random, table: &mut Table) -> String {
    let (one, other) = (row(random, table), row(random, table));
    for k in 0..ROW {
        table.words.swap(one + k, other + k);
    }
    format!("rows at {one} and {other} exchanged")
}

/// Words of any content, up to a bound, in the rows, the whole script or the
/// components.
fn any_content(random: &mut Random, table: &mut Table) -> String {
    let bound = *random.pick(&[2, 5, 70, 1 << 32]);
    let rows = PARTS..top(table);
    let (name, range) = match random.below(3) {
        0 => ("rows", rows),
        1 => ("words", 0..SCRIPT),
        _ => ("no words", 0..0),
    };
    for word in &mut table.words[range] {
        *word = random.below(bound) as u32;
    }
    any_components(&mut table.state, || random.below(bound) as u32);
    format!("{name} and components below {bound}")
}

/// Every component, and the words behind them, made of the numbers given.
pub fn any_components(state: &mut State, mut any: impl FnMut() -> u32) {
    for c in &mut state.c.at {
        *c = Comp {
            loc: any(),
            mark: any(),
            place: any(),
            timer: any(),
            vals: [(); 8].map(|()| any()),
            wait: any(),
            spare: [(); 3].map(|()| any()),
        };
    }
    state.c.total_low = any();
    state.c.total_high = any();
    state.c.messages = any();
    state.c.spare = [(); 13].map(|()| any());
}

// --- rows that reading does not write -------------------------------------------

/// A tree above the rows in use, with names in scope on its outside that
/// nothing binds; a component stands at it or nothing does.
fn tree_on_top(random: &mut Random, table: &mut Table) -> String {
    let parts = table.words[0] as usize;
    if parts + 4 > 4_096 {
        return "no room for a tree".to_string();
    }
    let scope = any_scope(random, table);
    let tree = if random.chance(1, 2) {
        a_move(random, table, &scope)
    } else {
        an_input(random, table, &scope)
    };
    let place = table.words[0] - 1;
    if random.chance(2, 3) {
        let p = random.below(table.state.n.clamp(1, 256));
        let locations = table.words[1].max(1) as usize;
        table.state.c.at[p].place = place;
        table.state.c.at[p].timer = random.below(3) as u32;
        table.state.c.at[p].vals = [(); 8].map(|()| random.below(locations) as u32);
        return format!("{tree} with scope {scope:?}, component {p} at it");
    }
    format!("{tree} with scope {scope:?}, at which nothing stands")
}

/// Places of up to nine names, some of them spelt here: in words past the rows in
/// use, or behind the last row, where no name may stand.
fn any_scope(random: &mut Random, table: &mut Table) -> Vec<u32> {
    let count = random.weighted(&[2, 6, 6, 3, 1, 1, 1, 1, 1, 1]);
    let mut scope = Vec::new();
    for k in 0..count {
        let at = if random.chance(2, 3) {
            let end = if random.chance(1, 20) {
                SCRIPT
            } else {
                PARTS_END
            };
            let at = end - NAME * (k + 1);
            write_good_or_any(random, table, at, k);
            at
        } else {
            name_at(random, table)
        };
        scope.push(at as u32);
    }
    scope
}

/// Mostly a name that is not in scope yet.
fn write_good_or_any(random: &mut Random, table: &mut Table, at: usize, k: usize) {
    if random.chance(1, 6) {
        write_name(random, table, at);
    } else {
        table.words[at] = u32::from_le_bytes([b'v', b'0' + k as u8, 0, 0]);
    }
}

/// `go(t,v,stop)`.
fn a_move(random: &mut Random, table: &mut Table, scope: &[u32]) -> String {
    let value = any_value(random, table, scope);
    let below = push(table, &[0], scope, 0);
    push(table, &[1, 0, 2, value, below], scope, below);
    format!("a move to {value}")
}

/// `in(c,t,y,P,stop)`, P a `go` or `stop`.
fn an_input(random: &mut Random, table: &mut Table, scope: &[u32]) -> String {
    let q = push(table, &[0], scope, 0);
    let own = (top(table) + ROW + OWN) as u32;
    let bound = random.below(10);
    table.words[own as usize] = u32::from_le_bytes([b'v', b'0' + bound as u8, 0, 0]);
    let letters = |at: u32| table.words[at as usize..][..NAME].to_vec();
    let known = scope.iter().position(|at| letters(*at) == letters(own));
    let mut inner = scope.to_vec();
    if known.is_none() {
        inner.push(own);
    }
    let slot = known.unwrap_or(scope.len()) as u32;
    let p = push(table, &[0], &inner, 0);
    let wrong = u32::from(random.chance(1, 10));
    push(table, &[3, 0, 3, slot + wrong, p, q], scope, q);
    format!("an input of v{bound}, slot {slot} and {wrong}")
}

fn any_value(random: &mut Random, table: &Table, scope: &[u32]) -> u32 {
    if random.chance(1, 8) {
        return content(random, table, 64);
    }
    64 + random.below(scope.len().max(1)) as u32
}

/// Writes a row above those in use; its place. A row of one word is the last
/// part of its process and has no inner ones.
fn push(table: &mut Table, head: &[u32], scope: &[u32], least: u32) -> u32 {
    let place = table.words[0];
    let row = &mut table.words[PARTS + ROW * place as usize..][..ROW];
    row[..OWN].fill(0);
    row[..head.len()].copy_from_slice(head);
    row[7] = if head.len() == 1 { place } else { least };
    row[IN_SCOPE] = scope.len() as u32;
    let fits = scope.len().min(8);
    row[SCOPE..SCOPE + fits].copy_from_slice(&scope[..fits]);
    table.words[0] += 1;
    place
}
