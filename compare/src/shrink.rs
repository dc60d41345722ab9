//! A smaller script and a shorter list of calls that still show a difference, with
//! all rights where that shows it too. Definitions, located processes and parts are
//! taken away, parts replaced by what stands inside them or by `stop`, and names by
//! letters, for as long as a difference remains. Then the network that some of the
//! calls leave is tried as a script of its own, with its waits and messages written
//! into the table and the calls that are left.

use std::cmp::Reverse;
use std::iter::successors;
use std::mem;
use std::ops::Range;

use timo_reference::calls::{Engine, Record};
use timo_reference::generate::call_list;
use timo_reference::lists::Call;
use timo_reference::term::{Ledger, Network};
use timo_reference::writing;

use crate::differ::{differ, Difference, Place};
use crate::reading::theirs;
use crate::timo::{Row, Settings, MESSAGES, WAIT};

/// How many changes of one script are tried.
const MOST_TRIALS: usize = 3_000;

/// A script and a list on which the engines differ, and what the script is read
/// with.
#[derive(Clone, Debug)]
pub struct Case {
    pub settings: Settings,
    pub script: Vec<u8>,
    pub calls: Vec<Call>,
    pub difference: Difference,
}

impl Case {
    /// The case of a script and a list, if the engines differ there. Calls
    /// behind the difference are left out.
    pub fn of(engine: Engine, settings: Settings, script: &[u8], calls: &[Call]) -> Option<Case> {
        let difference = differ(engine, settings, script, calls).err()?;
        let needed = match difference.place {
            Place::Reading => 0,
            Place::Call(index) => index + 1,
            Place::End => calls.len(),
        };
        Some(Case {
            settings,
            script: script.to_vec(),
            calls: calls[..needed].to_vec(),
            difference,
        })
    }

    /// The case with another script and list, if the engines differ there too.
    fn with(&self, engine: Engine, script: &[u8], calls: &[Call]) -> Option<Case> {
        Case::of(engine, self.settings, script, calls)
    }

    fn size(&self) -> (usize, usize, usize) {
        let records = self.calls.iter().map(|call| match call {
            Call::Proposal { records, .. } => records.len(),
            _ => 0,
        });
        (self.script.len(), self.calls.len(), records.sum())
    }
}

/// Shrinks a case until nothing more can be taken away.
pub fn shrink(engine: Engine, case: Case) -> Case {
    let all = Settings::all(case.settings.edition);
    let with_all = Case::of(engine, all, &case.script, &case.calls);
    let mut case = shrunken(engine, with_all.unwrap_or(case));
    while let Some(later) = later_start(engine, &case) {
        let later = shrunken(engine, later);
        if later.size() >= case.size() {
            break;
        }
        case = later;
    }
    case
}

fn shrunken(engine: Engine, mut case: Case) -> Case {
    loop {
        let before = case.size();
        case = fewer_calls(engine, case);
        case = more_rights(engine, case);
        case = fewer_records(engine, case);
        case = plainer_calls(engine, case);
        if case.difference.place == Place::Reading {
            case = fewer_bytes(engine, case);
        }
        case = smaller_script(engine, case);
        if case.size() == before {
            return case;
        }
    }
}

/// The case that begins with the network before one of its calls, as it is written;
/// as late as one without marks shows the difference.
fn later_start(engine: Engine, case: &Case) -> Option<Case> {
    let settings = theirs(&case.settings);
    let read = |script: &[u8]| Engine::default().read(script, &settings).ok();
    let old = read(&case.script)?;
    let mut networks = vec![old.clone()];
    for call in &case.calls {
        let network = &networks[networks.len() - 1];
        let next = call_list::next(network, call).unwrap_or_else(|| network.clone());
        networks.push(next);
    }
    let begins_at = |first: usize| {
        let network = &networks[first];
        if network.components.iter().any(|c| c.mark.is_some()) {
            return None;
        }
        let script = writing::network(network).into_bytes();
        let new = read(&script)?;
        let location = |l: u32| renumbered(&old, &new, l);
        let calls = case.calls[first..].iter();
        let calls = calls.map(|call| relocated(call, location));
        let calls: Vec<Call> = writes_of(network).into_iter().chain(calls).collect();
        let settings = rights_moved(&case.settings, &old, &new);
        Case::of(engine, settings, &script, &calls)
    };
    (1..case.calls.len()).rev().find_map(begins_at)
}

/// What a host writes into a table just read so that it has a network's waits and
/// messages.
fn writes_of(network: &Network) -> Vec<Call> {
    let waits = network.components.iter().zip(0..);
    let waits = waits.filter(|(c, _)| c.wait != 0);
    let mut writes: Vec<Call> = waits.map(|(c, p)| Call::Wait { p, wait: c.wait }).collect();
    if network.ledger != Ledger::default() {
        writes.push(Call::Messages(network.ledger));
    }
    writes
}

/// A call with its location under another number.
fn relocated(call: &Call, number: impl Fn(u32) -> u32) -> Call {
    match call.clone() {
        Call::Tick(l) => Call::Tick(number(l)),
        Call::Conforms(l) => Call::Conforms(number(l)),
        Call::Step { location, room } => Call::Step {
            location: number(location),
            room,
        },
        Call::Conforming { location, room } => Call::Conforming {
            location: number(location),
            room,
        },
        Call::Proposal { location, records } => Call::Proposal {
            location: number(location),
            records,
        },
        other => other,
    }
}

/// Takes away stretches of calls, long ones first.
fn fewer_calls(engine: Engine, mut case: Case) -> Case {
    let mut length = case.calls.len();
    while length > 0 {
        let mut end = case.calls.len();
        while end > 0 {
            let start = end.saturating_sub(length);
            let mut calls = case.calls.clone();
            calls.drain(start..end);
            if let Some(found) = case.with(engine, &case.script, &calls) {
                case = found;
            }
            end = start.min(case.calls.len());
        }
        length /= 2;
    }
    case
}

/// Gives rights that are withheld and not needed for the difference: those of a
/// location, then one by one.
fn more_rights(engine: Engine, mut case: Case) -> Case {
    for l in 0..case.settings.rights.len() {
        let mut trial = |change: &dyn Fn(&mut Row)| {
            let mut settings = case.settings;
            change(&mut settings.rights[l]);
            if settings != case.settings {
                let found = Case::of(engine, settings, &case.script, &case.calls);
                case = found.unwrap_or_else(|| case.clone());
            }
        };
        trial(&|row| *row = Row::ALL);
        for number in 0..64 {
            trial(&|row| row.send[number] = true);
            trial(&|row| row.receive[number] = true);
            trial(&|row| row.leave[number] = true);
        }
    }
    case
}

/// Takes records out of proposals, the last ones first.
fn fewer_records(engine: Engine, mut case: Case) -> Case {
    for at in 0..case.calls.len() {
        let Some(Call::Proposal { location, records }) = case.calls.get(at).cloned() else {
            continue;
        };
        let mut left = records;
        for taken in (0..left.len()).rev() {
            let mut records = left.clone();
            records.remove(taken);
            let mut calls = case.calls.clone();
            calls[at] = Call::Proposal {
                location,
                records: records.clone(),
            };
            if let Some(found) = case.with(engine, &case.script, &calls) {
                left = records;
                case = found;
            }
            if case.calls.len() <= at {
                return case;
            }
        }
    }
    case
}

/// Puts plain numbers into what a host writes, and compares without a text.
fn plainer_calls(engine: Engine, mut case: Case) -> Case {
    for at in 0..case.calls.len() {
        let plainer = case.calls.get(at).map(plainer).unwrap_or_default();
        let again = |plain: Call| {
            let mut calls = case.calls.clone();
            calls[at] = plain;
            case.with(engine, &case.script, &calls)
        };
        let found = plainer.into_iter().find_map(again);
        case = found.unwrap_or(case);
    }
    case
}

/// What may stand in the place of a host's writing or of a text, plainest first.
fn plainer(call: &Call) -> Vec<Call> {
    let plain: Vec<Call> = match call {
        Call::Wait { p, .. } => {
            let wait = |wait| Call::Wait { p: *p, wait };
            [1, WAIT].map(wait).to_vec()
        }
        Call::Messages(_) => {
            let messages = |messages| Call::Messages(Ledger { total: 0, messages });
            [1, MESSAGES, MESSAGES - 1].map(messages).to_vec()
        }
        Call::Like(_) => vec![Call::Same],
        _ => Vec::new(),
    };
    let before = plain.iter().position(|plain| plain == call);
    plain[..before.unwrap_or(plain.len())].to_vec()
}

/// Takes away stretches of bytes, long ones first. This is for texts that have
/// not the form, and for blanks.
fn fewer_bytes(engine: Engine, mut case: Case) -> Case {
    let mut length = case.script.len() / 2;
    while length > 0 {
        let mut end = case.script.len();
        while end > 0 {
            let start = end.saturating_sub(length);
            let script = replaced(&case.script, &(start..end), b"");
            if let Some(found) = case.with(engine, &script, &case.calls) {
                case = found;
            }
            end = start.min(case.script.len());
        }
        length /= 2;
    }
    case
}

/// Takes away blanks, then pieces of the script, large ones first; then names are cut.
fn smaller_script(engine: Engine, mut case: Case) -> Case {
    let is_blank = |byte: &u8| matches!(byte, b' ' | b'\n');
    let script: Vec<u8> = case
        .script
        .iter()
        .copied()
        .filter(|b| !is_blank(b))
        .collect();
    if let Some(found) = case.with(engine, &script, &case.calls) {
        case = found;
    }
    let mut most = case.script.len();
    while let Some(smaller) = one_piece_less(engine, &case, most) {
        most = case.script.len() - smaller.script.len();
        case = smaller;
    }
    shorter_names(engine, case)
}

/// Gives each long name a letter of its case that the script does not have.
fn shorter_names(engine: Engine, mut case: Case) -> Case {
    let names: Vec<Vec<u8>> = words(&case.script).map(<[u8]>::to_vec).collect();
    for name in names.iter().filter(|name| name.len() > 1) {
        let is_free = |letter: &u8| !words(&case.script).any(|word| word == [*letter]);
        let mut letters = match name[0].is_ascii_uppercase() {
            true => b'A'..=b'Z',
            false => b'a'..=b'z',
        };
        if let Some(letter) = letters.find(is_free) {
            let script = renamed(&case.script, name, letter);
            if let Some(found) = case.with(engine, &script, &case.calls) {
                case = found;
            }
        }
    }
    case
}

/// Stretches of letters and digits, and what stands between them.
fn stretches(text: &[u8]) -> impl Iterator<Item = &[u8]> {
    text.chunk_by(|one, other| one.is_ascii_alphanumeric() == other.is_ascii_alphanumeric())
}

/// Names, numbers and the words of the language.
fn words(text: &[u8]) -> impl Iterator<Item = &[u8]> {
    stretches(text).filter(|stretch| stretch[0].is_ascii_alphanumeric())
}

/// A text with a letter in every place of a word. In the place of a number or of a
/// word of the language this is not of the form.
fn renamed(text: &[u8], word: &[u8], letter: u8) -> Vec<u8> {
    let short = [letter];
    let new = stretches(text).map(|stretch| if stretch == word { &short } else { stretch });
    new.collect::<Vec<&[u8]>>().concat()
}

/// The first change that leaves a difference, of those that take away at most so
/// many bytes: larger ones have just been tried, and come again in the next pass.
fn one_piece_less(engine: Engine, case: &Case, most: usize) -> Option<Case> {
    let less = |change: &Change| change.range.len().saturating_sub(change.with.len());
    let mut changes = changes(&case.script);
    changes.retain(|change| (1..=most).contains(&less(change)));
    changes.sort_by_key(|change| Reverse(less(change)));
    let again = |change: &Change| {
        let script = replaced(
            &case.script,
            &change.range,
            &case.script[change.with.clone()],
        );
        let as_they_stand = case.with(engine, &script, &case.calls);
        as_they_stand.or_else(|| {
            let (settings, calls) = moved(case, &script)?;
            let by_name = Case::of(engine, settings, &script, &calls);
            by_name.or_else(|| case.with(engine, &script, &calls))
        })
    };
    changes.iter().take(MOST_TRIALS).find_map(again)
}

fn replaced(text: &[u8], range: &Range<usize>, with: &[u8]) -> Vec<u8> {
    [&text[..range.start], with, &text[range.end..]].concat()
}

// --- pieces of a script ---------------------------------------------------------

/// A stretch of text between two signs of one level of brackets, with the
/// pieces inside its brackets.
struct Piece {
    range: Range<usize>,
    inside: Vec<Piece>,
}

/// A stretch of the text and another that may be put in its place.
struct Change {
    range: Range<usize>,
    with: Range<usize>,
}

/// What may be put in the place of what. Most of it is not of the form; then
/// both engines refuse it alike, and it shows no difference.
fn changes(text: &[u8]) -> Vec<Change> {
    let mut found = Vec::new();
    let stop = text.windows(4).position(|word| word == b"stop");
    add_changes(&pieces(text), stop.map(|at| at..at + 4), &mut found);
    found
}

fn add_changes(level: &[Piece], stop: Option<Range<usize>>, found: &mut Vec<Change>) {
    add_runs(level, found);
    for piece in level {
        let inside = piece.inside.iter().map(|inner| inner.range.clone());
        for with in inside.chain(stop.clone()) {
            let range = piece.range.clone();
            found.push(Change { range, with });
        }
        add_changes(&piece.inside, stop.clone(), found);
    }
}

/// Runs of pieces taken away, each with the signs behind its pieces or with
/// those before them. A definition is two pieces, before and behind its `=`.
fn add_runs(level: &[Piece], found: &mut Vec<Change>) {
    let halves = successors(Some(level.len()), |length| Some(length / 2));
    let long = halves.take_while(|length| *length > 2);
    for length in long.chain([2, 1]) {
        for run in level.windows(length).step_by(length.div_ceil(3)) {
            let (start, end) = (run[0].range.start, run[length - 1].range.end);
            for range in [start..end + 1, start.saturating_sub(1)..end] {
                found.push(Change { range, with: 0..0 });
            }
        }
    }
}

/// A level of brackets that is still open.
#[derive(Default)]
struct Level {
    /// Where the piece being read begins.
    start: usize,
    done: Vec<Piece>,
    /// What stands inside the brackets of the piece being read.
    inside: Vec<Piece>,
}

impl Level {
    /// Ends a piece at a sign; the next one begins behind it.
    fn end_piece(&mut self, at: usize) {
        self.done.push(Piece {
            range: self.start..at,
            inside: mem::take(&mut self.inside),
        });
        self.start = at + 1;
    }
}

/// The pieces of the outermost level. Brackets may be unbalanced.
fn pieces(text: &[u8]) -> Vec<Piece> {
    let mut outer: Vec<Level> = Vec::new();
    let mut level = Level::default();
    for (at, &byte) in text.iter().enumerate() {
        match byte {
            b'(' | b'[' => {
                let start = at + 1;
                let inner = Level {
                    start,
                    ..Level::default()
                };
                outer.push(mem::replace(&mut level, inner));
            }
            b'|' | b',' | b'.' | b'=' => level.end_piece(at),
            b')' | b']' => {
                level.end_piece(at);
                if let Some(mut around) = outer.pop() {
                    around.inside = level.done;
                    level = around;
                }
            }
            _ => {}
        }
    }
    match outer.into_iter().next() {
        Some(outermost) => outermost.done,
        None => level.done,
    }
}

// --- calls on a smaller network -------------------------------------------------

/// A case's rights and calls with the positions and numbers that they have where
/// the new script lacks some of the old one's components, locations or channels.
fn moved(case: &Case, script: &[u8]) -> Option<(Settings, Vec<Call>)> {
    let settings = theirs(&case.settings);
    let read = |script: &[u8]| Engine::default().read(script, &settings);
    let old = read(&case.script).ok()?;
    let new = read(script).ok()?;
    let missing = old.components.len().checked_sub(new.components.len())?;
    let pairs = old.components.iter().zip(&new.components);
    let first = pairs.take_while(|(one, other)| one == other).count();
    let position = |p: u32| {
        if (p as usize) < first {
            p
        } else {
            p.saturating_sub(missing as u32)
        }
    };
    let record = |r: &Record| Record::new(r.kind, position(r.p), position(r.q));
    let location = |l: u32| renumbered(&old, &new, l);
    let call = |call: &Call| match relocated(call, location) {
        Call::Action(r) => Call::Action(record(&r)),
        Call::Proposal { location, records } => Call::Proposal {
            location,
            records: records.iter().map(record).collect(),
        },
        Call::Wait { p, wait } => Call::Wait {
            p: position(p),
            wait,
        },
        other => other,
    };
    let calls = case.calls.iter().map(call).collect();
    Some((rights_moved(&case.settings, &old, &new), calls))
}

/// The rights of the new script's names, those that they had in the old one.
fn rights_moved(settings: &Settings, old: &Network, new: &Network) -> Settings {
    let [old, new] = [&old.script, &new.script];
    let locations = new.locations.iter().map(|name| old.location(name));
    let channels = new.channels.iter().map(|name| old.channel(name));
    let [locations, channels]: [Vec<Option<usize>>; 2] = [locations.collect(), channels.collect()];
    let mut moved = Settings::all(settings.edition);
    for (row, was) in moved.rights.iter_mut().zip(&locations) {
        let Some(was) = was else { continue };
        let was = &settings.rights[*was];
        let leave = |v: &usize| was.leave[*v];
        for (right, v) in row.leave.iter_mut().zip(&locations) {
            *right = v.as_ref().is_none_or(leave);
        }
        for (number, channel) in channels.iter().enumerate() {
            row.send[number] = channel.is_none_or(|c| was.send[c]);
            row.receive[number] = channel.is_none_or(|c| was.receive[c]);
        }
    }
    moved
}

fn renumbered(old: &Network, new: &Network, location: u32) -> u32 {
    let name = old.script.locations.get(location as usize);
    let found = name.and_then(|name| new.script.locations.iter().position(|held| held == name));
    found.map_or(location, |number| number as u32)
}
