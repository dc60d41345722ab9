//! What a host shows: locations, channels, names, labels, lines and printouts, by the
//! proved engine and by the reference engine on generated scripts, under both
//! editions and with rights. Each text is asked for with too few bytes, just enough and more.

use compare::reading::{self, Pair};
use compare::timo::{printout, LABEL, LINE, MESSAGES, NAME, PRINTOUT};
use timo_reference::calls::{Engine, Record};
use timo_reference::generate::{rights, script_to_run, seed, vectors};
use timo_reference::program;
use timo_reference::random::Random;

const BLANK: u8 = 0xa5;

/// What a call shows. Bytes past the text, and all that a refusal was lent, are
/// as they were.
fn shown(most: usize, call: impl Fn(&mut [u8]) -> Result<usize, u32>) -> Result<String, u32> {
    let mut lent = vec![BLANK; most];
    let answer = call(&mut lent);
    let length = answer.unwrap_or(0);
    assert!(lent[length..].iter().all(|byte| *byte == BLANK));
    answer?;
    let mut enough = vec![BLANK; length];
    assert_eq!(call(&mut enough), Ok(length), "just enough bytes");
    assert_eq!(enough, lent[..length]);
    let mut few = vec![BLANK; length - 1];
    assert_eq!(call(&mut few), Err(15), "one byte too few");
    assert!(few.iter().all(|byte| *byte == BLANK));
    Ok(String::from_utf8(enough).expect("ASCII"))
}

/// The reference engine's line of a step, or its refusal.
fn line(pair: &Pair, location: usize) -> Result<String, u32> {
    let mut records = [Record::new(0, 0, 0); 256];
    let stepped = Engine::default().step(&pair.network, location as u32, &mut records);
    let stepped = stepped.map_err(|refusal| u32::from(refusal.number()))?;
    let mut line = pair.network.script.locations[location].clone();
    for label in &stepped.labels {
        line.push_str(&format!(" {label}"));
    }
    Ok(line + "\n")
}

/// The names of a sort by number, and 8 past the last.
fn names(names: &[String], call: impl Fn(u32, &mut [u8]) -> Result<usize, u32>) {
    for (number, name) in names.iter().enumerate() {
        let found = shown(NAME, |lent| call(number as u32, lent));
        assert_eq!(found.as_ref(), Ok(name));
    }
    for past in [names.len() as u32, 64, u32::MAX] {
        assert_eq!(shown(NAME, |lent| call(past, lent)), Err(8));
    }
}

fn locations_and_channels(pair: &Pair) {
    let (table, script) = (&pair.table, &pair.network.script);
    let count = script.locations.len() as u32;
    assert_eq!(table.locations(), Ok(count));
    assert_eq!(table.channels(), Ok(script.channels.len() as u32));
    names(&script.locations, |l, lent| table.location_name(l, lent));
    names(&script.channels, |h, lent| table.channel_name(h, lent));
    assert_eq!(table.step_line(count, &mut []), Err(8));
}

/// Every action of the first components, of every kind and of none: how many
/// have a label.
fn labels(pair: &Pair) -> usize {
    let mut accepted = 0;
    let most = pair.network.components.len().min(6) as u32;
    for kind in 0..=4 {
        for p in 0..=most {
            for q in 0..=most {
                let record = Record::new(kind, p, q);
                let theirs = match Engine::default().label(&pair.network, record) {
                    Ok(label) => Ok(label.to_string()),
                    Err(refusal) => Err(u32::from(refusal.number())),
                };
                let ours = shown(LABEL, |lent| {
                    let table = &pair.table;
                    table.action_label(kind, p as usize, q as usize, lent)
                });
                assert_eq!(ours, theirs, "{record:?}");
                accepted += usize::from(ours.is_ok());
            }
        }
    }
    accepted
}

/// One action that is accepted, if there is one: the labels are then asked of
/// a network with marks.
fn act(pair: &mut Pair) {
    let count = pair.network.components.len() as u32;
    let records = (0..count).flat_map(|p| [1, 2].map(|kind| Record::new(kind, p, 0)));
    for record in records {
        if let Ok((network, _)) = Engine::default().action(&pair.network, record) {
            let acted = pair.table.action(record.kind, record.p as usize, 0);
            assert!(acted.is_ok());
            pair.network = network;
            return;
        }
    }
}

/// Two rounds of steps: the line of each before it is made, and in between the
/// labels of actions, with marks and without. How many labels there were.
fn rounds(mut pair: Pair) -> usize {
    let mut accepted = 0;
    locations_and_channels(&pair);
    let count = pair.network.script.locations.len();
    for location in (0..count).chain(0..count) {
        accepted += labels(&pair);
        let ours = shown(LINE, |lent| pair.table.step_line(location as u32, lent));
        assert_eq!(ours, line(&pair, location));
        if location == 1 {
            act(&mut pair);
            accepted += labels(&pair);
        }
        let mut records = [Record::new(0, 0, 0); 256];
        let theirs = Engine::default().step(&pair.network, location as u32, &mut records);
        let Ok(stepped) = theirs else { break };
        let lent = &mut [[0; 3]; 256];
        assert!(pair.table.step(location as u32, lent).is_ok());
        pair.network = stepped.network;
    }
    accepted
}

/// So many messages before; at a full count a label is shown and a line is not.
fn with_messages(mut pair: Pair, messages: u32) -> Pair {
    pair.table.state.c.put_messages(messages, 0);
    pair.network.ledger.messages = messages;
    pair
}

#[test]
fn names_labels_and_lines() {
    let mut accepted = 0;
    for index in 0..150 {
        let text = script_to_run(seed(2026, index));
        let rights = rights(&mut Random::new(index));
        let both = reading::read_under_both(&text, &rights).expect("both readers agree");
        let messages = if index % 3 == 0 { MESSAGES } else { 0 };
        let pairs = both.into_iter().flatten();
        let pairs = pairs.map(|pair| with_messages(pair, messages));
        accepted += pairs.map(rounds).sum::<usize>();
    }
    assert!(accepted > 1_000, "{accepted} labels");
}

/// The printout into more bytes than it has, and its first bytes into fewer.
fn printed(text: &[u8], theirs: &[u8]) {
    let mut lent = vec![BLANK; theirs.len() + 3];
    assert_eq!(printout(text, &mut lent), theirs.len());
    assert_eq!(lent[..theirs.len()], *theirs);
    assert_eq!(lent[theirs.len()..], [BLANK; 3]);
    let mut few = vec![BLANK; theirs.len() / 2];
    assert_eq!(printout(text, &mut few), theirs.len());
    assert_eq!(few, theirs[..few.len()]);
    assert!(theirs.len() <= PRINTOUT);
}

#[test]
fn printouts() {
    for vector in vectors::vectors(2026, 60) {
        printed(&vector.script, &vector.printout);
    }
    for index in 0..100 {
        let text = script_to_run(seed(7, index));
        let mut theirs = Vec::new();
        program::run(Engine::default(), &text, &mut theirs).expect("a buffer");
        printed(&text, &theirs);
    }
}
