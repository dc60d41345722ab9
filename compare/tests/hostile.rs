//! Texts that strain a reader, and texts with two faults, through both engines
//! and under both editions, on the stack of the main thread and on a thread of 2
//! MiB. Each gives its number or is read, and what is read can be stepped,
//! compared and written; without an edition each gives 21.
//! This test has a main of its own, so that it has the main thread.

use std::thread;

use compare::reading::{self, Pair};
use compare::timo::Settings;
use timo_reference::generate::{faults, hostile};

const SMALL_STACK: usize = 2 << 20;

fn main() {
    let on_main = all_texts();
    let small = thread::Builder::new().stack_size(SMALL_STACK);
    let on_small = small.spawn(all_texts).expect("a thread");
    let on_small = on_small.join().expect("no text ends the thread");
    assert_eq!(on_main, on_small);
    println!("{on_main} hostile texts on the main stack and on 2 MiB");
}

/// How many texts there are.
fn all_texts() -> usize {
    let hostile = hostile::all();
    for text in &hostile {
        answered(&text.name, &text.text, text.number);
    }
    hostile.len() + all_pairs()
}

fn all_pairs() -> usize {
    let all = faults::all();
    let pairs = all
        .iter()
        .flat_map(|one| all.iter().map(move |other| (one, other)));
    let mut count = 0;
    for (one, other) in pairs.filter(|(one, other)| one.number != other.number) {
        let lower = one.number.min(other.number);
        let name = format!("{} and {}", one.name, other.name);
        answered(&name, &faults::text(&[one, other]), lower);
        count += 1;
    }
    count
}

fn answered(name: &str, text: &[u8], number: u8) {
    for settings in Settings::BOTH {
        answered_under(settings, name, text, number);
    }
    answered_under(Settings::all(3), name, text, 21);
}

fn answered_under(settings: Settings, name: &str, text: &[u8], number: u8) {
    let read = reading::read(text, settings).unwrap_or_else(|what| panic!("{name}: {what}"));
    let found = read.as_ref().err().copied().unwrap_or(0);
    let edition = settings.edition;
    assert_eq!(found, u32::from(number), "{name}, edition {edition}");
    if let Ok(pair) = read {
        used(name, pair);
    }
}

/// A step at the first location, the comparison with the network before it and
/// the writing.
fn used(name: &str, pair: Pair) {
    let mut table = pair.table.clone();
    let stepped = table.step(0, &mut [[0; 3]; 256]);
    assert!(matches!(stepped, Ok(_) | Err(13)), "{name}: {stepped:?}");
    assert_eq!(pair.table.same(&pair.table), Ok(true), "{name}");
    assert!(table.same(&pair.table).is_ok(), "{name}");
    let mut bytes = vec![0; 1 << 20];
    assert!(table.write(&mut bytes).is_ok(), "{name}");
}
