//! Tables made by hand that stand for no network: question 17 at every call.

use compare::alike::refused_by_all;
use compare::table;
use compare::timo::{Settings, Table, EDITION, MESSAGES, UNMARKED, WAIT, WORDS};
use timo_reference::table::{CHANNELS, DEFINITIONS, LOCATIONS, PARTS, ROW};

const SCRIPT: &[u8] = b"D(x,y)=go(1,x,stop|D(y,A)).E=stop.
    A[D(B,A)|in(c,2,z,out(d,0,z,stop,stop),stop)]|B[stop].";
const KINDS: [&str; 5] = ["stop", "go", "out", "in", "call"];

fn read() -> Table {
    Table::read(SCRIPT, Settings::EDITION_1).expect("a good script")
}

/// The first row of a kind, from the highest place down.
fn row(table: &Table, kind: &str) -> usize {
    let number = KINDS.iter().position(|name| *name == kind);
    let number = number.expect("a kind") as u32;
    let rows = (0..table.words[0] as usize)
        .rev()
        .map(|place| PARTS + place * ROW);
    let mut of_kind = rows.filter(|at| table.words[*at] == number);
    of_kind.next().expect("the script has each kind")
}

fn refused(name: &str, change: impl FnOnce(&mut Table)) {
    let good = read();
    let mut bad = read();
    change(&mut bad);
    let network = table::network(&bad);
    assert!(network.is_err(), "reference: {name} is let through");
    assert!(!bad.is_valid(), "{name} is let through");
    assert_eq!(good.same(&bad), Err(17), "{name}");
    assert_eq!(bad.same(&good), Err(17), "{name}");
    assert_eq!(bad.same(&bad), Err(17), "{name}");
    refused_by_all(&bad).unwrap_or_else(|what| panic!("{name}: {what}"));
}

/// A word of the first row of a kind.
fn refused_word(kind: &str, field: usize, word: u32) {
    refused(&format!("{kind}, word {field} made {word}"), |table| {
        let at = row(table, kind);
        table.words[at + field] = word;
    });
}

#[test]
fn the_table_read_is_good() {
    let table = read();
    assert!(table.is_valid());
    assert!(table::network(&table).is_ok());
    assert_eq!(table.same(&read()), Ok(true));
}

#[test]
fn components() {
    refused("no component", |t| t.state.n = 0);
    refused("257 components", |t| t.state.n = 257);
    refused("a huge number of components", |t| t.state.n = usize::MAX);
    refused("a location out of range", |t| t.state.c.at[0].loc = 2);
    refused("an owner out of range", |t| t.state.c.at[2].mark = 2);
    refused("a mark past the one for none", |t| {
        t.state.c.at[2].mark = UNMARKED + 1
    });
    refused("a place out of range", |t| {
        t.state.c.at[1].place = t.words[0]
    });
    refused("a timer out of range", |t| {
        t.state.c.at[0].timer = 1_000_002
    });
    refused("a value out of range", |t| t.state.c.at[0].vals[0] = 2);
    refused("a component of all ones", |t| {
        t.state.c.at[1].place = u32::MAX
    });
}

#[test]
fn waits_and_messages() {
    for wait in [WAIT + 1, WAIT + 2, 1 << 31, u32::MAX] {
        refused(&format!("a wait of {wait}"), |t| {
            t.state.c.at[2].wait = wait
        });
    }
    for messages in [MESSAGES + 1, 1 << 31, u32::MAX] {
        refused(&format!("{messages} messages"), |t| {
            t.state.c.messages = messages
        });
    }
    for (messages, total) in [
        (0, 1),
        (0, 1 << 32),
        (1, 1_000_001),
        (4_294, 1 << 32),
        (4_295, 4_295_000_001),
        (MESSAGES, 1_000_000_000_001),
        (MESSAGES, 1 << 63),
        (MESSAGES + 1, 0),
    ] {
        refused(&format!("{messages} messages, total {total}"), |t| {
            t.state.c.put_messages(messages, total)
        });
    }
    for (messages, total) in [
        (1, 1_000_000),
        (4_295, 1 << 32),
        (4_295, 4_295_000_000),
        (MESSAGES, 1_000_000_000_000),
        (MESSAGES, 0),
    ] {
        let mut good = read();
        good.state.c.put_messages(messages, total);
        good.state.c.at[0].wait = WAIT;
        assert!(good.is_valid(), "{messages} messages, total {total}");
        assert_eq!(good.same(&read()), Ok(true));
    }
}

#[test]
fn counts() {
    for (count, most) in [4_096, 64, 64, 32].into_iter().enumerate() {
        refused(&format!("count {count} past its limit"), |t| {
            t.words[count] = most + 1
        });
        refused(&format!("count {count} of all ones"), |t| {
            t.words[count] = u32::MAX
        });
    }
    for count in [0, 1, 2] {
        let name = format!("count {count} less one");
        refused(&name, |t| t.words[count] -= 1);
    }
    refused("words of all ones", |t| t.words.fill(u32::MAX));
    refused("words of zeros", |t| *t.words = [0; WORDS]);
}

#[test]
fn editions() {
    for edition in [0, 3, 4, 256 + 1, 65_536 + 2, 0x8000_0001, u32::MAX - 1] {
        refused(&format!("edition {edition}"), |t| {
            t.words[EDITION] = edition
        });
    }
    refused("an edition of all ones", |t| t.words[EDITION] = u32::MAX);
    let (one, two) = (read(), read().under_other_edition());
    assert!(two.is_valid());
    assert_eq!(one.same(&two), Ok(false));
    let mut bad = read();
    bad.words[EDITION] = 0;
    assert_eq!(two.same(&bad), Err(17));
    assert_eq!(bad.same(&two), Err(17));
}

#[test]
fn parts() {
    let parts = read().words[0];
    for kind in ["stop", "go", "out", "in", "call"] {
        refused_word(kind, 0, 5);
        refused_word(kind, 6, parts + 1);
        refused_word(kind, 7, parts);
        refused_word(kind, 8, 9);
    }
    for kind in ["go", "out", "in"] {
        refused_word(kind, 2, 1_000_002);
        refused_word(kind, 4, parts);
        refused_word(kind, 4, u32::MAX);
    }
    for kind in ["out", "in"] {
        refused_word(kind, 1, 2);
        refused_word(kind, 5, parts);
    }
    refused_word("go", 3, 2);
    refused_word("go", 3, 64 + 2);
    refused_word("out", 3, 64 + 1);
    refused_word("in", 3, 1);
    refused_word("call", 1, 2);
    refused_word("call", 3, 1);
    refused_word("call", 3, 5);
    refused_word("call", 17, 64 + 2);
}

#[test]
fn places_that_are_shared_or_come_back() {
    refused("a part inside itself", |t| {
        let at = row(t, "go");
        t.words[at + 4] = ((at - PARTS) / ROW) as u32;
    });
    refused("a part behind itself", |t| {
        let at = row(t, "in");
        t.words[at + 6] = ((at - PARTS) / ROW) as u32 + 1;
    });
    refused("P and Q in one place", |t| {
        let at = row(t, "in");
        t.words[at + 5] = t.words[at + 4];
    });
}

#[test]
fn names() {
    let name = |list: usize, word: u32| move |t: &mut Table| t.words[list] = word;
    let spelt = |letters: &[u8; 4]| u32::from_le_bytes(*letters);
    refused(
        "a location with a small letter",
        name(LOCATIONS, spelt(b"a\0\0\0")),
    );
    refused("a location without a letter", name(LOCATIONS, 0));
    refused(
        "a location that is no name",
        name(LOCATIONS, spelt(b"S\0\0\0")),
    );
    refused("a location with a hole", name(LOCATIONS, spelt(b"A\0A\0")));
    refused("a location with a blank", name(LOCATIONS, spelt(b"A \0\0")));
    refused("a location above 127", name(LOCATIONS, spelt(b"A\xc3\0\0")));
    refused("a location twice", |t| {
        t.words[LOCATIONS + 4] = t.words[LOCATIONS]
    });
    refused(
        "a channel with a capital",
        name(CHANNELS, spelt(b"C\0\0\0")),
    );
    refused(
        "a channel with a digit first",
        name(CHANNELS, spelt(b"1\0\0\0")),
    );
    refused("a channel that is no name", name(CHANNELS, spelt(b"inf\0")));
    refused("a channel twice", |t| {
        t.words[CHANNELS + 4] = t.words[CHANNELS]
    });
    refused(
        "an identifier that is no name",
        name(DEFINITIONS + 2, spelt(b"stop")),
    );
    refused(
        "a parameter with a capital",
        name(DEFINITIONS + 6, spelt(b"X\0\0\0")),
    );
    refused("a bound name with a capital", |t| {
        let at = row(t, "in");
        t.words[at + 17] = spelt(b"Z\0\0\0");
    });
}

#[test]
fn definitions() {
    refused("an identifier twice", |t| {
        t.words[DEFINITIONS + ROW + 2] = t.words[DEFINITIONS + 2];
    });
    refused("a parameter twice", |t| {
        t.words[DEFINITIONS + 10] = t.words[DEFINITIONS + 6];
    });
    refused("five parameters", |t| t.words[DEFINITIONS] = 5);
    refused("one parameter less", |t| t.words[DEFINITIONS] = 1);
    refused("a body out of range", |t| {
        t.words[DEFINITIONS + 1] = t.words[0]
    });
    refused("another's body", |t| {
        t.words[DEFINITIONS + 1] = t.words[DEFINITIONS + ROW + 1];
    });
}
