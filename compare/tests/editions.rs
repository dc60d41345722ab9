//! Document 02, R-8, through the proved engine's library and the reference
//! engine: question 21, the word of the edition, timers under each edition, the
//! example lists.

use std::fs;
use std::path::Path;

use compare::differ::differ;
use compare::reading::{self, ours};
use compare::timo::{read_into, words_of, Settings, State, Table, EDITION, RIGHTS};
use timo_reference::calls::Engine;
use timo_reference::lists;
use timo_reference::rights::settings;
use timo_reference::table::{PARTS, ROW};
use timo_reference::term::Rights;

const TEXT: &[u8] = b"D(x)=go(1,x,stop).A[in(c,1,y,D(y),stop)|D(B)].";

fn read(text: &str, edition: u32) -> Table {
    let read = Table::read(text.as_bytes(), Settings::all(edition));
    read.unwrap_or_else(|number| panic!("refused {number}: {text}"))
}

fn written(table: &Table) -> String {
    let mut lent = [0; 256];
    let length = table.write(&mut lent).expect("writing");
    String::from_utf8_lossy(&lent[..length]).into_owned()
}

// --- reading -------------------------------------------------------------------

/// Each number with which editions could be mistaken, and each bit by itself.
fn no_editions() -> Vec<u32> {
    let bits = (2..32).map(|bit| 1 << bit);
    let more = bits.flat_map(|bit| [bit, bit + 1, bit + 2]);
    [0, 3].into_iter().chain(more).chain([u32::MAX]).collect()
}

#[test]
fn every_other_edition_is_refused_21_before_all() {
    let long = vec![b' '; 65_536];
    let long_and_good = [TEXT, &long].concat();
    for text in [TEXT, b"", b"A[", b"A[go(1,x,stop)].", &long, &long_and_good] {
        for edition in no_editions() {
            let read = reading::read(text, Settings::all(edition)).map(|read| read.err());
            assert_eq!(read, Ok(Some(21)), "edition {edition}");
        }
    }
    for (text, number) in [(&b""[..], 2), (&long, 1), (&long_and_good, 1)] {
        let both = reading::read_under_both(text, &Rights::all()).map(|both| both.err());
        assert_eq!(both, Ok(Some(number)));
    }
}

/// Words of several contents: the edition is a number in its own word, and what
/// stands behind the last row and between the edition and the rights is as it was.
#[test]
fn the_word_of_the_edition() {
    for before in [0, 1, 2, 3, 0xdead_beef, u32::MAX] {
        for settings in Settings::BOTH {
            let mut words = words_of(before);
            assert_eq!(read_into(TEXT, settings, &mut words).code, 0);
            assert_eq!(words[EDITION], settings.edition);
            let rows = PARTS + ROW * words[0] as usize;
            let kept = (rows..EDITION).chain(EDITION + 1..RIGHTS);
            assert!(kept.into_iter().all(|at| words[at] == before));
        }
    }
}

/// A refusal by 21 or by another question leaves the words, the edition too, and
/// returns a state of zeros.
#[test]
fn a_refusal_leaves_the_edition_that_was_there() {
    let long = vec![b' '; 65_536];
    let cases: [(&[u8], u32, u32); 5] = [
        (TEXT, 0, 21),
        (TEXT, 3, 21),
        (&long, 2, 1),
        (b"", 2, 2),
        (b"A[go(1,x,stop)].", 2, 7),
    ];
    for (text, edition, number) in cases {
        let mut words = words_of(0x0102_0304);
        assert_eq!(read_into(TEXT, Settings::EDITION_1, &mut words).code, 0);
        let before = words.clone();
        let reading = read_into(text, Settings::all(edition), &mut words);
        assert_eq!(reading.code, number);
        assert!(*words == *before);
        assert!(reading.state == State::ZERO);
    }
}

/// A script that is read into again under another edition.
#[test]
fn words_read_into_again() {
    let mut words = words_of(7);
    for edition in [1, 2, 1, 2] {
        let settings = Settings::all(edition);
        let state = read_into(TEXT, settings, &mut words).state;
        let table = Table {
            words: words.clone(),
            state,
        };
        assert_eq!(table.same(&read_again(settings)), Ok(true));
        assert_eq!(table.under_other_edition().same(&table), Ok(false));
    }
}

fn read_again(settings: Settings) -> Table {
    Table::read(TEXT, settings).expect("a good text")
}

// --- the tick ------------------------------------------------------------------

#[test]
fn timers_of_0_1_2_and_inf() {
    let out = |timer: &str| format!("A[out(c,{timer},B,stop,go(3,B,stop))] .\n");
    let input = |timer: &str| format!("A[in(c,{timer},x,stop,go(3,B,stop))] .\n");
    let go = |timer: &str| format!("A[go({timer},B,stop)] .\n");
    let q = go("3");
    let cases = [
        (out("0"), q.clone(), q.clone()),
        (out("1"), out("0"), q.clone()),
        (out("2"), out("1"), out("1")),
        (out("inf"), out("inf"), out("inf")),
        (input("0"), q.clone(), q.clone()),
        (input("1"), input("0"), q.clone()),
        (input("2"), input("1"), input("1")),
        (input("1000000"), input("999999"), input("999999")),
        (input("inf"), input("inf"), input("inf")),
        (go("1"), go("0"), go("0")),
        (go("2"), go("1"), go("1")),
        (go("inf"), go("inf"), go("inf")),
    ];
    for (text, under_1, under_2) in cases {
        for (edition, after) in [(1, under_1), (2, under_2)] {
            let mut table = read(&text, edition);
            assert_eq!(table.tick(0), Ok(()), "{text}");
            assert_eq!(written(&table), after, "edition {edition}: {text}");
        }
    }
}

#[test]
fn a_fresh_q_is_not_lowered() {
    let text = "A[in(c,1,x,stop,out(d,1,B,stop,stop) | go(1,B,stop))] .";
    let mut table = read(text, 2);
    assert_eq!(table.tick(0), Ok(()));
    let fresh = "A[out(d,1,B,stop,stop)] | A[go(1,B,stop)] .\n";
    assert_eq!(written(&table), fresh);
    assert_eq!(table.tick(0), Ok(()));
    assert_eq!(written(&table), "A[stop] | A[go(0,B,stop)] .\n");
    assert_eq!(table.tick(0), Err(12), "the move is forced at 0");
}

#[test]
fn a_pair_that_could_meet_stops_the_tick() {
    for (sent, heard) in [("0", "0"), ("0", "1"), ("1", "0"), ("1", "1"), ("1", "inf")] {
        let text = format!("A[out(c,{sent},B,stop,stop) | in(c,{heard},x,go(3,x,stop),stop)] .");
        for edition in [1, 2] {
            let mut table = read(&text, edition);
            assert_eq!(table.tick(0), Err(12), "{text}");
            assert_eq!(table.forced().map(|report| report.set), Ok(1), "{text}");
            assert_eq!(table.step(0, &mut [[0; 3]; 1]), Ok(1), "{text}");
            assert_eq!(written(&table), "A[stop] | A[go(3,B,stop)] .\n");
        }
    }
}

// --- comparing and writing -----------------------------------------------------

#[test]
fn a_written_text_is_read_back_under_its_own_edition() {
    let text = "A[in(c,1,x,stop,stop)] | B[go(1,A,stop)] .\n";
    for edition in [1, 2] {
        let table = read(text, edition);
        assert_eq!(written(&table), text);
        assert_eq!(read(&written(&table), edition).same(&table), Ok(true));
        assert_eq!(read(&written(&table), 3 - edition).same(&table), Ok(false));
    }
}

// --- the example lists ---------------------------------------------------------

/// Each list of the examples through both engines under both editions, with all
/// rights and with those that stand beside it. What the reference engine answers is
/// held against the stored answers by its own tests.
#[test]
fn example_lists() {
    let examples = Path::new(env!("CARGO_MANIFEST_DIR")).join("../examples");
    let entries = fs::read_dir(examples).expect("the examples");
    let paths = entries.map(|entry| entry.expect("an entry").path());
    let mut count = 0;
    for list in paths.filter(|path| path.extension().is_some_and(|found| found == "calls")) {
        let script = fs::read(list.with_extension("timo")).expect("its script");
        let calls = lists::parse(&fs::read_to_string(&list).expect("a list")).expect("calls");
        let beside = fs::read_to_string(list.with_extension("rights")).ok();
        let own = [1, 2].map(|edition| settings(&script, edition, beside.as_deref()));
        let own = own.map(|given| ours(&given.expect("rights by name")));
        for settings in Settings::BOTH.into_iter().chain(own) {
            let result = differ(Engine::default(), settings, &script, &calls);
            assert!(result.is_ok(), "{}: {result:?}", list.display());
        }
        count += 1;
    }
    assert!(count >= 4, "{count} lists");
}
