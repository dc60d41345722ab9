//! Document 02, R-6, through the proved engine's library: the words of the rights,
//! question 20 in its place, what a tick, a step, a report and a proposal make of an
//! action that lacks its right, and what passes over rights.

use compare::timo::{
    all_rights, read_into, words_of, Record, Row, Settings, State, Table, RIGHTS, RIGHTS_ROW,
};

/// A is 0, P is 1, B is 2; c is 0, d is 1.
const TEXT: &str = "A[go(0,P,stop) | go(2,B,stop) | go(0,A,stop)] | \
    B[out(c,0,A,stop,go(1,B,stop)) | in(c,0,x,stop,go(2,B,stop)) | in(d,0,x,stop,stop)] .";
const A: usize = 0;
const P: usize = 1;
const B: usize = 2;
const C: usize = 0;

const MOVE: u32 = 2;
const MEET: u32 = 3;

fn read(text: &str, settings: Settings) -> Table {
    let read = Table::read(text.as_bytes(), settings);
    read.unwrap_or_else(|number| panic!("refused {number}: {text}"))
}

/// All rights but those that the change takes away.
fn but(change: impl FnOnce(&mut [Row; 64])) -> Settings {
    let mut settings = Settings::EDITION_1;
    change(&mut settings.rights);
    settings
}

/// No right at all.
fn none() -> Settings {
    but(|rights| *rights = [row(false); 64])
}

fn row(right: bool) -> Row {
    Row {
        send: [right; 64],
        receive: [right; 64],
        leave: [right; 64],
    }
}

fn written(table: &Table) -> String {
    let mut lent = [0; 512];
    let length = table.write(&mut lent).expect("writing");
    String::from_utf8_lossy(&lent[..length]).into_owned()
}

fn code<T>(answer: Result<T, u32>) -> u32 {
    answer.err().unwrap_or(0)
}

// --- reading -------------------------------------------------------------------

#[test]
fn the_library_gives_all_rights() {
    for edition in [0, 1, 2, u32::MAX] {
        assert_eq!(all_rights(edition), Settings::all(edition));
    }
}

/// Each right by itself has its word; what stands between the edition and the
/// rights is as it was.
#[test]
fn the_word_of_each_right() {
    let words_with = |settings: Settings| {
        let mut words = words_of(7);
        assert_eq!(read_into(TEXT.as_bytes(), settings, &mut words).code, 0);
        words
    };
    let without = words_with(none());
    assert!(without[RIGHTS..].iter().all(|word| *word == 0));
    for (location, number) in [(0, 0), (0, 63), (5, 9), (63, 0), (63, 63)] {
        for (field, kind) in [(0, "send"), (64, "receive"), (128, "leave")] {
            let mut settings = none();
            let row = &mut settings.rights[location];
            match kind {
                "send" => row.send[number] = true,
                "receive" => row.receive[number] = true,
                _ => row.leave[number] = true,
            }
            let mut expected = without.clone();
            expected[RIGHTS + RIGHTS_ROW * location + field + number] = 1;
            assert!(
                words_with(settings) == expected,
                "{kind} {location} {number}"
            );
        }
    }
}

/// A text that is refused leaves the rights that stood there.
#[test]
fn a_refusal_leaves_the_rights() {
    let long = " ".repeat(65_536);
    for (text, edition, number) in [
        (TEXT, 3, 21),
        (&long, 1, 1),
        ("", 1, 2),
        ("A[D] .", 2, 6),
        ("A[go(1,x,stop)].", 1, 7),
    ] {
        let mut words = words_of(0x0102_0304);
        let reading = read_into(text.as_bytes(), Settings::all(edition), &mut words);
        assert_eq!(reading.code, number);
        assert!(words.iter().all(|word| *word == 0x0102_0304));
        assert!(reading.state == State::ZERO);
    }
}

/// No question is about rights, and those of numbers that the text does not have
/// are not looked at.
#[test]
fn rights_past_the_names_are_not_looked_at() {
    let low = |l: usize| l < 3;
    let mut few = none();
    for (l, row) in few.rights.iter_mut().enumerate().filter(|(l, _)| low(*l)) {
        for number in 0..64 {
            row.send[number] = number < 2;
            row.receive[number] = number < 2;
            row.leave[number] = low(number) && number != l;
        }
    }
    let (mut one, mut other) = (read(TEXT, few), read(TEXT, Settings::EDITION_1));
    for location in 0..3 {
        let mut lent = [[[9; 3]; 8]; 2];
        let [ours, theirs] = &mut lent;
        assert_eq!(one.step(location, ours), other.step(location, theirs));
        assert_eq!(ours, theirs);
    }
    assert_eq!(one.forced(), other.forced());
    assert_eq!(one.state, other.state);
}

// --- question 20 ---------------------------------------------------------------

#[test]
fn a_move_needs_the_leave_right_of_the_location_it_leaves() {
    for (settings, number) in [
        (but(|r| r[A].leave[P] = false), 20),
        (but(|r| r[P].leave[A] = false), 0),
        (but(|r| r[A].leave[B] = false), 0),
        (but(|r| r[A].send = [false; 64]), 0),
    ] {
        assert_eq!(code(read(TEXT, settings).action(MOVE, 0, 99)), number);
    }
    let mut home = read(TEXT, none());
    assert_eq!(code(home.action(MOVE, 2, 0)), 0, "to its own location");
    assert_eq!(code(home.action(MOVE, 1, 0)), 20, "any timer");
}

#[test]
fn a_communication_needs_both_rights_of_its_location() {
    for (settings, number) in [
        (but(|r| r[B].send[C] = false), 20),
        (but(|r| r[B].receive[C] = false), 20),
        (but(|r| r[A].send[C] = false), 0),
        (but(|r| r[A].receive[C] = false), 0),
        (but(|r| r[B].send[1] = false), 0),
        (but(|r| r[B].leave = [false; 64]), 0),
    ] {
        assert_eq!(code(read(TEXT, settings).action(MEET, 3, 4)), number);
    }
}

#[test]
fn a_call_needs_none() {
    let mut table = read("D = go(0,B,stop) . A[D] .", none());
    let a = 1;
    assert_eq!(table.tick(a), Err(12));
    assert_eq!(table.step(a, &mut [[0; 3]; 1]), Ok(1));
    assert_eq!(code(table.action(MOVE, 0, 0)), 20);
}

/// 8, 9, 10 and 11 are asked before 20, and 20 before 16.
#[test]
fn twenty_comes_after_11_and_before_16() {
    let mut table = read(TEXT, none());
    assert_eq!(code(table.action(MOVE, 6, 0)), 8);
    assert_eq!(code(table.action(MOVE, 3, 0)), 10);
    assert_eq!(code(table.action(MEET, 3, 5)), 11);
    assert_eq!(code(table.action(MEET, 0, 1)), 10);
    let propose = |table: &Table, location, p| {
        let record = Record {
            kind: MOVE,
            p,
            q: 0,
        };
        code(table.clone().propose(location, &[record]))
    };
    assert_eq!(propose(&table, B as u32, 0), 20);
    assert_eq!(propose(&table, B as u32, 2), 16);
    assert_eq!(propose(&table, A as u32, 2), 0);
    assert_eq!(code(table.action(MOVE, 2, 0)), 0);
    assert_eq!(code(table.action(MOVE, 2, 0)), 9);
}

// --- ticks, steps, the report --------------------------------------------------

#[test]
fn a_tick_does_not_wait_for_what_lacks_its_right() {
    let mut table = read("A[go(0,P,stop) | go(inf,P,stop)] .", none());
    assert_eq!(table.forced().map(|report| report.set), Ok(0));
    for _ in 0..3 {
        assert_eq!(table.tick(0), Ok(()));
        let kept = "A[go(0,P,stop)] | A[go(inf,P,stop)] .\n";
        assert_eq!(written(&table), kept, "timer 0 stays 0");
    }
}

#[test]
fn a_pair_at_0_without_its_right_takes_both_q_in_one_tick() {
    let text = "B[out(c,0,A,stop,go(1,B,stop)) | in(c,0,x,stop,go(2,B,stop))] .";
    for edition in [1, 2] {
        for lacking in ["send", "receive"] {
            let mut settings = Settings::all(edition);
            match lacking {
                "send" => settings.rights[0].send[0] = false,
                _ => settings.rights[0].receive[0] = false,
            }
            let mut table = read(text, settings);
            assert_eq!(table.forced().map(|report| report.count), Ok(0));
            assert_eq!(table.tick(0), Ok(()));
            assert_eq!(written(&table), "B[go(1,B,stop)] | B[go(2,B,stop)] .\n");
        }
    }
}

/// A step has no record for what lacks its right, and serves what has it.
#[test]
fn a_step_passes_over_what_lacks_its_right() {
    let mut table = read(TEXT, but(|r| r[A].leave[P] = false));
    let mut lent = [[9; 3]; 2];
    assert_eq!(table.step(A as u32, &mut lent), Ok(1));
    assert_eq!(lent, [[2, 2, 0], [9; 3]]);
    let mut table = read(TEXT, but(|r| r[B].receive[C] = false));
    assert_eq!(
        table.step(B as u32, &mut []),
        Ok(0),
        "no records are needed"
    );
    let text = "B[out(c,1,A,stop,stop) | out(d,1,A,stop,stop) | \
        in(c,1,x,stop,stop) | in(d,1,x,stop,stop)] .";
    let mut table = read(text, but(|r| r[0].send[0] = false));
    let mut lent = [[9; 3]; 2];
    assert_eq!(table.step(0, &mut lent), Ok(1));
    assert_eq!(lent, [[3, 1, 3], [9; 3]]);
}

// --- what passes over rights ---------------------------------------------------

#[test]
fn same_and_writing_pass_over_rights() {
    let (all, none) = (read(TEXT, Settings::EDITION_1), read(TEXT, none()));
    assert_eq!(all.same(&none), Ok(true));
    assert_eq!(none.same(&all), Ok(true));
    assert_eq!(written(&all), written(&none));
    let again = read(&written(&none), Settings::EDITION_1);
    assert_eq!(again.same(&none), Ok(true));
}

/// A word of a table that is not 1 gives no right, and question 17 asks nothing of
/// it.
#[test]
fn any_other_word_than_1_gives_no_right() {
    let mut table = read(TEXT, Settings::EDITION_1);
    for word in [0, 2, 257, 0x0100_0001, u32::MAX] {
        table.words[RIGHTS + RIGHTS_ROW * A + 128 + P] = word;
        assert!(table.is_valid());
        assert_eq!(code(table.clone().action(MOVE, 0, 0)), 20, "{word}");
    }
}
