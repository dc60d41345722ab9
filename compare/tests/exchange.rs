//! Document 02, R-7, through both engines by hand: document 01's example 8 both ways
//! round, and steps that may be exchanged, as proposals and as the engine's own steps.

use compare::both::Both;
use compare::exchange::Tally;
use compare::reading::{self, with_rights, Pair};
use compare::timo::{Record, Settings, Table};
use timo_reference::calls;
use timo_reference::exchange::{Form, Succession};
use timo_reference::lists::Call;
use timo_reference::rights;
use timo_reference::steps::WholeStep;
use timo_reference::term::Network;

const CALL: u32 = 1;
const MOVE: u32 = 2;
const MEET: u32 = 3;

/// A text by both engines.
fn read(text: &str, settings: Settings) -> Pair {
    let read = reading::read(text.as_bytes(), settings);
    let read = read.unwrap_or_else(|what| panic!("{what}: {text}"));
    read.unwrap_or_else(|number| panic!("refused {number}: {text}"))
}

fn written(table: &Table) -> String {
    let mut lent = vec![0; 65_536];
    let length = table.write(&mut lent).expect("writing");
    String::from_utf8(lent[..length].to_vec()).expect("ASCII")
}

/// A proposal by the proved engine with records `[kind, p, q]`.
fn propose(table: &mut Table, location: u32, records: &[[u32; 3]]) -> Result<(), u32> {
    let record = |[kind, p, q]: [u32; 3]| Record { kind, p, q };
    let records: Vec<Record> = records.iter().copied().map(record).collect();
    table.propose(location, &records)
}

/// Two whole steps by the rules.
fn performed(network: &Network, steps: [(u32, &[[u32; 3]]); 2]) -> Succession {
    let [first, second] = steps.map(|(location, records)| {
        let record = |[kind, p, q]: &[u32; 3]| calls::Record::new(*kind, *p, *q);
        let records = records.iter().map(record).collect();
        WholeStep { location, records }
    });
    Succession::perform(network, [&first, &second]).expect("two whole steps")
}

/// Two steps through both engines, and in the other order where that is claimed.
fn through_both(pair: &Pair, steps: &Succession) -> Tally {
    let mut tally = Tally::default();
    let mut both = Both::after(pair, &[]).expect("a start");
    both.drawn(steps, &mut tally)
        .unwrap_or_else(|what| panic!("{what}"));
    tally
}

// --- example 8 -----------------------------------------------------------------

const CLOCKS: &str = "A[go(0,B,out(c,1,B,stop,stop))] | B[in(c,1,x,stop,stop)] .";

/// Two steps that both engines accept, and what the proved engine answers to them in the
/// other order; the claim is not made of them, and one wrong form makes it.
fn not_exchanged(steps: [(u32, &[[u32; 3]]); 2], answers: [Result<(), u32>; 2], wrong: Form) {
    let [first, second] = steps;
    for settings in Settings::BOTH {
        let pair = read(CLOCKS, settings);
        let propose_each = |steps: [(u32, &[[u32; 3]]); 2]| {
            let mut table = pair.table.clone();
            steps.map(|(location, records)| propose(&mut table, location, records))
        };
        assert_eq!(propose_each(steps), [Ok(()), Ok(())]);
        assert_eq!(propose_each([second, first]), answers);
        let tally = through_both(&pair, &performed(&pair.network, steps));
        assert_eq!((tally.turned_away, tally.drawn.all), (1, 0));
        assert!(!tally.unnoticed.contains(&wrong));
        assert_eq!(tally.unnoticed.len(), Form::WRONG.len() - 1);
    }
}

/// In the other order the pair could meet at B, and stops its tick.
#[test]
fn a_move_of_the_second_step_to_the_first_location() {
    let steps: [(u32, &[[u32; 3]]); 2] = [(1, &[]), (0, &[[MOVE, 0, 0]])];
    not_exchanged(steps, [Ok(()), Err(12)], Form::SecondMayMove);
}

/// In the other order there is no output at B.
#[test]
fn a_move_of_the_first_step_to_the_second_location() {
    let steps: [(u32, &[[u32; 3]]); 2] = [(0, &[[MOVE, 0, 0]]), (1, &[[MEET, 0, 1]])];
    not_exchanged(steps, [Err(10), Ok(())], Form::FirstMayMove);
}

/// The engine's own steps of example 8 do not meet the condition, and their order shows.
#[test]
fn own_steps_that_may_not_be_exchanged() {
    for settings in Settings::BOTH {
        let pair = read(CLOCKS, settings);
        let [mut table, mut other] = [pair.table.clone(), pair.table.clone()];
        let mut lent = [[0; 3]; 256];
        for (table, at) in [(&mut table, [0, 1]), (&mut other, [1, 0])] {
            for location in at {
                assert!(table.step(location, &mut lent).is_ok());
            }
        }
        assert_eq!(table.same(&other), Ok(false));
        let mut tally = Tally::default();
        let mut both = Both::after(&pair, &[]).expect("a start");
        for at in [[0, 1], [1, 0]] {
            assert_eq!(both.own(at, &mut tally), Ok(()));
        }
        assert_eq!(tally.own.all, 0);
    }
}

// --- what may be exchanged -----------------------------------------------------

/// A is 0, C is 1, B is 2.
const SPREAD: &str = "D(x) = go(1,x,stop | stop) | stop .
    A[D(C) | go(2,C,stop | D(A))] |
    B[go(inf,C,D(B)) | in(c,1,y,stop,stop) | in(c,1,y,go(0,y,stop) | stop,stop)] |
    B[out(c,0,A,D(B),stop)] | C[go(0,A,stop)] .";

/// Calls, splits, a communication, and moves before their time to a third location.
#[test]
fn splits_and_moves_to_a_third_location() {
    let at_a = [[MOVE, 1, 0], [CALL, 0, 0]];
    for settings in Settings::BOTH {
        let pair = read(SPREAD, settings);
        let mut table = pair.table.clone();
        assert_eq!(propose(&mut table, 0, &at_a), Ok(()));
        assert_eq!(
            propose(&mut table, 2, &[[MEET, 7, 6], [MOVE, 4, 0]]),
            Ok(())
        );
        let mut other = pair.table.clone();
        assert_eq!(
            propose(&mut other, 2, &[[MEET, 5, 4], [MOVE, 2, 0]]),
            Ok(())
        );
        assert_eq!(propose(&mut other, 0, &at_a), Ok(()));
        assert_eq!(table.same(&other), Ok(true));
        assert_eq!(written(&table), written(&other));
        let steps = performed(
            &pair.network,
            [(0, &at_a), (2, &[[MEET, 7, 6], [MOVE, 4, 0]])],
        );
        let tally = through_both(&pair, &steps);
        assert_eq!(tally.drawn.all, 1);
        assert_eq!((tally.turned_away, tally.other_waits), (0, 0));
    }
}

#[test]
fn own_steps_in_either_order() {
    for settings in Settings::BOTH {
        let pair = read(SPREAD, settings);
        let mut lent = [[0; 3]; 256];
        let mut line = [0; 256];
        let mut lines = |table: &mut Table, at: [u32; 2]| {
            at.map(|location| {
                let length = table.step_line(location, &mut line).expect("a line");
                assert!(table.step(location, &mut lent).is_ok());
                String::from_utf8_lossy(&line[..length]).into_owned()
            })
        };
        let [mut table, mut other] = [pair.table.clone(), pair.table.clone()];
        let [a, b] = lines(&mut table, [0, 2]);
        assert_eq!([a.as_str(), b.as_str()], ["A D@A\n", "B c<A>@B\n"]);
        assert_eq!(lines(&mut other, [2, 0]), [b, a]);
        assert_eq!(table.same(&other), Ok(true));
        assert_eq!(written(&table), written(&other));
        let mut tally = Tally::default();
        let mut both = Both::after(&pair, &[]).expect("a start");
        for at in [[0, 2], [2, 0]] {
            assert_eq!(both.own(at, &mut tally), Ok(()));
        }
        assert_eq!(tally.own.all, 2);
    }
}

/// What the Rust interface says of two locations.
#[test]
fn what_may_be_exchanged() {
    for settings in Settings::BOTH {
        let clocks = read(CLOCKS, settings).table;
        assert_eq!(clocks.may_exchange(0, 1), Ok(false), "A moves to B");
        assert_eq!(clocks.may_exchange(1, 0), Ok(false));
        assert_eq!(clocks.may_exchange(0, 2), Err(8), "no such location");
        let mut table = read(SPREAD, settings).table;
        assert_eq!(table.may_exchange(0, 2), Ok(true));
        assert_eq!(table.may_exchange(2, 0), Ok(true));
        assert_eq!(table.may_exchange(0, 1), Ok(false), "C moves to A");
        assert_eq!(table.may_exchange(0, 0), Ok(false), "one location");
        assert!(table.action(CALL, 0, 0).is_ok());
        assert_eq!(table.may_exchange(0, 2), Ok(false), "a mark");
        table.state.n = 0;
        assert_eq!(table.may_exchange(0, 2), Err(17), "no network");
    }
}

/// A `go` that lacks its right stands, and the steps may be exchanged; so they may where
/// one moves to its own location.
#[test]
fn a_go_without_its_right_and_a_move_to_ones_own_location() {
    let text = "A[go(0,B,stop) | go(0,A,stop | stop)] | B[go(0,A,stop) | go(1,B,stop)] .";
    let withheld = "all\nwithhold leave A B\nwithhold leave B A\n";
    for edition in [1, 2] {
        let given = rights::settings(text.as_bytes(), edition, Some(withheld));
        let given = given.expect("rights of the text's names");
        let pair = read(text, with_rights(edition, &given.rights));
        let steps = performed(&pair.network, [(0, &[[MOVE, 1, 0]]), (1, &[[MOVE, 4, 0]])]);
        let tally = through_both(&pair, &steps);
        assert_eq!(tally.drawn.all, 1);
        for form in [Form::StandingGoCounts, Form::OwnLocationCounts] {
            assert!(!tally.unnoticed.contains(&form), "{form:?}");
        }
    }
}

/// Two equal outputs with different waits: the first or the last one taken gives the same
/// network, and one of them other waits and another total.
#[test]
fn equal_components_with_different_waits() {
    let out = "out(c,inf,A,stop,stop)";
    let text = format!("A[{out} | {out} | in(c,inf,x,stop,stop)] | B[stop] .");
    for settings in Settings::BOTH {
        let pair = read(&text, settings);
        let waits = [(0, 5), (1, 7)].map(|(p, wait)| Call::Wait { p, wait });
        let mut both = Both::after(&pair, &waits).expect("a start");
        let steps = performed(both.start(), [(0, &[[MEET, 0, 2]]), (1, &[])]);
        let mut tally = Tally::default();
        assert_eq!(both.drawn(&steps, &mut tally), Ok(()));
        assert_eq!((tally.drawn.all, tally.other_waits), (1, 1));
    }
}

/// What the table does not hold in one order, it does not hold in the other; each step
/// by itself has space.
#[test]
fn a_full_table_in_both_orders() {
    let stops = "A[stop] | ".repeat(253);
    let pair = read(
        &format!("D = stop | stop . {stops}A[D] | B[D] ."),
        Settings::EDITION_1,
    );
    let fits = performed(
        &pair.network,
        [(0, &[[CALL, 253, 0]]), (1, &[[CALL, 255, 0]])],
    );
    let tally = through_both(&pair, &fits);
    assert_eq!((tally.full, tally.drawn.all), ([1, 0], 0));
}
