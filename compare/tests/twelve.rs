//! Document 01's twelve examples through the proved engine's library, under
//! edition 1 and under edition 2. Examples 4, 7, 8 and 10 have a communication
//! timer of 1 at a tick and are different there. Locations are numbered by first
//! place, so A is 0 wherever it comes first.

use compare::timo::{Settings, Table};

const MOVE: u32 = 2;
const MEET: u32 = 3;

fn read(text: &str, settings: Settings) -> Table {
    let read = Table::read(text.as_bytes(), settings);
    read.unwrap_or_else(|number| panic!("refused {number}: {text}"))
}

/// A text under each edition.
fn both(text: &str) -> [Table; 2] {
    Settings::BOTH.map(|settings| read(text, settings))
}

fn written(table: &Table) -> String {
    let mut lent = vec![0; 65_536];
    let length = table.write(&mut lent).expect("writing");
    String::from_utf8(lent[..length].to_vec()).expect("ASCII")
}

/// One tick at the first location, from one text to another under each edition.
fn ticks(from: &str, to: [&str; 2]) {
    for (mut table, to) in both(from).into_iter().zip(to) {
        assert_eq!(table.tick(0), Ok(()), "{from}");
        assert_eq!(written(&table), format!("{to}\n"));
    }
}

#[test]
fn a_pair_at_timer_0_stops_the_tick_and_can_meet() {
    for mut table in both("A[out(c,0,B,stop,stop) | in(c,0,x,go(3,x,stop),stop)] .") {
        assert_eq!(table.tick(0), Err(12));
        table.action(MEET, 0, 1).expect("the pair meets");
        assert_eq!(table.tick(0), Ok(()));
        assert_eq!(written(&table), "A[stop] | A[go(3,B,stop)] .\n");
    }
}

#[test]
fn timers() {
    ticks(
        "A[out(c,0,B,stop,go(1,B,stop))] .",
        ["A[go(1,B,stop)] ."; 2],
    );
    ticks(
        "A[out(c,1,B,stop,stop)] .",
        ["A[out(c,0,B,stop,stop)] .", "A[stop] ."],
    );
    ticks("A[go(1,B,stop)] .", ["A[go(0,B,stop)] ."; 2]);
    for mut table in both("A[go(0,B,stop)] .") {
        assert_eq!(table.tick(0), Err(12));
    }
    ticks("A[go(inf,B,stop)] .", ["A[go(inf,B,stop)] ."; 2]);
}

const CLOCKS: &str = "A[go(0,B,out(c,1,B,stop,stop))] | B[in(c,1,x,stop,stop)] .";
/// The network M under each edition.
const M: [&str; 2] = [
    "B[out(c,1,B,stop,stop)] | B[in(c,0,x,stop,stop)] .\n",
    "B[out(c,1,B,stop,stop)] | B[stop] .\n",
];

#[test]
fn a_mark_across_two_clocks() {
    for (mut table, m) in both(CLOCKS).into_iter().zip(M) {
        table.action(MOVE, 0, 0).expect("the move");
        assert_eq!(table.tick(1), Ok(()));
        assert_eq!(table.state.c.at[0].mark, 0, "marked by A");
        assert_eq!(table.action(MEET, 0, 1).err(), Some(9));
        assert_eq!(table.tick(0), Ok(()));
        assert_eq!(written(&table), m);
        let met = table.action(MEET, 0, 1).err();
        let gone = (m == M[1]).then_some(10);
        assert_eq!(met, gone, "the pair meets where the input is still there");
    }
}

#[test]
fn the_order_of_the_steps_matters() {
    let mut lent = [[0; 3]; 256];
    for (mut table, m) in both(CLOCKS).into_iter().zip(M) {
        assert_eq!(table.step(1, &mut lent), Ok(0));
        assert_eq!(table.step(0, &mut lent), Ok(1));
        assert_eq!(written(&table), m);
    }
    for mut table in both(CLOCKS) {
        assert_eq!(table.step(0, &mut lent), Ok(1));
        assert_eq!(table.step(1, &mut lent), Ok(1));
        assert_eq!(written(&table), "B[stop] | B[stop] .\n");
    }
}

#[test]
fn a_value_goes_into_the_inner_q_and_not_into_the_inner_p() {
    let text = "A[out(c,0,B,stop,stop) | in(c,5,x,in(c,5,x,go(0,x,stop),go(0,x,stop)),stop)] .";
    for mut table in both(text) {
        table.action(MEET, 0, 1).expect("the pair meets");
        assert_eq!(table.tick(0), Ok(()));
        assert_eq!(
            written(&table),
            "A[stop] | A[in(c,5,x,go(0,x,stop),go(0,B,stop))] .\n"
        );
    }
}

#[test]
fn the_step_takes_the_lowest_output() {
    let text = "A[out(c,1,B,stop,stop) | out(c,1,A,stop,stop) | in(c,1,x,go(0,x,stop),stop)] .";
    let after = [
        "A[stop] | A[out(c,0,A,stop,stop)] | A[go(0,B,stop)] .\n",
        "A[stop] | A[stop] | A[go(0,B,stop)] .\n",
    ];
    for (mut table, after) in both(text).into_iter().zip(after) {
        let mut lent = [[7; 3]; 256];
        assert_eq!(table.step(0, &mut lent), Ok(1));
        assert_eq!(lent[..2], [[MEET, 0, 2], [7; 3]]);
        assert_eq!(written(&table), after);
    }
}

/// 255 components and a call whose body has two parts: the tick would make 257.
#[test]
fn the_257th_component_is_refused() {
    let stops = "A[stop] | ".repeat(255);
    for mut table in both(&format!("D = stop | stop . {stops}A[D] .")) {
        table.action(1, 255, 0).expect("the call");
        let before = table.state;
        assert_eq!(table.tick(0), Err(13));
        assert!(table.state == before, "a refusal changes nothing");
    }
}

#[test]
fn the_empty_text_has_not_the_form() {
    for settings in Settings::BOTH {
        assert_eq!(Table::read(b"", settings).err(), Some(2));
    }
}
