//! Document 02, R-13, through the proved engine's library: what conforms and what does
//! not, the questions of both calls in their order, what a refusal and the test leave,
//! every channel and a full network; and every whole step of small networks.

use compare::alike::refused_by_all;
use compare::both::Both;
use compare::differ::differ;
use compare::profile::Tally;
use compare::reading::{self, with_rights, Pair};
use compare::timo::{Settings, Table, COMPONENTS, MESSAGES, UNMARKED, WAIT};
use timo_reference::calls::Engine;
use timo_reference::lists;
use timo_reference::outcomes::Outcomes;
use timo_reference::rights;
use timo_reference::rules::Variant;

const CALL: u32 = 1;
const MOVE: u32 = 2;
const MEET: u32 = 3;
const BLANK: [u32; 3] = [77; 3];

fn read(text: &str, settings: Settings) -> Table {
    let read = Table::read(text.as_bytes(), settings);
    read.unwrap_or_else(|number| panic!("refused {number}: {text}"))
}

/// An edition with rights by name.
fn with(edition: u32, rights: &str, text: &str) -> Settings {
    let given = rights::settings(text.as_bytes(), edition, Some(rights));
    with_rights(edition, &given.expect("rights of the text's names").rights)
}

fn written(table: &Table) -> String {
    let mut lent = vec![0; 65_536];
    let length = table.write(&mut lent).expect("writing");
    String::from_utf8(lent[..length].to_vec()).expect("ASCII")
}

/// The test of a location, which leaves every word as it was; beside a number stands no.
fn conforms(table: &Table, location: u32) -> Result<bool, u32> {
    let before = table.clone();
    let (code, yes) = table.tested(location);
    assert!(table.words == before.words && table.state == before.state);
    assert!(code == 0 || !yes, "yes beside {code}");
    assert_eq!(
        table.conforms(location),
        if code == 0 { Ok(yes) } else { Err(code) }
    );
    table.conforms(location)
}

/// Whether the first location of a text conforms, under both editions.
fn conforms_at_a(text: &str) -> bool {
    let [one, two] = Settings::BOTH.map(|settings| conforms(&read(text, settings), 0));
    assert_eq!(one, two, "{text}");
    one.expect("a location in range")
}

/// The number of a conforming step's refusal, which leaves every word lent as it was, or
/// 0; then it is the step.
fn refused(table: &Table, location: u32, room: usize) -> u32 {
    let mut after = table.clone();
    let mut records = vec![BLANK; room];
    match after.step_conforming(location, &mut records) {
        Err(number) => {
            assert!(after.words == table.words, "words kept by {number}");
            assert!(after.state == table.state, "state kept by {number}");
            assert!(records.iter().all(|record| *record == BLANK));
            number
        }
        Ok(count) => {
            let mut plain = table.clone();
            let mut again = vec![BLANK; room];
            assert_eq!(plain.step(location, &mut again), Ok(count));
            assert!(plain.state == after.state && plain.words == after.words);
            assert_eq!(records, again);
            assert!(records[count..].iter().all(|record| *record == BLANK));
            0
        }
    }
}

// --- what conforms -------------------------------------------------------------

#[test]
fn stop_and_calls_conform() {
    assert!(conforms_at_a("A[stop] ."));
    assert!(conforms_at_a("D=go(5,A,stop). A[D|D|stop|D] ."));
    assert!(conforms_at_a("A[stop] | B[go(5,A,stop)|go(inf,B,stop)] ."));
    let elsewhere = read("B[go(5,A,stop)] .", Settings::EDITION_1);
    assert_eq!(conforms(&elsewhere, 1), Ok(true), "nothing stands at A");
}

#[test]
fn a_go_conforms_at_0_only() {
    assert!(conforms_at_a("A[go(0,B,stop)] ."));
    assert!(conforms_at_a(
        "A[go(0,B,stop)|go(0,A,go(9,B,stop))|go(0,B,stop)] ."
    ));
    for timer in ["1", "2", "255", "256", "65536", "999999", "1000000", "inf"] {
        for target in ["A", "B"] {
            let late = format!("go({timer},{target},stop)");
            assert!(!conforms_at_a(&format!("A[{late}] .")), "{late}");
            assert!(!conforms_at_a(&format!("A[go(0,B,stop)|{late}] .")));
            assert!(!conforms_at_a(&format!("A[{late}|go(0,B,stop)] .")));
        }
    }
}

#[test]
fn a_late_go_conforms_when_its_timer_has_come_down() {
    for settings in Settings::BOTH {
        let mut table = read("A[go(2,B,stop)] .", settings);
        for _ in 0..2 {
            assert_eq!(conforms(&table, 0), Ok(false));
            assert_eq!(refused(&table, 0, 1), 26);
            assert_eq!(table.step(0, &mut []), Ok(0));
        }
        assert_eq!(conforms(&table, 0), Ok(true));
        assert_eq!(table.step_conforming(0, &mut [[0; 3]]), Ok(1));
        assert_eq!(written(&table), "B[stop] .\n");
    }
}

#[test]
fn at_most_one_sender_and_one_receiver_on_a_channel() {
    let out = |channel: &str, timer: &str| format!("out({channel},{timer},B,stop,stop)");
    let input = |channel: &str, timer: &str| format!("in({channel},{timer},x,stop,stop)");
    for timer in ["0", "1", "2", "inf"] {
        let [one, other] = ["c", "d"].map(|channel| out(channel, timer));
        let [hears, listens] = ["c", "d"].map(|channel| input(channel, timer));
        for (conform, parts) in [
            (true, vec![&one]),
            (true, vec![&hears]),
            (true, vec![&one, &hears]),
            (true, vec![&one, &other]),
            (true, vec![&hears, &listens]),
            (true, vec![&hears, &one, &other, &listens]),
            (false, vec![&one, &one]),
            (false, vec![&hears, &hears]),
            (false, vec![&one, &one, &hears]),
            (false, vec![&one, &hears, &hears]),
            (false, vec![&one, &other, &hears, &one]),
            (false, vec![&listens, &one, &other, &hears, &listens]),
        ] {
            let parts: Vec<&str> = parts.into_iter().map(String::as_str).collect();
            let text = format!("A[{}] .", parts.join("|"));
            assert_eq!(conforms_at_a(&text), conform, "{text}");
        }
    }
}

/// What stands elsewhere, inside another part or past the components in use.
#[test]
fn what_is_not_ready_there_does_not_count() {
    let (out, late) = ("out(c,1,A,stop,stop)", "go(5,B,stop)");
    assert!(conforms_at_a(&format!("A[{out}] | B[{out}|{late}] .")));
    assert!(conforms_at_a(&format!("A[{out}|go(0,B,{late}|{out})] .")));
    assert!(conforms_at_a(&format!("A[{out}|in(d,1,x,{late},{out})] .")));
    for last in [out, late] {
        let mut table = read(&format!("A[{out}|{last}] ."), Settings::EDITION_1);
        assert_eq!(conforms(&table, 0), Ok(false));
        table.state.n -= 1;
        assert_eq!(conforms(&table, 0), Ok(true), "{last} is not in use");
    }
}

/// Marked by its own location or by another, with one part or several. The test does not
/// ask that there is no mark.
#[test]
fn what_is_marked_does_not_count() {
    let text = "D = out(c,1,A,stop,stop)|go(5,B,stop) . \
        A[D|out(c,1,A,stop,stop)] | B[go(0,A,in(d,1,x,stop,stop))] | A[in(d,1,x,stop,stop)] .";
    for settings in Settings::BOTH {
        let mut table = read(text, settings);
        assert!(table.action(CALL, 0, 0).is_ok() && table.action(MOVE, 2, 0).is_ok());
        assert_eq!(conforms(&table, 0), Ok(true));
        assert_eq!(refused(&table, 0, 0), 0, "a step with marks from before");
        let mut by_a = table.clone();
        assert_eq!(by_a.tick(0), Ok(()));
        assert_eq!(conforms(&by_a, 0), Ok(false), "two senders and a late go");
        assert_eq!(table.tick(1), Ok(()));
        assert_eq!(conforms(&table, 0), Ok(false), "two receivers");
    }
    for last in [
        "out(c,1,B,stop,stop)",
        "in(d,2,x,stop,stop)",
        "go(1,A,stop)",
    ] {
        let text = format!("A[out(c,1,A,stop,stop)|in(d,1,x,stop,stop)|{last}] | B[stop] .");
        let mut table = read(&text, Settings::EDITION_1);
        for mark in [0, 1, UNMARKED] {
            table.state.c.at[2].mark = mark;
            assert_eq!(conforms(&table, 0), Ok(mark != UNMARKED), "{last}");
        }
    }
}

#[test]
fn rights_play_no_part() {
    for (conform, text) in [
        (false, "A[out(c,1,A,stop,stop)|out(c,1,B,stop,stop)] ."),
        (
            false,
            "A[in(c,1,x,stop,stop)|in(c,1,x,stop,stop)] | B[stop] .",
        ),
        (
            true,
            "A[out(c,0,A,stop,stop)|in(c,0,x,stop,stop)] | B[stop] .",
        ),
        (false, "A[go(1,B,stop)|out(c,1,A,stop,stop)] ."),
        (false, "A[go(inf,B,stop)|out(c,1,A,stop,stop)] ."),
        (true, "A[go(0,B,stop)|out(c,1,A,stop,stop)] ."),
    ] {
        for rights in [
            "all",
            "none",
            "all\nwithhold send A c",
            "all\nwithhold receive A c",
            "all\nwithhold leave A B",
            "none\ngive leave A B",
        ] {
            for edition in [1, 2] {
                let table = read(text, with(edition, rights, text));
                assert_eq!(conforms(&table, 0), Ok(conform), "{rights} {text}");
                assert_eq!(refused(&table, 0, 9), if conform { 0 } else { 26 });
            }
        }
    }
}

#[test]
fn waits_and_messages_play_no_part() {
    let mut table = read("A[out(c,1,A,stop,stop)|stop] .", Settings::EDITION_1);
    table.state.c.at[0].wait = WAIT;
    table.state.c.put_messages(MESSAGES, 7);
    assert_eq!(conforms(&table, 0), Ok(true));
}

// --- every channel, a full network ---------------------------------------------

/// A sender and a receiver on each of so many channels.
fn pairs(channels: usize) -> Vec<String> {
    let pair = |k| {
        [
            format!("out(c{k},1,A,stop,stop)"),
            format!("in(c{k},1,x,stop,stop)"),
        ]
    };
    (0..channels).flat_map(pair).collect()
}

fn at_a(parts: &[String]) -> String {
    format!("A[{}] .", parts.join("|"))
}

#[test]
fn all_channels_with_a_sender_and_a_receiver_each() {
    let parts = pairs(64);
    assert!(conforms_at_a(&at_a(&parts)));
    let table = read(&at_a(&parts), Settings::EDITION_1);
    assert_eq!(table.channels(), Ok(64));
    assert_eq!((refused(&table, 0, 63), refused(&table, 0, 64)), (15, 0));
    for k in 0..64 {
        for second in &pairs(64)[2 * k..2 * k + 2] {
            for at in [0, 2 * k + 1, 128] {
                let mut more = parts.clone();
                more.insert(at, second.clone());
                assert!(!conforms_at_a(&at_a(&more)), "{second} at {at}");
            }
        }
    }
}

/// One or two of all channels: numbers that agree in their low bits are not taken for one.
#[test]
fn two_channels_of_all() {
    let stops = at_a(&pairs(64)).replace("A[", "B[").replace(" .", "");
    for (j, k) in (0..64).flat_map(|j| (0..64).map(move |k| (j, k))) {
        let parts = format!("out(c{j},1,A,stop,stop)|out(c{k},2,A,stop,stop)");
        let table = read(&format!("{stops} | A[{parts}] ."), Settings::EDITION_1);
        assert_eq!(conforms(&table, 1), Ok(j != k), "{j} and {k}");
        assert_eq!(conforms(&table, 0), Ok(true));
    }
}

#[test]
fn a_network_of_256_components() {
    let mut parts = pairs(64);
    parts.resize(COMPONENTS, "stop".to_string());
    let full = read(&at_a(&parts), Settings::EDITION_1);
    assert_eq!((conforms(&full, 0), full.state.n), (Ok(true), COMPONENTS));
    assert_eq!(refused(&full, 0, 256), 0);
    for last in [
        "go(1,A,stop)",
        "out(c0,9,A,stop,stop)",
        "in(c63,9,x,stop,stop)",
    ] {
        for at in [0, 128, 255] {
            let mut other = parts.clone();
            other.remove(255);
            other.insert(at, last.to_string());
            let table = read(&at_a(&other), Settings::EDITION_1);
            assert_eq!(
                (conforms(&table, 0), table.state.n),
                (Ok(false), COMPONENTS)
            );
            assert_eq!(refused(&table, 0, 256), 26);
        }
    }
    let moves = read(
        &at_a(&vec!["go(0,B,stop)".to_string(); 256]),
        Settings::EDITION_1,
    );
    assert_eq!(conforms(&moves, 0), Ok(true));
    assert_eq!((refused(&moves, 0, 255), refused(&moves, 0, 256)), (15, 0));
}

// --- questions in order --------------------------------------------------------

#[test]
fn question_17_comes_first() {
    let text = "A[go(1,B,stop)|go(0,B,stop)] | B[stop] .";
    let good = read(text, Settings::EDITION_1);
    let bad: [fn(&mut Table); 4] = [
        |table| table.state.n = 0,
        |table| table.state.n = 257,
        |table| table.state.c.at[2].wait = WAIT + 1,
        |table| table.words[0] = u32::MAX,
    ];
    for spoil in bad {
        let mut table = good.clone();
        spoil(&mut table);
        assert_eq!(refused_by_all(&table), Ok(()));
        for location in [0, 1, 2, u32::MAX] {
            assert_eq!(conforms(&table, location), Err(17));
            for room in [0, 1, 256] {
                assert_eq!(refused(&table, location, room), 17);
            }
        }
    }
}

/// No is no refusal, and a location out of range is no no.
#[test]
fn the_test_asks_8() {
    let table = read("A[go(1,B,stop)] | B[stop] .", Settings::EDITION_1);
    assert_eq!(conforms(&table, 0), Ok(false));
    assert_eq!(conforms(&table, 1), Ok(true));
    for location in [2, 3, 63, 64, 65, 256, 1 << 31, u32::MAX] {
        assert_eq!(conforms(&table, location), Err(8));
        assert_eq!(table.tested(location), (8, false));
    }
}

#[test]
fn question_26_comes_after_8_and_before_15() {
    let text = "A[go(0,A,stop)|go(1,B,stop)] | B[go(0,A,stop)] .";
    let table = read(text, Settings::EDITION_1);
    for location in [2, 64, u32::MAX] {
        assert_eq!(refused(&table, location, 0), 8);
        assert_eq!(refused(&table, location, 256), 8);
    }
    assert_eq!([0, 1, 256].map(|room| refused(&table, 0, room)), [26; 3]);
    assert_eq!([0, 1].map(|room| refused(&table, 1, room)), [15, 0]);
}

/// A pair and two calls that split, with `stop` and one more up to so many components.
fn growing(components: usize, last: &str, messages: u32) -> Table {
    let stops = "|stop".repeat(components - 5);
    let pair = "out(c,1,A,stop,stop)|in(c,1,x,stop,stop)";
    let text = format!("D=stop|stop. A[{pair}|D|D{stops}|{last}] .");
    let mut table = read(&text, Settings::EDITION_1);
    table.state.c.put_messages(messages, 0);
    table
}

#[test]
fn then_come_15_18_and_13_as_for_the_step() {
    let late = "go(1,A,stop)";
    for (components, last, messages, room, number) in [
        (9, late, MESSAGES, 2, 26),
        (9, late, MESSAGES, 3, 26),
        (255, late, 0, 3, 26),
        (255, late, MESSAGES, 0, 26),
        (9, "stop", MESSAGES, 2, 15),
        (255, "stop", 0, 2, 15),
        (255, "stop", MESSAGES, 2, 15),
        (9, "stop", MESSAGES, 3, 18),
        (255, "stop", MESSAGES, 3, 18),
        (255, "stop", 0, 3, 13),
        (255, "stop", MESSAGES - 1, 3, 13),
        (254, "stop", MESSAGES - 1, 3, 0),
        (254, "stop", 0, 256, 0),
    ] {
        let table = growing(components, last, messages);
        let answer = refused(&table, 0, room);
        assert_eq!(answer, number, "{components} {last} {messages} {room}");
        if number != 26 {
            let plain = table.clone().step(0, &mut vec![BLANK; room]);
            assert_eq!(plain.err().unwrap_or(0), number, "as the step");
        }
    }
}

/// 26 asks about the network that the step is put to, not about what its actions leave.
#[test]
fn it_asks_before_its_actions() {
    let text = "A[out(c,1,A,stop,stop)|out(c,1,B,stop,stop)|in(c,1,x,stop,stop)] .";
    let mut table = read(text, Settings::EDITION_1);
    assert_eq!(refused(&table, 0, 256), 26);
    assert!(table.action(MEET, 0, 2).is_ok());
    assert_eq!(conforms(&table, 0), Ok(true));
    assert_eq!(refused(&table, 0, 0), 0);
}

/// Lists through both engines, with the grouped run of what was accepted.
#[test]
fn lists_by_hand() {
    let text = "D = stop|stop . A[in(c,0,x,go(0,x,stop),stop)|D|out(d,3,B,stop,stop)| \
        out(c,2,B,D,stop)|go(0,B,D)|in(e,0,x,stop,D|stop)|in(d,inf,y,stop,stop)|D] | \
        B[go(2,A,out(e,1,B,stop,stop))] .";
    let list = "conforms 0\nconforms 1\nconforms 2\nconforming 1 9\nconforming 0 4\n\
        action 1 1 0\nconforms 0\nconforming 0 9\nstep 1 9\nconforms 1\nconforming 0 9\n\
        tick 1\nconforming 1 256\nconforming 0 256\nconforming 9 0\nconforming 0 256\n";
    let calls = lists::parse(list).expect("calls");
    for settings in Settings::BOTH {
        let result = differ(Engine::default(), settings, text.as_bytes(), &calls);
        let profile = result.expect("alike").profile;
        assert!(profile.yes > 1 && profile.no > 0 && profile.several > 0);
        assert!(profile.refused > 0);
    }
}

// --- every whole step ----------------------------------------------------------

/// Whole steps at the first location through both engines.
fn through_both(text: &str, edition: u32, most: usize) -> (Tally, usize) {
    let read = reading::read(text.as_bytes(), Settings::all(edition));
    let pair: Pair = read.expect("alike").expect("a text");
    let all = Outcomes::every(&pair.network, 0, most).expect("not too many");
    let mut tally = Tally::default();
    let mut both = Both::after(&pair, &[]).expect("a start");
    let agreed = both.outcomes(&all, &mut tally);
    assert_eq!(agreed, Ok(()), "{text}");
    (tally, all.steps.len())
}

/// Six actions fire in 720 orders, and each order is accepted and ends alike.
#[test]
fn whichever_order_they_fire_in() {
    let text = "D = stop|stop . A[in(c,0,x,go(0,x,stop),stop)|D|out(d,3,B,stop,stop)| \
        out(c,2,B,D,stop)|go(0,B,D)|in(e,0,x,stop,D|stop)|in(d,inf,y,stop,stop)|D|go(0,A,D)] .";
    for edition in [1, 2] {
        let (tally, count) = through_both(text, edition, 720);
        assert_eq!((count, tally.steps, tally.unmarked.all), (720, 720, 1));
    }
}

/// Each point of the condition alone, and two whole steps that the proved engine accepts
/// and that differ; last in their labels only.
#[test]
fn without_a_point_of_the_condition_there_is_a_choice() {
    let late = "A[go(1,B,stop)] .";
    let forever = "A[go(inf,B,stop)|out(c,1,A,stop,stop)|in(c,1,x,stop,stop)] .";
    let senders = "A[out(c,1,A,stop,stop)|out(c,1,B,stop,stop)|in(c,1,x,go(0,x,stop),stop)] .";
    let receivers = "A[out(c,1,A,stop,stop)|in(c,1,x,stop,stop)|in(c,1,x,go(0,x,stop),stop)] .";
    let labels = "A[out(c,0,A,stop,stop)|out(c,0,B,stop,stop)|in(c,1,x,stop,stop)] .";
    let unheard = "A[out(c,1,A,stop,stop)|out(c,1,B,stop,stop)] .";
    for (text, choices, single) in [
        (late, [1, 0, 0], 0),
        (forever, [1, 0, 0], 0),
        (senders, [0, 1, 0], 0),
        (receivers, [0, 0, 1], 0),
        (labels, [0, 1, 0], 0),
        (unheard, [0, 0, 0], 1),
    ] {
        for edition in [1, 2] {
            let (tally, _) = through_both(text, edition, 9);
            assert_eq!((tally.choices, tally.single), (choices, single), "{text}");
            assert_eq!(tally.unmarked.all, 0);
        }
    }
    assert_eq!(Variant::WITH_A_CHOICE[0], Variant::LateGoConforms);
}
