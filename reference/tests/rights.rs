//! Document 02, R-6: rights, one test for each reading, what does not look at
//! them, and where a component can come to stand.

mod common;
use std::collections::HashSet;

use common::cases::cases;
use common::*;
use timo_reference::calls::{Engine, Record};
use timo_reference::generate::{self, faults, hostile};
use timo_reference::lists::{self, Call};
use timo_reference::printout;
use timo_reference::random::Random;
use timo_reference::reading::{self, Limits};
use timo_reference::rights::{self, parse, print};
use timo_reference::rules::{Rules, Variant};
use timo_reference::runs::{Broken, Run};
use timo_reference::term::{Edition, Network, Rights, Row, Script, Settings};

/// The network of a text under edition 1 with rights by name, a line for each.
fn with(rights: &str, text: &str) -> Network {
    with_under(Edition::One, rights, text)
}

fn with_under(edition: Edition, rights: &str, text: &str) -> Network {
    let settings = rights::settings(text.as_bytes(), edition.number(), Some(rights));
    read_with(&settings.expect("rights of the text's names"), text)
}

/// The set of the forced report.
fn forced(network: &Network) -> u64 {
    engine().forced(network).set
}

// --- reading -------------------------------------------------------------------

#[test]
fn reading_asks_no_question_about_rights() {
    let hostile = hostile::all();
    let hostile = hostile.iter().map(|text| (text.text.clone(), text.number));
    let all = faults::all();
    let faulty = all.iter().map(|one| (faults::text(&[one]), one.number));
    let none = |edition| Settings {
        edition,
        rights: Rights::none(),
    };
    for (text, expected) in hostile.chain(faulty) {
        assert_eq!(number(engine().read(&text, &none(1))), expected);
        assert_eq!(number(engine().read(&text, &none(3))), 21);
    }
}

#[test]
fn the_rights_stay_with_the_network() {
    let mut random = Random::new(6);
    for _ in 0..40 {
        let settings = Settings {
            edition: 2,
            rights: generate::rights(&mut random),
        };
        let network = read_with(&settings, CALLER);
        for after in after_each_call(network) {
            assert_eq!(after.settings(), settings);
        }
    }
}

#[test]
fn rows_and_bits_go_by_the_numbers_of_the_text() {
    let text = "D = go(0,C,out(d,0,C,stop,stop)) . A[go(0,B,stop)|in(c,0,x,stop,stop)] .";
    let mut rights = Rights::all();
    rights.rows[1].leave[2] = false;
    rights.rows[1].receive[1] = false;
    rights.rows[0].send[0] = false;
    let network = read(text);
    assert_eq!(network.script.locations, ["C", "A", "B"]);
    assert_eq!(network.script.channels, ["d", "c"]);
    let lines = "all\nwithhold leave A B\nwithhold receive A c\nwithhold send C d\n";
    assert_eq!(parse(lines, &network.script), Ok(rights));
}

/// Only a text read without limits has so many names.
#[test]
fn numbers_from_64_on_have_every_right() {
    let located: Vec<String> = (0..66).map(|k| format!("L{k}[go(0,L{k},stop)]")).collect();
    let pairs: Vec<String> = (0..66)
        .map(|k| format!("L0[out(c{k},0,L0,stop,stop)|in(c{k},0,x,stop,stop)]"))
        .collect();
    let moves = "L0[go(0,L63,stop)|go(0,L64,stop)] | L63[go(0,L65,stop)] | L65[go(0,L0,stop)]";
    let text = [located.join(" | "), pairs.join(" | "), moves.to_string()].join(" | ") + " .";
    let settings = Settings {
        edition: 1,
        rights: Rights::none(),
    };
    let read = reading::read(text.as_bytes(), &settings, Limits::Off).expect("a text");
    let pair = |k: u32| act_number(&read, 3, 66 + 2 * k, 67 + 2 * k);
    assert_eq!([0, 63, 64, 65].map(pair), [20, 20, 0, 0]);
    let first = 66 + 2 * 66;
    let moves = [first, first + 1, first + 2, first + 3].map(|p| act_number(&read, 2, p, 0));
    assert_eq!(moves, [20, 0, 0, 0]);
}

// --- rights as a file ----------------------------------------------------------

#[test]
fn a_file_of_rights() {
    let script = &read("A[out(c,0,B,stop,stop)] | B[stop] .").script;
    let row = |rights: &Rights, l: usize| rights.rows[l];
    let none = parse(
        "none\ngive send A c\ngive receive B c\ngive leave A A\n",
        script,
    );
    let none = none.expect("rights");
    assert!(none.send(0, 0) && none.receive(1, 0) && none.leave(0, 0));
    assert!(!none.receive(0, 0) && !none.send(1, 0) && !none.leave(0, 1));
    assert_eq!(row(&none, 2), Row::NONE);
    let all = parse(
        "all\nwithhold leave B A\nwithhold send A c\ngive send A c",
        script,
    );
    let all = all.expect("rights");
    assert!(!all.leave(1, 0) && all.leave(0, 1) && all.send(0, 0));
    assert_eq!(row(&all, 0), Row::ALL);
    assert_eq!(parse("all\n", script), Ok(Rights::all()));
    assert_eq!(parse("none", script), Ok(Rights::none()));
}

#[test]
fn what_is_no_file_of_rights() {
    let script = &read("A[out(c,0,B,stop,stop)] .").script;
    for text in ["", "\n", "All\n", " all\n", "give send A c\n"] {
        assert!(parse(text, script).is_err(), "{text}");
    }
    for line in [
        "",
        "all",
        "give send A",
        "give send A c c",
        "give  send A c",
        "give send A c ",
        "take send A c",
        "give go A B",
        "give send A d",
        "give send C c",
        "give send c A",
        "give leave A c",
        "give leave A C",
        "give receive A A",
    ] {
        let wrong = Err("line 3 is not a right of the script".to_string());
        assert_eq!(
            parse(&format!("none\ngive send A c\n{line}\n"), script),
            wrong
        );
    }
}

/// A script that is refused is so with any file; of others the file is read with
/// the script's names.
#[test]
fn settings_of_a_script_and_a_file() {
    let settings = |text: &str, rights| rights::settings(text.as_bytes(), 2, rights);
    assert_eq!(settings("A[stop] .", None), Ok(Settings::all(2)));
    assert_eq!(settings("A[stop]", Some("nothing")), Ok(Settings::all(2)));
    assert!(settings("A[stop] .", Some("nothing")).is_err());
    let none = settings("A[stop] .", Some("none")).expect("rights");
    assert_eq!((none.edition, none.rights), (2, Rights::none()));
}

#[test]
fn printed_rights_are_read_back() {
    for case in cases(60) {
        let (script, rights) = (&case.network().script, &case.settings.rights);
        let again = parse(&print(rights, script), script).expect("rights");
        assert_eq!(print(&again, script), print(rights, script));
        let of_names = case.with(Settings {
            rights: again,
            ..case.settings
        });
        assert_eq!(of_names.answers(engine()), case.answers(engine()));
    }
}

// --- actions -------------------------------------------------------------------

/// Any timer will do, and without the right none.
#[test]
fn a_move_needs_the_right_of_the_location_that_it_leaves() {
    for timer in ["0", "1", "inf"] {
        let text = format!("A[go({timer},B,stop)] | B[go({timer},A,stop)] | C[stop] .");
        let one_way = with("none\ngive leave A B", &text);
        assert_eq!([0, 1].map(|p| act_number(&one_way, 2, p, 0)), [0, 20]);
        let other_way = with("all\nwithhold leave A B", &text);
        assert_eq!([0, 1].map(|p| act_number(&other_way, 2, p, 0)), [20, 0]);
        let beside = with("all\nwithhold leave A C\nwithhold leave C B", &text);
        assert_eq!([0, 1].map(|p| act_number(&beside, 2, p, 0)), [0, 0]);
    }
}

#[test]
fn a_move_to_ones_own_location_needs_no_right() {
    let text = "A[go(0,A,stop) | go(1,A,stop)] | B[go(0,A,stop)] .";
    for rights in [
        "none",
        "all",
        "none\ngive leave A A",
        "all\nwithhold leave A A",
    ] {
        let network = with(rights, text);
        assert_eq!(label(&network, 2, 0, 0), "A@A");
        assert_eq!(label(&network, 2, 1, 0), "A@A");
        assert_eq!(forced(&network) & 1, 1);
        assert_eq!(tick_number(&network, 0), 12);
    }
    let not_own = with("all\nwithhold leave B A", text);
    assert_eq!(act_number(&not_own, 2, 2, 0), 20);
}

#[test]
fn a_communication_needs_both_rights_of_its_location_for_the_channel() {
    let text = "A[out(c,0,B,stop,stop)|in(c,0,x,stop,stop)|out(d,0,A,stop,stop)] | B[stop] .";
    for (rights, number) in [
        ("none", 20),
        ("none\ngive send A c", 20),
        ("none\ngive receive A c", 20),
        ("none\ngive send A c\ngive receive A c", 0),
        ("all\nwithhold send A c", 20),
        ("all\nwithhold receive A c", 20),
        ("all\nwithhold send B c\nwithhold receive B c", 0),
        ("all\nwithhold send A d\nwithhold receive A d", 0),
        ("all\nwithhold leave A B\nwithhold leave B A", 0),
    ] {
        let network = with(rights, text);
        assert_eq!(act_number(&network, 3, 0, 1), number, "{rights}");
        assert_eq!(forced(&network) == 1, number == 0, "{rights}");
    }
}

#[test]
fn a_call_needs_no_right() {
    let network = with("none", "D(x) = go(0,x,stop) . A[D(B)] | B[stop] .");
    assert_eq!(forced(&network), 1);
    assert_eq!(tick_number(&network, 0), 12);
    let called = act(&network, 1, 0, 0);
    assert_eq!(shown(&called), "A[A] go(0,B,stop); B[] stop");
    let ticked = tick(&called, 0);
    assert_eq!(act_number(&ticked, 2, 0, 0), 20);
}

/// The right is asked for when the move is to fire, for the value put in.
#[test]
fn a_value_that_was_received_decides_which_right_a_move_needs() {
    for (value, number) in [("A", 0), ("B", 0), ("C", 20)] {
        let text = format!(
            "A[out(c,0,{value},stop,stop)|in(c,0,x,go(0,x,stop),stop)] | B[stop] | C[stop] ."
        );
        let network = stepped(&with("all\nwithhold leave A C", &text), 0);
        assert_eq!(act_number(&network, 2, 1, 0), number, "{value}");
    }
}

// --- the order of questions ----------------------------------------------------

#[test]
fn questions_8_to_11_come_before_20() {
    let text = "A[out(c,0,A,stop,stop)|in(d,0,x,stop,stop)|go(0,B,stop)|go(0,A,stop)]
        | B[in(c,0,x,stop,stop)] .";
    let network = act(&with("none", text), 2, 3, 0);
    let expected = [
        ((3, 0, 5), 8),
        ((2, 9, 0), 8),
        ((4, 2, 0), 8),
        ((2, 3, 0), 9),
        ((3, 0, 3), 9),
        ((3, 0, 2), 10),
        ((3, 2, 1), 10),
        ((2, 0, 0), 10),
        ((1, 2, 0), 10),
        ((3, 0, 0), 10),
        ((3, 0, 1), 11),
        ((3, 0, 4), 11),
        ((2, 2, 0), 20),
    ];
    for ((kind, p, q), number) in expected {
        assert_eq!(act_number(&network, kind, p, q), number, "{kind} {p} {q}");
    }
    let wrong = Engine::new(Variant::AsksRightFirst);
    for q in [1, 4] {
        assert_eq!(number(wrong.action(&network, Record::new(3, 0, q))), 20);
    }
}

/// The output's channel on one side and the input's on the other: only a pair that
/// could meet but for the rights is asked for them.
#[test]
fn a_pair_of_two_locations_or_channels_is_11_whatever_the_rights() {
    let text = "A[out(c,0,A,stop,stop)] | B[in(c,0,x,stop,stop)] | A[in(d,0,x,stop,stop)] .";
    for rights in [
        "all",
        "none",
        "all\nwithhold send A c",
        "all\nwithhold receive B c",
    ] {
        let network = with(rights, text);
        assert_eq!([1, 2].map(|q| act_number(&network, 3, 0, q)), [11, 11]);
    }
}

fn proposal_number(network: &Network, location: u32, records: &[(u32, u32, u32)]) -> u8 {
    let record = |record: &(u32, u32, u32)| Record::new(record.0, record.1, record.2);
    let records: Vec<Record> = records.iter().map(record).collect();
    number(engine().proposal(network, location, &records))
}

/// An action's own questions come before that of the proposal, and all of an
/// action before those of the next and of the tick.
#[test]
fn in_a_proposal_20_comes_before_16_and_12() {
    let text = "D=stop. A[go(0,B,stop)|D] | B[go(0,A,stop)|D] | C[stop] .";
    let network = with("all\nwithhold leave B A", text);
    let asked = |location, records: &[_]| proposal_number(&network, location, records);
    assert_eq!(asked(0, &[(2, 2, 0)]), 20, "at B, and without its right");
    assert_eq!(asked(1, &[(2, 0, 0)]), 16, "at A, with its right");
    assert_eq!(asked(1, &[(2, 2, 0)]), 20, "the call at B is left as well");
    assert_eq!(asked(1, &[(2, 0, 0), (2, 2, 0)]), 16);
    assert_eq!(asked(0, &[(2, 2, 0), (2, 0, 0)]), 20);
    assert_eq!(asked(0, &[(1, 0, 0), (2, 2, 0)]), 10);
    assert_eq!(asked(3, &[(2, 2, 0)]), 8);
    assert_eq!(asked(1, &[(1, 3, 0)]), 0, "the move at B is not waited for");
    assert_eq!(asked(0, &[(1, 1, 0)]), 12, "the one at A is");
}

// --- the tick ------------------------------------------------------------------

#[test]
fn a_move_at_0_without_its_right_keeps_0_at_a_tick() {
    for edition in Edition::BOTH {
        let rights = "all\nwithhold leave A B";
        let text = "A[go(0,B,stop)|go(1,B,stop)|go(2,B,stop)|go(inf,B,stop)] | B[stop] .";
        let expected = [
            "A[] go(0,B,stop); A[] go(0,B,stop); A[] go(1,B,stop); A[] go(inf,B,stop); B[] stop",
            "A[] go(0,B,stop); A[] go(0,B,stop); A[] go(0,B,stop); A[] go(inf,B,stop); B[] stop",
            "A[] go(0,B,stop); A[] go(0,B,stop); A[] go(0,B,stop); A[] go(inf,B,stop); B[] stop",
        ];
        let mut network = with_under(edition, rights, text);
        for expected in expected {
            assert_eq!(forced(&network), 0);
            network = tick(&network, 0);
            assert_eq!(shown(&network), expected);
            assert_eq!(act_number(&network, 2, 0, 0), 20);
        }
    }
}

/// What could fire is waited for as before.
#[test]
fn a_move_with_its_right_is_waited_for_beside_one_without() {
    let text = "A[go(0,B,stop)|go(0,C,stop)] | B[stop] | C[stop] .";
    let network = with("all\nwithhold leave A B", text);
    assert_eq!(tick_number(&network, 0), 12);
    let moved = tick(&act(&network, 2, 1, 0), 0);
    assert_eq!(
        shown(&moved),
        "A[] go(0,B,stop); C[] stop; B[] stop; C[] stop"
    );
}

#[test]
fn a_pair_at_0_without_its_rights_takes_both_q_in_one_tick() {
    let text =
        "A[out(c,0,B,stop,go(1,B,stop)) | in(c,0,x,go(0,x,stop),stop | out(d,1,B,stop,stop))]
        | B[stop] .";
    let split = "A[] go(1,B,stop); A[] stop; A[] out(d,1,B,stop,stop); B[] stop";
    for edition in Edition::BOTH {
        for withheld in [
            "withhold send A c",
            "withhold receive A c",
            "withhold send A c\nwithhold receive A c",
        ] {
            let network = with_under(edition, &format!("all\n{withheld}"), text);
            assert_eq!(act_number(&network, 3, 0, 1), 20);
            assert_eq!(shown(&tick(&network, 0)), split, "{withheld}");
        }
        let with_rights = with_under(edition, "none\ngive send A c\ngive receive A c", text);
        assert_eq!(tick_number(&with_rights, 0), 12);
    }
}

/// Timers are counted as those of an `in` or `out` that has no partner.
#[test]
fn a_pair_without_its_rights_is_lowered_until_it_takes_q() {
    let after = |edition, sent: &str, heard: &str| {
        let text = format!("A[out(c,{sent},A,stop,stop)|in(c,{heard},x,stop,stop)] .");
        shown(&tick(&with_under(edition, "none", &text), 0))
    };
    let [one, two] = Edition::BOTH;
    assert_eq!(after(one, "1", "0"), "A[] out(c,0,A,stop,stop); A[] stop");
    assert_eq!(after(two, "1", "0"), "A[] stop; A[] stop");
    for edition in [one, two] {
        assert_eq!(
            after(edition, "2", "inf"),
            "A[] out(c,1,A,stop,stop); A[] in(c,inf,x,stop,stop)"
        );
    }
}

#[test]
fn the_forced_report_passes_over_what_lacks_its_right() {
    let text = "D=stop. A[out(c,0,B,stop,stop)|in(c,0,x,stop,stop)] | B[go(0,A,stop)]
        | C[out(c,0,B,stop,stop)|in(c,0,x,stop,stop)] | E[go(0,A,stop)] | F[D] .";
    let rights = "all\nwithhold send A c\nwithhold leave B A";
    let network = with(rights, text);
    assert_eq!(network.script.locations, ["A", "B", "C", "E", "F"]);
    let report = engine().forced(&network);
    assert_eq!((report.set, report.count, report.lowest), (0b11100, 3, 2));
    assert_eq!(forced(&read(text)), 0b11111);
    let report = engine().forced(&with("none", text));
    assert_eq!((report.set, report.count, report.lowest), (0b10000, 1, 4));
    let allowed = [0, 1, 2, 3, 4].map(|l| tick_number(&network, l));
    assert_eq!(allowed, [0, 0, 12, 12, 12]);
    let quiet = with("none", "A[go(0,B,stop)] .");
    assert_eq!(engine().forced(&quiet).lowest, 64);
}

// --- the step ------------------------------------------------------------------

/// No record, no label and no room taken; the input stays for no other output
/// either, as all of its channel at the location lack the right.
#[test]
fn a_step_passes_over_what_lacks_its_right() {
    let text = "D=stop. A[go(0,B,stop)|out(c,1,B,stop,stop)|go(0,C,stop)|out(d,1,B,stop,stop)
        |in(c,1,x,stop,stop)|in(d,1,x,stop,stop)|D|go(0,A,D)] | B[stop] | C[stop] .";
    let network = with("all\nwithhold leave A B\nwithhold send A c", text);
    let (after, records, labels) = step(&network, 0);
    assert_eq!(labels, ["C@A", "d<B>@A", "D@A", "A@A"]);
    let expected = [(2, 2, 0), (3, 3, 5), (1, 6, 0), (2, 7, 0)];
    let expected = expected.map(|(kind, p, q)| Record::new(kind, p, q));
    assert_eq!(records, expected);
    assert_eq!(
        shown(&after),
        "A[] go(0,B,stop); A[] out(c,0,B,stop,stop); C[] stop; A[] stop; \
        A[] in(c,0,x,stop,stop); A[] stop; A[] stop; A[] D; B[] stop; C[] stop"
    );
    let mut lent = [Record::new(77, 77, 77); 6];
    let room = engine().step(&network, 0, &mut lent);
    assert_eq!(room.map(|stepped| stepped.labels.len()), Ok(4));
    assert_eq!(lent[4..], [Record::new(77, 77, 77); 2]);
    let short = engine().step(&network, 0, &mut lent[..3]);
    assert_eq!(number(short), 15);
}

// --- comparing and writing -----------------------------------------------------

#[test]
fn sameness_passes_over_rights() {
    let text = "D=stop. A[D|go(0,B,stop)|in(c,1,x,stop,stop)] | B[stop] .";
    let networks = ["all", "none", "all\nwithhold leave A B"].map(|rights| with(rights, text));
    for one in &networks {
        for other in &networks {
            assert!(engine().same(one, other));
        }
    }
    let other_edition = with_under(Edition::Two, "none", text);
    assert!(!engine().same(&networks[1], &other_edition));
}

/// The text does not show the rights: they have to be given again.
#[test]
fn writing_passes_over_rights() {
    let text = "A[go(0,B,stop)] | B[stop] .";
    let [all, none] = ["all", "none"].map(|rights| with(rights, text));
    assert_eq!(written(&all), written(&none));
    let again = read(&written(&none));
    assert!(engine().same(&again, &none));
    assert_eq!([&again, &none].map(|n| act_number(n, 2, 0, 0)), [0, 20]);
    let given_again = read_with(&none.settings(), &written(&none));
    assert_eq!(given_again, none);
}

#[test]
fn a_list_compares_texts_read_with_the_networks_own_rights() {
    let text = "A[go(0,B,stop)] | B[stop] .";
    let calls = lists::parse("tick 0\nsame\nlike B[stop] | A[go(0,B,stop)] .\n").expect("calls");
    let settings = rights::settings(text.as_bytes(), 2, Some("none")).expect("rights");
    let answers = printout::answers(engine(), text.as_bytes(), &settings, &calls);
    assert_eq!(answers.matches("ok yes").count(), 2);
}

// --- generated lists -----------------------------------------------------------

/// Whether a bit is looked at: to send and to receive by channel, to leave by
/// location but for one's own.
fn named(script: &Script, location: usize, sort: usize, number: usize) -> bool {
    let (channels, locations) = (script.channels.len(), script.locations.len());
    let own = sort == 2 && location == number;
    location < locations && number < [channels, channels, locations][sort] && !own
}

/// Rights with every bit that is not looked at drawn anew.
fn redrawn(random: &mut Random, script: &Script, rights: &Rights) -> Rights {
    let mut rights = rights.clone();
    for (l, row) in rights.rows.iter_mut().enumerate() {
        for (sort, bits) in row.sorts_mut().into_iter().enumerate() {
            for (number, bit) in bits.iter_mut().enumerate() {
                if !named(script, l, sort, number) {
                    *bit = random.chance(1, 2);
                }
            }
        }
    }
    rights
}

#[test]
fn rows_and_bits_past_the_names_are_not_looked_at() {
    let mut random = Random::new(20);
    for case in cases(80) {
        let rights = redrawn(&mut random, &case.network().script, &case.settings.rights);
        assert_ne!(rights, case.settings.rights);
        let other = case.with(Settings {
            rights,
            ..case.settings
        });
        assert_eq!(other.answers(engine()), case.answers(engine()));
    }
}

/// How many lines of the answers are this one.
fn times(answers: &str, line: &str) -> usize {
    answers.lines().filter(|found| *found == line).count()
}

#[test]
fn with_all_rights_nothing_is_refused_20() {
    for case in cases(80) {
        let all = case.with(Settings::all(case.settings.edition));
        assert_eq!(times(&all.answers(engine()), "refused 20"), 0);
    }
}

/// The generator's rights make a difference on many lists, and still most calls
/// are accepted.
#[test]
fn generated_rights_matter_and_lists_still_run() {
    let (mut lists, mut differ, mut lack, mut calls, mut refused) = (0, 0, 0, 0, 0);
    for case in cases(120).filter(|case| case.settings.rights != Rights::all()) {
        let all = case.with(Settings::all(case.settings.edition));
        let answers = case.answers(engine());
        lists += 1;
        differ += usize::from(answers != all.answers(engine()));
        lack += usize::from(times(&answers, "refused 20") > 0);
        calls += case.calls.len();
        refused += case.verdict(engine()).1;
    }
    assert!(differ * 5 > lists * 2, "{differ} of {lists}");
    assert!(lack * 3 > lists, "{lack} of {lists}");
    assert!(refused * 2 < calls, "{refused} of {calls}");
}

#[test]
fn the_generator_gives_rights_of_every_sort() {
    let mut random = Random::new(3);
    let some: Vec<Rights> = (0..400).map(|_| generate::rights(&mut random)).collect();
    let shape = |rights: &Rights| {
        [0, 1, 2].map(|sort| {
            let low = rights.rows[..6].iter().map(|row| &row.sorts()[sort][..6]);
            let low: Vec<bool> = low.flatten().copied().collect();
            (low.contains(&true), low.contains(&false))
        })
    };
    let shapes: HashSet<_> = some.iter().map(shape).collect();
    let (given, withheld, mixed) = ((true, false), (false, true), (true, true));
    for shape in [given, withheld, mixed] {
        assert!(shapes.contains(&[shape; 3]), "{shape:?}");
    }
    for at in 0..3 {
        for shape in [withheld, mixed] {
            let mut of_one_sort = [given; 3];
            of_one_sort[at] = shape;
            assert!(shapes.contains(&of_one_sort), "{of_one_sort:?}");
        }
    }
    let own = |rights: &Rights| rights.rows[1].leave[1];
    let far = |rights: &Rights| rights.rows[40].send[50];
    assert!(some.iter().any(own) && some.iter().any(|rights| !own(rights)));
    assert!(some.iter().any(far) && some.iter().any(|rights| !far(rights)));
}

// --- mixed runs ----------------------------------------------------------------

/// The article may go to B and not back; its reader may not receive there.
#[test]
fn a_run_of_two_clocks_with_rights() {
    let text = "A[go(0,B,out(c,0,B,stop,go(0,A,stop)))] | B[in(c,1,x,stop,stop)] .";
    let read = with("all\nwithhold receive B c\nwithhold leave B A", text);
    let moved = tick(&act(&read, 2, 0, 0), 1);
    assert_eq!(
        shown(&moved),
        "B[A] out(c,0,B,stop,go(0,A,stop)); B[] in(c,0,x,stop,stop)"
    );
    let last = tick(&tick(&moved, 0), 1);
    assert_eq!(shown(&last), "B[] go(0,A,stop); B[] stop");
    assert_eq!(act_number(&last, 2, 0, 0), 20);
    let mut run = Run::new(&read);
    assert_eq!(run.action(Record::new(2, 0, 0)), Ok(()));
    for location in [1, 0, 1] {
        assert_eq!(run.tick(location), Ok(()));
    }
    assert_eq!(run.clone().finish(&last), Ok(()));
    let changed = last.with_rights(Rights::all());
    assert_eq!(run.finish(&changed), Err(Broken::RightsChanged));
}

#[test]
fn a_run_does_not_allow_an_action_without_its_right() {
    let text = "A[out(c,0,B,stop,stop)|in(c,0,x,stop,stop)|go(0,B,stop)] | B[stop] .";
    let read = with("none", text);
    for record in [Record::new(3, 0, 1), Record::new(2, 2, 0)] {
        assert_eq!(Run::new(&read).action(record), Err(Broken::StraightAction));
    }
    assert_eq!(Run::new(&read).tick(0), Ok(()));
    let all = read.with_rights(Rights::all());
    assert_eq!(Run::new(&all).tick(0), Err(Broken::StraightTick));
}

/// A may be left for B only and B for C only: C is reached over B.
#[test]
fn a_chain_of_rights_leads_where_no_single_one_does() {
    let text = "A[go(0,B,go(0,C,go(0,A,stop))) | go(0,C,stop)] | B[stop] | C[stop] .";
    let read = with("none\ngive leave A B\ngive leave B C", text);
    assert_eq!(act_number(&read, 2, 1, 0), 20);
    let mut run = Run::new(&read);
    let mut network = read;
    for location in [0, 1] {
        network = tick(&act(&network, 2, 0, 0), location);
        assert_eq!(run.whole_step(location, &[Record::new(2, 0, 0)]), Ok(()));
    }
    assert_eq!(
        shown(&network),
        "C[] go(0,A,stop); A[] go(0,C,stop); B[] stop; C[] stop"
    );
    assert_eq!(act_number(&network, 2, 0, 0), 20);
    assert_eq!(run.finish(&network), Ok(()));
}

#[test]
fn what_a_tick_makes_of_a_component_has_its_ancestor() {
    let text = "D=stop|D. A[stop | D | in(c,0,x,stop,stop|stop|stop)] | B[stop] .";
    let mut run = Run::new(&read(text));
    assert_eq!(run.ancestors(), [0, 1, 2, 3]);
    assert_eq!(run.action(Record::new(1, 1, 0)), Ok(()));
    assert_eq!(run.ancestors(), [0, 1, 2, 3]);
    assert_eq!(run.tick(0), Ok(()));
    assert_eq!(run.ancestors(), [0, 1, 1, 2, 2, 2, 3]);
    assert_eq!(run.whole_step(0, &[Record::new(1, 2, 0)]), Ok(()));
    assert_eq!(run.ancestors(), [0, 1, 1, 1, 2, 2, 2, 3]);
}

/// Feeds a run what the engine accepts of a call, and gives the next network.
fn follow(engine: Engine, network: &Network, run: &mut Run, call: &Call) -> Option<Network> {
    let (next, fed) = match call {
        Call::Action(record) => {
            let (next, _) = engine.action(network, *record).ok()?;
            (next, run.action(*record))
        }
        Call::Tick(location) => {
            let next = engine.tick(network, *location).ok()?;
            (next, run.tick(*location))
        }
        Call::Step { location, room } => {
            let mut lent = vec![Record::new(0, 0, 0); *room];
            let stepped = engine.step(network, *location, &mut lent).ok()?;
            let fired = &lent[..stepped.labels.len()];
            (stepped.network, run.whole_step(*location, fired))
        }
        Call::Proposal { location, records } => {
            let (next, _) = engine.proposal(network, *location, records).ok()?;
            (next, run.whole_step(*location, records))
        }
        _ => return None,
    };
    assert_eq!(fed, Ok(()));
    Some(next)
}

/// Where a search over the rights gets to from a location.
fn found_from(network: &Network, location: &str) -> HashSet<String> {
    let names = &network.script.locations;
    let rows = &network.script.rights.rows;
    let number = |name: &str| names.iter().position(|held| held == name).expect("a name");
    let mut found = HashSet::from([location.to_string()]);
    let mut waiting = vec![location.to_string()];
    while let Some(from) = waiting.pop() {
        let row = &rows[number(&from)];
        for to in names.iter().filter(|to| row.leave[number(to)]) {
            if found.insert(to.clone()) {
                waiting.push(to.clone());
            }
        }
    }
    found
}

/// Over lists of calls a component of the engine's network stands only where its
/// ancestor was read or where a chain of rights to leave leads from there; the
/// whole run holds too.
#[test]
fn a_component_stands_only_where_a_chain_of_rights_leads() {
    let (mut elsewhere, mut barred) = (0, 0);
    for case in cases(160) {
        let read = case.network();
        let reach: Vec<HashSet<String>> = read
            .components
            .iter()
            .map(|component| found_from(&read, &component.location))
            .collect();
        let mut run = Run::new(&read);
        let mut network = read.clone();
        for call in &case.calls {
            network = follow(engine(), &network, &mut run, call).unwrap_or(network);
            assert_eq!(network.components.len(), run.ancestors().len());
            for (component, ancestor) in network.components.iter().zip(run.ancestors()) {
                assert!(reach[*ancestor].contains(&component.location));
            }
        }
        let moved = |(c, a): (_, &usize)| read.components[*a].location != c;
        let stand = network.components.iter().map(|c| c.location.clone());
        elsewhere += usize::from(stand.zip(run.ancestors()).any(moved));
        let all = read.script.locations.len();
        barred += usize::from(reach.iter().any(|reach| reach.len() < all));
        assert_eq!(run.finish(&network), Ok(()), "{}", case.text());
    }
    assert!(elsewhere > 30 && barred > 30, "{elsewhere} {barred}");
}

/// Judged by the wrong rules themselves, a move that the rights do not allow leads
/// out of reach.
#[test]
fn a_component_out_of_reach_is_noticed() {
    let text = "A[go(0,B,stop)] | B[stop] .";
    let read = with("none\ngive leave B A", text);
    for variant in [Variant::AsksLeaveAtTarget, Variant::StepFiresWithoutRight] {
        let mut run = Run::judged_by(Rules { variant }, &read);
        let moved = run.action(Record::new(2, 0, 0));
        assert_eq!(moved, Err(Broken::OutOfReach), "{variant:?}");
    }
    let in_reach = read.with_rights(Rights::all());
    let rules = Rules {
        variant: Variant::AsksLeaveAtTarget,
    };
    let mut run = Run::judged_by(rules, &in_reach);
    assert_eq!(run.action(Record::new(2, 0, 0)), Ok(()));
}

// --- wrong rights --------------------------------------------------------------

/// For each mistake a script with rights and a call that shows it.
const SHOWN_BY: [(Variant, &str, &str, &str); 14] = [
    (
        Variant::AsksLeaveAtTarget,
        "A[go(0,B,stop)] | B[stop] .",
        "all\nwithhold leave A B",
        "action 2 0 0",
    ),
    (
        Variant::OwnLocationNeedsRight,
        "A[go(0,A,stop)] .",
        "all\nwithhold leave A A",
        "action 2 0 0",
    ),
    (
        Variant::ReceiveNotAsked,
        "A[out(c,0,A,stop,stop) | in(c,0,x,stop,stop)] .",
        "all\nwithhold receive A c",
        "action 3 0 1",
    ),
    (
        Variant::SendNotAsked,
        "A[out(c,0,A,stop,stop) | in(c,0,x,stop,stop)] .",
        "all\nwithhold send A c",
        "action 3 0 1",
    ),
    (
        Variant::RightsByTheOtherIndex,
        "A[in(c,0,x,stop,stop) | out(d,0,B,stop,stop) | in(d,0,x,stop,stop)] .",
        "all\nwithhold send A d",
        "action 3 1 2",
    ),
    (
        Variant::GoWithoutRightStopsTick,
        "A[go(0,B,stop)] .",
        "none",
        "tick 0",
    ),
    (
        Variant::PairWithoutRightStopsTick,
        "A[out(c,0,A,stop,stop) | in(c,0,x,stop,stop)] .",
        "none",
        "tick 0",
    ),
    (
        Variant::StepFiresWithoutRight,
        "A[go(0,B,stop)] .",
        "none",
        "step 0 1",
    ),
    (
        Variant::StepMeetsWithoutRight,
        "A[out(c,0,A,stop,stop) | in(c,0,x,stop,stop)] .",
        "none",
        "step 0 1",
    ),
    (
        Variant::AsksRightFirst,
        "A[out(c,0,A,stop,stop) | in(d,0,x,stop,stop)] .",
        "none",
        "action 3 0 1",
    ),
    (
        Variant::AsksRightLast,
        "A[go(0,B,stop)] .",
        "none",
        "proposal 1 2 0 0",
    ),
    (
        Variant::StuckGoTakesP,
        "A[go(0,B,stop)] .",
        "none",
        "tick 0",
    ),
    (Variant::StuckGoStops, "A[go(0,B,stop)] .", "none", "tick 0"),
    (
        Variant::StuckPairKeepsTimer,
        "A[in(c,0,x,stop,stop)] .",
        "none",
        "tick 0",
    ),
];

#[test]
fn every_wrong_right_is_noticed() {
    for (variant, text, rights, call) in SHOWN_BY {
        assert!(Variant::WRONG.contains(&variant));
        let settings = rights::settings(text.as_bytes(), 1, Some(rights)).expect("rights");
        let calls = lists::parse(call).expect("a call");
        let answers = |engine, settings: &Settings| {
            printout::answers(engine, text.as_bytes(), settings, &calls)
        };
        let wrong = Engine::new(variant);
        assert_ne!(
            answers(wrong, &settings),
            answers(engine(), &settings),
            "{variant:?}"
        );
    }
}

/// With all rights given a mistake about rights is none.
#[test]
fn with_all_rights_every_wrong_right_answers_as_the_right_engine() {
    for case in cases(60) {
        let all = case.with(Settings::all(case.settings.edition));
        let right = all.answers(engine());
        for (variant, ..) in SHOWN_BY {
            assert_eq!(all.answers(Engine::new(variant)), right, "{variant:?}");
        }
    }
}
