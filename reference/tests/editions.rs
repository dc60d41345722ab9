//! Document 02, R-8: communication timers under edition 2, one test for each
//! reading, and what does not look at the edition.

mod common;
use common::*;
use timo_reference::calls::{Engine, Record};
use timo_reference::reading::{self, Limits};
use timo_reference::rules::Variant;
use timo_reference::runs::{Broken, Run};
use timo_reference::term::{Edition, Settings};

use Edition::{One, Two};

/// What one tick at the first location makes of a text, under each edition.
fn ticked(text: &str) -> [String; 2] {
    Edition::BOTH.map(|edition| shown(&tick(&read_under(edition, text), 0)))
}

// --- reading -------------------------------------------------------------------

#[test]
fn only_1_and_2_are_editions() {
    let text = "A[out(c,1,B,stop,stop)] .";
    for (edition, number) in [(0, 21), (1, 0), (2, 0), (3, 21), (4_294_967_295, 21)] {
        assert_eq!(question_under(edition, text), number, "edition {edition}");
    }
    for bit in 2..32 {
        for edition in [1 << bit, (1 << bit) + 1, (1 << bit) + 2] {
            assert_eq!(question_under(edition, text), 21, "edition {edition}");
        }
    }
}

#[test]
fn question_21_comes_before_1_and_before_2() {
    let long = vec![b' '; 65_536];
    for (edition, of_long, of_empty) in [(0, 21, 21), (1, 1, 2), (2, 1, 2), (3, 21, 21)] {
        assert_eq!(question_under(edition, &long), of_long, "edition {edition}");
        assert_eq!(question_under(edition, ""), of_empty, "edition {edition}");
    }
    assert_eq!(question_under(u32::MAX, &long), 21);
    assert_eq!(question_under(u32::MAX, ""), 21);
}

#[test]
fn question_21_is_asked_without_limits_too() {
    let unread = |edition| {
        let settings = Settings::all(edition);
        number(reading::read(b"A[stop] .", &settings, Limits::Off))
    };
    assert_eq!([0, 1, 2, 3].map(unread), [21, 0, 0, 21]);
}

#[test]
fn the_edition_stays_with_the_network() {
    for edition in Edition::BOTH {
        let network = read_under(edition, CALLER);
        for after in after_each_call(network) {
            assert_eq!(after.script.edition, edition);
        }
    }
}

// --- the tick ------------------------------------------------------------------

#[test]
fn an_output_with_timer_0_1_2_or_inf() {
    let expected = [
        ("0", ["A[] go(3,B,stop)", "A[] go(3,B,stop)"]),
        (
            "1",
            ["A[] out(c,0,B,stop,go(3,B,stop))", "A[] go(3,B,stop)"],
        ),
        ("2", ["A[] out(c,1,B,stop,go(3,B,stop))"; 2]),
        ("3", ["A[] out(c,2,B,stop,go(3,B,stop))"; 2]),
        ("1000000", ["A[] out(c,999999,B,stop,go(3,B,stop))"; 2]),
        ("inf", ["A[] out(c,inf,B,stop,go(3,B,stop))"; 2]),
    ];
    for (timer, after) in expected {
        let text = format!("A[out(c,{timer},B,stop,go(3,B,stop))] .");
        assert_eq!(ticked(&text), after, "{timer}");
    }
}

#[test]
fn an_input_with_timer_0_1_2_or_inf() {
    let expected = [
        ("0", ["A[] stop", "A[] stop"]),
        ("1", ["A[] in(c,0,x,go(0,x,stop),stop)", "A[] stop"]),
        ("2", ["A[] in(c,1,x,go(0,x,stop),stop)"; 2]),
        ("inf", ["A[] in(c,inf,x,go(0,x,stop),stop)"; 2]),
    ];
    for (timer, after) in expected {
        let text = format!("A[in(c,{timer},x,go(0,x,stop),stop)] .");
        assert_eq!(ticked(&text), after, "{timer}");
    }
}

/// Under edition 1 a timer of n is there for n and one ticks, under edition 2
/// for n, at least one.
#[test]
fn a_timer_of_2_lasts_three_ticks_or_two() {
    let ticks = |edition: Edition| {
        let mut network = read_under(edition, "A[in(c,2,x,stop,stop)] .");
        let mut count = 0;
        while shown(&network).starts_with("A[] in(") {
            network = tick(&network, 0);
            count += 1;
        }
        count
    };
    assert_eq!(Edition::BOTH.map(ticks), [3, 2]);
}

#[test]
fn a_fresh_q_is_not_lowered_in_its_tick() {
    let q = "in(c,1,x,stop,stop) | go(1,B,stop) | out(d,2,B,stop,stop)";
    let split = "A[] in(c,1,x,stop,stop); A[] go(1,B,stop); A[] out(d,2,B,stop,stop)";
    assert_eq!(ticked(&format!("A[in(e,0,x,stop,{q})] .")), [split; 2]);
    let kept = format!("A[] in(e,0,x,stop,{q})");
    let text = format!("A[in(e,1,x,stop,{q})] .");
    assert_eq!(ticked(&text), [kept.as_str(), split]);
    let again = tick(&tick(&read_under(Two, &text), 0), 0);
    assert_eq!(
        shown(&again),
        "A[] stop; A[] go(0,B,stop); A[] out(d,1,B,stop,stop)"
    );
}

#[test]
fn a_move_is_counted_as_before() {
    for edition in Edition::BOTH {
        let once = tick(&read_under(edition, "A[go(1,B,stop)] ."), 0);
        assert_eq!(shown(&once), "A[] go(0,B,stop)");
        assert_eq!(tick_number(&once, 0), 12);
        assert_eq!(engine().forced(&once).set, 1);
        assert_eq!(shown(&stepped(&once, 0)), "B[] stop");
        let inf = read_under(edition, "A[go(inf,B,stop)] .");
        let mut waited = inf.clone();
        waited.components[0].wait = 1;
        assert_eq!(tick(&inf, 0), waited);
    }
}

#[test]
fn what_is_not_ready_at_the_location_is_left_alone() {
    let text = "A[go(0,B,in(c,1,x,stop,stop))] | B[in(c,1,x,stop,stop)] .";
    let moved = act(&read_under(Two, text), 2, 0, 0);
    let after = tick(&moved, 1);
    assert_eq!(shown(&after), "B[A] in(c,1,x,stop,stop); B[] stop");
    let unmarked = tick(&moved, 0);
    assert_eq!(
        shown(&unmarked),
        "B[] in(c,1,x,stop,stop); B[] in(c,1,x,stop,stop)"
    );
}

// --- what does not look at the edition -----------------------------------------

#[test]
fn a_ready_pair_stops_the_tick_in_either_edition() {
    for (sent, heard) in [
        ("0", "0"),
        ("0", "1"),
        ("1", "0"),
        ("1", "1"),
        ("2", "1"),
        ("inf", "inf"),
    ] {
        let text = format!("A[out(c,{sent},B,stop,stop) | in(c,{heard},x,go(3,x,stop),stop)] .");
        for edition in Edition::BOTH {
            let network = read_under(edition, &text);
            assert_eq!(tick_number(&network, 0), 12, "{text}");
            assert_eq!(engine().forced(&network).set, 1, "{text}");
            let met = tick(&act(&network, 3, 0, 1), 0);
            assert_eq!(shown(&met), "A[] stop; A[] go(3,B,stop)");
            assert_eq!(shown(&stepped(&network, 0)), shown(&met));
        }
    }
}

#[test]
fn the_forced_report_and_the_steps_choice_are_the_same() {
    let text = "D=stop. A[out(c,1,B,stop,stop)|go(1,B,stop)|in(c,0,x,stop,stop)|D|go(0,B,stop)]
        | B[go(1,A,stop)|in(c,1,x,stop,stop)] .";
    let [one, two] = Edition::BOTH.map(|edition| read_under(edition, text));
    assert_eq!(engine().forced(&one), engine().forced(&two));
    for location in [0, 1] {
        let ((_, fired, labels), other) = (step(&one, location), step(&two, location));
        assert_eq!((fired, labels), (other.1, other.2));
    }
}

// --- comparing and writing -----------------------------------------------------

#[test]
fn networks_of_different_editions_are_not_the_same() {
    for text in ["A[stop] .", "D=stop. A[D|in(c,1,x,stop,stop)] ."] {
        let [one, two] = Edition::BOTH.map(|edition| read_under(edition, text));
        assert!(engine().same(&one, &one) && engine().same(&two, &two));
        assert!(!engine().same(&one, &two) && !engine().same(&two, &one));
        assert!(engine().same(&one, &two.under(One)));
        for variant in Variant::WRONG_SAME {
            assert!(Engine::new(variant).same(&one, &two), "{variant:?}");
        }
    }
}

#[test]
fn a_text_does_not_show_the_edition_and_is_read_back_under_its_own() {
    let text = "A[in(c,1,x,stop,stop)] | B[go(1,A,stop)] .";
    let [one, two] = Edition::BOTH.map(|edition| read_under(edition, text));
    assert_eq!(written(&one), written(&two));
    assert!(engine().same(&read_under(Two, &written(&two)), &two));
    assert!(!engine().same(&read(&written(&two)), &two));
}

// --- mixed runs ----------------------------------------------------------------

/// The article and its reader at timer 1: under edition 2 the reader has gone
/// when B has ticked.
#[test]
fn a_run_of_two_clocks_under_each_edition() {
    let text = "A[go(0,B,out(c,1,B,stop,stop))] | B[in(c,1,x,stop,stop)] .";
    let expected = [
        "B[] out(c,1,B,stop,stop); B[] in(c,0,x,stop,stop)",
        "B[] out(c,1,B,stop,stop); B[] stop",
    ];
    for (edition, expected) in Edition::BOTH.into_iter().zip(expected) {
        let read = read_under(edition, text);
        let last = tick(&tick(&act(&read, 2, 0, 0), 1), 0);
        assert_eq!(shown(&last), expected);
        let mut run = Run::new(&read);
        assert_eq!(run.action(Record::new(2, 0, 0)), Ok(()));
        assert_eq!(run.tick(1), Ok(()));
        assert_eq!(run.tick(0), Ok(()));
        assert_eq!(run.clone().finish(&last), Ok(()));
        let other = Edition::BOTH.into_iter().find(|other| *other != edition);
        let other = last.under(other.expect("another edition"));
        assert_eq!(run.finish(&other), Err(Broken::EditionChanged));
    }
}

#[test]
fn the_actions_of_a_whole_step_then_a_time_out() {
    let text = "D=in(d,1,x,stop,stop). A[D | out(c,1,A,stop,stop) | in(c,1,x,D,D)] .";
    let read = read_under(Two, text);
    let (first, records, _) = step(&read, 0);
    assert_eq!(
        shown(&first),
        "A[] in(d,1,x,stop,stop); A[] stop; A[] D",
        "what an action has made is not lowered in its step"
    );
    let second = stepped(&first, 0);
    assert_eq!(
        shown(&second),
        "A[] stop; A[] stop; A[] in(d,1,x,stop,stop)"
    );
    let mut run = Run::new(&read);
    assert_eq!(run.whole_step(0, &records), Ok(()));
    assert_eq!(run.whole_step(0, &[Record::new(1, 2, 0)]), Ok(()));
    assert_eq!(run.finish(&second), Ok(()));
}
