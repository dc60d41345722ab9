//! Document 01, *Twelve examples for the proofs*, under edition 1, and those that
//! are different under edition 2: 4, 7, 8 and 10.

mod common;
use common::*;
use timo_reference::term::{Edition, Network};

const SEVEN: &str = "A[go(0,B,out(c,1,B,stop,stop))] | B[in(c,1,x,stop,stop)] .";

#[test]
fn example_1_a_pair_at_zero_stops_the_tick() {
    let network = read("A[out(c,0,B,stop,stop) | in(c,0,x,go(3,x,stop),stop)] .");
    assert_eq!(tick_number(&network, 0), 12);
}

#[test]
fn example_2_the_pair_meets_then_the_tick() {
    let network = read("A[out(c,0,B,stop,stop) | in(c,0,x,go(3,x,stop),stop)] .");
    let after = tick(&act(&network, 3, 0, 1), 0);
    assert_eq!(written(&after), "A[stop] | A[go(3,B,stop)] .\n");
}

#[test]
fn example_3_an_output_at_zero_becomes_its_q() {
    let network = read("A[out(c,0,B,stop,go(1,B,stop))] .");
    assert_eq!(written(&tick(&network, 0)), "A[go(1,B,stop)] .\n");
}

#[test]
fn example_4_an_output_at_one_ticks_to_zero() {
    let network = read("A[out(c,1,B,stop,stop)] .");
    assert_eq!(written(&tick(&network, 0)), "A[out(c,0,B,stop,stop)] .\n");
}

#[test]
fn example_5_a_move_at_zero_stops_the_second_tick() {
    let once = tick(&read("A[go(1,B,stop)] ."), 0);
    assert_eq!(written(&once), "A[go(0,B,stop)] .\n");
    assert_eq!(tick_number(&once, 0), 12);
}

#[test]
fn example_6_inf_ticks_to_itself() {
    let network = read("A[go(inf,B,stop)] .");
    let mut waited = network.clone();
    waited.components[0].wait = 1;
    assert_eq!(tick(&network, 0), waited);
}

#[test]
fn example_7_the_other_clock_leaves_the_mark() {
    let network = tick(&act(&read(SEVEN), 2, 0, 0), 1);
    assert_eq!(
        shown(&network),
        "B[A] out(c,1,B,stop,stop); B[] in(c,0,x,stop,stop)"
    );
}

#[test]
fn example_8_the_mark_goes_with_its_owners_tick() {
    let seven = read(SEVEN);
    let marked = tick(&act(&seven, 2, 0, 0), 1);
    assert_eq!(act_number(&marked, 3, 0, 1), 9);
    let m = tick(&marked, 0);
    assert_eq!(act_number(&m, 3, 0, 1), 0);
    assert!(engine().same(&stepped(&stepped(&seven, 1), 0), &m));
    assert!(!engine().same(&stepped(&stepped(&seven, 0), 1), &m));
}

#[test]
fn example_9_the_inner_binder_stops_the_value_but_not_in_its_q() {
    let text = "A[out(c,0,B,stop,stop) | in(c,0,x,in(c,0,x,go(0,x,stop),go(0,x,stop)),stop)] .";
    let network = act(&read(text), 3, 0, 1);
    assert_eq!(
        shown(&network),
        "A[A] stop; A[A] in(c,0,x,go(0,x,stop),go(0,B,stop))"
    );
}

#[test]
fn example_10_a_step_goes_through_the_outputs_upward() {
    let text = "A[out(c,1,B,stop,stop) | out(c,1,A,stop,stop) | in(c,1,x,go(0,x,stop),stop)] .";
    let expected = "A[stop] | A[out(c,0,A,stop,stop)] | A[go(0,B,stop)] .\n";
    assert_eq!(written(&stepped(&read(text), 0)), expected);
}

#[test]
fn example_11_a_split_past_256_is_refused_13() {
    let stops = vec!["stop"; 255].join(" | ");
    let network = read(&format!("D = stop | stop . A[D | {stops}] ."));
    let marked = act(&network, 1, 0, 0);
    assert_eq!(marked.components.len(), 256);
    assert_eq!(tick_number(&marked, 0), 13);
}

#[test]
fn example_12_the_empty_text_is_refused_2() {
    assert_eq!(question(""), 2);
}

// --- under edition 2 -----------------------------------------------------------

fn read_2(text: &str) -> Network {
    read_under(Edition::Two, text)
}

#[test]
fn examples_1_2_3_5_6_9_11_and_12_hold_under_edition_2_too() {
    let pair = read_2("A[out(c,0,B,stop,stop) | in(c,0,x,go(3,x,stop),stop)] .");
    assert_eq!(tick_number(&pair, 0), 12);
    let met = tick(&act(&pair, 3, 0, 1), 0);
    assert_eq!(written(&met), "A[stop] | A[go(3,B,stop)] .\n");
    let at_zero = tick(&read_2("A[out(c,0,B,stop,go(1,B,stop))] ."), 0);
    assert_eq!(written(&at_zero), "A[go(1,B,stop)] .\n");
    let lowered = tick(&at_zero, 0);
    assert_eq!(written(&lowered), "A[go(0,B,stop)] .\n");
    assert_eq!(tick_number(&lowered, 0), 12);
    let inf = read_2("A[go(inf,B,stop)] .");
    let mut waited = inf.clone();
    waited.components[0].wait = 1;
    assert_eq!(tick(&inf, 0), waited);
    let text = "A[out(c,0,B,stop,stop) | in(c,0,x,in(c,0,x,go(0,x,stop),go(0,x,stop)),stop)] .";
    assert_eq!(
        shown(&act(&read_2(text), 3, 0, 1)),
        "A[A] stop; A[A] in(c,0,x,go(0,x,stop),go(0,B,stop))"
    );
    let stops = vec!["stop"; 255].join(" | ");
    let full = read_2(&format!("D = stop | stop . A[D | {stops}] ."));
    assert_eq!(tick_number(&act(&full, 1, 0, 0), 0), 13);
    assert_eq!(question_under(2, ""), 2);
}

#[test]
fn example_4_under_edition_2_takes_its_q() {
    let network = read_2("A[out(c,1,B,stop,stop)] .");
    assert_eq!(written(&tick(&network, 0)), "A[stop] .\n");
}

#[test]
fn examples_7_and_8_under_edition_2_the_input_has_gone() {
    let seven = read_2(SEVEN);
    let marked = tick(&act(&seven, 2, 0, 0), 1);
    assert_eq!(shown(&marked), "B[A] out(c,1,B,stop,stop); B[] stop");
    assert_eq!(act_number(&marked, 3, 0, 1), 9);
    let m = tick(&marked, 0);
    assert_eq!(act_number(&m, 3, 0, 1), 10);
    assert!(engine().same(&stepped(&stepped(&seven, 1), 0), &m));
    assert!(!engine().same(&stepped(&stepped(&seven, 0), 1), &m));
}

#[test]
fn example_10_under_edition_2_the_output_left_takes_its_q() {
    let text = "A[out(c,1,B,stop,stop) | out(c,1,A,stop,stop) | in(c,1,x,go(0,x,stop),stop)] .";
    let expected = "A[stop] | A[stop] | A[go(0,B,stop)] .\n";
    assert_eq!(written(&stepped(&read_2(text), 0)), expected);
}
