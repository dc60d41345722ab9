//! Document 02, R-1: how long articles waited. What waits and what does not, what a
//! communication adds, question 18 in its place, the mean and its line, question 17,
//! what passes over all of it, and the wrong variants.

mod common;
use std::collections::HashSet;

use common::cases::cases;
use common::*;
use timo_reference::calls::{Engine, Mean, Record};
use timo_reference::generate::call_list;
use timo_reference::layout::lay;
use timo_reference::lists::{self, Call};
use timo_reference::printout;
use timo_reference::program;
use timo_reference::rights;
use timo_reference::rules::Variant;
use timo_reference::runs::Run;
use timo_reference::table::{Test, COMPONENT, LEDGER, WAIT};
use timo_reference::term::{Component, Edition, Ledger, Network, Settings};

const LONGEST: u32 = Component::LONGEST_WAIT;
const MOST: u32 = Ledger::MOST_MESSAGES;

fn waits(network: &Network) -> Vec<u32> {
    network.components.iter().map(|c| c.wait).collect()
}

/// With these waits, which a table made by hand may have.
fn with_waits(mut network: Network, waits: &[u32]) -> Network {
    for (component, wait) in network.components.iter_mut().zip(waits) {
        component.wait = *wait;
    }
    network
}

fn with_messages(network: Network, messages: u32, total: u64) -> Network {
    network.after(Ledger { total, messages })
}

/// How many messages there were, and the total.
fn messages(network: &Network) -> (u32, u64) {
    (network.ledger.messages, network.ledger.total)
}

fn mean(network: &Network) -> Option<(u32, u32, u32)> {
    let of = |mean: Mean| (mean.quotient, mean.remainder, mean.count);
    engine().mean(network).map(of)
}

fn with_rights(text: &str, rights: &str) -> Network {
    let settings = rights::settings(text.as_bytes(), 1, Some(rights));
    read_with(&settings.expect("rights of the text's names"), text)
}

fn propose(network: &Network, location: u32, records: &[[u32; 3]]) -> Result<Network, u8> {
    let records: Vec<Record> = records
        .iter()
        .map(|[k, p, q]| Record::new(*k, *p, *q))
        .collect();
    let proposed = engine().proposal(network, location, &records);
    proposed
        .map(|(next, _)| next)
        .map_err(|refusal| refusal.number())
}

fn step_number(network: &Network, location: u32, room: usize) -> u8 {
    let mut lent = vec![Record::new(0, 0, 0); room];
    number(engine().step(network, location, &mut lent))
}

// --- what waits ----------------------------------------------------------------

#[test]
fn a_network_just_read_has_waited_for_nothing() {
    let network = read("D=stop. A[D|go(1,B,stop)|stop] | B[in(c,1,x,stop,stop)] .");
    assert_eq!(waits(&network), [0; 4]);
    assert_eq!(network.ledger, Ledger::default());
    assert_eq!(mean(&network), None);
}

#[test]
fn a_tick_at_its_location_is_one_more_for_what_has_a_timer() {
    let text = "A[go(5,B,stop)|out(c,5,B,stop,stop)|in(d,5,x,stop,stop)] | B[go(5,A,stop)] .";
    let once = tick(&read(text), 0);
    assert_eq!(waits(&once), [1, 1, 1, 0]);
    assert_eq!(waits(&tick(&once, 1)), [1, 1, 1, 1]);
    assert_eq!(waits(&tick(&tick(&once, 0), 0)), [3, 3, 3, 0]);
}

/// `inf` is kept by a tick and not lowered.
#[test]
fn inf_waits() {
    let text = "A[go(inf,B,stop)|out(c,inf,B,stop,stop)|in(d,inf,x,stop,stop)] | B[stop] .";
    assert_eq!(waits(&tick(&tick(&read(text), 0), 0)), [2, 2, 2, 0]);
}

/// It has no timer that a tick could lower or keep.
#[test]
fn stop_does_not_wait() {
    let network = read("A[stop|go(3,B,stop)] .");
    assert_eq!(waits(&tick(&network, 0)), [0, 1]);
    assert_eq!(waits(&tick(&with_waits(network, &[7, 7]), 0)), [7, 8]);
}

#[test]
fn a_move_at_0_without_its_right_waits() {
    let text = "A[go(0,B,stop) | go(1,B,stop)] | B[stop] .";
    let network = with_rights(text, "all\nwithhold leave A B");
    let twice = tick(&tick(&network, 0), 0);
    assert_eq!(waits(&twice), [2, 2, 0]);
    assert_eq!(
        shown(&twice),
        "A[] go(0,B,stop); A[] go(0,B,stop); B[] stop"
    );
}

/// A pair without its right waits and takes its Q in its time.
#[test]
fn a_pair_without_its_right_waits() {
    let text = "A[out(c,1,A,stop,go(9,A,stop)) | in(c,2,x,stop,stop)] .";
    let network = with_rights(text, "all\nwithhold send A c");
    let once = tick(&network, 0);
    assert_eq!(waits(&once), [1, 1]);
    assert_eq!(waits(&tick(&once, 0)), [0, 2]);
}

#[test]
fn what_takes_its_q_waits_anew_in_each_part() {
    let text = "A[in(c,0,x,stop,stop|go(3,B,stop)|out(d,inf,A,stop,stop))|go(9,B,stop)] .";
    let network = with_waits(read(text), &[5, 5]);
    let ticked = tick(&network, 0);
    assert_eq!(waits(&ticked), [0, 0, 0, 6]);
    assert_eq!(waits(&tick(&ticked, 0)), [0, 1, 1, 7]);
}

#[test]
fn under_edition_2_a_timer_of_1_takes_its_q_and_waits_anew() {
    let text = "A[out(c,1,A,stop,go(9,A,stop))] .";
    for (edition, after) in [(Edition::One, [6]), (Edition::Two, [0])] {
        let network = with_waits(read_under(edition, text), &[5]);
        assert_eq!(waits(&tick(&network, 0)), after);
    }
}

/// From the action on, and from the tick on that unmarks it.
#[test]
fn an_action_and_the_end_of_a_mark_begin_a_wait_anew() {
    let text = "D = go(2,A,stop) | stop . \
        A[D | go(3,B,go(2,A,stop)) | out(c,3,B,go(2,A,stop),stop) | in(c,3,x,go(2,A,stop),stop)] .";
    let network = with_waits(read(text), &[5, 6, 7, 8]);
    let called = act(&network, 1, 0, 0);
    assert_eq!(waits(&called), [0, 6, 7, 8]);
    let moved = act(&called, 2, 1, 0);
    assert_eq!(waits(&moved), [0, 0, 7, 8]);
    let met = act(&moved, 3, 2, 3);
    assert_eq!(waits(&met), [0; 4]);
    assert_eq!(
        waits(&tick(&met, 1)),
        [0; 4],
        "B's clock touches no mark of A"
    );
    let unmarked = tick(&tick(&met, 1), 0);
    assert_eq!(waits(&unmarked), [0; 5], "the call has two parts");
    assert_eq!(waits(&tick(&unmarked, 0)), [1, 0, 0, 1, 1]);
}

/// A table made by hand may have a mark and a wait: it is kept while the mark is.
#[test]
fn the_wait_of_a_mark_made_by_hand() {
    let moved = act(
        &read("A[go(0,B,go(2,A,stop)|stop)] | B[go(9,A,stop)] ."),
        2,
        0,
        0,
    );
    let network = with_waits(moved, &[5, 5]);
    let at_b = tick(&network, 1);
    assert_eq!(waits(&at_b), [5, 6]);
    assert_eq!(waits(&tick(&at_b, 0)), [0, 0, 6]);
}

#[test]
fn a_wait_halts() {
    let network = with_waits(
        read("A[go(inf,B,stop)|go(9,B,stop)|stop] ."),
        &[LONGEST - 1, LONGEST, LONGEST],
    );
    let once = tick(&network, 0);
    assert_eq!(waits(&once), [LONGEST; 3]);
    assert_eq!(waits(&tick(&once, 0)), [LONGEST; 3]);
    assert_eq!(
        shown(&once),
        "A[] go(inf,B,stop); A[] go(8,B,stop); A[] stop"
    );
}

/// A step and a proposal are their actions and the tick, waits and messages included.
#[test]
fn a_step_and_a_proposal_are_their_actions_and_the_tick() {
    for case in cases(80) {
        let mut network = case.network();
        for call in &case.calls {
            let (location, records) = match call {
                Call::Step { location, .. } => {
                    let mut lent = vec![Record::new(0, 0, 0); 256];
                    match engine().step(&network, *location, &mut lent) {
                        Ok(stepped) => (*location, lent[..stepped.labels.len()].to_vec()),
                        Err(_) => continue,
                    }
                }
                Call::Proposal { location, records } => (*location, records.clone()),
                other => {
                    network = call_list::next(&network, other).unwrap_or(network);
                    continue;
                }
            };
            let Ok((proposed, _)) = engine().proposal(&network, location, &records) else {
                continue;
            };
            let one = |network, r: &Record| act(&network, r.kind, r.p, r.q);
            let acted = records.iter().fold(network, one);
            assert_eq!(tick(&acted, location), proposed);
            network = proposed;
        }
    }
}

// --- messages ------------------------------------------------------------------

const LATE: &str = "A[out(c,9,B,stop,stop) | go(2,A,in(c,9,x,stop,stop))] | B[stop] .";

#[test]
fn a_communication_adds_the_wait_of_its_sender() {
    let network = read("A[out(c,9,B,stop,stop) | in(c,9,x,stop,stop)] .");
    let met = act(&with_waits(network.clone(), &[4, 70]), 3, 0, 1);
    assert_eq!((messages(&met), waits(&met)), ((1, 4), vec![0, 0]));
    let met = act(&with_waits(network.clone(), &[0, 70]), 3, 0, 1);
    assert_eq!(messages(&met), (1, 0));
    let again = with_messages(with_waits(network, &[4, 70]), 5, 11);
    assert_eq!(messages(&act(&again, 3, 0, 1)), (6, 15));
}

#[test]
fn an_article_waits_until_its_reader_comes() {
    let mut network = read(LATE);
    let mut seen = Vec::new();
    for _ in 0..4 {
        network = stepped(&network, 0);
        seen.push((waits(&network), messages(&network)));
    }
    let expected = [
        (vec![1, 1, 0], (0, 0)),
        (vec![2, 2, 0], (0, 0)),
        (vec![3, 0, 0], (0, 0)),
        (vec![0, 0, 0], (1, 3)),
    ];
    assert_eq!(seen, expected);
    assert_eq!(mean(&network), Some((3, 0, 1)));
}

#[test]
fn calls_and_moves_add_nothing() {
    let network = with_waits(read(CALLER), &[9, 9, 9]);
    for next in [act(&network, 1, 0, 0), act(&network, 2, 1, 0)] {
        assert_eq!(messages(&next), (0, 0));
    }
}

/// Two equal outputs: the one that is named gives its own wait, and the other keeps
/// its own.
#[test]
fn two_equal_outputs_with_different_waits() {
    let text = "A[out(c,9,B,stop,stop)|out(c,9,B,stop,stop)|in(c,9,x,stop,stop)] .";
    let network = with_waits(read(text), &[2, 5, 0]);
    for (p, total, left) in [(0, 2, vec![0, 5, 0]), (1, 5, vec![2, 0, 0])] {
        let met = act(&network, 3, p, 2);
        assert_eq!((messages(&met), waits(&met)), ((1, total), left));
    }
}

/// The grouped run may take the equal output that has waited less: components are
/// claimed, waits and totals are not.
#[test]
fn the_grouped_run_may_take_another_equal_output() {
    let text =
        "A[go(1,A,out(c,9,B,stop,stop)) | out(c,9,B,stop,stop) | go(3,A,in(c,9,x,stop,stop))] .";
    let network = read(text);
    let mut run = Run::new(&network);
    let mut now = network;
    for records in [&[][..], &[[2, 0, 0]], &[[2, 2, 0]], &[[3, 1, 2]]] {
        let list: Vec<Record> = records
            .iter()
            .map(|[k, p, q]| Record::new(*k, *p, *q))
            .collect();
        now = propose(&now, 0, records).expect("a proposal");
        assert_eq!(run.whole_step(0, &list), Ok(()));
    }
    assert_eq!(messages(&now), (1, 3));
    assert_eq!(run.clone().finish(&now), Ok(()));
    let other = with_messages(with_waits(now, &[9, 9, 9]), 7, 7);
    assert_eq!(
        run.finish(&other),
        Ok(()),
        "waits and messages are not compared"
    );
}

/// A total of 2^32 and more, and the largest.
#[test]
fn totals_past_32_bits() {
    let pair = read("A[out(c,9,B,stop,stop) | in(c,9,x,stop,stop)] .");
    let pair = with_waits(pair, &[LONGEST, 0]);
    let near = with_messages(pair.clone(), 4_295, (1 << 32) - 1);
    assert_eq!(messages(&act(&near, 3, 0, 1)), (4_296, (1 << 32) + 999_999));
    let largest = with_messages(pair, MOST - 1, 999_999_000_000);
    let full = act(&largest, 3, 0, 1);
    assert_eq!(messages(&full), (MOST, 1_000_000_000_000));
    assert_eq!(mean(&full), Some((LONGEST, 0, MOST)));
}

/// Every refusal leaves waits and messages.
#[test]
fn a_refusal_changes_nothing() {
    let mut refused = HashSet::new();
    for case in cases(60) {
        let mut network = case.network();
        for call in &case.calls {
            let before = network.clone();
            let answer = match call {
                Call::Action(record) => number(engine().action(&network, *record)),
                Call::Tick(location) => number(engine().tick(&network, *location)),
                Call::Step { location, room } => step_number(&network, *location, *room),
                Call::Proposal { location, records } => {
                    number(engine().proposal(&network, *location, records))
                }
                _ => 0,
            };
            assert_eq!(network, before);
            if answer == 0 {
                network = call_list::next(&network, call).unwrap_or(network);
            }
            refused.insert(answer);
        }
    }
    assert!((8..=13)
        .chain([15, 16, 18, 20])
        .all(|n| refused.contains(&n)));
}

// --- question 18 ---------------------------------------------------------------

/// Two pairs at A, and one at B that nothing stops.
const PAIRS: &str = "A[out(c,9,A,stop,stop)|in(c,9,x,stop,stop)|out(c,9,A,stop,stop)|\
    in(c,9,x,stop,stop)|go(9,B,stop)] | B[go(2,A,stop)] .";

#[test]
fn a_full_count_refuses_the_action_and_the_step_and_a_pair_still_stops_the_tick() {
    let full = with_messages(read(PAIRS), MOST, 0);
    assert_eq!(act_number(&full, 3, 0, 1), 18);
    assert_eq!(step_number(&full, 0, 256), 18);
    assert_eq!(tick_number(&full, 0), 12);
    assert_eq!(engine().forced(&full).set, 1);
    assert_eq!(propose(&full, 0, &[[3, 0, 1], [3, 2, 3]]), Err(18));
    assert_eq!(propose(&full, 0, &[]), Err(12));
}

#[test]
fn a_full_count_does_not_matter_to_anything_else() {
    let full = with_messages(read(PAIRS), MOST, 0);
    let free = read(PAIRS);
    assert_eq!(act_number(&full, 2, 4, 0), 0);
    assert_eq!(tick_number(&full, 1), 0);
    assert_eq!(step_number(&full, 1, 0), 0);
    assert_eq!(propose(&full, 1, &[[2, 5, 0]]).err(), None);
    assert_eq!(waits(&tick(&full, 1)), waits(&tick(&free, 1)));
    assert!(engine().same(&full, &free));
    let label = engine().label(&full, Record::new(3, 0, 1));
    assert_eq!(
        label.map(|label| label.to_string()),
        Ok("c<A>@A".to_string())
    );
}

#[test]
fn a_step_asks_for_room_for_all_its_messages() {
    let network = read(PAIRS);
    let with = |messages| with_messages(network.clone(), messages, 0);
    assert_eq!(step_number(&with(MOST - 1), 0, 256), 18);
    assert_eq!(step_number(&with(MOST - 2), 0, 256), 0);
    assert_eq!(messages(&stepped(&with(MOST - 2), 0)), (MOST, 0));
    assert_eq!(act_number(&with(MOST - 1), 3, 0, 1), 0);
}

/// Each record of a proposal is counted before the next one is asked.
#[test]
fn a_proposal_counts_as_it_goes() {
    let network = read(PAIRS);
    let with = |messages| with_messages(network.clone(), messages, 0);
    let both = [[3, 0, 1], [3, 2, 3]];
    assert_eq!(propose(&with(MOST - 1), 0, &both), Err(18));
    let done = propose(&with(MOST - 2), 0, &both).expect("two messages more");
    assert_eq!(messages(&done), (MOST, 0));
    assert_eq!(propose(&with(MOST - 1), 0, &[[3, 0, 1], [9, 0, 0]]), Err(8));
    assert_eq!(propose(&with(MOST - 1), 0, &[[3, 0, 1], [3, 0, 1]]), Err(9));
    assert_eq!(
        propose(&with(MOST - 1), 0, &[[3, 0, 1]]),
        Err(12),
        "a pair is left"
    );
}

#[test]
fn eighteen_comes_after_8_9_10_11_and_20() {
    let text = "A[out(c,9,A,stop,stop)|in(c,9,x,stop,stop)|in(d,9,x,stop,stop)|\
        out(c,9,A,stop,stop)|out(d,9,A,stop,stop)] | B[in(c,9,x,stop,stop)] .";
    let network = with_rights(text, "all\nwithhold send A d");
    let full = with_messages(network, MOST, 0);
    let marked = with_messages(act(&with_messages(full.clone(), 0, 0), 3, 3, 1), MOST, 0);
    assert_eq!(act_number(&full, 3, 0, 99), 8);
    assert_eq!(act_number(&marked, 3, 0, 1), 9);
    assert_eq!(act_number(&full, 3, 0, 3), 10);
    assert_eq!(act_number(&full, 3, 0, 2), 11, "another channel");
    assert_eq!(act_number(&full, 3, 0, 5), 11, "another location");
    assert_eq!(act_number(&full, 3, 4, 2), 20);
    assert_eq!(act_number(&full, 3, 0, 1), 18);
    let label = |p, q| engine().label(&full, Record::new(3, p, q));
    assert_eq!([number(label(4, 2)), number(label(0, 1))], [20, 0]);
}

#[test]
fn eighteen_comes_before_16_in_a_proposal() {
    let full = with_messages(read(PAIRS), MOST, 0);
    let free = with_messages(read(PAIRS), MOST - 1, 0);
    assert_eq!(propose(&full, 1, &[[3, 0, 1]]), Err(18));
    assert_eq!(propose(&free, 1, &[[3, 0, 1]]), Err(16));
    assert_eq!(propose(&full, 1, &[[2, 4, 0], [3, 0, 1]]), Err(16));
}

/// 255 `stop` and two components that meet, of which one has two parts: the step
/// would need 258.
#[test]
fn eighteen_comes_after_15_and_before_13_in_a_step() {
    let stops = "A[stop] | ".repeat(254);
    let text = format!("{stops}A[out(c,9,A,stop|stop,stop)|in(c,9,x,stop,stop)] .");
    let network = read(&text);
    let full = with_messages(network.clone(), MOST, 0);
    assert_eq!(step_number(&full, 0, 0), 15);
    assert_eq!(step_number(&full, 0, 1), 18);
    assert_eq!(step_number(&network, 0, 1), 13);
    assert_eq!(propose(&full, 0, &[[3, 254, 255]]), Err(18));
    assert_eq!(propose(&network, 0, &[[3, 254, 255]]), Err(13));
}

/// Once the count is full the location is stuck: its pair neither meets nor times out.
#[test]
fn a_location_with_a_pair_is_stuck_at_a_full_count() {
    let full = with_messages(
        read("A[out(c,0,A,stop,stop)|in(c,0,x,stop,stop)] ."),
        MOST,
        0,
    );
    assert_eq!(tick_number(&full, 0), 12);
    assert_eq!(step_number(&full, 0, 256), 18);
    assert_eq!(act_number(&full, 3, 0, 1), 18);
}

// --- the mean ------------------------------------------------------------------

#[test]
fn the_mean_is_a_quotient_with_its_exact_remainder() {
    let network = read("A[stop] .");
    let of = |messages, total| mean(&with_messages(network.clone(), messages, total));
    assert_eq!(of(0, 0), None);
    assert_eq!(of(1, 0), Some((0, 0, 1)));
    assert_eq!(of(2, 3), Some((1, 1, 2)));
    assert_eq!(of(3, 2), Some((0, 2, 3)));
    assert_eq!(of(4_295, (1 << 32) + 3), Some((999_992, 1_659, 4_295)));
    let largest_remainder = Some((999_999, 999_998, 999_999));
    assert_eq!(of(999_999, 999_998_999_999), largest_remainder);
    assert_eq!(of(MOST, 1_000_000_000_000), Some((1_000_000, 0, MOST)));
    assert_eq!(of(MOST, 999_999_999_999), Some((999_999, 999_999, MOST)));
}

/// What `timorun` would print of so many messages.
fn line(messages: u32, total: u64) -> String {
    let network = with_messages(read("A[stop] ."), messages, total);
    program::mean_line(engine(), &network)
}

#[test]
fn a_half_goes_to_the_even_tick() {
    let cases = [
        (0, 0, "-\n"),
        (1, 0, "0\n"),
        (1, 1, "1\n"),
        (2, 1, "0\n"),
        (2, 3, "2\n"),
        (2, 5, "2\n"),
        (2, 7, "4\n"),
        (3, 1, "0\n"),
        (3, 2, "1\n"),
        (3, 4, "1\n"),
        (3, 5, "2\n"),
        (4, 1, "0\n"),
        (4, 2, "0\n"),
        (4, 3, "1\n"),
        (4, 6, "2\n"),
        (4, 10, "2\n"),
        (6, 3, "0\n"),
        (6, 9, "2\n"),
        (999_999, 499_999, "0\n"),
        (999_999, 500_000, "1\n"),
        (1_000_000, 499_999, "0\n"),
        (1_000_000, 500_000, "0\n"),
        (1_000_000, 500_001, "1\n"),
        (1_000_000, 1_500_000, "2\n"),
        (1_000_000, 999_998_500_000, "999998\n"),
        (1_000_000, 999_998_500_001, "999999\n"),
        (1_000_000, 999_999_499_999, "999999\n"),
        (1_000_000, 999_999_500_000, "1000000\n"),
        (1_000_000, 1_000_000_000_000, "1000000\n"),
    ];
    for (messages, total, expected) in cases {
        assert_eq!(line(messages, total), expected, "{messages} {total}");
    }
}

fn printed(engine: Engine, text: &str) -> String {
    let mut bytes = Vec::new();
    program::run(engine, text.as_bytes(), &mut bytes).expect("a buffer");
    String::from_utf8(bytes).expect("ASCII")
}

/// One reader is there and one comes after one tick: waits of 0 and 1.
const ONE_HALF: &str = "A[out(c,9,A,stop,stop) | out(c,9,A,stop,stop) | \
    in(c,9,x,stop,stop) | go(0,A,in(c,9,x,stop,stop))] .";

/// Two readers come after two ticks and after three.
const TWO_AND_A_HALF: &str = "A[out(c,9,A,stop,stop) | out(c,9,A,stop,stop) | \
    go(1,A,in(c,9,x,stop,stop)) | go(2,A,in(c,9,x,stop,stop))] .";

/// Two readers come after one tick and after two: waits of 1 and 2.
const ONE_AND_A_HALF: &str = "A[out(c,9,A,stop,stop) | out(c,9,A,stop,stop) | \
    go(0,A,in(c,9,x,stop,stop)) | go(1,A,in(c,9,x,stop,stop))] .";

#[test]
fn the_mean_is_the_last_line_of_a_printout() {
    let nothing = "A\nA\nA\nA\nA[stop] .\n-\n";
    assert_eq!(printed(engine(), "A[stop] ."), nothing);
    let late = "A\nA\nA A@A\nA c<B>@A\n";
    let steps = printed(engine(), LATE).replace("B\n", "");
    assert!(
        steps.starts_with(late) && steps.ends_with(" .\n3\n"),
        "{steps}"
    );
    for (text, last) in [
        (ONE_HALF, "0"),
        (ONE_AND_A_HALF, "2"),
        (TWO_AND_A_HALF, "2"),
    ] {
        let half = printed(engine(), text);
        let end = format!("A[stop] | A[stop] | A[stop] | A[stop] .\n{last}\n");
        assert!(half.ends_with(&end), "{half}");
    }
}

#[test]
fn after_a_refusal_there_is_no_mean() {
    assert_eq!(printed(engine(), ""), "refused 2\n");
    let grows = "D = D | D | D | D | D . A[D | out(c,0,A,stop,stop) | in(c,0,x,stop,stop)] .";
    let text = printed(engine(), grows);
    assert!(
        text.starts_with("A D@A c<A>@A\n") && text.ends_with("\nrefused 13\n"),
        "{text}"
    );
}

// --- what passes over waits and messages ---------------------------------------

#[test]
fn same_and_writing_pass_over_waits_and_messages() {
    let network = read("A[go(inf,B,stop) | stop] .");
    let waited = with_messages(tick(&tick(&network, 0), 0), 3, 5);
    assert_eq!(waits(&waited), [2, 0]);
    assert!(engine().same(&network, &waited) && engine().same(&waited, &network));
    assert_eq!(written(&waited), written(&network));
    let back = read(&written(&waited));
    assert_eq!((waits(&back), messages(&back)), (vec![0, 0], (0, 0)));
    let exchanged = with_waits(read("A[stop | go(inf,B,stop)] ."), &[7, 9]);
    assert!(engine().same(&waited, &exchanged));
}

#[test]
fn components_are_equal_whatever_their_waits() {
    let [one, other] = [1, 2].map(|wait| with_waits(read("A[stop] ."), &[wait]).components);
    assert!(one[0].is_equal(&other[0]) && one != other);
}

// --- question 17 ---------------------------------------------------------------

#[test]
fn question_17_asks_for_the_range_of_waits_and_messages() {
    let network = read("A[go(9,B,stop) | stop] .");
    let with = |wait: u32, [low, high, count]: [u32; 3]| {
        let mut laid = lay(&network).expect("a small network");
        laid.components[COMPONENT + WAIT] = wait;
        laid.components[LEDGER..LEDGER + 3].copy_from_slice(&[low, high, count]);
        laid.components[2 * COMPONENT + WAIT] = u32::MAX;
        laid.components[LEDGER + 3..].fill(u32::MAX);
        laid.table().network().map_err(|fault| fault.test)
    };
    let good = with(LONGEST, [0, 0, MOST]).expect("in range");
    assert_eq!(
        (waits(&good), messages(&good)),
        (vec![0, LONGEST], (MOST, 0))
    );
    let largest = with(0, [3_567_587_328, 232, MOST]).expect("in range");
    assert_eq!(messages(&largest), (MOST, 1_000_000_000_000));
    for (wait, ledger, test) in [
        (LONGEST + 1, [0, 0, 0], Test::Wait),
        (u32::MAX, [0, 0, 0], Test::Wait),
        (0, [0, 0, MOST + 1], Test::Messages),
        (0, [0, 0, u32::MAX], Test::Messages),
        (0, [1, 0, 0], Test::Total),
        (0, [1_000_001, 0, 1], Test::Total),
        (0, [0, 1, 4_294], Test::Total),
        (0, [3_567_587_329, 232, MOST], Test::Total),
        (0, [0, 233, MOST], Test::Total),
        (0, [0, u32::MAX, MOST], Test::Total),
    ] {
        assert_eq!(with(wait, ledger).err(), Some(test), "{wait} {ledger:?}");
    }
    assert!(with(0, [0, 1, 4_295]).is_ok());
    assert!(with(0, [1_000_000, 0, 1]).is_ok());
}

#[test]
fn a_network_is_laid_out_with_its_waits_and_messages() {
    let network = with_messages(tick(&read(LATE), 0), MOST, (7 << 32) + 9);
    let laid = lay(&network).expect("a small network");
    assert_eq!(laid.components[LEDGER..LEDGER + 4], [9, 7, MOST, 0]);
    assert_eq!(laid.components[WAIT], 1);
    assert_eq!(laid.table().network(), Ok(network));
}

// --- what a host writes --------------------------------------------------------

#[test]
fn what_a_host_writes_has_to_be_in_range() {
    let network = read("A[go(9,B,stop) | stop] .");
    let after = |line: &str| {
        let calls = lists::parse(line).expect("a list");
        calls[0].written_into(&network)
    };
    let waited = after("wait 1 1000000\n").expect("in range");
    assert_eq!(waits(&waited), [0, LONGEST]);
    let counted = after("messages 1000000 1000000000000\n").expect("in range");
    assert_eq!(messages(&counted), (MOST, 1_000_000_000_000));
    for line in [
        "wait 2 0\n",
        "wait 0 1000001\n",
        "messages 0 1\n",
        "messages 1000001 0\n",
        "messages 1000000 1000000000001\n",
    ] {
        assert_eq!(after(line), None, "{line}");
    }
    for line in ["wait 0\n", "messages 1\n", "messages -1 0\n", "mean 0\n"] {
        assert!(lists::parse(line).is_err(), "{line}");
    }
}

/// Lists reach waits at their longest, totals of 33 bits and more, and a full count
/// with a pair.
#[test]
fn random_lists_reach_the_limits() {
    let (mut halted, mut large, mut carried, mut stuck) = (0, 0, 0, 0);
    for case in cases(120) {
        let mut network = case.network();
        for call in &case.calls {
            let before = network.ledger;
            network = call_list::next(&network, call).unwrap_or(network);
            let written = matches!(call, Call::Wait { .. } | Call::Messages(_));
            let added = !written && network.ledger.total > before.total;
            let high = |ledger: Ledger| ledger.total >> 32;
            large += usize::from(added && high(network.ledger) > 0);
            carried += usize::from(added && high(network.ledger) > high(before));
            let ticks = matches!(call, Call::Tick(_) | Call::Step { .. });
            halted += usize::from(ticks && waits(&network).contains(&LONGEST));
            let full = network.ledger.messages == MOST;
            stuck += usize::from(full && engine().forced(&network).count > 0);
        }
    }
    let seen = [halted, large, carried, stuck];
    assert!(seen.iter().all(|count| *count >= 10), "{seen:?}");
}

// --- wrong variants ------------------------------------------------------------

/// What an engine answers to a list under edition 1, with all rights or without that
/// to leave A.
fn answers(engine: Engine, rights: &str, text: &str, list: &str) -> String {
    let calls = lists::parse(list).expect("calls");
    let settings = rights::settings(text.as_bytes(), 1, Some(rights)).expect("rights");
    printout::answers(engine, text.as_bytes(), &settings, &calls)
}

const ALL: &str = "all";
const PAIR: &str = "A[out(c,9,B,stop,stop)|in(c,9,x,stop,stop)] .";
const TWO_PAIRS: &str = "A[out(c,9,A,stop,stop)|in(c,9,x,stop,stop)|out(c,9,A,stop,stop)|\
    in(c,9,x,stop,stop)] | B[go(9,A,stop)] .";
const GROWS: &str = "P = out(c,1,A,P,P) . R = in(c,1,x,R,R) . G = G|G|G|G|G . A[P|R|G] .";
const FULL: &str = "messages 1000000 0\n";

/// For each mistake a script and a list that show it, with the right that is withheld.
fn shown_by(variant: Variant) -> (&'static str, &'static str, String) {
    let full = |list: &str| format!("{FULL}{list}");
    let near = |list: &str| format!("messages 999999 0\n{list}");
    let of = |text, list: &str| (ALL, text, list.to_string());
    match variant {
        Variant::AddsReceiversWait => of(PAIR, "wait 1 5\naction 3 0 1\n"),
        Variant::AddsBothWaits => of(PAIR, "wait 1 5\naction 3 0 1\n"),
        Variant::AddsWaitAfterReset => of(PAIR, "wait 0 5\naction 3 0 1\n"),
        Variant::TotalHas32Bits => of(PAIR, "wait 0 5\nmessages 4295 4294967291\naction 3 0 1\n"),
        Variant::CountsMoves => of("A[go(0,B,stop)] .", "action 2 0 0\n"),
        Variant::CountsRefusals => of("A[go(0,B,stop)] .", "tick 0\naction 2 0 0\n"),
        Variant::WaitPassesLongest => of("A[go(9,B,stop)] .", "wait 0 1000000\ntick 0\n"),
        Variant::WaitsAtEveryTick => of("A[go(9,B,stop)] .", "tick 1\n"),
        Variant::MarkedWaits => of("A[go(0,B,stop)] .", "action 2 0 0\ntick 1\n"),
        Variant::StopWaits => of("A[stop] .", "tick 0\n"),
        Variant::InfDoesNotWait => of("A[out(c,inf,A,stop,stop)] .", "tick 0\n"),
        Variant::StuckGoDoesNotWait => (
            "all\nwithhold leave A B",
            "A[go(0,B,stop)] .",
            "tick 0\n".to_string(),
        ),
        Variant::QKeepsWait => of("A[out(c,1,A,stop,stop)] .", "tick 0\ntick 0\n"),
        Variant::QHasWaited => of("A[out(c,0,A,stop,stop)] .", "tick 0\n"),
        Variant::UnmarkingKeepsWait => of("A[go(0,B,stop)] .", "action 2 0 0\nwait 0 5\ntick 0\n"),
        Variant::UnmarkedHasWaited => of("A[go(0,B,stop)] .", "step 0 9\n"),
        Variant::MoveKeepsWait => of("A[go(1,B,stop)] .", "tick 0\naction 2 0 0\n"),
        Variant::MeetingKeepsWaits => of(PAIR, "wait 1 5\naction 3 0 1\n"),
        Variant::CallKeepsWait => of("D=stop.A[D].", "wait 0 5\naction 1 0 0\n"),
        Variant::FullCountStopsTick => (ALL, "A[stop] .", full("tick 0\n")),
        Variant::FullCountFreesPair => (ALL, PAIR, full("forced\n")),
        Variant::FullCountStopsStep => (ALL, "A[stop] .", full("step 0 9\n")),
        Variant::StepAsksForOneMessage => (ALL, TWO_PAIRS, near("step 0 9\n")),
        Variant::AsksCountBeforeRoom => (ALL, PAIR, full("step 0 0\n")),
        Variant::AsksCountAfterSize => {
            let list = format!("{}{FULL}step 0 256\n", "step 0 256\n".repeat(3));
            (ALL, GROWS, list)
        }
        Variant::AsksCountBeforeRight => ("none", PAIR, full("action 3 0 1\n")),
        Variant::AsksCountBeforeMeeting => (
            ALL,
            "A[out(c,9,B,stop,stop)|in(d,9,x,stop,stop)] .",
            full("action 3 0 1\n"),
        ),
        Variant::AsksCountAfterPlace => (ALL, TWO_PAIRS, full("proposal 1 3 0 1\n")),
        Variant::AsksCountOfBefore => (ALL, TWO_PAIRS, near("proposal 0 3 0 1 3 2 3\n")),
        Variant::SameLooksAtWaits => of("A[go(inf,B,stop)] .", "tick 0\nsame\n"),
        Variant::SameLooksAtMessages => of("A[stop] .", "messages 1 0\nsame\n"),
        other => panic!("{other:?} is no mistake in waits"),
    }
}

#[test]
fn every_wrong_variant_is_shown_by_a_small_list() {
    for variant in Variant::WRONG_WAITS {
        let (rights, text, list) = shown_by(variant);
        let [right, wrong] =
            [engine(), Engine::new(variant)].map(|engine| answers(engine, rights, text, &list));
        assert_ne!(wrong, right, "{variant:?}");
        assert!(right.ends_with("run ok\n"), "{variant:?}");
    }
}

/// Without ticks, messages and a full count a mistake in waits shows nothing.
#[test]
fn a_wrong_variant_changes_nothing_else() {
    let list = "forced\naction 1 0 0\naction 2 1 0\nwrite 999\nsame\nmean\n";
    let right = answers(engine(), ALL, CALLER, list);
    for variant in Variant::WRONG_WAITS {
        if !matches!(variant, Variant::CountsMoves | Variant::CountsRefusals) {
            let wrong = answers(Engine::new(variant), ALL, CALLER, list);
            assert_eq!(wrong, right, "{variant:?}");
        }
    }
}

#[test]
fn every_wrong_mean_is_shown_by_a_printout() {
    let pair = "out(d,0,A,stop,stop) | in(d,0,x,stop,stop)";
    let third =
        format!("A[{pair} | {pair} | out(c,9,A,stop,stop) | go(0,A,in(c,9,x,stop,stop))] .");
    for (variant, text) in [
        (Variant::MeanRoundsDown, ONE_AND_A_HALF),
        (Variant::MeanRoundsUp, &third),
        (Variant::HalfGoesDown, ONE_AND_A_HALF),
        (Variant::HalfGoesUp, ONE_HALF),
        (Variant::HalfGoesUp, TWO_AND_A_HALF),
        (Variant::HalfGoesToOdd, ONE_HALF),
        (Variant::HalfGoesToOdd, ONE_AND_A_HALF),
        (Variant::HalfByRemainder, ONE_HALF),
        (Variant::HalfByRemainder, TWO_AND_A_HALF),
        (Variant::MeanAfterRefusal, ""),
    ] {
        let [right, wrong] = [engine(), Engine::new(variant)].map(|engine| printed(engine, text));
        assert_ne!(wrong, right, "{variant:?}");
    }
    let right = printed(engine(), "A[stop] .");
    for variant in Variant::WRONG_PRINTOUTS {
        assert_eq!(printed(Engine::new(variant), "A[stop] ."), right);
    }
}

/// The settings of a list stay as they were, whatever a host writes.
#[test]
fn messages_stay_with_the_network_under_another_edition_and_other_rights() {
    let network = with_messages(read(LATE), 3, 4);
    let rights = Settings::all(2).rights;
    let other = network.under(Edition::Two).with_rights(rights);
    assert_eq!(messages(&other), (3, 4));
}
