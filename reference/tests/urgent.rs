//! Document 02, R-3: the most urgent reader first. What a step chooses, what does
//! not count for it, what may choose otherwise, and the wrong choices.

mod common;
use common::cases::cases;
use common::*;
use timo_reference::calls::{Engine, Record};
use timo_reference::generate::call_list;
use timo_reference::lists::{self, Call};
use timo_reference::printout;
use timo_reference::rights;
use timo_reference::rules::{Rules, Variant};
use timo_reference::runs::Run;
use timo_reference::term::{Component, Edition, Network, Part, Settings, Timer};

/// The outputs and inputs that the step at the first location lets meet, in order.
fn met(network: &Network) -> Vec<(u32, u32)> {
    let (_, records, _) = step(network, 0);
    let meeting = |record: &Record| (record.kind == 3).then_some((record.p, record.q));
    records.iter().filter_map(meeting).collect()
}

/// So many outputs on c at A, then an input with each timer. The location is
/// numbered 0.
fn heads(outputs: usize, timers: &[&str]) -> Network {
    let output = "out(c,9,A,stop,stop)".to_string();
    let input = |timer: &&str| format!("in(c,{timer},x,stop,stop)");
    let inputs = timers.iter().map(input);
    let parts: Vec<String> = vec![output; outputs].into_iter().chain(inputs).collect();
    read(&format!("A[{}] .", parts.join(" | ")))
}

// --- the choice ----------------------------------------------------------------

#[test]
fn the_least_timer_comes_first() {
    assert_eq!(met(&heads(1, &["5", "2", "7"])), [(0, 2)]);
    assert_eq!(met(&heads(1, &["2", "5", "7"])), [(0, 1)]);
    assert_eq!(met(&heads(1, &["7", "5", "2"])), [(0, 3)]);
    assert_eq!(met(&heads(1, &["1", "0"])), [(0, 2)]);
    assert_eq!(met(&heads(1, &["1000000", "999999"])), [(0, 2)]);
}

/// By size and not by letters: 9 is less than 10.
#[test]
fn timers_are_compared_as_numbers() {
    assert_eq!(met(&heads(1, &["10", "9"])), [(0, 2)]);
    assert_eq!(met(&heads(1, &["65536", "256", "65535"])), [(0, 2)]);
    assert_eq!(met(&heads(1, &["100", "20", "3"])), [(0, 3)]);
}

#[test]
fn inf_comes_last() {
    assert_eq!(met(&heads(1, &["inf", "3"])), [(0, 2)]);
    assert_eq!(met(&heads(1, &["3", "inf"])), [(0, 1)]);
    assert_eq!(met(&heads(1, &["inf", "0", "inf"])), [(0, 2)]);
    assert_eq!(met(&heads(2, &["inf", "3"])), [(0, 3), (1, 2)]);
}

#[test]
fn inf_comes_after_the_largest_number() {
    assert_eq!(met(&heads(1, &["inf", "1000000"])), [(0, 2)]);
    assert_eq!(met(&heads(1, &["1000000", "inf"])), [(0, 1)]);
}

#[test]
fn among_equal_timers_the_lowest_position_comes_first() {
    assert_eq!(met(&heads(1, &["4", "4", "4"])), [(0, 1)]);
    assert_eq!(met(&heads(1, &["5", "4", "4"])), [(0, 2)]);
    assert_eq!(met(&heads(1, &["inf", "inf"])), [(0, 1)]);
    assert_eq!(met(&heads(1, &["0", "0"])), [(0, 1)]);
}

/// Each output at its turn takes the most urgent of those that are left.
#[test]
fn outputs_take_the_most_urgent_inputs_in_order() {
    let two = heads(2, &["6", "3", "inf", "1"]);
    assert_eq!(met(&two), [(0, 5), (1, 3)]);
    let all = heads(4, &["6", "3", "inf", "1"]);
    assert_eq!(met(&all), [(0, 7), (1, 5), (2, 4), (3, 6)]);
    let equal = heads(3, &["2", "1", "2", "1"]);
    assert_eq!(met(&equal), [(0, 4), (1, 6), (2, 3)]);
    let few = heads(3, &["6", "3"]);
    assert_eq!(met(&few), [(0, 4), (1, 3)], "the third finds none");
}

/// The pass goes by the positions of outputs, whatever their own timers.
#[test]
fn the_timers_of_outputs_play_no_part() {
    let text = "A[out(c,9,A,stop,stop) | out(c,0,B,stop,stop) | in(c,5,x,go(9,x,stop),stop) | \
        in(c,1,x,go(9,x,stop),stop)] .";
    assert_eq!(met(&read(text)), [(0, 3), (1, 2)]);
    let text = "A[out(c,inf,A,stop,stop) | in(c,5,x,stop,stop) | in(c,1,x,stop,stop)] .";
    assert_eq!(met(&read(text)), [(0, 2)]);
}

#[test]
fn an_input_may_stand_lower_than_its_output() {
    let text = "A[in(c,4,x,stop,stop) | in(c,1,x,stop,stop) | out(c,1,A,stop,stop) | \
        in(c,2,x,stop,stop) | out(c,1,A,stop,stop)] .";
    assert_eq!(met(&read(text)), [(2, 1), (4, 3)]);
    let text = "A[in(c,4,x,stop,stop) | out(c,1,A,stop,stop) | in(c,4,x,stop,stop)] .";
    assert_eq!(met(&read(text)), [(1, 0)], "the lowest among equals");
}

// --- what does not count -------------------------------------------------------

#[test]
fn an_input_on_another_channel_does_not_count() {
    let text = "A[out(c,9,A,stop,stop) | in(d,0,x,stop,stop) | in(c,8,x,stop,stop) | \
        in(c,3,x,stop,stop) | in(d,1,x,stop,stop)] .";
    assert_eq!(met(&read(text)), [(0, 3)]);
    let text = "A[out(c,9,A,stop,stop) | out(d,9,A,stop,stop) | in(d,0,x,stop,stop) | \
        in(c,8,x,stop,stop) | in(d,1,x,stop,stop)] .";
    assert_eq!(met(&read(text)), [(0, 3), (1, 2)]);
}

#[test]
fn an_input_at_another_location_does_not_count() {
    let text = "A[out(c,9,A,stop,stop) | in(c,8,x,stop,stop)] | B[in(c,0,x,stop,stop)] | \
        A[in(c,3,x,stop,stop)] .";
    let network = read(text);
    assert_eq!(met(&network), [(0, 3)]);
    assert_eq!(shown(&stepped(&network, 1)).matches("in(c").count(), 2);
}

/// Marked by its own location, and by the one that it has left.
#[test]
fn a_marked_input_does_not_count() {
    let text = "H = in(c,0,x,stop,stop) . A[out(c,9,A,stop,stop) | H | in(c,3,x,stop,stop)] .";
    let unfolded = act(&read(text), 1, 1, 0);
    assert_eq!(met(&unfolded), [(0, 2)]);
    let text = "A[out(c,9,A,stop,stop)] | B[go(0,A,in(c,0,x,stop,stop))] | \
        A[in(c,3,x,stop,stop)] .";
    let moved = act(&read(text), 2, 1, 0);
    assert_eq!(met(&moved), [(0, 2)]);
    assert_eq!(met(&tick(&moved, 1)), [(0, 1)], "without its mark it does");
}

/// What a pass unfolds is marked when the output's turn comes, and counts in the
/// next step.
#[test]
fn an_input_unfolded_by_the_same_step_does_not_count() {
    let text = "H = in(c,0,x,stop,stop) . A[H | out(c,9,A,stop,stop) | in(c,3,x,stop,stop) | \
        out(c,9,A,stop,stop) | in(c,1,x,stop,stop) | in(c,5,x,stop,stop)] .";
    let (after, records, labels) = step(&read(text), 0);
    let expected = [(1, 0, 0), (3, 1, 4), (3, 3, 2)];
    assert_eq!(records, expected.map(|(k, p, q)| Record::new(k, p, q)));
    assert_eq!(labels, ["H@A", "c<A>@A", "c<A>@A"]);
    let kept = "A[] in(c,0,x,stop,stop); A[] stop; A[] stop; A[] stop; A[] stop; \
        A[] in(c,4,x,stop,stop)";
    assert_eq!(shown(&after), kept);
}

#[test]
fn outputs_and_moves_with_small_timers_do_not_count() {
    let text = "A[out(c,3,A,stop,stop) | out(d,0,A,stop,stop) | go(1,A,stop) | \
        in(c,7,x,stop,stop) | in(c,6,x,stop,stop)] .";
    assert_eq!(met(&read(text)), [(0, 4)]);
}

// --- two heads, one about to time out ------------------------------------------

/// Its Q would be a move to M. The one that is not served waits on.
const TWO_HEADS: &str = "A[out(c,9,B,stop,stop) | in(c,1,x,go(9,x,stop),go(9,M,stop)) | \
    in(c,0,y,go(9,y,stop),go(9,M,stop))] .";

#[test]
fn the_head_about_to_time_out_is_served_and_the_other_waits() {
    let network = read(TWO_HEADS);
    assert_eq!(met(&network), [(0, 2)]);
    let after = "A[] stop; A[] in(c,0,x,go(9,x,stop),go(9,M,stop)); A[] go(9,B,stop)";
    assert_eq!(shown(&stepped(&network, 0)), after);
    let lowest = Engine::new(Variant::FiresLowestInput);
    let before = lowest.step(&network, 0, &mut [Record::new(0, 0, 0)]);
    let lost = "A[] stop; A[] go(9,B,stop); A[] go(9,M,stop)";
    let before = before.map(|stepped| shown(&stepped.network));
    assert_eq!(before, Ok(lost.to_string()), "by the choice of before");
}

/// A second output serves the other head too, in the same step or in the next.
#[test]
fn both_heads_are_served_where_there_are_two_outputs() {
    let output = "out(c,9,C,stop,stop)";
    let network = read(&TWO_HEADS.replace("] .", &format!(" | {output}] .")));
    assert_eq!(met(&network), [(0, 2), (3, 1)]);
    let later = read(&TWO_HEADS.replace("] .", &format!(" | go(0,A,{output})] .")));
    let (after, records, _) = step(&later, 0);
    assert_eq!(records, [Record::new(3, 0, 2), Record::new(2, 3, 0)]);
    assert_eq!(met(&after), [(3, 1)]);
    let last = "A[] stop; A[] go(9,C,stop); A[] go(8,B,stop); A[] stop";
    assert_eq!(shown(&stepped(&after, 0)), last);
}

/// Of two at 0 the lower is served; no pair is left, and the other takes its Q.
#[test]
fn of_two_heads_at_0_the_other_takes_its_q() {
    let text = "A[out(c,0,B,stop,stop) | in(c,0,x,go(9,x,stop),go(9,M,stop)) | \
        in(c,0,y,go(9,y,stop),go(8,M,stop))] .";
    let network = read(text);
    assert_eq!(tick_number(&network, 0), 12);
    let after = "A[] stop; A[] go(9,B,stop); A[] go(8,M,stop)";
    assert_eq!(shown(&stepped(&network, 0)), after);
}

/// Under edition 2 a timer of 1 takes its Q too. The choice does not look at the
/// edition: 0 comes before 1.
#[test]
fn under_edition_2_the_choice_is_the_same_and_the_other_takes_its_q() {
    let network = read_under(Edition::Two, TWO_HEADS);
    assert_eq!(met(&network), [(0, 2)]);
    let after = "A[] stop; A[] go(9,M,stop); A[] go(9,B,stop)";
    assert_eq!(shown(&stepped(&network, 0)), after);
    for timers in [&["5", "2", "7"][..], &["1", "0"], &["inf", "1000000"]] {
        let one = heads(1, timers);
        assert_eq!(met(&one.under(Edition::Two)), met(&one));
    }
    let pair = "A[out(c,9,B,stop,stop) | in(c,2,x,stop,stop) | in(c,1,y,stop,stop)] .";
    let after = "A[] stop; A[] in(c,1,x,stop,stop); A[] stop";
    assert_eq!(
        shown(&stepped(&read_under(Edition::Two, pair), 0)),
        after,
        "a timer of 2 becomes 1"
    );
}

// --- under rights --------------------------------------------------------------

fn with(rights: &str, text: &str) -> Network {
    let settings = rights::settings(text.as_bytes(), 1, Some(rights));
    read_with(&settings.expect("rights of the text's names"), text)
}

/// An output without its right takes no input, and leaves all of them to others.
#[test]
fn an_output_without_its_right_is_passed_over() {
    let text = "A[out(c,9,A,stop,stop) | out(d,9,A,stop,stop) | in(c,0,x,stop,go(9,M,stop)) | \
        in(d,7,x,stop,stop) | in(d,2,x,stop,stop) | in(c,4,x,stop,stop)] .";
    assert_eq!(met(&read(text)), [(0, 2), (1, 4)]);
    for withheld in ["send A c", "receive A c"] {
        let network = with(&format!("all\nwithhold {withheld}"), text);
        assert_eq!(met(&network), [(1, 4)], "{withheld}");
        let after = "A[] out(c,8,A,stop,stop); A[] stop; A[] go(9,M,stop); \
            A[] in(d,6,x,stop,stop); A[] stop; A[] in(c,3,x,stop,stop)";
        assert_eq!(shown(&stepped(&network, 0)), after, "{withheld}");
    }
    assert_eq!(met(&with("none", text)), []);
    let elsewhere = with("all\nwithhold send M c\nwithhold receive M d", text);
    assert_eq!(met(&elsewhere), [(0, 2), (1, 4)]);
}

// --- what may choose otherwise -------------------------------------------------

#[test]
fn a_proposal_and_a_single_action_may_pick_any_partner() {
    let network = heads(1, &["5", "2", "inf"]);
    for partner in 1..=3 {
        let record = Record::new(3, 0, partner);
        assert_eq!(act_number(&network, 3, 0, partner), 0);
        let (proposed, labels) = engine()
            .proposal(&network, 0, &[record])
            .expect("an allowed proposal");
        assert_eq!(labels.len(), 1);
        assert_eq!(proposed, tick(&act(&network, 3, 0, partner), 0));
        let same = proposed == stepped(&network, 0);
        assert_eq!(same, partner == 2, "the step meets the most urgent");
    }
}

/// A proposal with another partner for each output, in any order of the outputs.
#[test]
fn a_proposal_may_serve_the_most_urgent_last() {
    let network = heads(2, &["5", "2", "7"]);
    let records = [Record::new(3, 1, 4), Record::new(3, 0, 3)];
    let (after, _) = engine()
        .proposal(&network, 0, &records)
        .expect("an allowed proposal");
    assert_eq!(
        shown(&after),
        "A[] stop; A[] stop; A[] in(c,4,x,stop,stop); A[] stop; A[] stop"
    );
    let mut run = Run::new(&network);
    assert_eq!(run.whole_step(0, &records), Ok(()));
    assert_eq!(run.finish(&after), Ok(()));
}

#[test]
fn ticks_and_the_report_do_not_look_at_the_choice() {
    for timers in [&["5", "2"][..], &["2", "5"], &["inf", "0"]] {
        let network = heads(1, timers);
        assert_eq!(tick_number(&network, 0), 12);
        assert_eq!(engine().forced(&network).set, 1);
    }
}

// --- document 01's examples ----------------------------------------------------

/// The examples with a step have one input for each output: 8 and 10, and that of
/// `timorun`.
#[test]
fn the_examples_with_a_step_are_as_they_were() {
    let seven = read("A[go(0,B,out(c,1,B,stop,stop))] | B[in(c,1,x,stop,stop)] .");
    let m = "B[] out(c,1,B,stop,stop); B[] in(c,0,x,stop,stop)";
    assert_eq!(shown(&stepped(&stepped(&seven, 1), 0)), m);
    let other = "B[] stop; B[] stop";
    assert_eq!(shown(&stepped(&stepped(&seven, 0), 1)), other);
    let ten = "A[out(c,1,B,stop,stop) | out(c,1,A,stop,stop) | in(c,1,x,go(0,x,stop),stop)] .";
    assert_eq!(met(&read(ten)), [(0, 2)]);
    let after = "A[stop] | A[out(c,0,A,stop,stop)] | A[go(0,B,stop)] .\n";
    assert_eq!(written(&stepped(&read(ten), 0)), after);
    let page = "Page(x) = go(0,x,out(c,1,x,stop,stop)) . \
        A[Page(B)] | B[in(c,2,y,go(0,y,stop),stop)] .";
    let mut network = read(page);
    let mut lines = Vec::new();
    for _ in 0..4 {
        for location in 0..2 {
            let (next, _, labels) = step(&network, location);
            lines.push(labels.join(" "));
            network = next;
        }
    }
    assert_eq!(lines, ["Page@A", "", "B@A", "c<B>@B", "", "B@B", "", ""]);
    assert_eq!(shown(&network), other);
}

/// Example 10 with a second input, which is more urgent: the first output takes it.
#[test]
fn example_10_with_a_more_urgent_input() {
    let text = "A[out(c,1,B,stop,stop) | out(c,1,A,stop,stop) | in(c,1,x,go(0,x,stop),stop) | \
        in(c,0,x,go(0,x,stop),stop)] .";
    let after = "A[stop] | A[stop] | A[go(0,A,stop)] | A[go(0,B,stop)] .\n";
    assert_eq!(written(&stepped(&read(text), 0)), after);
}

// --- on random networks --------------------------------------------------------

/// The timer of an input, as a number in which `inf` comes last.
fn urgency(component: &Component) -> Option<u64> {
    match component.ready_part()? {
        Part::In { timer, .. } => Some(match timer {
            Timer::Ticks(ticks) => u64::from(*ticks),
            Timer::Inf => u64::MAX,
        }),
        _ => None,
    }
}

/// Every input that an output may meet, with its urgency.
fn partners(network: &Network, components: &[Component], p: u32) -> Vec<(u64, u32)> {
    let before = network.with(components.to_vec());
    let meets = |q: &u32| act_number(&before, 3, p, *q) == 0;
    let inputs = (0..components.len() as u32).filter(meets);
    let urgent = |q: u32| Some((urgency(&components[q as usize])?, q));
    inputs.filter_map(urgent).collect()
}

/// What was there to choose from.
#[derive(Default)]
struct Choices {
    different: usize,
    equal: usize,
    with_inf: usize,
    second: usize,
}

/// Replays a step and checks each choice on the components as they then stand.
fn check(network: &Network, at: &str, records: &[Record], seen: &mut Choices) {
    let mut components = network.components.clone();
    for (index, record) in records.iter().enumerate() {
        if record.kind == 3 {
            let partners = partners(network, &components, record.p);
            let (least, chosen) = *partners.iter().min().expect("a partner");
            assert_eq!(record.q, chosen, "{partners:?}");
            let ties = partners.iter().filter(|(timer, _)| *timer == least);
            seen.equal += usize::from(ties.count() > 1);
            seen.different += usize::from(partners.iter().any(|(timer, _)| *timer > least));
            let inf = partners.iter().any(|(timer, _)| *timer == u64::MAX);
            seen.with_inf += usize::from(inf && least < u64::MAX);
            seen.second += usize::from(index > 0 && partners.len() > 1);
        }
        let next = network.with(components);
        components = act(&next, record.kind, record.p, record.q).components;
    }
    let forced = Rules::default().forced(&network.script, &components, at);
    assert!(!forced, "a step never meets 12");
}

/// Every step on random networks meets the least timer, and the lowest position
/// among equals, of the inputs that the output may meet at its turn.
#[test]
fn every_step_on_random_networks_serves_the_most_urgent() {
    let mut seen = Choices::default();
    for case in cases(150) {
        let mut network = case.network();
        for call in &case.calls {
            if let Call::Step { location, .. } = call {
                let mut lent = vec![Record::new(0, 0, 0); 256];
                if let Ok(stepped) = engine().step(&network, *location, &mut lent) {
                    let at = &network.script.locations[*location as usize];
                    check(&network, at, &lent[..stepped.labels.len()], &mut seen);
                }
            }
            network = call_list::next(&network, call).unwrap_or(network);
        }
    }
    let Choices {
        different,
        equal,
        with_inf,
        second,
    } = seen;
    let counts = [different, equal, with_inf, second];
    assert!(counts.iter().all(|count| *count > 20), "{counts:?}");
}

// --- wrong choices -------------------------------------------------------------

/// For each mistake a script that one step shows.
const SHOWN_BY: [(Variant, &str); 6] = [
    (
        Variant::FiresHighestOfEquals,
        "A[out(c,9,A,stop,stop) | in(c,2,x,stop,stop) | in(c,2,x,stop,stop)] .",
    ),
    (
        Variant::FiresLowestInput,
        "A[out(c,9,A,stop,stop) | in(c,2,x,stop,stop) | in(c,1,x,stop,stop)] .",
    ),
    (
        Variant::FiresInfFirst,
        "A[out(c,9,A,stop,stop) | in(c,2,x,stop,stop) | in(c,inf,x,stop,stop)] .",
    ),
    (
        Variant::FiresGreatestTimer,
        "A[out(c,9,A,stop,stop) | in(c,2,x,stop,stop) | in(c,3,x,stop,stop)] .",
    ),
    (
        Variant::FiresLeastOfAnyChannel,
        "A[out(c,9,A,stop,stop) | in(c,2,x,stop,stop) | in(d,1,x,stop,stop)] .",
    ),
    (
        Variant::FiresReadyAtFirst,
        "A[out(c,9,A,stop,stop) | out(c,9,A,stop,stop) | in(c,2,x,stop,stop) | \
            in(c,2,x,stop,stop)] .",
    ),
];

/// What an engine answers to a list under edition 1 with all rights.
fn answers(engine: Engine, text: &str, list: &str) -> String {
    let calls = lists::parse(list).expect("calls");
    printout::answers(engine, text.as_bytes(), &Settings::all(1), &calls)
}

#[test]
fn every_wrong_choice_is_noticed() {
    for (variant, text) in SHOWN_BY {
        assert!(Variant::WRONG.contains(&variant));
        let [right, wrong] =
            [engine(), Engine::new(variant)].map(|engine| answers(engine, text, "step 0 9"));
        assert_ne!(wrong, right, "{variant:?}");
    }
}

/// The other calls do not look at the choice.
#[test]
fn a_wrong_choice_changes_only_the_step() {
    let list = "forced\ntick 0\naction 3 0 2\nproposal 0 3 0 1\nwrite 999\nsame\n";
    for (variant, _) in SHOWN_BY {
        for (_, text) in SHOWN_BY {
            let [right, wrong] =
                [engine(), Engine::new(variant)].map(|engine| answers(engine, text, list));
            assert_eq!(wrong, right, "{variant:?}: {text}");
        }
    }
}

/// With one ready input for each channel there is nothing to choose, and every
/// wrong choice but that of another channel's is the right one.
#[test]
fn with_one_input_there_is_no_choice() {
    let text = "A[out(c,9,A,stop,stop) | in(c,2,x,stop,stop)] | \
        B[in(c,0,x,stop,stop) | out(c,1,B,stop,stop) | go(0,A,stop)] .";
    let list = "step 0 9\nstep 1 9\nstep 0 9\n";
    let right = answers(engine(), text, list);
    for (variant, _) in SHOWN_BY {
        assert_eq!(
            answers(Engine::new(variant), text, list),
            right,
            "{variant:?}"
        );
    }
}

/// Where all timers are equal, or rise with the position, the choice is that of
/// the lowest input.
#[test]
fn with_rising_or_equal_timers_the_lowest_input_is_served() {
    let lowest = Engine::new(Variant::FiresLowestInput);
    for timers in [&["3", "3", "3", "3"], &["0", "1", "1", "inf"]] {
        let network = heads(3, timers);
        let mut lent = [Record::new(0, 0, 0); 7];
        let stepped = lowest.step(&network, 0, &mut lent).expect("a step");
        let (after, records, _) = step(&network, 0);
        assert_eq!(stepped.network, after);
        assert_eq!(lent[..records.len()], records);
        assert_eq!(met(&network), [(0, 3), (1, 4), (2, 5)]);
    }
}
