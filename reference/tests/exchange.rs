//! Document 02, R-7: two whole steps in either order. By hand: document 01's example 8
//! both ways round, and one test for each reading. From seeds: every pair of steps that
//! meets the condition is exchanged, and every wrong form of the claim is told apart.

mod common;
use common::*;
use timo_reference::calls::Record;
use timo_reference::exchange::{two_locations, Broken, Form, Succession, Taking, Tally};
use timo_reference::generate;
use timo_reference::random::Random;
use timo_reference::rights;
use timo_reference::steps::{calls_before, WholeStep};
use timo_reference::term::{Edition, Network, Settings};

const CALL: u32 = 1;
const MOVE: u32 = 2;
const MEET: u32 = 3;

/// A whole step with records `[kind, p, q]`.
fn whole_step(location: u32, records: &[[u32; 3]]) -> WholeStep {
    let record = |[kind, p, q]: &[u32; 3]| Record::new(*kind, *p, *q);
    WholeStep {
        location,
        records: records.iter().map(record).collect(),
    }
}

/// Two whole steps that the rules allow; the calls accept them too.
fn performed(network: &Network, first: &WholeStep, second: &WholeStep) -> Succession {
    let pair = Succession::perform(network, [first, second]).expect("two whole steps");
    let between = proposed(network, first).expect("the first is accepted");
    let after = proposed(&between, second).expect("the second is accepted");
    assert_eq!(after.components, pair.components);
    pair
}

/// The network after a step as a proposal, or the number of its refusal.
fn proposed(network: &Network, step: &WholeStep) -> Result<Network, u8> {
    let proposed = engine().proposal(network, step.location, &step.records);
    proposed
        .map(|(network, _)| network)
        .map_err(|refusal| refusal.number())
}

fn labels(pair: &Succession) -> [String; 2] {
    let one = |labels: Vec<_>| {
        let labels: Vec<String> = labels.iter().map(ToString::to_string).collect();
        labels.join(" ")
    };
    [0, 1].map(|k| one(pair.steps[k].labels()))
}

/// What each way of taking components gives in the other order, for steps of which the
/// claim is made.
fn exchanged(pair: &Succession) -> [Succession; 3] {
    assert!(Form::Right.admits(pair));
    let [first, second] = labels(pair);
    Taking::ALL.map(|taking| {
        let other = Form::Right.judge(pair, taking).expect("the claim holds");
        let other = other.expect("the claim is made");
        assert_eq!(labels(&other), [second.clone(), first.clone()]);
        let [early, late] = &other.steps;
        let by_calls = performed(&pair.before, &early.step, &late.step);
        assert_eq!(by_calls.components, other.components);
        assert!(engine().same(&other.after(), &pair.after()));
        assert_eq!(
            by_calls.ends_alike(pair),
            other.components == pair.components
        );
        if taking == Taking::TheSame {
            assert!(other.ends_alike(pair), "components, positions and waits");
        }
        other
    })
}

/// The one point of the claim that fails in the other order, whichever components are
/// taken; the claim is not made but by a wrong form.
fn turned_away(pair: &Succession, wrong: Form, broken: Broken) {
    for taking in Taking::ALL {
        assert_eq!(
            Form::Right.judge(pair, taking).map(|other| other.is_none()),
            Ok(true)
        );
        assert_eq!(wrong.judge(pair, taking).err(), Some(broken), "{taking:?}");
    }
    let makes = |form: &Form| form.admits(pair);
    let wrong_ones: Vec<Form> = Form::WRONG.into_iter().filter(makes).collect();
    assert_eq!(wrong_ones, [wrong]);
}

// --- example 8 -----------------------------------------------------------------

const CLOCKS: &str = "A[go(0,B,out(c,1,B,stop,stop))] | B[in(c,1,x,stop,stop)] .";

/// B, which does nothing, and then A, which moves to B. In the other order the pair
/// stops the tick at B.
#[test]
fn a_move_of_the_second_step_to_the_first_location() {
    for edition in Edition::BOTH {
        let network = read_under(edition, CLOCKS);
        let (b, a) = (whole_step(1, &[]), whole_step(0, &[[MOVE, 0, 0]]));
        let pair = performed(&network, &b, &a);
        assert_eq!(labels(&pair), ["", "B@A"]);
        turned_away(&pair, Form::SecondMayMove, Broken::Tick);
        let after_a = proposed(&network, &a).expect("A by itself");
        assert_eq!(proposed(&after_a, &b).err(), Some(12));
    }
}

/// A, which moves to B, and then B with the communication. In the other order there is
/// no output at B.
#[test]
fn a_move_of_the_first_step_to_the_second_location() {
    for edition in Edition::BOTH {
        let network = read_under(edition, CLOCKS);
        let (a, b) = (
            whole_step(0, &[[MOVE, 0, 0]]),
            whole_step(1, &[[MEET, 0, 1]]),
        );
        let pair = performed(&network, &a, &b);
        assert_eq!(labels(&pair), ["B@A", "c<B>@B"]);
        turned_away(&pair, Form::FirstMayMove, Broken::NoComponents);
        assert_eq!(proposed(&network, &b).err(), Some(10));
    }
}

/// Both orders are allowed, but what came to B has a tick less in one of them.
#[test]
fn both_orders_allowed_and_another_network() {
    for edition in Edition::BOTH {
        let network = read_under(edition, "A[go(0,B,out(c,3,B,stop,stop))] | B[stop] .");
        let (a, b) = (whole_step(0, &[[MOVE, 0, 0]]), whole_step(1, &[]));
        let pair = performed(&network, &a, &b);
        assert_eq!(
            written(&pair.after()),
            "B[out(c,2,B,stop,stop)] | B[stop] .\n"
        );
        turned_away(&pair, Form::FirstMayMove, Broken::OtherNetwork);
        let other = performed(&network, &b, &a);
        assert_eq!(
            written(&other.after()),
            "B[out(c,3,B,stop,stop)] | B[stop] .\n"
        );
        turned_away(&other, Form::SecondMayMove, Broken::OtherNetwork);
    }
}

// --- what may be exchanged -----------------------------------------------------

/// Calls, a split at each location, a communication with the second of two inputs, and
/// moves before their time to a third location from both.
#[test]
fn splits_and_moves_to_a_third_location() {
    let text = "D(x) = go(1,x,stop | stop) | stop .
        A[D(C) | go(2,C,stop | D(A))] |
        B[go(inf,C,D(B)) | in(c,1,y,stop,stop) | in(c,1,y,go(0,y,stop) | stop,stop)] |
        B[out(c,0,A,D(B),stop)] | C[go(0,A,stop)] .";
    for edition in Edition::BOTH {
        let network = read_under(edition, text);
        assert_eq!(network.script.locations, ["A", "C", "B"]);
        let a = whole_step(0, &[[MOVE, 1, 0], [CALL, 0, 0]]);
        let b = whole_step(2, &[[MEET, 7, 6], [MOVE, 4, 0]]);
        let pair = performed(&network, &a, &b);
        assert_eq!(labels(&pair), ["C@A D@A", "c<A>@B C@B"]);
        assert_eq!(pair.components.len(), network.components.len() + 3);
        let by_itself = whole_step(2, &[[MEET, 5, 4], [MOVE, 2, 0]]);
        for other in exchanged(&pair) {
            assert_eq!(other.steps[0].step, by_itself);
            assert_eq!(other.steps[1].step, a);
            assert_eq!(shown(&other.after()), shown(&pair.after()));
        }
    }
}

/// A step that makes components stand further on: the positions of the other differ.
#[test]
fn positions_behind_a_split() {
    let network = read("D = stop | stop . B[D] | A[go(0,C,D)] .");
    let (a, b) = (
        whole_step(1, &[[MOVE, 1, 0]]),
        whole_step(0, &[[CALL, 0, 0]]),
    );
    let pair = performed(&network, &a, &b);
    let [other, ..] = exchanged(&pair);
    assert_eq!(other.steps[1].step, whole_step(1, &[[MOVE, 2, 0]]));
    assert_eq!(
        written(&other.after()),
        "D = stop | stop .\nB[stop] | B[stop] | C[D] .\n"
    );
}

/// The condition is about moves that fire. Under both editions a `go` with timer 0 that
/// lacks its right stands, and one whose timer is above 0 may.
#[test]
fn a_go_left_standing_for_the_other_location() {
    let stuck = "A[go(0,B,stop) | out(c,2,A,stop,stop)] | B[go(0,A,stop) | in(c,2,x,stop,stop)] .";
    let withheld = "all\nwithhold leave A B\nwithhold leave B A\n";
    let waiting = "A[go(1,B,stop)] | B[go(inf,A,stop)] .";
    for (text, rights) in [(stuck, withheld), (waiting, "all\n")] {
        for edition in [1, 2] {
            let settings = rights::settings(text.as_bytes(), edition, Some(rights));
            let network = read_with(&settings.expect("rights of the text's names"), text);
            let pair = performed(&network, &whole_step(0, &[]), &whole_step(1, &[]));
            exchanged(&pair);
            let counted = Form::StandingGoCounts.judge(&pair, Taking::FirstEqual);
            assert_eq!(counted.err(), Some(Broken::TurnedAway));
        }
    }
}

/// With its right the same `go` is forced, and its step moves to the other location.
#[test]
fn the_same_go_with_its_right() {
    let network = read("A[go(0,B,stop)] | B[stop] .");
    let idle = [&whole_step(0, &[]), &whole_step(1, &[])];
    assert!(Succession::perform(&network, idle).is_none());
    let steps = [&whole_step(0, &[[MOVE, 0, 0]]), &whole_step(1, &[])];
    let pair = Succession::perform(&network, steps).expect("two whole steps");
    assert!(!Form::Right.admits(&pair));
}

#[test]
fn a_move_to_ones_own_location() {
    for edition in Edition::BOTH {
        let network = read_under(edition, "A[go(0,A,stop | stop)] | B[go(3,B,stop)] .");
        let a = whole_step(0, &[[MOVE, 0, 0]]);
        let pair = performed(&network, &a, &whole_step(1, &[[MOVE, 2, 0]]));
        assert_eq!(labels(&pair), ["A@A", "B@B"]);
        exchanged(&pair);
        let counted = Form::OwnLocationCounts.judge(&pair, Taking::FirstEqual);
        assert_eq!(counted.err(), Some(Broken::TurnedAway));
    }
}

/// Two equal outputs have waited for different times. In either order the step takes
/// one of them; another one gives the same network with other waits.
#[test]
fn equal_components_with_different_waits() {
    let text =
        "A[out(c,inf,A,stop,stop) | out(c,inf,A,stop,stop) | in(c,inf,x,stop,stop)] | B[stop] .";
    let mut network = read(text);
    network.components[0].wait = 5;
    network.components[1].wait = 7;
    let waits = |pair: &Succession| pair.components.iter().map(|c| c.wait).collect::<Vec<_>>();
    let pair = performed(
        &network,
        &whole_step(0, &[[MEET, 0, 2]]),
        &whole_step(1, &[]),
    );
    assert_eq!(waits(&pair), [0, 8, 0, 0]);
    let [first, last, same] = exchanged(&pair);
    assert_eq!(waits(&first), [0, 8, 0, 0]);
    assert_eq!(waits(&last), [6, 0, 0, 0]);
    assert_eq!(waits(&same), [0, 8, 0, 0]);
    assert!(!last.ends_alike(&pair), "other waits at other positions");
    let pair = performed(
        &network,
        &whole_step(0, &[[MEET, 1, 2]]),
        &whole_step(1, &[]),
    );
    let [first, last, same] = exchanged(&pair).map(|other| waits(&other));
    assert_eq!(
        [first, last, same],
        [vec![0, 8, 0, 0], vec![6, 0, 0, 0], vec![6, 0, 0, 0]]
    );
}

// --- what the claim is not made of ---------------------------------------------

/// Two steps at one location.
#[test]
fn one_location() {
    let network = read("A[in(c,1,x,stop,go(3,B,stop))] | B[stop] .");
    let early = whole_step(0, &[]);
    let between = proposed(&network, &early).expect("a tick");
    assert_eq!(
        written(&between),
        "A[in(c,0,x,stop,go(3,B,stop))] | B[stop] .\n"
    );
    let twice = performed(&between, &early, &whole_step(0, &[[MOVE, 0, 0]]));
    turned_away(&twice, Form::OneLocation, Broken::NoComponents);
}

/// A mark of A from before hides an output at B until the tick at A.
#[test]
fn a_marked_network() {
    let network = act(&read(CLOCKS), MOVE, 0, 0);
    let pair = performed(&network, &whole_step(1, &[]), &whole_step(0, &[]));
    turned_away(&pair, Form::MarksMayStand, Broken::Tick);
}

/// A tick with the other step's actions before it.
#[test]
fn ticks_that_stay_in_their_order() {
    let network = read("D = stop . A[D] | A[go(1,C,stop)] | B[stop] .");
    let b = whole_step(2, &[]);
    let forced = performed(&network, &whole_step(0, &[[CALL, 0, 0]]), &b);
    let judged = Form::TicksStay.judge(&forced, Taking::FirstEqual);
    assert_eq!(judged.err(), Some(Broken::Tick));
    let network = read("A[go(1,C,stop)] | B[stop] .");
    let early = performed(&network, &whole_step(0, &[[MOVE, 0, 0]]), &b);
    let judged = Form::TicksStay.judge(&early, Taking::FirstEqual);
    assert_eq!(judged.err(), Some(Broken::NoComponents));
    for pair in [forced, early] {
        exchanged(&pair);
    }
}

/// Steps that the rules do not allow.
#[test]
fn what_is_no_whole_step() {
    let network = read("A[go(0,B,stop) | go(1,B,stop)] | B[go(1,A,stop)] .");
    let b = whole_step(1, &[]);
    for records in [
        &[][..],
        &[[MOVE, 0, 0], [MOVE, 0, 0]],
        &[[MOVE, 0, 0], [MOVE, 2, 0]],
    ] {
        let steps = [&whole_step(0, records), &b];
        assert!(
            Succession::perform(&network, steps).is_none(),
            "{records:?}"
        );
    }
    for records in [
        &[[MOVE, 0, 0], [MOVE, 3, 0]][..],
        &[[CALL, 0, 0]],
        &[[4, 0, 0]],
    ] {
        let steps = [&whole_step(0, records), &b];
        assert!(
            Succession::perform(&network, steps).is_none(),
            "{records:?}"
        );
    }
    let a = whole_step(0, &[[MOVE, 0, 0]]);
    assert!(Succession::perform(&network, [&a, &whole_step(2, &[])]).is_none());
}

// --- from seeds ----------------------------------------------------------------

/// Starts of two steps, from scripts with rights of every sort, under each edition.
fn starts(count: u64) -> impl Iterator<Item = (Random, Network)> {
    let script = |index| {
        let seed = generate::seed(7, index);
        let mut random = Random::new(!seed);
        let settings = Settings {
            edition: Edition::BOTH[index as usize % 2].number(),
            rights: generate::rights(&mut random),
        };
        let read = engine().read(&generate::script_to_run(seed), &settings);
        read.ok().map(|network| (random, network))
    };
    let scripts = (0..count).filter_map(script);
    scripts.flat_map(|(mut random, read)| {
        let start = move |_| {
            let (_, network) = calls_before(&mut random, &read);
            (Random::new(random.draw()), network)
        };
        (0..4).map(start)
    })
}

/// Four pairs from each start.
fn pairs(count: u64) -> impl Iterator<Item = Succession> {
    starts(count).flat_map(|(mut random, network)| {
        (0..4).filter_map(move |_| {
            let at = two_locations(&mut random, &network);
            Succession::draw(&mut random, &network, at)
        })
    })
}

#[test]
fn two_steps_that_meet_the_condition_are_exchanged() {
    let mut tally = Tally::default();
    let (mut all, mut other_waits) = (0, 0);
    for pair in pairs(1_200) {
        all += 1;
        for taking in Taking::ALL {
            let judged = Form::Right.judge(&pair, taking);
            let judged = judged.unwrap_or_else(|broken| panic!("{broken}: {pair:?}"));
            let Some(other) = judged else { continue };
            let [first, second] = labels(&pair);
            assert_eq!(labels(&other), [second, first]);
            let alike = other.ends_alike(&pair);
            assert!(alike || taking != Taking::TheSame, "{pair:?}");
            other_waits += usize::from(!alike);
            if taking == Taking::TheSame {
                tally.count(&pair);
            }
        }
    }
    println!("of {all} pairs {tally}; {other_waits} times others were taken and differ");
    assert!(tally.fewest() > 200, "{tally}");
    assert!(all - tally.all > 2_000 && other_waits > 200);
}

/// Both orders of whole steps are one claim: what is exchanged is exchanged back.
#[test]
fn two_steps_are_exchanged_back() {
    for pair in pairs(300).filter(|pair| Form::Right.admits(pair)) {
        let there = Form::Right.exchange(&pair, Taking::TheSame);
        let there = there.expect("the claim holds");
        assert!(Form::Right.admits(&there));
        let back = Form::Right.exchange(&there, Taking::TheSame);
        let back = back.expect("the claim holds");
        assert!(back.ends_alike(&pair));
        let steps = |pair: &Succession| [0, 1].map(|k| pair.steps[k].step.clone());
        assert_eq!(steps(&back), steps(&pair));
    }
}

#[test]
fn every_wrong_form_is_told_apart() {
    let mut times = [0; Form::WRONG.len()];
    for pair in pairs(1_000) {
        for (form, times) in Form::WRONG.into_iter().zip(&mut times) {
            let broken = |taking| form.judge(&pair, taking).is_err();
            *times += usize::from(Taking::ALL.into_iter().all(broken));
        }
    }
    for (form, times) in Form::WRONG.into_iter().zip(times) {
        println!("{form:?} is told apart by {times} pairs");
        assert!(times > 20, "{form:?}: {times}");
    }
}

/// The engine's own steps: whom a step serves does not depend on the other step.
#[test]
fn own_steps_are_exchanged() {
    let mut tally = Tally::default();
    for (mut random, network) in starts(1_000) {
        let [l, m] = two_locations(&mut random, &network);
        let Some(pair) = Succession::of_own_steps(&network, [l, m]) else {
            continue;
        };
        if Form::Right.admits(&pair) {
            let other = Succession::of_own_steps(&network, [m, l]).expect("own steps");
            let [first, second] = labels(&pair);
            assert_eq!(labels(&other), [second, first]);
            assert!(other.ends_alike(&pair), "{pair:?}");
            tally.count(&pair);
        }
    }
    println!("of own steps {tally}");
    assert!(tally.all > 1_000, "{tally}");
}
