//! Demand 3 on random lists, with rights of every sort: the grouped run of
//! document 01 holds for the right engine, and a comparison of printouts tells
//! every wrong variant apart.

mod common;
use common::cases::{cases, Case};
use common::*;
use std::collections::HashMap;
use timo_reference::calls::{Engine, Record};
use timo_reference::generate;
use timo_reference::lists::{self, Call};
use timo_reference::random::Random;
use timo_reference::rules::Variant;
use timo_reference::runs::{Broken, Run};
use timo_reference::term::{Edition, Ledger, Network, Settings};
use timo_reference::trials::try_each;

#[test]
fn the_claim_holds_on_hundreds_of_random_lists() {
    let (mut calls_made, mut refusals) = (0, 0);
    for case in cases(500) {
        let (run, refused) = case.verdict(engine());
        assert_eq!(run, Ok(()), "{}", case.text());
        calls_made += case.calls.len();
        refusals += refused;
    }
    assert!(calls_made > 80_000);
    let share = refusals * 100 / calls_made;
    assert!(
        (25..45).contains(&share),
        "{share} of a hundred calls are refused"
    );
}

/// Every variant that the answers to a list can show.
fn wrong() -> Vec<Variant> {
    [
        &Variant::WRONG[..],
        &Variant::WRONG_WAITS,
        &Variant::WRONG_CONFORMING,
        &Variant::WRONG_PROFILE,
    ]
    .concat()
}

#[test]
fn a_comparison_of_printouts_tells_every_wrong_variant_apart() {
    let cases: Vec<Case> = cases(200).collect();
    let right: Vec<String> = cases.iter().map(|case| case.answers(engine())).collect();
    for variant in wrong() {
        let differs = |index: &usize| cases[*index].answers(Engine::new(variant)) != right[*index];
        let found = (0..cases.len()).find(differs);
        assert!(found.is_some(), "{variant:?} is not told apart");
        println!("{variant:?} differs first on list {}", found.unwrap_or(0));
    }
}

/// A step may choose any input and fire any move, and a refusal counts for
/// nothing: another partner or none, with 12, a move forced too early, what stops a
/// tick without its right and another number are within the rules. Waits and messages
/// are not claimed, but a tick that a pair should have stopped is. What conforms is not
/// claimed, but the tick of a conforming step is; only its two calls know of that, so
/// fewer lists will do.
#[test]
fn the_claim_is_broken_by_every_variant_that_the_rules_exclude() {
    let cases: Vec<Case> = cases(200).collect();
    try_each(wrong(), |variant| {
        let breaks = |case: &Case| case.verdict(Engine::new(variant)).0.is_err();
        let of_profile = [&Variant::WRONG_CONFORMING[..], &Variant::WRONG_PROFILE].concat();
        let of_profile = of_profile.contains(&variant);
        let unclaimed = of_profile && variant != Variant::ConformingLeavesOutTick
            || Variant::WRONG_WAITS.contains(&variant) && variant != Variant::FullCountFreesPair;
        let count = if of_profile { 30 } else { cases.len() };
        let broken = cases[..count].iter().any(breaks);
        let within = matches!(
            variant,
            Variant::ForcesGoAtOne
                | Variant::GoWithoutRightStopsTick
                | Variant::PairWithoutRightStopsTick
                | Variant::AsksRightFirst
                | Variant::AsksRightLast
        );
        let within = within || Variant::WRONG_CHOICES.contains(&variant);
        let within = within || unclaimed;
        assert_eq!(broken, !within, "{variant:?}");
    });
}

/// Both editions have lists on which they answer alike until a communication
/// timer is 1 at a tick, and differently from there on.
#[test]
fn a_list_under_the_other_edition_is_answered_differently_and_the_claim_holds() {
    let mut differ = 0;
    for case in cases(120) {
        let other = case.under_the_other_edition();
        assert_eq!(other.verdict(engine()).0, Ok(()), "{}", case.text());
        differ += usize::from(other.answers(engine()) != case.answers(engine()));
    }
    assert!(differ > 20, "{differ}");
}

#[test]
fn actions_of_two_locations_are_grouped_by_their_ticks() {
    let read = read("A[go(0,B,out(c,1,B,stop,stop))] | B[in(c,1,x,stop,stop)] .");
    let mut run = Run::new(&read);
    assert_eq!(run.action(Record::new(2, 0, 0)), Ok(()));
    assert_eq!(run.tick(1), Ok(()));
    assert_eq!(run.tick(0), Ok(()));
    assert_eq!(run.action(Record::new(3, 0, 1)), Ok(()));
    let last = act(&tick(&tick(&act(&read, 2, 0, 0), 1), 0), 3, 0, 1);
    assert_eq!(run.finish(&last), Ok(()));
}

#[test]
fn a_step_counts_as_its_actions_one_by_one_and_then_the_tick() {
    let read = read("D = stop | D . A[D | go(0,B,D)] | B[in(c,1,x,stop,D)] .");
    let (last, records, _) = step(&act(&read, 2, 1, 0), 0);
    assert_eq!(records, [Record::new(1, 0, 0)]);
    let mut run = Run::new(&read);
    assert_eq!(run.action(Record::new(2, 1, 0)), Ok(()));
    assert_eq!(run.whole_step(0, &records), Ok(()));
    assert_eq!(run.finish(&last), Ok(()));
}

#[test]
fn a_run_notices_what_the_rules_do_not_allow() {
    let read = read("A[go(0,B,stop)] | B[stop] .");
    assert_eq!(
        Run::new(&read).action(Record::new(1, 0, 0)),
        Err(Broken::StraightAction)
    );
    assert_eq!(Run::new(&read).tick(0), Err(Broken::StraightTick));
    let moved = act(&read, 2, 0, 0);
    assert_eq!(Run::new(&read).finish(&moved), Err(Broken::StraightDiffers));
    let mut run = Run::new(&read);
    assert_eq!(run.action(Record::new(2, 0, 0)), Ok(()));
    assert_eq!(run.finish(&moved), Ok(()));
}

#[test]
fn a_printed_list_is_read_back() {
    for Case { calls, .. } in cases(40) {
        assert_eq!(lists::parse(&lists::print(&calls)), Ok(calls));
    }
    assert!(lists::parse("tick\n").is_err());
    assert!(lists::parse("proposal 0 1 2\n").is_err());
}

#[test]
fn the_same_seed_gives_the_same_texts_rights_and_lists() {
    let made = |seed, edition: Edition| {
        let script = generate::script_to_run(seed);
        let settings = Settings {
            edition: edition.number(),
            rights: generate::rights(&mut Random::new(seed)),
        };
        let calls = generate::calls(seed, &script, &settings);
        (script, settings, calls)
    };
    for seed in 0..50 {
        for edition in Edition::BOTH {
            assert_eq!(made(seed, edition), made(seed, edition));
        }
    }
}

#[test]
fn random_texts_reach_every_reading_question() {
    let mut seen = [0; 8];
    for index in 0..3_000 {
        let text = generate::script(generate::seed(7, index));
        seen[question(&text) as usize] += 1;
    }
    assert!(seen.iter().all(|count| *count > 5), "{seen:?}");
}

#[test]
fn random_lists_reach_every_refusal() {
    let mut seen: HashMap<String, usize> = HashMap::new();
    for case in cases(100) {
        let text = case.answers(engine());
        for line in text.lines().filter(|line| !line.starts_with("component")) {
            *seen.entry(line.to_string()).or_default() += 1;
        }
    }
    let times = |line: &str| seen.get(line).copied().unwrap_or(0);
    for number in (8..=16).chain([18, 20, 26]) {
        assert!(times(&format!("refused {number}")) > 10, "refusal {number}");
    }
    for answer in ["ok yes", "ok no", "ok none", "rest kept", "run ok"] {
        assert!(times(answer) > 10, "{answer}");
    }
}

/// After one pass upward nothing is forced, so a step is refused by 8, 15, 13 or,
/// where a pair of all components would pass the count, 18 only; and no call ever makes the components fewer.
#[test]
fn a_step_never_meets_12_and_components_never_become_fewer() {
    for case in cases(60) {
        let mut network = case.network();
        for call in &case.calls {
            for location in 0..network.script.locations.len() as u32 {
                let answer = number(engine().step(&network, location, &mut records()));
                let most = network.ledger.messages + network.components.len() as u32 / 2;
                let full = answer == 18 && most > Ledger::MOST_MESSAGES;
                assert!(matches!(answer, 0 | 13) || full, "a step gave {answer}");
            }
            if let Some(next) = next(&network, call) {
                assert!(next.components.len() >= network.components.len());
                network = next;
            }
        }
    }
}

fn records() -> [Record; 256] {
    [Record::new(0, 0, 0); 256]
}

/// The network that an accepted action or tick returns.
fn next(network: &Network, call: &Call) -> Option<Network> {
    match call {
        Call::Action(record) => engine().action(network, *record).ok().map(|(next, _)| next),
        Call::Tick(location) => engine().tick(network, *location).ok(),
        _ => call.written_into(network),
    }
}

/// Reading what was written under the network's own edition gives the same
/// network, wherever the text meets the limits, whatever the rights; under the
/// other edition it does not.
#[test]
fn written_networks_are_read_back() {
    for case in cases(100) {
        let mut network = case.network();
        for call in case.calls.iter().take(120) {
            if let Call::Step { location, .. } | Call::Tick(location) = call {
                let mut lent = vec![Record::new(0, 0, 0); 256];
                if let Ok(stepped) = engine().step(&network, *location, &mut lent) {
                    network = stepped.network;
                }
            }
        }
        let text = written(&network);
        let edition = case.settings.edition;
        let own = engine().read(text.as_bytes(), &Settings::all(edition));
        let other = engine().read(text.as_bytes(), &case.under_the_other_edition().settings);
        match (own, other) {
            (Ok(own), Ok(other)) => {
                assert!(engine().same(&own, &network));
                assert!(!engine().same(&other, &network));
            }
            (own, other) => {
                let refused = number(own);
                assert!(matches!(refused, 1 | 4), "{refused}");
                assert_eq!(number(other), refused);
            }
        }
    }
}
