//! Document 02, R-13: the single-outcome profile. By hand: what conforms and what does
//! not, the two calls with their questions, and every whole step of small networks. From
//! seeds: where a location conforms all whole steps end alike, and every wrong variant is
//! told apart.

mod common;
use common::cases::cases;
use common::*;
use std::collections::BTreeMap;
use timo_reference::calls::{Engine, Record};
use timo_reference::generate;
use timo_reference::lists;
use timo_reference::outcomes::{Choice, Outcomes};
use timo_reference::printout;
use timo_reference::random::Random;
use timo_reference::rights;
use timo_reference::rules::Variant;
use timo_reference::steps::calls_before;
use timo_reference::tally::Tally;
use timo_reference::term::{Edition, Ledger, Network, Settings};

const BLANK: Record = Record {
    kind: 77,
    p: 77,
    q: 77,
};

/// More whole steps than any network of these tests has that is written by hand: those
/// of six actions.
const MOST: usize = 720;

fn conforms(network: &Network, location: u32) -> bool {
    let tested = engine().conforms(network, location);
    tested.expect("a location in range")
}

/// Whether the first location of a text conforms under both editions, which must agree.
fn conforms_at_a(text: &str) -> bool {
    let [one, two] = Edition::BOTH.map(|edition| conforms(&read_under(edition, text), 0));
    assert_eq!(one, two, "{text}");
    one
}

fn with(rights: &str, text: &str) -> Network {
    let settings = rights::settings(text.as_bytes(), 1, Some(rights));
    read_with(&settings.expect("rights of the text's names"), text)
}

/// A conforming step with room for so many records: the network, the records and the
/// labels, or the number of a refusal, which leaves the buffer.
type Stepped = Result<(Network, Vec<Record>, Vec<String>), u8>;

fn conforming(network: &Network, location: u32, room: usize) -> Stepped {
    let mut lent = vec![BLANK; room];
    match engine().conforming_step(network, location, &mut lent) {
        Ok(stepped) => {
            let labels: Vec<String> = stepped.labels.iter().map(|l| l.to_string()).collect();
            assert!(lent[labels.len()..].iter().all(|record| *record == BLANK));
            lent.truncate(labels.len());
            Ok((stepped.network, lent, labels))
        }
        Err(refusal) => {
            assert!(lent.iter().all(|record| *record == BLANK));
            Err(refusal.number())
        }
    }
}

fn refused(network: &Network, location: u32, room: usize) -> u8 {
    conforming(network, location, room).err().unwrap_or(0)
}

// --- what conforms -------------------------------------------------------------

#[test]
fn where_nothing_is_ready_but_stop_and_calls() {
    assert!(conforms_at_a("A[stop] ."));
    assert!(conforms_at_a("A[stop|stop] | B[go(5,A,stop)] ."));
    assert!(conforms_at_a("D=go(5,A,stop). A[D|D|D|stop] ."));
    assert!(conforms(&read("B[go(5,A,stop)] ."), 1), "nothing at A");
}

/// A `go` at 0 has to fire, one above it may.
#[test]
fn a_go_with_a_timer_above_0_does_not_conform() {
    assert!(conforms_at_a("A[go(0,B,stop)] ."));
    assert!(conforms_at_a(
        "A[go(0,B,stop)|go(0,A,stop)|go(0,B,go(9,A,stop))] ."
    ));
    for timer in ["1", "2", "999999", "1000000", "inf"] {
        assert!(!conforms_at_a(&format!("A[go({timer},B,stop)] .")));
        assert!(!conforms_at_a(&format!("A[go({timer},A,stop)] .")));
        assert!(!conforms_at_a(&format!(
            "A[stop|go(0,B,stop)|go({timer},B,stop)] ."
        )));
    }
}

/// It conforms when its timer has come down.
#[test]
fn a_late_go_comes_down_to_0() {
    let mut network = read("A[go(2,B,stop)] .");
    for expected in [false, false, true] {
        assert_eq!(conforms(&network, 0), expected);
        network = stepped(&network, 0);
    }
    assert_eq!(shown(&network), "B[] stop");
}

#[test]
fn one_sender_and_one_receiver_on_a_channel_conform() {
    assert!(conforms_at_a("A[out(c,1,A,stop,stop)] ."));
    assert!(conforms_at_a("A[in(c,1,x,stop,stop)] ."));
    assert!(conforms_at_a(
        "A[out(c,1,A,stop,stop)|in(c,1,x,stop,stop)] ."
    ));
    assert!(conforms_at_a(
        "A[out(c,1,A,stop,stop)|in(d,1,x,stop,stop)|out(d,0,A,stop,stop)|in(c,inf,x,stop,stop)] ."
    ));
}

/// Whether there is anyone to meet or not, and whatever the timers.
#[test]
fn a_second_sender_or_receiver_does_not_conform() {
    for timer in ["0", "1", "inf"] {
        let sender = format!("out(c,{timer},A,stop,stop)");
        let receiver = format!("in(c,{timer},x,stop,stop)");
        for beside in ["stop", "in(c,3,x,stop,stop)", "in(d,3,x,stop,stop)"] {
            let text = format!("A[out(c,0,B,stop,stop)|{beside}|{sender}] .");
            assert!(!conforms_at_a(&text), "{text}");
        }
        for beside in ["stop", "out(c,3,A,stop,stop)", "out(d,3,A,stop,stop)"] {
            let text = format!("A[in(c,0,x,stop,stop)|{beside}|{receiver}] .");
            assert!(!conforms_at_a(&text), "{text}");
        }
    }
}

/// The channel is the first name, whatever is spelt alike.
#[test]
fn channels_are_told_apart_by_name() {
    assert!(conforms_at_a(
        "A[out(c,1,A,stop,stop)|out(d,1,A,stop,stop)|in(c,1,d,stop,stop)|in(d,1,c,stop,stop)] ."
    ));
    assert!(!conforms_at_a(
        "A[in(c,1,d,stop,stop)|in(c,1,x,stop,stop)] ."
    ));
}

#[test]
fn what_stands_elsewhere_does_not_count() {
    let text = "A[out(c,1,A,stop,stop)|in(d,1,x,stop,stop)] | \
        B[out(c,1,A,stop,stop)|in(d,1,x,stop,stop)|go(0,A,stop)] | C[go(5,A,stop)] .";
    let network = read(text);
    assert_eq!(
        [0, 1, 2].map(|l| conforms(&network, l)),
        [true, true, false]
    );
}

/// Inside a P or a Q nothing is ready.
#[test]
fn what_stands_inside_does_not_count() {
    let late = "go(5,B,stop)";
    let out = "out(c,1,A,stop,stop)";
    assert!(conforms_at_a(&format!("A[go(0,B,{late})] .")));
    assert!(conforms_at_a(&format!(
        "A[{out}|out(d,1,A,{out},{late})] ."
    )));
    assert!(conforms_at_a(&format!("A[{out}|in(d,1,x,{late},{out})] .")));
}

/// Marked by its own location, with several parts, and by the location that it has left.
#[test]
fn what_is_marked_does_not_count() {
    let text = "D = out(c,1,A,stop,stop)|go(5,B,stop)|in(c,1,x,stop,stop) . \
        A[D|out(c,1,A,stop,stop)] | B[go(0,A,in(d,1,x,stop,stop))] | A[in(d,1,x,stop,stop)] .";
    let network = read(text);
    let unfolded = act(&network, 1, 0, 0);
    assert!(
        conforms(&unfolded, 0),
        "with a mark the test is not refused"
    );
    let moved = act(&unfolded, 2, 2, 0);
    assert!(conforms(&moved, 0));
    assert!(!conforms(&tick(&moved, 1), 0), "two receivers on d");
    let ticked = tick(&unfolded, 0);
    assert!(!conforms(&ticked, 0), "two senders on c and a late go");
}

#[test]
fn rights_play_no_part() {
    for (conform, text) in [
        (false, "A[out(c,1,A,stop,stop)|out(c,1,B,stop,stop)] ."),
        (
            false,
            "A[in(c,1,x,stop,stop)|in(c,1,x,stop,stop)] | B[stop] .",
        ),
        (
            true,
            "A[out(c,1,A,stop,stop)|in(c,1,x,stop,stop)] | B[stop] .",
        ),
        (false, "A[go(1,B,stop)|stop|out(c,1,A,stop,stop)] ."),
        (false, "A[go(inf,B,stop)|out(c,1,A,stop,stop)] ."),
        (true, "A[go(0,B,stop)|out(c,1,A,stop,stop)] ."),
    ] {
        for rights in [
            "all\n",
            "none\n",
            "all\nwithhold send A c\n",
            "all\nwithhold receive A c\n",
            "all\nwithhold leave A B\n",
            "none\ngive leave A B\n",
        ] {
            assert_eq!(conforms(&with(rights, text), 0), conform, "{rights}{text}");
        }
    }
}

/// Neither do waits nor a full count.
#[test]
fn waits_and_messages_play_no_part() {
    let mut network = read("A[out(c,1,A,stop,stop)|in(c,1,x,stop,stop)] .");
    network.components[0].wait = 1_000_000;
    let full = network.after(Ledger {
        total: 7,
        messages: Ledger::MOST_MESSAGES,
    });
    assert!(conforms(&full, 0));
}

#[test]
fn the_test_asks_8_and_nothing_else() {
    let network = read("A[go(1,B,stop)] | B[stop] .");
    assert_eq!(
        number(engine().conforms(&network, 0)),
        0,
        "no is no refusal"
    );
    for location in [2, 63, 64, 255, u32::MAX] {
        let tested = engine().conforms(&network, location);
        assert_eq!(number(tested), 8);
        assert!(!engine().said(tested), "no stands beside the number");
    }
    assert!(!engine().said(engine().conforms(&network, 0)));
    assert!(engine().said(engine().conforms(&network, 1)));
}

// --- the conforming step -------------------------------------------------------

/// Calls, pairs on two channels, a due move and a time-out at A, which conforms.
const BUSY: &str = "D = stop|stop . A[in(c,0,x,go(0,x,stop),stop)|D|out(d,3,B,stop,stop)| \
    out(c,2,B,D,stop)|go(0,B,D)|in(e,0,x,stop,D|stop)|in(d,inf,y,stop,stop)|D] | B[go(4,A,stop)] .";

#[test]
fn it_does_what_the_step_does() {
    for edition in Edition::BOTH {
        let network = read_under(edition, BUSY);
        let (after, records, labels) = conforming(&network, 0, 256).expect("it conforms");
        assert_eq!(labels, ["D@A", "d<B>@A", "c<B>@A", "B@A", "D@A"]);
        assert_eq!((after, records, labels), step(&network, 0));
        assert_eq!(refused(&network, 1, 256), 26);
        assert_eq!(step(&network, 1).2, [""; 0], "the step is not refused");
    }
}

#[test]
fn its_questions_in_order() {
    let network = read("A[go(0,A,stop)|go(1,B,stop)] | B[go(0,A,stop)|stop] .");
    assert_eq!(refused(&network, 2, 256), 8);
    assert_eq!(refused(&network, u32::MAX, 0), 8, "8 before 26 and 15");
    assert_eq!(refused(&network, 0, 256), 26);
    assert_eq!(refused(&network, 0, 0), 26, "26 before 15");
    assert_eq!(refused(&network, 1, 0), 15);
    assert_eq!(refused(&network, 1, 1), 0);
}

/// A pair, and what grows at its next step.
fn growing(components: usize) -> Network {
    let stops = "|stop".repeat(components - 4);
    read(&format!(
        "D=stop|stop. A[out(c,1,A,stop,stop)|in(c,1,x,stop,stop)|D|D{stops}] ."
    ))
}

fn full(network: Network) -> Network {
    network.after(Ledger {
        total: 0,
        messages: Ledger::MOST_MESSAGES,
    })
}

#[test]
fn its_questions_of_space() {
    assert_eq!(refused(&full(growing(10)), 0, 2), 15, "15 before 18");
    assert_eq!(refused(&full(growing(10)), 0, 3), 18);
    assert_eq!(refused(&growing(255), 0, 2), 15, "15 before 13");
    assert_eq!(refused(&growing(255), 0, 3), 13);
    assert_eq!(refused(&full(growing(255)), 0, 3), 18, "18 before 13");
    assert_eq!(refused(&growing(254), 0, 3), 0);
    let late = |network: Network| {
        let mut components = network.components.clone();
        components[9] = read("A[go(1,A,stop)] .").components[0].clone();
        network.with(components)
    };
    assert_eq!(refused(&late(full(growing(255))), 0, 3), 26, "26 before 18");
    assert_eq!(refused(&late(growing(255)), 0, 3), 26, "26 before 13");
}

/// 26 asks about the network that the step is put to, not about what its actions leave.
#[test]
fn it_asks_before_its_actions() {
    let text = "A[out(c,1,A,stop,stop)|out(c,1,B,stop,stop)|in(c,1,x,stop,stop)] .";
    let network = read(text);
    assert_eq!(refused(&network, 0, 256), 26);
    let left = act(&network, 3, 0, 2);
    assert!(conforms(&left, 0));
    let (after, _, labels) = conforming(&left, 0, 256).expect("it conforms");
    assert_eq!(labels, [""; 0]);
    let expected = "A[] stop; A[] out(c,0,B,stop,stop); A[] stop";
    assert_eq!(shown(&after), expected, "with marks from before");
}

/// In the grouped run it counts as its actions and then the tick.
#[test]
fn it_counts_as_its_actions_and_then_the_tick() {
    let list = "conforms 0\naction 1 1 0\nconforming 0 9\nconforms 0\nconforming 0 9\n\
        conforming 1 9\nconforming 0 0\n";
    let calls = lists::parse(list).expect("calls");
    assert_eq!(lists::print(&calls), list);
    let answers = printout::answers(engine(), BUSY.as_bytes(), &Settings::all(1), &calls);
    let answer = |n: usize| {
        let head = format!("call {n} ");
        let lines = answers.lines().skip_while(|line| !line.starts_with(&head));
        lines.skip(1).take(2).collect::<Vec<&str>>().join(", ")
    };
    assert!(answer(0).starts_with("ok yes"));
    assert_eq!(answer(2), "ok 4, record 3 2 6 d<B>@A");
    assert!(answer(3).starts_with("ok yes"));
    assert_eq!(answer(5), "refused 26, rest kept");
    assert!(answers.ends_with("run ok\n"), "{answers}");
    let wrong = Engine::new(Variant::ConformingLeavesOutTick);
    let broken = printout::answers(wrong, BUSY.as_bytes(), &Settings::all(1), &calls);
    assert!(broken.contains("run broken"), "{broken}");
}

#[test]
fn lines_of_a_list_that_are_no_calls() {
    for line in [
        "conforms",
        "conforms 0 1",
        "conforming 0",
        "conforming",
        "conforming 0 1 2",
        "conforms A",
    ] {
        assert!(lists::parse(line).is_err(), "{line}");
    }
}

// --- every whole step ----------------------------------------------------------

fn every(network: &Network, location: u32) -> Outcomes {
    Outcomes::every(network, location, MOST).expect("not too many")
}

/// Six actions fire in 720 orders; all take the same components.
#[test]
fn whichever_order_they_fire_in() {
    let text = "D = stop|stop . A[in(c,0,x,go(0,x,stop),stop)|D|out(d,3,B,stop,stop)| \
        out(c,2,B,D,stop)|go(0,B,D)|in(e,0,x,stop,D|stop)|in(d,inf,y,stop,stop)|D|go(0,A,D)] .";
    for edition in Edition::BOTH {
        let network = read_under(edition, text);
        let all = every(&network, 0);
        assert_eq!(all.steps.len(), 720);
        assert_eq!(all.are_one(), Ok(()));
        assert!(all.end_alike());
        assert!(has_own_step(&all));
        assert!(Outcomes::every(&network, 0, 719).is_none());
        let labels = ["A@A", "B@A", "D@A", "D@A", "c<B>@A", "d<B>@A"];
        for one in &all.steps {
            let mut shown: Vec<String> = one.step.labels().iter().map(|l| l.to_string()).collect();
            shown.sort();
            assert_eq!(shown, labels);
        }
    }
}

/// Whether the engine's own step is one of them, and leads to the very same components.
fn has_own_step(all: &Outcomes) -> bool {
    let (after, records, _) = step(&all.before, all.location);
    let own = all
        .steps
        .iter()
        .find(|one| one.step.step.records == records);
    own.is_some_and(|own| own.components == after.components)
}

#[test]
fn where_nothing_fires_there_is_one_whole_step() {
    let all = every(&read("A[out(c,0,A,stop,stop)|in(d,1,x,stop,stop)] ."), 0);
    assert_eq!(all.steps.len(), 1);
    assert_eq!(all.are_one(), Ok(()));
    assert!(Outcomes::every(&read("A[stop] ."), 1, MOST).is_none());
}

/// Each point of the condition is needed: one of them does not hold, the others do, and
/// two whole steps end in different networks.
#[test]
fn without_a_point_of_the_condition_there_is_a_choice() {
    let late = "A[go(1,B,stop)] .";
    let forever = "A[go(inf,B,stop)|out(c,1,A,stop,stop)|in(c,1,x,stop,stop)] .";
    let senders = "A[out(c,1,A,stop,stop)|out(c,1,B,stop,stop)|in(c,1,x,go(0,x,stop),stop)] .";
    let receivers = "A[out(c,1,A,stop,stop)|in(c,1,x,stop,stop)|in(c,1,x,go(0,x,stop),stop)] .";
    for (text, point, count) in [
        (late, Variant::LateGoConforms, 2),
        (forever, Variant::LateGoConforms, 3),
        (senders, Variant::SendersNotCounted, 2),
        (receivers, Variant::ReceiversNotCounted, 2),
    ] {
        for edition in Edition::BOTH {
            let all = every(&read_under(edition, text), 0);
            assert_eq!(all.steps.len(), count, "{text}");
            assert_eq!(all.are_one(), Err(Choice::OtherNetwork), "{text}");
            let by = |variant: &Variant| all.conform_by(*variant);
            assert!(!by(&Variant::Right));
            let left_out = Variant::WITH_A_CHOICE.into_iter().filter(by);
            assert_eq!(left_out.collect::<Vec<Variant>>(), [point], "{text}");
        }
    }
}

/// Two receivers that are left as they were but for their timers: the networks are the
/// same where these are equal, and the labels show which sender was heard.
#[test]
fn a_choice_that_only_labels_show() {
    let text = "A[out(c,0,A,stop,stop)|out(c,0,B,stop,stop)|in(c,1,x,stop,stop)] .";
    let all = every(&read(text), 0);
    assert_eq!(all.steps.len(), 2);
    assert_eq!(all.are_one(), Err(Choice::OtherLabels));
}

/// The condition asks for more than a single outcome: senders that nobody hears, and
/// what lacks its right.
#[test]
fn what_does_not_conform_may_have_one_outcome() {
    let unheard = read("A[out(c,1,A,stop,stop)|out(c,1,B,stop,stop)] .");
    let withheld = "all\nwithhold leave A B\nwithhold send A c\n";
    let stuck = with(
        withheld,
        "A[go(2,B,stop)|out(c,1,A,stop,stop)|in(c,1,x,stop,stop)|in(c,2,x,stop,stop)] .",
    );
    for network in [unheard, stuck] {
        assert!(!conforms(&network, 0));
        let all = every(&network, 0);
        assert_eq!((all.steps.len(), all.are_one()), (1, Ok(())));
    }
}

/// Document 02 makes the claim of unmarked networks; it holds of marked ones too, as what
/// is marked takes no part in a step and is not touched by its actions. So no example
/// with a mark has two outcomes.
#[test]
fn a_mark_from_before_gives_no_choice() {
    let text = "D = out(c,1,A,stop,stop)|go(5,B,stop) . \
        A[D|out(c,1,A,stop,stop)|in(c,1,x,stop,stop)|D|go(0,B,stop)] | B[go(0,A,D)] .";
    let marked = act(&act(&read(text), 1, 0, 0), 2, 5, 0);
    assert!(conforms(&marked, 0));
    let all = every(&marked, 0);
    assert!(!all.is_unmarked());
    assert_eq!((all.steps.len(), all.are_one()), (6, Ok(())));
    assert!(all.end_alike() && has_own_step(&all));
}

// --- from seeds ----------------------------------------------------------------

/// Networks that some calls have led to, from scripts whose locations mostly conform and
/// from scripts of every sort, with rights of every sort or all, under each edition.
fn networks(count: u64) -> impl Iterator<Item = (Random, Network)> {
    let sorts = [generate::script_with_one_outcome, generate::script_to_run];
    let script = move |index: u64| {
        let seed = generate::seed(13, index);
        let mut random = Random::new(!seed);
        let mut settings = Settings::all(Edition::BOTH[index as usize % 2].number());
        if random.chance(2, 3) {
            settings.rights = generate::rights(&mut random);
        }
        let text = sorts[index as usize / 2 % 2](seed);
        let read = engine().read(&text, &settings);
        read.ok().map(|network| (random, network))
    };
    (0..count)
        .filter_map(script)
        .flat_map(|(mut random, read)| {
            (0..4).map(move |_| {
                let (_, network) = calls_before(&mut random, &read);
                (Random::new(random.draw()), network)
            })
        })
}

/// Whole steps at every location: all of them, or some where there are more than 120.
fn all_outcomes(count: u64) -> impl Iterator<Item = Outcomes> {
    networks(count).flat_map(|(mut random, network)| {
        let locations = 0..network.script.locations.len() as u32;
        locations.filter_map(move |l| Outcomes::most(&mut random, &network, l, 120))
    })
}

#[test]
fn where_a_location_conforms_all_whole_steps_end_alike() {
    let mut unmarked: Tally<Outcomes> = Tally::default();
    let (mut marked, mut steps) = (0, 0);
    for all in all_outcomes(500).filter(|all| all.conform_by(Variant::Right)) {
        assert_eq!(all.are_one(), Ok(()), "{all:?}");
        assert!(all.end_alike(), "{all:?}");
        let own = engine().step(&all.before, all.location, &mut [BLANK; 256]);
        if let Ok(own) = own {
            assert_eq!(own.network.components, all.steps[0].components);
            let whole = conforming(&all.before, all.location, 256);
            assert_eq!(whole.map(|(after, ..)| after), Ok(own.network));
        }
        steps += all.steps.len();
        match all.is_unmarked() {
            true => unmarked.count(&all),
            false => marked += 1,
        }
    }
    println!("{unmarked}; {marked} with marks; {steps} whole steps");
    assert!(unmarked.fewest() > 50, "{unmarked}");
    assert!(marked > 300 && steps > 30_000);
}

/// The engine's own step is among those that were found, whether the location conforms
/// or not.
#[test]
fn the_own_step_is_one_of_them() {
    let mut several = 0;
    for (_, network) in networks(200) {
        let found = |l: u32| Outcomes::every(&network, l, 120);
        let locations = 0..network.script.locations.len() as u32;
        for all in locations.filter_map(found) {
            let own = engine().step(&network, all.location, &mut [BLANK; 256]);
            assert!(own.is_err() || has_own_step(&all), "{all:?}");
            several += usize::from(own.is_ok() && all.steps.len() > 1);
        }
    }
    assert!(several > 300, "{several}");
}

/// How often a wrong condition lets something conform beside the right one, how often
/// that has a choice, and how often it turns away what conforms.
#[derive(Clone, Copy, Debug, Default)]
struct Against {
    admits: usize,
    choices: usize,
    turns_away: usize,
}

impl Against {
    fn count(&mut self, variant: Variant, all: &Outcomes) {
        match (all.conform_by(Variant::Right), all.conform_by(variant)) {
            (false, true) => {
                self.admits += 1;
                self.choices += usize::from(all.are_one().is_err());
            }
            (true, false) => self.turns_away += 1,
            _ => {}
        }
    }
}

#[test]
fn which_wrong_conditions_admit_a_choice() {
    let mut against = Variant::WRONG_CONFORMING.map(|variant| (variant, Against::default()));
    for all in all_outcomes(450) {
        for (variant, against) in &mut against {
            against.count(*variant, &all);
        }
    }
    for (variant, against) in against {
        println!("{variant:?}: {against:?}");
        let has_choice = Variant::WITH_A_CHOICE.contains(&variant)
            || matches!(
                variant,
                Variant::InfGoConforms | Variant::GoAtOneConformsUnderTwo
            );
        let Against {
            admits,
            choices,
            turns_away,
        } = against;
        assert_eq!(choices > 0, has_choice, "{variant:?}");
        assert!(choices == 0 || choices > 10, "{variant:?}");
        assert!(admits + turns_away > 20, "{variant:?}");
        assert!(admits == 0 || turns_away == 0, "{variant:?}");
    }
}

// --- wrong variants ------------------------------------------------------------

const SENDERS: &str = "A[out(c,1,A,stop,stop)|out(c,1,B,stop,stop)|in(c,1,x,stop,stop)] .";
const LATE: &str = "A[go(0,A,stop)|go(1,B,stop)] .";

/// An edition, rights, a script and a list that show a variant.
fn shown_by(variant: Variant) -> (u32, &'static str, &'static str, &'static str) {
    let of = |text, list| (1, "all", text, list);
    let pair = "A[out(c,1,A,stop,stop)|in(c,1,x,stop,stop)] .";
    let receivers = "A[in(c,1,x,stop,stop)|in(c,1,x,stop,stop)] .";
    let forever = "A[go(inf,B,stop)] .";
    let unfolding = "D=go(1,A,stop). A[D] .";
    let apart = "A[in(c,1,x,stop,stop)] | B[in(c,1,x,stop,stop)] .";
    let no_leave = "all\nwithhold leave A B";
    match variant {
        Variant::ReceiversNotCounted => of(receivers, "conforms 0"),
        Variant::SendersNotCounted => of(SENDERS, "conforms 0"),
        Variant::CountsBothTogether => of(pair, "conforms 0"),
        Variant::CountsOnlyWithRight => (1, "all\nwithhold send A c", SENDERS, "conforms 0"),
        Variant::CountsMarked => of(unfolding, "action 1 0 0\nconforms 0"),
        Variant::MarkDoesNotConform => {
            of("A[stop] | B[go(0,A,stop)] .", "action 2 1 0\nconforms 0")
        }
        Variant::CountsElsewhere => of(apart, "conforms 0"),
        Variant::CallDoesNotConform => of(unfolding, "conforms 0"),
        Variant::LateGoConforms => of(LATE, "conforms 0"),
        Variant::InfGoConforms => of(forever, "conforms 0"),
        Variant::GoAtOneConformsUnderTwo => (2, "all", LATE, "conforms 0"),
        Variant::LateGoWithoutRightConforms => (1, no_leave, LATE, "conforms 0"),
        Variant::StuckGoDoesNotConform => (1, no_leave, "A[go(0,B,stop)] .", "conforms 0"),
        Variant::TestRefuses => of(LATE, "conforms 0"),
        Variant::AsksProfileBeforeRange => of(LATE, "conforming 9 9"),
        Variant::AsksProfileAfterRoom => of(LATE, "conforming 0 0"),
        Variant::AsksProfileOfWhatIsLeft => of(SENDERS, "conforming 0 9"),
        Variant::ConformingStepsAnywhere => of(LATE, "conforming 0 9"),
        Variant::ConformingLeavesOutTick => of(pair, "conforming 0 9"),
        other => panic!("{other:?} is no mistake in the profile"),
    }
}

fn answers(engine: Engine, edition: u32, rights: &str, text: &str, list: &str) -> String {
    let settings = rights::settings(text.as_bytes(), edition, Some(rights)).expect("rights");
    let calls = lists::parse(list).expect("calls");
    printout::answers(engine, text.as_bytes(), &settings, &calls)
}

/// Every one that the answers to a list can show.
fn wrong() -> Vec<Variant> {
    [&Variant::WRONG_CONFORMING[..], &Variant::WRONG_PROFILE].concat()
}

#[test]
fn every_wrong_variant_is_shown_by_a_small_list() {
    for variant in wrong() {
        let (edition, rights, text, list) = shown_by(variant);
        let [right, wrong] = [engine(), Engine::new(variant)]
            .map(|engine| answers(engine, edition, rights, text, list));
        assert_ne!(wrong, right, "{variant:?}");
        assert!(right.ends_with("run ok\n"), "{variant:?}");
    }
}

/// A refused test shows no more than its number in the answers; what stands beside it
/// does.
#[test]
fn a_refused_test_that_says_yes() {
    let wrong = Engine::new(Variant::RefusedTestSaysYes);
    let network = read("A[stop] .");
    assert_eq!(number(wrong.conforms(&network, 1)), 8);
    assert!(wrong.said(wrong.conforms(&network, 1)));
    assert!(wrong.said(wrong.conforms(&network, 0)));
    assert!(Variant::WRONG_NUMBERS.contains(&Variant::RefusedTestSaysYes));
}

/// The other calls do not look at the profile.
#[test]
fn a_wrong_variant_changes_only_the_two_calls() {
    let list = "forced\nstep 0 9\naction 3 0 2\naction 2 1 0\ntick 0\nwrite 999\nsame\nmean\n\
        proposal 0\nstep 9 9";
    for text in [SENDERS, LATE, BUSY] {
        let right = answers(engine(), 1, "all", text, list);
        for variant in wrong().into_iter().chain([Variant::RefusedTestSaysYes]) {
            let wrong = answers(Engine::new(variant), 1, "all", text, list);
            assert_eq!(wrong, right, "{variant:?}: {text}");
        }
    }
}

/// Lists have both calls, with every answer.
#[test]
fn random_lists_reach_every_answer() {
    let mut seen = BTreeMap::new();
    for case in cases(100) {
        let text = case.answers(engine());
        let mut lines = text.lines().peekable();
        while let Some(line) = lines.next() {
            let call = line.split(' ').nth(2).unwrap_or("");
            if let ("conforms" | "conforming", Some(answer)) = (call, lines.peek()) {
                *seen.entry(format!("{call}: {answer}")).or_insert(0) += 1;
            }
        }
    }
    println!("{seen:?}");
    let times = |answer: &str| seen.get(answer).copied().unwrap_or(0);
    for answer in [
        "conforms: ok yes",
        "conforms: ok no",
        "conforming: ok 0",
        "conforming: ok 1",
        "conforming: ok 2",
        "conforming: refused 26",
        "conforming: refused 15",
    ] {
        assert!(times(answer) > 50, "{answer}");
    }
    for answer in [
        "conforms: refused 8",
        "conforming: refused 8",
        "conforming: refused 18",
        "conforming: refused 13",
        "conforming: ok 3",
        "conforming: ok 4",
    ] {
        assert!(times(answer) > 5, "{answer}");
    }
    let [yes, no] = ["yes", "no"].map(|word| times(&format!("conforms: ok {word}")));
    assert!(2 * yes > no && 2 * no > yes, "{yes} and {no}");
}
