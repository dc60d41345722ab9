//! Document 02, R-3: a step serves the input with the least timer. Its readings
//! through the proved engine's library; then networks of many inputs through both
//! engines, up to as many components as a network holds, with timers in every
//! order, on several channels, at two locations, under both editions and without
//! some rights. Every record and every network is compared.

use compare::differ::differ;
use compare::load::Timers;
use compare::reading::theirs;
use compare::timo::{self, Settings, Table};
use timo_reference::calls::{Engine, Record};
use timo_reference::lists::Call;
use timo_reference::random::Random;
use timo_reference::rules::Variant;

const MEET: u32 = 3;

fn read(text: &str, settings: Settings) -> Table {
    let read = Table::read(text.as_bytes(), settings);
    read.unwrap_or_else(|number| panic!("refused {number}: {text}"))
}

fn written(table: &Table) -> String {
    let mut lent = [0; 512];
    let length = table.write(&mut lent).expect("writing");
    String::from_utf8_lossy(&lent[..length]).into_owned()
}

/// The outputs and inputs that meet in the step at the first location.
fn met(table: &Table) -> Vec<[u32; 2]> {
    let mut lent = [[77; 3]; 16];
    let count = table.clone().step(0, &mut lent).expect("a step");
    assert!(lent[count..].iter().all(|record| *record == [77; 3]));
    let meetings = lent[..count].iter().filter(|[kind, ..]| *kind == MEET);
    meetings.map(|[_, p, q]| [*p, *q]).collect()
}

/// So many outputs on c, then an input with each timer, under each edition.
fn heads(outputs: usize, timers: &[&str]) -> [Vec<[u32; 2]>; 2] {
    let inputs = timers.iter().map(|t| format!("in(c,{t},x,stop,stop)"));
    let parts = vec!["out(c,9,A,stop,stop)".to_string(); outputs];
    let parts: Vec<String> = parts.into_iter().chain(inputs).collect();
    let text = format!("A[{}] .", parts.join(" | "));
    Settings::BOTH.map(|settings| met(&read(&text, settings)))
}

/// The same under each edition.
fn both<const N: usize>(meetings: [[u32; 2]; N]) -> [Vec<[u32; 2]>; 2] {
    [meetings.to_vec(), meetings.to_vec()]
}

// --- the choice ----------------------------------------------------------------

#[test]
fn the_least_timer_first_then_the_lowest_position() {
    assert_eq!(heads(1, &["5", "2", "7"]), both([[0, 2]]));
    assert_eq!(heads(1, &["10", "9"]), both([[0, 2]]));
    assert_eq!(heads(1, &["1", "0"]), both([[0, 2]]));
    assert_eq!(heads(1, &["4", "4", "4"]), both([[0, 1]]));
    assert_eq!(heads(1, &["5", "4", "4"]), both([[0, 2]]));
    assert_eq!(heads(2, &["6", "3", "inf", "1"]), both([[0, 5], [1, 3]]));
    assert_eq!(heads(3, &["6", "3"]), both([[0, 4], [1, 3]]));
}

#[test]
fn inf_comes_last() {
    assert_eq!(heads(1, &["inf", "3"]), both([[0, 2]]));
    assert_eq!(heads(1, &["inf", "1000000"]), both([[0, 2]]));
    assert_eq!(heads(1, &["1000000", "inf"]), both([[0, 1]]));
    assert_eq!(heads(1, &["inf", "inf"]), both([[0, 1]]));
    assert_eq!(heads(2, &["inf", "3"]), both([[0, 3], [1, 2]]));
}

#[test]
fn what_does_not_count() {
    let channel = "A[out(c,9,A,stop,stop) | in(d,0,x,stop,stop) | in(c,8,x,stop,stop) | \
        in(c,3,x,stop,stop)] .";
    let location = "A[out(c,9,A,stop,stop) | in(c,8,x,stop,stop)] | B[in(c,0,x,stop,stop)] | \
        A[in(c,3,x,stop,stop)] .";
    let unfolded = "A[H | out(c,9,A,stop,stop) | in(c,4,x,stop,stop) | in(c,3,x,stop,stop)] .";
    let unfolded = format!("H = in(c,0,x,stop,stop) . {unfolded}");
    for settings in Settings::BOTH {
        assert_eq!(met(&read(channel, settings)), [[0, 3]]);
        assert_eq!(met(&read(location, settings)), [[0, 3]]);
        assert_eq!(met(&read(&unfolded, settings)), [[1, 3]]);
        let mut marked = read(&unfolded, settings);
        marked.action(1, 0, 0).expect("the call");
        assert_eq!(met(&marked), [[1, 3]]);
        assert_eq!(marked.tick(0), Err(12));
    }
}

#[test]
fn an_output_without_its_right_takes_no_input() {
    let text = "A[out(c,9,A,stop,stop) | out(d,9,A,stop,stop) | in(c,0,x,stop,stop) | \
        in(d,7,x,stop,stop) | in(d,2,x,stop,stop)] .";
    let mut settings = Settings::EDITION_1;
    assert_eq!(met(&read(text, settings)), [[0, 2], [1, 4]]);
    settings.rights[0].send[0] = false;
    assert_eq!(met(&read(text, settings)), [[1, 4]]);
    settings = Settings::EDITION_1;
    settings.rights[0].receive[0] = false;
    assert_eq!(met(&read(text, settings)), [[1, 4]]);
}

/// The head about to time out is served; the other waits, or takes its Q under
/// edition 2.
#[test]
fn two_heads() {
    let text = "A[out(c,9,B,stop,stop) | in(c,1,x,go(9,x,stop),go(9,M,stop)) | \
        in(c,0,x,go(9,x,stop),go(9,M,stop))] .";
    let waits = "A[stop] | A[in(c,0,x,go(9,x,stop),go(9,M,stop))] | A[go(9,B,stop)] .\n";
    let times_out = "A[stop] | A[go(9,M,stop)] | A[go(9,B,stop)] .\n";
    for (settings, after) in Settings::BOTH.into_iter().zip([waits, times_out]) {
        let mut table = read(text, settings);
        let mut lent = [[77; 3]; 2];
        assert_eq!(table.step(0, &mut lent), Ok(1));
        assert_eq!(lent, [[MEET, 0, 2], [77; 3]]);
        assert_eq!(written(&table), after);
    }
}

#[test]
fn a_proposal_and_an_action_may_pick_any_partner() {
    let text = "A[out(c,9,A,stop,stop) | in(c,5,x,stop,stop) | in(c,2,x,stop,stop)] .";
    for settings in Settings::BOTH {
        for partner in [1, 2] {
            let mut table = read(text, settings);
            let record = timo::Record {
                kind: MEET,
                p: 0,
                q: partner,
            };
            assert!(table.clone().action(MEET, 0, partner as usize).is_ok());
            assert_eq!(table.propose(0, &[record]), Ok(()));
        }
    }
}

// --- many inputs ---------------------------------------------------------------

/// Where the outputs stand.
#[derive(Clone, Copy, Debug)]
enum Outputs {
    First,
    Last,
    Between,
}

/// The timers of inputs.
#[derive(Clone, Copy, Debug)]
enum Heard {
    /// All different but for those that are equal, as in the benchmark.
    By(Timers),
    /// From 0 to 3 at random, so that many are equal.
    Few,
    /// Every third `inf`, the others as said.
    InfAmong(Timers),
    Inf,
}

const HEARD: [Heard; 8] = [
    Heard::By(Timers::Equal),
    Heard::By(Timers::Rising),
    Heard::By(Timers::Falling),
    Heard::By(Timers::Random),
    Heard::Few,
    Heard::InfAmong(Timers::Falling),
    Heard::InfAmong(Timers::Random),
    Heard::Inf,
];

impl Heard {
    fn of(self, count: usize) -> Vec<String> {
        let numbers = |timers: Timers| timers.of(count).into_iter().map(|t| t.to_string());
        match self {
            Heard::By(timers) => numbers(timers).collect(),
            Heard::Few => {
                let mut random = Random::new(count as u64);
                (0..count).map(|_| random.below(4).to_string()).collect()
            }
            Heard::InfAmong(timers) => {
                let third = |(k, timer)| if k % 3 == 1 { inf() } else { timer };
                numbers(timers).enumerate().map(third).collect()
            }
            Heard::Inf => vec![inf(); count],
        }
    }
}

fn inf() -> String {
    "inf".to_string()
}

/// A network by its measures. One part in so many is an output, and one in so many
/// of either stands at B. An output goes on with another; an input goes on with
/// another too, and so does its Q, so that several steps have a choice.
#[derive(Clone, Copy, Debug)]
struct Shape {
    count: usize,
    one_in: usize,
    at_b: usize,
    channels: usize,
    outputs: Outputs,
    heard: Heard,
}

impl Shape {
    fn script(self) -> String {
        let outs = self.count / self.one_in;
        let channel = |k: usize| ["c", "d", "e"][k % self.channels];
        let output = |k: usize| {
            let c = channel(k);
            self.located(k, format!("out({c},7,A,out({c},1,B,stop,stop),stop)"))
        };
        let timers = self.heard.of(self.count - outs);
        let input = |(k, timer): (usize, &String)| {
            let c = channel(k / 2);
            let next = |timer: usize| format!("in({c},{timer},x,stop,stop)");
            let (then, otherwise) = (next(3), next(1));
            self.located(k, format!("in({c},{timer},x,{then},{otherwise})"))
        };
        let sent: Vec<String> = (0..outs).map(output).collect();
        let heard: Vec<String> = timers.iter().enumerate().map(input).collect();
        format!("{} .", self.arranged(sent, heard).join(" | "))
    }

    fn located(self, k: usize, part: String) -> String {
        let last = k % self.at_b == self.at_b - 1;
        let place = if last { 'B' } else { 'A' };
        format!("{place}[{part}]")
    }

    fn arranged(self, sent: Vec<String>, heard: Vec<String>) -> Vec<String> {
        match self.outputs {
            Outputs::First => [sent, heard].concat(),
            Outputs::Last => [heard, sent].concat(),
            Outputs::Between => {
                let mut sent = sent.into_iter();
                let mut all = Vec::new();
                for (k, input) in heard.into_iter().enumerate() {
                    if k % (self.one_in - 1) == 0 {
                        all.extend(sent.next());
                    }
                    all.push(input);
                }
                all.extend(sent);
                all
            }
        }
    }
}

/// Steps at both locations, then the report and a tick.
fn steps(count: usize) -> Vec<Call> {
    let mut calls = Vec::new();
    for room in [0, count / 2, 256, 256, 256] {
        for location in [0, 1] {
            calls.push(Call::Step { location, room });
        }
        calls.push(Call::Forced);
    }
    calls.push(Call::Tick(0));
    calls
}

/// A proposal of what a step with a wrong choice would fire, and a step after it.
fn proposals(settings: &Settings, script: &str) -> Vec<Call> {
    let network = Engine::default().read(script.as_bytes(), &theirs(settings));
    let network = network.expect("a network");
    let mut calls = Vec::new();
    for variant in [Variant::FiresGreatestTimer, Variant::FiresLowestInput] {
        let mut lent = vec![Record::new(0, 0, 0); 256];
        let stepped = Engine::new(variant).step(&network, 0, &mut lent);
        lent.truncate(stepped.expect("a step").labels.len());
        calls.push(Call::Proposal {
            location: 0,
            records: lent,
        });
    }
    calls.push(Call::Step {
        location: 0,
        room: 256,
    });
    calls
}

fn through_both(shape: Shape, settings: Settings) {
    let script = shape.script();
    for calls in [steps(shape.count), proposals(&settings, &script)] {
        let result = differ(Engine::default(), settings, script.as_bytes(), &calls);
        if let Err(difference) = result {
            let (edition, place) = (settings.edition, difference.place);
            let shown = if shape.count <= 16 { &script } else { "" };
            panic!(
                "{shape:?}, edition {edition}, {place:?}: {}\n{shown}",
                difference.what
            );
        }
    }
}

/// All rights under an edition, or all but one to send or to receive at A.
fn given(k: usize) -> Settings {
    let mut settings = Settings::BOTH[k % 2];
    match k % 7 {
        5 => settings.rights[0].send[1] = false,
        6 => settings.rights[0].receive[0] = false,
        _ => {}
    }
    settings
}

#[test]
fn many_inputs_through_both_engines() {
    let mut k = 0;
    for count in [2, 3, 5, 16, 63, 64, 65, 255] {
        for heard in HEARD {
            for outputs in [Outputs::First, Outputs::Last, Outputs::Between] {
                let shape = Shape {
                    count,
                    one_in: [2, 4, 16][k % 3],
                    at_b: [1_000, 5][k / 3 % 2],
                    channels: 1 + k / 2 % 3,
                    outputs,
                    heard,
                };
                through_both(shape, given(k));
                k += 1;
            }
        }
    }
}

/// On one channel, at one location and with half of them outputs, where most meet.
#[test]
fn a_full_location_on_one_channel() {
    for (k, heard) in HEARD.into_iter().enumerate() {
        for outputs in [Outputs::First, Outputs::Last, Outputs::Between] {
            let shape = Shape {
                count: 256,
                one_in: 2,
                at_b: 1_000,
                channels: 1,
                outputs,
                heard,
            };
            through_both(shape, Settings::BOTH[k % 2]);
        }
    }
}

/// The networks above tell every wrong choice apart, by the reference engine alone.
#[test]
fn the_networks_tell_the_wrong_choices_apart() {
    for variant in Variant::WRONG_CHOICES {
        let told = HEARD.into_iter().filter(|heard| {
            let shape = Shape {
                count: 16,
                one_in: 4,
                at_b: 1_000,
                channels: 2,
                outputs: Outputs::Between,
                heard: *heard,
            };
            let settings = theirs(&Settings::EDITION_1);
            let network = Engine::default().read(shape.script().as_bytes(), &settings);
            let network = network.expect("a network");
            let [right, wrong] = [Engine::default(), Engine::new(variant)].map(|engine| {
                let mut lent = vec![Record::new(0, 0, 0); 16];
                let _ = engine.step(&network, 0, &mut lent);
                lent
            });
            right != wrong
        });
        assert!(told.count() > 0, "{variant:?}");
    }
}
