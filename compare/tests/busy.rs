//! Steps and ticks at a busy location through both engines: with a copy of the
//! components and without one, at every edge between the two. A step keeps none
//! where at most 64 components stand at its location, of which none can split, if
//! a record is lent for each component; no answer shows which way was gone.

use compare::differ::differ;
use compare::reading::theirs;
use compare::timo::Settings;
use timo_reference::calls::{Engine, Record};
use timo_reference::lists::Call;
use timo_reference::refusal::Refusal;

/// Components by number, every `apart`th of them at A and the others at B; the
/// last is `last`, at A.
fn network(count: usize, apart: usize, one: fn(usize) -> &'static str, last: &str) -> String {
    let place = |i: usize| if i % apart == 0 { 'A' } else { 'B' };
    let mut components: Vec<String> = (1..count)
        .map(|i| format!("{}[{}]", place(i), one(i)))
        .collect();
    components.push(format!("A[{last}]"));
    format!("D = stop | stop . {} .", components.join(" | "))
}

/// Pairs on one channel.
fn pairs(i: usize) -> &'static str {
    match i % 2 {
        0 => "out(c,1,A,stop,stop)",
        _ => "in(c,1,x,stop,stop)",
    }
}

/// A call, a `go`, an output that is heard by none and an input that hears none.
fn mixed(i: usize) -> &'static str {
    match i % 4 {
        0 => "go(0,B,stop)",
        1 => "out(d,0,A,stop,stop)",
        2 => "in(e,0,x,stop,stop)",
        _ => "go(2,B,stop)",
    }
}

/// What may come last: nothing that splits, or a split by an action, by a timer
/// and of a component that does nothing.
const LAST: [&str; 7] = [
    "stop",
    "D",
    "go(0,A,stop | stop)",
    "go(3,A,stop | stop | stop)",
    "out(f,0,A,stop,stop | stop)",
    "in(f,1,x,stop | stop,stop)",
    "out(c,0,A,stop | stop,stop)",
];

/// Both editions where all stand at A, otherwise one of them.
fn editions(apart: usize) -> &'static [Settings] {
    match apart {
        1 => &Settings::BOTH,
        3 => &[Settings::EDITION_2],
        _ => &[Settings::EDITION_1],
    }
}

fn through_both(count: usize, apart: usize, one: fn(usize) -> &'static str, last: &str) {
    let script = network(count, apart, one, last);
    let mut calls: Vec<Call> = (0..4).flat_map(|_| [0, 1].map(Call::Tick)).collect();
    for room in [0, 1, count / 2, count - 1, count, count + 1, 256, 300] {
        for location in [0, 1] {
            calls.extend([
                Call::Step { location, room },
                Call::Tick(location),
                Call::Forced,
            ]);
        }
    }
    for settings in editions(apart) {
        let result = differ(Engine::default(), *settings, script.as_bytes(), &calls);
        assert!(
            result.is_ok(),
            "{count} components, {apart} apart, {last}, {settings:?}"
        );
    }
}

#[test]
fn steps_and_ticks_with_and_without_a_copy() {
    for count in [1, 2, 63, 64, 65, 66, 255, 256] {
        for apart in [1, 3, 4] {
            for one in [pairs, mixed] {
                for last in LAST {
                    through_both(count, apart, one, last);
                }
            }
        }
    }
}

/// 13 is answered by no of a full network that splits, and nothing has changed.
#[test]
fn thirteen_on_a_full_network() {
    let script = network(256, 1, mixed, "D");
    let engine = Engine::default();
    let network = engine
        .read(script.as_bytes(), &theirs(&Settings::EDITION_1))
        .expect("a network");
    let mut lent = vec![Record::new(0, 0, 0); 256];
    let refused = engine.step(&network, 0, &mut lent).err();
    assert_eq!(refused.map(Refusal::number), Some(13));
    let calls = [
        Call::Step {
            location: 0,
            room: 256,
        },
        Call::Forced,
    ];
    for settings in Settings::BOTH {
        assert!(differ(engine, settings, script.as_bytes(), &calls).is_ok());
    }
}
