//! Scripts in which articles wait: document 02, R-1. Senders stand and wait with long
//! timers, many of them equal, and come one after the other; readers come later, or
//! never. What has met waits anew and comes back. Some networks grow meanwhile, and in
//! some a pair meets at its last chance. And scripts whose mean is often at the half:
//! document 02, R-9.

use super::draft::{cut, spaced, Draft};
use crate::random::Random;

const LOCATIONS: [&str; 2] = ["A", "B"];
const SENDERS: [&str; 2] = ["Page", "late"];
const READERS: [&str; 2] = ["Head", "slow"];

/// A script that reading accepts.
pub fn text(random: &mut Random) -> Vec<u8> {
    let tokens = draft(random).tokens();
    spaced(random, &tokens)
}

/// A script that runs to its end: a few articles that are alike, and as many readers,
/// each of which comes after some ticks, three at most, or is there.
pub fn met(random: &mut Random) -> Vec<u8> {
    let messages = [1, 2, 3, 4, 6][random.weighted(&[1, 8, 2, 4, 2])];
    let mut draft = Draft::default();
    for _ in 0..messages {
        let reader = "in(c,9,x,stop,stop)";
        let comes = match random.between(0, 3) {
            0 => reader.to_string(),
            ticks => format!("go({},A,{reader})", ticks - 1),
        };
        draft.located.push(cut("A[out(c,9,A,stop,stop)]"));
        draft.located.push(cut(&format!("A[{comes}]")));
    }
    random.shuffle(&mut draft.located);
    spaced(random, &draft.tokens())
}

/// Senders and readers, in any order, mostly at the first location.
pub fn draft(random: &mut Random) -> Draft {
    let mut draft = Draft::default();
    for name in SENDERS {
        let again = format!("{name}={}", sender(random, name));
        draft.definitions.push(cut(&again));
    }
    for name in READERS {
        let again = format!("{name}={}", reader(random, name));
        draft.definitions.push(cut(&again));
    }
    for _ in 0..random.between(1, 4) {
        let name = *random.pick(&SENDERS);
        let part = arriving(random, sender, name);
        draft.located.push(cut(&part));
        if random.chance(1, 3) {
            draft.located.push(cut(&part));
        }
    }
    for _ in 0..random.between(1, 4) {
        let name = *random.pick(&READERS);
        draft.located.push(cut(&arriving(random, reader, name)));
    }
    if random.chance(1, 3) {
        grow(random, &mut draft);
    }
    if random.chance(1, 3) {
        meet_at_zero(&mut draft);
    }
    random.shuffle(&mut draft.located);
    draft
}

/// What grows at B until a step would not fit the table, and pairs of which one meets
/// there in every step.
fn grow(random: &mut Random, draft: &mut Draft) {
    let body = vec!["Grow"; random.between(2, 6)].join("|");
    let (ping, pong) = ("out(c,9,A,Ping,Ping)", "in(c,9,x,Pong,Pong)");
    for (name, body) in [("Grow", body.as_str()), ("Ping", ping), ("Pong", pong)] {
        draft.definitions.push(cut(&format!("{name}={body}")));
    }
    for part in ["Grow", "Ping", "Pong", ping, pong] {
        draft.located.push(cut(&format!("B[{part}]")));
    }
}

/// A pair with timers of 0 by itself at C, where nothing else stops the tick.
fn meet_at_zero(draft: &mut Draft) {
    for (name, body) in [
        ("Now", "out(c,0,C,Now,Now)"),
        ("once", "in(c,0,x,once,once)"),
    ] {
        draft.definitions.push(cut(&format!("{name}={body}")));
        draft.located.push(cut(&format!("C[{name}]")));
    }
}

/// A part that stands there or comes after some ticks, from here or from elsewhere.
fn arriving(random: &mut Random, part: fn(&mut Random, &str) -> String, name: &str) -> String {
    let [first, other] = LOCATIONS;
    let at = if random.chance(2, 3) { first } else { other };
    let timer = random.between(0, 4);
    match random.weighted(&[3, 3, 1, 1]) {
        0 => format!("{at}[{}]", part(random, name)),
        1 => format!("{at}[go({timer},{at},{})]", part(random, name)),
        2 => format!("{other}[go({timer},{first},{name})]"),
        _ => format!("{at}[{name}]"),
    }
}

fn sender(random: &mut Random, again: &str) -> String {
    let (channel, timer) = (channel(random), patience(random));
    let [then, otherwise] = [(); 2].map(|()| rest(random, again));
    format!("out({channel},{timer},A,{then},{otherwise})")
}

fn reader(random: &mut Random, again: &str) -> String {
    let (channel, timer) = (channel(random), patience(random));
    let [then, otherwise] = [(); 2].map(|()| rest(random, again));
    format!("in({channel},{timer},x,{then},{otherwise})")
}

/// Mostly the same one.
fn channel(random: &mut Random) -> &'static str {
    ["c", "d"][random.weighted(&[5, 1])]
}

/// A timer that is mostly long.
fn patience(random: &mut Random) -> &'static str {
    ["inf", "9", "5", "2", "0"][random.weighted(&[4, 3, 2, 2, 2])]
}

/// What comes next: the same again, mostly after some ticks.
fn rest(random: &mut Random, again: &str) -> String {
    let timer = random.between(0, 3);
    match random.weighted(&[8, 8, 2, 1, 1]) {
        0 => format!("go({timer},A,{again})"),
        1 => again.to_string(),
        2 => format!("go({timer},B,{again})"),
        3 => format!("stop|{again}"),
        _ => "stop".to_string(),
    }
}
