//! What a host writes into its table: waits near their longest, counts near the
//! full one, totals whose two words carry. Every content here is within the ranges
//! of question 17.

use crate::lists::Call;
use crate::random::Random;
use crate::rules::sends_on;
use crate::term::{Component, Ledger, Network};

const LONGEST: u32 = Component::LONGEST_WAIT;
const MOST: u32 = Ledger::MOST_MESSAGES;

/// Messages, and the waits of some components.
pub fn first_writes(random: &mut Random, network: &Network) -> Vec<Call> {
    let mut writes = vec![Call::Messages(ledger(random))];
    for _ in 0..random.between(0, 6) {
        writes.push(wait(random, network));
    }
    writes
}

/// A wait or the messages, one as often as the other.
pub fn write(random: &mut Random, network: &Network) -> Call {
    if random.chance(1, 2) {
        wait(random, network)
    } else {
        Call::Messages(ledger(random))
    }
}

/// The wait of any component, mostly of an output.
fn wait(random: &mut Random, network: &Network) -> Call {
    let components = &network.components;
    let sends = |p: &usize| components[*p].ready_part().and_then(sends_on).is_some();
    let outputs: Vec<usize> = (0..components.len()).filter(sends).collect();
    let p = if outputs.is_empty() || random.chance(1, 3) {
        random.below(components.len())
    } else {
        *random.pick(&outputs)
    };
    let wait = match random.below(4) {
        0 => LONGEST,
        1 => LONGEST - random.between(1, 3) as u32,
        2 => random.between(0, LONGEST as usize) as u32,
        _ => random.between(0, 9) as u32,
    };
    Call::Wait { p: p as u32, wait }
}

/// Mostly a count that is full or will soon be.
fn ledger(random: &mut Random) -> Ledger {
    let messages = match random.below(8) {
        0 => 0,
        1 => random.between(1, 9) as u32,
        2 => random.between(1, MOST as usize) as u32,
        3 => MOST,
        4 | 5 => MOST - random.between(4, 40) as u32,
        _ => MOST - random.between(1, 3) as u32,
    };
    with_total(random, messages)
}

/// A count that leaves room for many messages.
pub fn counts_anew(random: &mut Random) -> Call {
    let room = *random.pick(&[500, 5_000, 500_000, MOST]);
    Call::Messages(with_room_for(random, room))
}

/// A count that leaves room for so many messages more.
pub fn with_room_for(random: &mut Random, messages: u32) -> Ledger {
    with_total(random, MOST - messages)
}

/// That count, with a total that it can have.
fn with_total(random: &mut Random, messages: u32) -> Ledger {
    let none = Ledger { total: 0, messages };
    let largest = none.largest_total();
    let total = match random.weighted(&[1, 1, 5, 1]) {
        0 => largest,
        1 => random.draw() % (largest + 1),
        2 => near_a_carry(random).min(largest),
        _ => largest / 1_000_000,
    };
    Ledger { total, messages }
}

/// Just below a multiple of 2 to the 32nd, or further.
fn near_a_carry(random: &mut Random) -> u64 {
    let multiple = random.between(1, 232) as u64;
    let below = *random.pick(&[1, 1, 2, 500_000]);
    (multiple << 32) - below
}
