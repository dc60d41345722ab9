//! `ratio`: how much longer a step takes that fires 128 pairs than one over 128
//! outputs and 128 inputs whose channels differ, so that none fires. Both are
//! measured in every round. It fails if the ratio of the best times is above 2:
//! document 02, R-5.
//!
//! Then steps over as many components with the timers of the inputs equal, rising,
//! falling and random: pairs that fire, pairs that do not and inputs alone. It fails
//! if falling timers take more than 1.5 times as long as equal ones: document 02,
//!
//!
//! `ratio --count PAIRS STEPS [fires | idle | inputs] [equal | rising | falling |
//! random]`: so many steps that fire so many pairs with equal timers, or none, or
//! with another order, for a program that counts instructions.

use std::env;
use std::process::ExitCode;

use compare::load::{First, Load, Orders, Ratio, Timers};

const ROUNDS: usize = 7;
const PAIRS: usize = 128;
const MOST: f64 = 2.0;
const MOST_OF_FALLING: f64 = 1.5;

fn main() -> ExitCode {
    let words: Vec<String> = env::args().skip(1).collect();
    if let [option, pairs, count, rest @ ..] = words.as_slice() {
        if option == "--count" {
            return count_steps(pairs, count, rest);
        }
    }
    let fires = fires_in_time();
    println!();
    let orders = orders_in_time();
    if fires && orders {
        ExitCode::SUCCESS
    } else {
        ExitCode::FAILURE
    }
}

fn count_steps(pairs: &str, count: &str, rest: &[String]) -> ExitCode {
    let (mut load, mut timers) = (Load::Fires, Timers::Equal);
    for word in rest {
        match (Load::named(word), Timers::named(word)) {
            (Some(named), _) => load = named,
            (_, Some(named)) => timers = named,
            _ => {
                eprintln!("ratio: {word} is neither a load nor an order of timers");
                return ExitCode::FAILURE;
            }
        }
    }
    let number = |word: &str| word.parse().expect("a number");
    let mut first = First::of(load, number(pairs), timers, 0);
    for _ in 0..number(count) {
        first.step();
    }
    ExitCode::SUCCESS
}

/// Document 02, R-5.
fn fires_in_time() -> bool {
    println!("{}", Ratio::HEAD);
    let rounds: Vec<Ratio> = (0..ROUNDS)
        .map(|_| Ratio::measure(PAIRS, 0))
        .inspect(|ratio| println!("{ratio}"))
        .collect();
    let least = |time: fn(&Ratio) -> f64| rounds.iter().map(time).fold(f64::INFINITY, f64::min);
    let best = least(|ratio| ratio.fires) / least(|ratio| ratio.idle);
    println!("the best of {ROUNDS} rounds of each: {best:.2}; at most {MOST} is asked for");
    best <= MOST
}

/// Document 02, R-3.
fn orders_in_time() -> bool {
    println!("{}", Orders::head());
    let all = Load::ALL
        .map(|load| Orders::measure(load, PAIRS, ROUNDS))
        .map(|orders| {
            println!("{orders}");
            orders.ratio(Timers::Falling)
        });
    let most = all.into_iter().fold(0.0, f64::max);
    println!("the best of {ROUNDS} rounds of each; falling against equal: {most:.2}; at most {MOST_OF_FALLING} is asked for");
    most <= MOST_OF_FALLING
}
