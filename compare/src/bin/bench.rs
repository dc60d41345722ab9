//! `bench [SCRIPT..]`: steps, writing, reading and `same` by the proved engine's
//! library and by the reference engine, side by side in one run, on built-in
//! workloads that grow and on the scripts named, under edition 1 and with all
//! rights. Timers are equal but where they fall. Nothing is tested here.
//!
//! `bench --step SCRIPT`: only the time of a step of the proved engine, in µs.
//!
//! `bench --profile`: the test of a location and the conforming step beside the step, by
//! the proved engine, on workloads that grow.

use std::env;
use std::fs;

use compare::load::{facing, grid, micros, nested, Load, Profile, Ratio, Timers};
use compare::reading::theirs;
use compare::timo::{read_into, words_of, Settings, State, Table};
use timo_reference::calls::{Engine, Record};
use timo_reference::term::Network;

/// Rounds of steps over all locations in one measurement.
const ROUNDS: usize = 4;

fn main() {
    let words: Vec<String> = env::args().skip(1).collect();
    match words.iter().map(String::as_str).collect::<Vec<_>>()[..] {
        ["--step", path] => return step_only(path),
        ["--profile"] => return profile(),
        _ => {}
    }
    let calls = ["step", "write", "read", "same"];
    let heads = calls.map(|call| format!(" {call}, proved µs | reference µs | ratio |"));
    println!("| workload | components | bytes |{}", heads.concat());
    println!("|---|---|---|{}", "---|---|---|".repeat(calls.len()));
    for side in [2, 4, 8] {
        line(
            &format!("grid {side} by {side}"),
            &grid(side, side * side / 2),
        );
    }
    for pairs in [16, 32, 64, 128] {
        line(
            &format!("{pairs} pairs that fire"),
            &facing(pairs, "c", "c", 0),
        );
    }
    for pairs in [16, 32, 64, 128] {
        line(
            &format!("{pairs} pairs that do not"),
            &facing(pairs, "c", "d", 0),
        );
    }
    for load in Load::ALL {
        line(
            &format!("{}, falling", load.row(128)),
            &load.script(128, Timers::Falling, 0),
        );
    }
    for depth in [1, 2, 4, 8, 16] {
        line(&format!("64 nested {depth} deep"), &nested(64, depth));
    }
    for path in &words {
        match fs::read_to_string(path) {
            Ok(script) => line(name_of(path), &script),
            Err(error) => eprintln!("bench: {path}: {error}"),
        }
    }
    println!("\n{}", Ratio::HEAD);
    for ratio in Ratio::all() {
        println!("{ratio}");
    }
}

fn profile() {
    println!("{}", Profile::HEAD);
    for profile in Profile::all() {
        println!("{profile}");
    }
}

/// The last part of a path.
fn name_of(path: &str) -> &str {
    path.rsplit('/').next().unwrap_or(path)
}

fn step_only(path: &str) {
    let script = fs::read(path).unwrap_or_default();
    match Table::read(&script, Settings::EDITION_1) {
        Ok(mut table) => {
            let steps = steps_of(table.words[1] as usize);
            let start = table.state;
            println!("{:.2}", micros(|| rounds_proved(&mut table, start)) / steps);
        }
        Err(number) => println!("refused {number}"),
    }
}

fn steps_of(locations: usize) -> f64 {
    (ROUNDS * locations) as f64
}

fn line(workload: &str, script: &str) {
    let engine = Engine::default();
    let text = script.as_bytes();
    let settings = Settings::EDITION_1;
    let theirs = theirs(&settings);
    let ours = Table::read(text, settings);
    let (mut table, network) = match (ours, engine.read(text, &theirs)) {
        (Ok(table), Ok(network)) => (table, network),
        (ours, theirs) => {
            let numbers = (ours.err(), theirs.err().map(|refusal| refusal.number()));
            return println!("| {workload} | refused {numbers:?} |");
        }
    };
    let steps = steps_of(network.script.locations.len());
    let start = table.state;
    let mut lent = vec![0; 65_536];
    let bytes = table.write(&mut lent).unwrap_or(0);
    let mut words = words_of(0);
    let pairs = [
        (
            micros(|| rounds_proved(&mut table, start)) / steps,
            micros(|| rounds_reference(&network)) / steps,
        ),
        (
            micros(|| table.write(&mut lent).unwrap_or(0)),
            micros(|| engine.write(&network, &mut lent).unwrap_or(0)),
        ),
        (
            micros(|| read_into(text, settings, &mut words).state.n),
            micros(|| {
                let read = engine.read(text, &theirs);
                read.map_or(0, |read| read.components.len())
            }),
        ),
        (
            micros(|| table.same(&table).map_or(0, usize::from)),
            micros(|| usize::from(engine.same(&network, &network))),
        ),
    ];
    let cells =
        pairs.map(|(ours, theirs)| format!(" {ours:.2} | {theirs:.2} | {:.2} |", ours / theirs));
    println!(
        "| {workload} | {} | {bytes} |{}",
        network.components.len(),
        cells.concat()
    );
}

/// Rounds of steps over all locations from a state on, which is put back; how
/// many actions fired.
fn rounds_proved(table: &mut Table, start: State) -> usize {
    let mut lent = vec![[0; 3]; 256];
    let mut fired = 0;
    for _ in 0..ROUNDS {
        for location in 0..table.words[1] {
            fired += table.step(location, &mut lent).unwrap_or(0);
        }
    }
    table.state = start;
    fired
}

fn rounds_reference(network: &Network) -> usize {
    let mut network = network.clone();
    let mut lent = vec![Record::new(0, 0, 0); 256];
    let mut fired = 0;
    for _ in 0..ROUNDS {
        for location in 0..network.script.locations.len() as u32 {
            if let Ok(stepped) = Engine::default().step(&network, location, &mut lent) {
                fired += stepped.labels.len();
                network = stepped.network;
            }
        }
    }
    fired
}
