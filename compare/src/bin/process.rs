//! `process SCRIPT PROGRAM..`: whole runs of programs on a script as standard
//! input, one after the other in turn: for each program the least and the middle
//! time in ms, from its start to its end. Nothing is tested here.

use std::env;
use std::fs::File;
use std::io;
use std::process::{Command, Stdio};
use std::time::Instant;

/// So many runs of each program, of which the first few are not counted.
const RUNS: usize = 400;
const FIRST: usize = 20;

fn main() -> io::Result<()> {
    let words: Vec<String> = env::args().skip(1).collect();
    let Some((script, programs)) = words.split_first() else {
        eprintln!("usage: process SCRIPT PROGRAM..");
        return Ok(());
    };
    let mut times = vec![Vec::new(); programs.len()];
    for run in 0..RUNS {
        for (program, times) in programs.iter().zip(&mut times) {
            let time = one(program, script)?;
            if FIRST <= run {
                times.push(time);
            }
        }
    }
    for (program, times) in programs.iter().zip(&mut times) {
        times.sort_by(f64::total_cmp);
        println!("{program} {:.3} {:.3}", times[0], times[times.len() / 2]);
    }
    Ok(())
}

/// One run, in ms.
fn one(program: &str, script: &str) -> io::Result<f64> {
    let input = File::open(script)?;
    let start = Instant::now();
    Command::new(program)
        .stdin(input)
        .stdout(Stdio::null())
        .status()?;
    Ok(start.elapsed().as_secs_f64() * 1e3)
}
