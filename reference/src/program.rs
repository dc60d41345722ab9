//! What `timorun` does (document 01, behind the twelve examples; document 02, R-1
//! and R-9): reads a text, does four rounds of steps over all locations, prints a
//! line for each step, then the network and on one more line how long articles waited
//! on the whole, or `refused N` and no more. It reads under edition 1 with all rights.

use std::io::{self, Read, Write};

use crate::calls::{Engine, Record};
use crate::reading::MOST_BYTES;
use crate::refusal::Refusal;
use crate::term::{Edition, Network, Settings};

const ROUNDS: usize = 4;
const RECORDS: usize = 256;
const BYTES: usize = 65_536;

/// Reads at most one byte more than a text may have, so that question 1 can be
/// asked and a longer input is not cut down to a good one.
pub fn take_input(input: impl Read) -> io::Result<Vec<u8>> {
    let mut text = Vec::new();
    input.take(MOST_BYTES as u64 + 1).read_to_end(&mut text)?;
    Ok(text)
}

/// Runs the program on a text. An error is one of the output's.
pub fn run(engine: Engine, text: &[u8], output: &mut impl Write) -> io::Result<()> {
    match run_or_refuse(engine, text, output)? {
        Ok(()) => Ok(()),
        Err(refusal) if engine.prints_mean_after_refusal() => writeln!(output, "{refusal}\n-"),
        Err(refusal) => writeln!(output, "{refusal}"),
    }
}

/// The mean as a whole tick, or `-` if there were no messages.
pub fn mean_line(engine: Engine, network: &Network) -> String {
    match engine.mean(network) {
        Some(mean) => format!("{}\n", engine.rounded(mean)),
        None => "-\n".to_string(),
    }
}

fn run_or_refuse(
    engine: Engine,
    text: &[u8],
    output: &mut impl Write,
) -> io::Result<Result<(), Refusal>> {
    let settings = Settings::all(Edition::One.number());
    let mut network = match engine.read(text, &settings) {
        Ok(network) => network,
        Err(refusal) => return Ok(Err(refusal)),
    };
    for _ in 0..ROUNDS {
        for number in 0..network.script.locations.len() {
            let mut records = [Record::new(0, 0, 0); RECORDS];
            let stepped = match engine.step(&network, number as u32, &mut records) {
                Ok(stepped) => stepped,
                Err(refusal) => return Ok(Err(refusal)),
            };
            write!(output, "{}", network.script.locations[number])?;
            for label in &stepped.labels {
                write!(output, " {label}")?;
            }
            writeln!(output)?;
            network = stepped.network;
        }
    }
    let mut buffer = vec![0; BYTES];
    let length = match engine.write(&network, &mut buffer) {
        Ok(length) => length,
        Err(refusal) => return Ok(Err(refusal)),
    };
    output.write_all(&buffer[..length])?;
    write!(output, "{}", mean_line(engine, &network)).map(Ok)
}
