//! `rounds < SCRIPT`: what `timorun` prints, with reading, steps, writing and the mean
//! by the proved engine's library under edition 1 and with all rights. The
//! records of a step are put to the library again as single actions, for their
//! labels, and the tick after them has to give the step's state.
//!
//! `rounds --many < SCRIPTS`: the same for several scripts, each followed by a
//! line `#`, and so are their printouts.

use std::env;
use std::io::{self, Read, Write};
use std::process::ExitCode;

use compare::table;
use compare::timo::{Mean, Settings, Table};
use timo_reference::generate::vectors::END;

fn main() -> ExitCode {
    match answer(env::args().any(|word| word == "--many")) {
        Ok(()) => ExitCode::SUCCESS,
        Err(error) => {
            eprintln!("rounds: {error}");
            ExitCode::FAILURE
        }
    }
}

fn answer(many: bool) -> io::Result<()> {
    let mut input = Vec::new();
    io::stdin().read_to_end(&mut input)?;
    if !many {
        return io::stdout().write_all(&printout(&input));
    }
    let mut text = Vec::new();
    let scripts = input.split_inclusive(|byte| *byte == b'#');
    for script in scripts.filter_map(|script| script.strip_suffix(b"#")) {
        text.extend(printout(script.strip_prefix(b"\n").unwrap_or(script)));
        text.extend(END);
    }
    io::stdout().write_all(&text)
}

/// What `timorun` prints on a script.
fn printout(script: &[u8]) -> Vec<u8> {
    let mut text = Vec::new();
    let read = Table::read(script, Settings::EDITION_1);
    let ended = read.and_then(|table| rounds(table, &mut text));
    if let Err(number) = ended {
        text.extend(format!("refused {number}\n").bytes());
    }
    text
}

/// Four rounds of steps over all locations, then the network and the mean.
fn rounds(mut table: Table, text: &mut Vec<u8>) -> Result<(), u32> {
    for _ in 0..4 {
        for location in 0..table.words[1] {
            let line = step(&mut table, location)?;
            text.extend(line.bytes());
        }
    }
    let mut lent = vec![0; 65_536];
    let length = table.write(&mut lent)?;
    text.extend(&lent[..length]);
    text.extend(mean_line(table.mean()?).bytes());
    Ok(())
}

/// The mean in whole ticks, or `-` if there were no messages.
fn mean_line(mean: Mean) -> String {
    match mean.whole_ticks() {
        Some(ticks) => format!("{ticks}\n"),
        None => "-\n".to_string(),
    }
}

/// A step and its line.
fn step(table: &mut Table, location: u32) -> Result<String, u32> {
    let mut again = table.clone();
    let mut records = [[0; 3]; 256];
    let count = table.step(location, &mut records)?;
    let mut line = table::location(&table.words, location);
    for [kind, p, q] in &records[..count] {
        let label = again.action(*kind, *p as usize, *q as usize)?;
        line.push(' ');
        line.push_str(&table::label(&table.words, label));
    }
    again.tick(location)?;
    assert!(
        again.state == table.state,
        "the step is its actions and the tick"
    );
    line.push('\n');
    Ok(line)
}
