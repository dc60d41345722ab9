//! `vectors SEED N`: prints N small scripts, each followed by a line `#`.
//! `vectors SEED N --printouts`: prints what `timorun` prints on each of them,
//! each printout followed by a line `#`.

use std::env;
use std::error::Error;
use std::io::{self, BufWriter, Write};
use std::process::ExitCode;

use timo_reference::generate::vectors::{vectors, END};

fn main() -> ExitCode {
    let arguments: Vec<String> = env::args().skip(1).collect();
    let result = match arguments.as_slice() {
        [seed, count] => print(seed, count, false),
        [seed, count, flag] if flag == "--printouts" => print(seed, count, true),
        _ => Err("usage: vectors SEED N [--printouts]".into()),
    };
    match result {
        Ok(()) => ExitCode::SUCCESS,
        Err(error) => {
            eprintln!("vectors: {error}");
            ExitCode::FAILURE
        }
    }
}

fn print(seed: &str, count: &str, printouts: bool) -> Result<(), Box<dyn Error>> {
    let vectors = vectors(seed.parse()?, count.parse()?);
    let mut output = BufWriter::new(io::stdout().lock());
    for vector in vectors {
        output.write_all(if printouts {
            &vector.printout
        } else {
            &vector.script
        })?;
        output.write_all(END)?;
    }
    Ok(output.flush()?)
}
