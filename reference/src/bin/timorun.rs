//! `timorun < SCRIPT`: document 01's program.

use std::io::{self, BufWriter, Write};
use std::process::ExitCode;

use timo_reference::calls::Engine;
use timo_reference::program;

/// A closed pipe or another error of the output ends the program without a
/// message; an input that cannot be read is reported.
fn main() -> ExitCode {
    let text = match program::take_input(io::stdin().lock()) {
        Ok(text) => text,
        Err(error) => {
            let _ = writeln!(io::stderr(), "timorun: cannot read standard input: {error}");
            return ExitCode::FAILURE;
        }
    };
    let mut output = BufWriter::new(io::stdout().lock());
    let ended = program::run(Engine::default(), &text, &mut output).and_then(|()| output.flush());
    match ended {
        Ok(()) => ExitCode::SUCCESS,
        Err(error) if error.kind() == io::ErrorKind::BrokenPipe => ExitCode::SUCCESS,
        Err(_) => ExitCode::FAILURE,
    }
}
