//! `answers SCRIPT CALLS [EDITION [RIGHTS]]`: prints the answer to every call of a
//! list, in the format of README.md, and the verdict of the grouped run. The
//! script is read under the edition, or under 1, with the rights of a file, or
//! with all.

use std::env;
use std::error::Error;
use std::fs;
use std::io::{self, Write};
use std::process::ExitCode;

use timo_reference::calls::Engine;
use timo_reference::{lists, printout, rights};

fn main() -> ExitCode {
    let arguments: Vec<String> = env::args().skip(1).collect();
    let result = match arguments.as_slice() {
        [script, calls] => print_answers(script, calls, "1", None),
        [script, calls, edition] => print_answers(script, calls, edition, None),
        [script, calls, edition, rights] => print_answers(script, calls, edition, Some(rights)),
        _ => Err("usage: answers SCRIPT CALLS [EDITION [RIGHTS]]".into()),
    };
    match result {
        Ok(()) => ExitCode::SUCCESS,
        Err(error) => {
            let _ = writeln!(io::stderr(), "answers: {error}");
            ExitCode::FAILURE
        }
    }
}

fn print_answers(
    script: &str,
    calls: &str,
    edition: &str,
    rights: Option<&String>,
) -> Result<(), Box<dyn Error>> {
    let script = fs::read(script)?;
    let calls = lists::parse(&fs::read_to_string(calls)?).map_err(|bad| bad.to_string())?;
    let rights = rights.map(fs::read_to_string).transpose()?;
    let settings = rights::settings(&script, edition.parse()?, rights.as_deref())?;
    let text = printout::answers(Engine::default(), &script, &settings, &calls);
    match io::stdout().lock().write_all(text.as_bytes()) {
        Err(error) if error.kind() == io::ErrorKind::BrokenPipe => Ok(()),
        ended => Ok(ended?),
    }
}
