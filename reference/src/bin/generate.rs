//! `generate SEED N DIR [--lists]`: writes N scripts `0000.timo`, `0001.timo`
//! and so on into DIR, with `--lists` also call lists `0000.calls` and so on.

use std::env;
use std::error::Error;
use std::fs;
use std::path::Path;
use std::process::ExitCode;

use timo_reference::term::Settings;
use timo_reference::{generate, lists as call_lists};

fn main() -> ExitCode {
    let arguments: Vec<String> = env::args().skip(1).collect();
    let result = match arguments.as_slice() {
        [seed, count, directory] => write_all(seed, count, directory, false),
        [seed, count, directory, flag] if flag == "--lists" => {
            write_all(seed, count, directory, true)
        }
        _ => Err("usage: generate SEED N DIR [--lists]".into()),
    };
    match result {
        Ok(()) => ExitCode::SUCCESS,
        Err(error) => {
            eprintln!("generate: {error}");
            ExitCode::FAILURE
        }
    }
}

fn write_all(seed: &str, count: &str, directory: &str, lists: bool) -> Result<(), Box<dyn Error>> {
    let (seed, count): (u64, u64) = (seed.parse()?, count.parse()?);
    let directory = Path::new(directory);
    fs::create_dir_all(directory)?;
    for index in 0..count {
        write_one(
            generate::seed(seed, index),
            &directory.join(format!("{index:04}")),
            lists,
        )?;
    }
    Ok(())
}

fn write_one(seed: u64, stem: &Path, lists: bool) -> Result<(), Box<dyn Error>> {
    let script = if lists {
        generate::script_to_run(seed)
    } else {
        generate::script(seed)
    };
    fs::write(stem.with_extension("timo"), &script)?;
    if lists {
        let calls = generate::calls(seed, &script, &Settings::all(1));
        fs::write(stem.with_extension("calls"), call_lists::print(&calls))?;
    }
    Ok(())
}
