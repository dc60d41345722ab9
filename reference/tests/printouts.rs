//! The program `timorun`: the scripts in the examples folder with their
//! printouts, long inputs and closed pipes. The lists there with their answers, and
//! the program `answers`.

use std::fs;
use std::io::Write;
use std::path::{Path, PathBuf};
use std::process::{Command, Output, Stdio};

use timo_reference::calls::Engine;
use timo_reference::generate::vectors;
use timo_reference::rules::Variant;
use timo_reference::{lists, printout, program, rights};

fn examples() -> PathBuf {
    Path::new(env!("CARGO_MANIFEST_DIR")).join("../examples")
}

fn with_extension(extension: &str) -> Vec<PathBuf> {
    let entries = fs::read_dir(examples()).expect("the examples folder");
    let paths = entries.map(|entry| entry.expect("an entry").path());
    paths
        .filter(|path| path.extension().is_some_and(|found| found == extension))
        .collect()
}

/// Runs the program on pieces of input, handed over one by one.
fn timorun(pieces: &[&[u8]]) -> Output {
    let mut child = Command::new(env!("CARGO_BIN_EXE_timorun"))
        .stdin(Stdio::piped())
        .stdout(Stdio::piped())
        .stderr(Stdio::piped())
        .spawn()
        .expect("timorun starts");
    let mut input = child.stdin.take().expect("a pipe");
    for piece in pieces {
        let _ = input.write_all(piece);
        let _ = input.flush();
    }
    drop(input);
    child.wait_with_output().expect("timorun ends")
}

#[test]
fn every_example_prints_what_stands_beside_it() {
    let scripts = with_extension("timo");
    assert!(scripts.len() >= 15);
    for script in scripts {
        let text = fs::read(&script).expect("a script");
        let expected = fs::read(script.with_extension("out")).expect("its printout");
        let output = timorun(&[&text]);
        assert_eq!(
            String::from_utf8_lossy(&output.stdout),
            String::from_utf8_lossy(&expected),
            "{}",
            script.display()
        );
        assert!(output.status.success() && output.stderr.is_empty());
    }
}

/// A list is answered under the edition that stands beside it, or under 1, and
/// with the rights that stand beside it, or with all. Where the answers under 1 or
/// with all rights are others, these stand beside it too.
/// The scripts and printouts that a file of `run_many` holds, each before a line `#`.
fn stored_runs(file: &str) -> Vec<String> {
    let path = Path::new(env!("CARGO_MANIFEST_DIR")).join("../crates/run_many");
    let text = fs::read_to_string(path.join(file)).expect("stored runs");
    let end = text.strip_suffix("#\n").expect("a last line");
    end.split("#\n").map(str::to_string).collect()
}

/// A program that rounds otherwise, or prints a mean after a refusal, differs from a
/// stored printout.
#[test]
fn the_stored_runs_tell_every_wrong_mean_apart() {
    let runs = stored_runs("stdin").into_iter().zip(stored_runs("stdout"));
    let runs: Vec<(String, String)> = runs.collect();
    let differs = |engine: Engine, (script, stored): &(String, String)| {
        let mut printed = Vec::new();
        program::run(engine, script.as_bytes(), &mut printed).expect("a buffer");
        printed != stored.as_bytes()
    };
    assert!(!runs.iter().any(|run| differs(Engine::default(), run)));
    for variant in Variant::WRONG_PRINTOUTS {
        let wrong = Engine::new(variant);
        let shown = runs.iter().filter(|run| differs(wrong, run)).count();
        println!("{variant:?}: {shown} of {}", runs.len());
        assert!(shown > 0, "{variant:?}");
    }
}

#[test]
fn every_example_list_gets_the_answers_that_stand_beside_it() {
    for list in with_extension("calls") {
        let script = fs::read(list.with_extension("timo")).expect("its script");
        let calls = lists::parse(&fs::read_to_string(&list).expect("a list")).expect("calls");
        let stored = |extension| fs::read_to_string(list.with_extension(extension)).ok();
        let edition = stored("edition").map_or(1, |text| text.trim().parse().expect("a number"));
        let rights = stored("rights");
        let answers = |edition, rights: Option<&str>| {
            let settings = rights::settings(&script, edition, rights).expect("rights");
            printout::answers(Engine::default(), &script, &settings, &calls)
        };
        let own = answers(edition, rights.as_deref());
        let others = [
            ("edition_1.answers", answers(1, rights.as_deref())),
            ("all_rights.answers", answers(edition, None)),
        ];
        for (extension, answers) in others {
            let expected = (answers != own).then_some(answers);
            assert_eq!(stored(extension), expected, "{}", list.display());
        }
        assert_eq!(stored("answers"), Some(own));
    }
}

/// Runs `answers` on a script under edition 1, with a list and a file of rights.
fn answers([script, list, rights]: [&str; 3]) -> Output {
    let file = |name: &str, extension| examples().join(name).with_extension(extension);
    Command::new(env!("CARGO_BIN_EXE_answers"))
        .args([file(script, "timo"), file(list, "calls")])
        .arg("1")
        .arg(file(rights, "rights"))
        .output()
        .expect("answers ends")
}

#[test]
fn the_program_takes_the_rights_of_a_file() {
    let name = "rights_own_location";
    let stored = fs::read(examples().join(name).with_extension("answers"));
    let output = answers([name; 3]);
    assert_eq!(output.stdout, stored.expect("its answers"));
    assert!(output.status.success() && output.stderr.is_empty());
    let refused = answers(["empty", name, "rights_embargo"]);
    assert_eq!(refused.stdout, b"read refused 2\n");
    let of_other_names = answers([name, name, "rights_embargo"]);
    assert!(!of_other_names.status.success() && of_other_names.stdout.is_empty());
    assert_eq!(
        of_other_names.stderr,
        b"answers: line 2 is not a right of the script\n"
    );
}

#[test]
fn vectors_are_what_the_program_prints_and_the_same_for_a_seed() {
    let vectors = vectors::vectors(3, 42);
    let ends_line = |text: &[u8]| text.ends_with(b"\n") && !text.contains(&b'#');
    for vector in &vectors {
        assert!(ends_line(&vector.script) && ends_line(&vector.printout));
        assert_eq!(timorun(&[&vector.script]).stdout, vector.printout);
    }
    for number in [2, 3, 4, 5, 6, 7, 13] {
        let end = format!("refused {number}\n").into_bytes();
        assert!(vectors.iter().any(|vector| vector.printout.ends_with(&end)));
    }
    let again = vectors::vectors(3, 42);
    let scripts = |list: &[vectors::Vector]| -> Vec<Vec<u8>> {
        list.iter().map(|vector| vector.script.clone()).collect()
    };
    assert_eq!(scripts(&vectors), scripts(&again));
}

#[test]
fn document_01_prints_its_own_example() {
    let text = "    Page(x) = go(0,x,out(c,1,x,stop,stop)) .
    A[Page(B)] | B[in(c,2,y,go(0,y,stop),stop)] .
";
    let expected = "A Page@A\nB\nA B@A\nB c<B>@B\nA\nB B@B\nA\nB\n\
        Page(x) = go(0,x,out(c,1,x,stop,stop)) .\nB[stop] | B[stop] .\n0\n";
    assert_eq!(
        String::from_utf8_lossy(&timorun(&[text.as_bytes()]).stdout),
        expected
    );
}

#[test]
fn an_input_of_65_535_bytes_is_read_and_a_longer_one_is_refused_1() {
    let text = b"A[stop] .";
    let blanks = vec![b' '; 65_535 - text.len()];
    let expected = "A\nA\nA\nA\nA[stop] .\n-\n";
    assert_eq!(
        String::from_utf8_lossy(&timorun(&[text, &blanks]).stdout),
        expected
    );
    assert_eq!(timorun(&[text, &blanks, b" "]).stdout, b"refused 1\n");
    assert_eq!(
        timorun(&[text, &blanks, &[b' '; 1_000_000]]).stdout,
        b"refused 1\n"
    );
    let pieces: Vec<&[u8]> = text.chunks(1).chain(blanks.chunks(1_000)).collect();
    assert_eq!(String::from_utf8_lossy(&timorun(&pieces).stdout), expected);
}

/// A script that no step changes, and the network's text, which is longer by
/// its blanks. Names of locations fill it up to a length.
fn script_with_text_of(length: usize) -> (String, String) {
    let call = "abcdefghijklmnop";
    let text = |[equals, bar, end]: [&str; 3], parts: usize, filling: usize| {
        let first = "A".repeat(1 + filling.min(15));
        let second = "B".repeat(1 + filling.saturating_sub(15));
        let body = vec![call; parts].join(bar);
        format!(
            "{call}{equals}stop{end}Wide{equals}{body}{end}{first}[stop]{bar}{second}[stop]{end}"
        )
    };
    let spaced = [" = ", " | ", " .\n"];
    let parts = (1..)
        .find(|n| text(spaced, n + 1, 0).len() > length)
        .expect("a number of parts");
    let filling = length - text(spaced, parts, 0).len();
    (
        text(["=", "|", "."], parts, filling),
        text(spaced, parts, filling),
    )
}

#[test]
fn a_text_of_65_536_bytes_is_printed_and_a_longer_one_is_refused_15() {
    let (script, text) = script_with_text_of(65_536);
    assert!(script.len() <= 65_535 && text.len() == 65_536);
    let printed = String::from_utf8(timorun(&[script.as_bytes()]).stdout).expect("ASCII");
    assert!(printed.ends_with(&format!("\n{text}-\n")));
    assert_eq!(printed.lines().count(), 4 * 2 + 4);
    let (script, text) = script_with_text_of(65_537);
    assert!(script.len() <= 65_535 && text.len() == 65_537);
    let printed = String::from_utf8(timorun(&[script.as_bytes()]).stdout).expect("ASCII");
    assert!(printed.ends_with("\nrefused 15\n"));
    assert_eq!(printed.lines().count(), 4 * 2 + 1);
}

#[test]
fn a_closed_pipe_ends_the_program_cleanly() {
    let grow = b"D = D | D | D | D . A[D] .";
    let mut child = Command::new(env!("CARGO_BIN_EXE_timorun"))
        .stdin(Stdio::piped())
        .stdout(Stdio::piped())
        .stderr(Stdio::piped())
        .spawn()
        .expect("timorun starts");
    drop(child.stdout.take());
    child
        .stdin
        .take()
        .expect("a pipe")
        .write_all(grow)
        .expect("the input is taken");
    let output = child.wait_with_output().expect("timorun ends");
    assert!(output.status.success() && output.stderr.is_empty());
}
