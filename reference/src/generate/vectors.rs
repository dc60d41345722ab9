//! Small scripts with what `timorun` prints on them, to be stored and run by
//! another engine: most run to their end, some of them with several inputs for an
//! output or with articles that wait, and some are refused by each question that a
//! small text can meet.
//!
//! Several scripts stand in one text, each followed by a line `#`, and so do
//! their printouts. The sign stands nowhere else in a script or a printout.

use std::collections::HashSet;

use super::damage::damage_tokens;
use super::draft::{cut, spaced};
use super::{random_script, urgent, waiting};
use crate::calls::Engine;
use crate::program;
use crate::random::Random;

pub struct Vector {
    pub script: Vec<u8>,
    pub printout: Vec<u8>,
}

/// The line behind each script and each printout.
pub const END: &[u8] = b"#\n";

const LONGEST_SCRIPT: usize = 400;
const LONGEST_PRINTOUT: usize = 1_500;
const FEWEST_LABELS: usize = 3;

/// How a run ends.
#[derive(Clone, Copy, PartialEq, Eq)]
enum End {
    Network,
    /// A network and a mean, after a communication.
    Met,
    Refused(u8),
}

/// The questions that a small text can meet.
const QUESTIONS: [u8; 7] = [2, 3, 4, 5, 6, 7, 13];

/// One run in three is refused, by each question in turn.
fn end(index: usize) -> End {
    match index % 3 {
        0 => End::Network,
        1 => End::Met,
        _ => End::Refused(QUESTIONS[index / 3 % QUESTIONS.len()]),
    }
}

/// That many vectors. No two that end in a network print the same.
pub fn vectors(seed: u64, count: usize) -> Vec<Vector> {
    let mut random = Random::new(seed);
    let mut printed = HashSet::new();
    let mut next = |end| loop {
        let Some(vector) = vector(script(&mut random, end), end) else {
            continue;
        };
        if matches!(end, End::Refused(_)) || printed.insert(vector.printout.clone()) {
            return vector;
        }
    };
    (0..count).map(|index| next(end(index))).collect()
}

/// A small script that is meant to end so.
fn script(random: &mut Random, end: End) -> Vec<u8> {
    let sort = if end == End::Met { random.below(4) } else { 3 };
    let mut draft = match sort {
        0 => urgent::draft(random),
        1 | 2 => waiting::draft(random),
        _ => {
            let located = random.between(1, 4);
            random_script::draft(random, located)
        }
    };
    if let End::Refused(number) = end {
        let faults = faults(number);
        if let Some((definition, component)) = faults.get(random.below(2)) {
            draft.definitions.extend(definition.as_deref().map(cut));
            draft.located.extend(component.as_deref().map(cut));
        }
    }
    random.shuffle(&mut draft.definitions);
    random.shuffle(&mut draft.located);
    let mut tokens = draft.tokens();
    if end == End::Refused(2) {
        damage_tokens(random, &mut tokens);
    }
    let mut text = spaced(random, &tokens);
    if text.last() != Some(&b'\n') {
        text.push(b'\n');
    }
    text
}

/// A definition or a located process, or both, that a question answers by no.
type Fault = (Option<String>, Option<String>);

/// Two faults for a question from 3 on.
fn faults(number: u8) -> Vec<Fault> {
    let definition = |text: &str| (Some(text.to_string()), None);
    let component = |text: &str| (None, Some(text.to_string()));
    let nested = |inmost: &str, levels: usize| {
        let (open, close) = ("go(0,A,".repeat(levels), ")".repeat(levels));
        component(&format!("A[{open}{inmost}{close}]"))
    };
    match number {
        3 => vec![nested("stop", 32), nested("in(c,0,x,stop,stop)", 31)],
        4 => {
            let inputs: String = (1..=9).map(|k| format!("in(c,0,x{k},")).collect();
            let nine = format!("A[{inputs}stop{}]", ",stop)".repeat(9));
            vec![definition("Five(a,b,c,d,e)=stop"), component(&nine)]
        }
        5 => vec![
            definition("Two(x,y,x)=stop"),
            definition("Twin=stop.Twin=Twin"),
        ],
        6 => vec![definition("One(x)=One(x,x)"), component("A[Nobody]")],
        7 => vec![
            definition("Free(x)=go(0,y,stop)"),
            component("A[in(c,0,x,stop,go(0,x,stop))]"),
        ],
        13 => {
            let grow = |text: &str| (Some(text.to_string()), Some("A[Grow]".to_string()));
            vec![
                grow("Grow=Grow|Grow|Grow|Grow|Grow"),
                grow("Grow=stop|Grow|Grow|Grow|Grow|Grow|stop"),
            ]
        }
        _ => Vec::new(),
    }
}

/// The vector of a script, if it ends so, is small and is worth running.
fn vector(script: Vec<u8>, end: End) -> Option<Vector> {
    if script.len() > LONGEST_SCRIPT {
        return None;
    }
    let mut printout = Vec::new();
    program::run(Engine::default(), &script, &mut printout).ok()?;
    let text = String::from_utf8_lossy(&printout);
    let last = text.lines().next_back()?;
    let ends_so = match end {
        End::Network => !last.starts_with("refused "),
        End::Met => last != "-" && !last.starts_with("refused "),
        End::Refused(number) => last == format!("refused {number}"),
    };
    let labels = text.matches('@').count();
    let runs = labels >= FEWEST_LABELS || matches!(end, End::Refused(_));
    let small = printout.len() <= LONGEST_PRINTOUT;
    (ends_so && runs && small).then_some(Vector { script, printout })
}
