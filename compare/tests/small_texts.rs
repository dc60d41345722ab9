//! The number that reading gives, by both engines, to every text of a few tokens
//! and to every text that differs in two tokens from a readable one. The proved
//! engine gives it under both editions, or for the many texts of six tokens and
//! those with two replaced under one of them in turn.

use compare::timo::{self, Settings, WORDS};
use timo_reference::calls::Engine;
use timo_reference::generate::draft::cut;
use timo_reference::term;

struct Both {
    words: Box<[u32; WORDS]>,
    /// What the reference engine reads with.
    given: term::Settings,
    /// How many texts had each number.
    numbers: [usize; 8],
}

impl Both {
    fn new() -> Both {
        Both {
            words: timo::words_of(0),
            given: term::Settings::all(1),
            numbers: [0; 8],
        }
    }

    fn read(&mut self, tokens: &[&str]) {
        self.read_under(&Settings::BOTH, tokens);
    }

    fn read_under(&mut self, editions: &[Settings], tokens: &[&str]) {
        let text = tokens.join(" ");
        let theirs = Engine::default().read(text.as_bytes(), &self.given);
        let theirs = theirs
            .err()
            .map_or(0, |refusal| u32::from(refusal.number()));
        for settings in editions {
            let ours = timo::read_into(text.as_bytes(), *settings, &mut self.words).code;
            assert_eq!(ours, theirs, "{text}, edition {}", settings.edition);
        }
        self.numbers[theirs as usize] += 1;
    }

    fn read_in_turn(&mut self, tokens: &[&str]) {
        let turn = self.numbers.iter().sum::<usize>() % 2;
        self.read_under(&Settings::BOTH[turn..=turn], tokens);
    }
}

#[test]
fn every_text_of_at_most_six_tokens() {
    let known = [
        "A", "a", "stop", "go", "(", ")", "[", "]", ".", "=", "|", ",", "0",
    ];
    let mut both = Both::new();
    for length in 0..=6 {
        let mut chosen = vec![0; length];
        loop {
            let tokens: Vec<&str> = chosen.iter().map(|index| known[*index]).collect();
            if length < 6 {
                both.read(&tokens);
            } else {
                both.read_in_turn(&tokens);
            }
            if !next(&mut chosen, known.len()) {
                break;
            }
        }
    }
    assert!(both.numbers[0] > 0 && both.numbers[6] > 0);
}

/// The next list of indices below a bound, or none.
fn next(chosen: &mut [usize], bound: usize) -> bool {
    for index in chosen {
        *index += 1;
        if *index < bound {
            return true;
        }
        *index = 0;
    }
    false
}

const SCRIPTS: [&str; 3] = [
    "D(x)=go(0,x,out(c,1,x,stop,D(A))).A[D(B)]|B[in(c,2,y,go(0,y,stop),stop|stop)].",
    "A=A|B.B=stop.A[A|B]|B[stop].",
    "A[go(inf,A,stop)].",
];

const OTHERS: [&str; 22] = [
    "A",
    "a",
    "x",
    "B",
    "stop",
    "go",
    "in",
    "inf",
    "S",
    "(",
    ")",
    "[",
    "]",
    ".",
    "=",
    "|",
    ",",
    "01",
    "1000001",
    "-",
    "abcdefghijklmnopq",
    "1a",
];

#[test]
fn every_script_with_one_or_two_tokens_replaced() {
    let mut both = Both::new();
    for script in SCRIPTS {
        let script = cut(script);
        let mut tokens: Vec<&str> = script.iter().map(String::as_str).collect();
        for first in 0..script.len() {
            for other in OTHERS {
                tokens[first] = other;
                both.read(&tokens);
                for second in first + 1..script.len() {
                    for other in OTHERS {
                        tokens[second] = other;
                        both.read_in_turn(&tokens);
                    }
                    tokens[second] = &script[second];
                }
            }
            tokens[first] = &script[first];
        }
    }
    let expected = [0, 2, 5, 6, 7];
    assert!(expected.iter().all(|number| both.numbers[*number] > 0));
}

#[test]
fn every_script_with_tokens_inserted_or_taken_away() {
    let mut both = Both::new();
    for script in SCRIPTS {
        let script = cut(script);
        let tokens: Vec<&str> = script.iter().map(String::as_str).collect();
        for start in 0..=tokens.len() {
            for end in start..=tokens.len() {
                both.read(&[&tokens[..start], &tokens[end..]].concat());
                both.read(&[&tokens[..end], &tokens[start..]].concat());
            }
            for other in OTHERS {
                both.read(&[&tokens[..start], &[other], &tokens[start..]].concat());
            }
        }
    }
    assert!(both.numbers[0] > 0);
}
