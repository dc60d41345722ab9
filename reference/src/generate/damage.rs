//! Damaged texts, and texts that several questions refuse at once, so that the
//! order of the questions is tried.

use super::draft::{cut, spaced, Draft, Tokens};
use super::{edges, random_script};
use crate::random::Random;

/// Tokens put in the place of others.
const ODD_TOKENS: [&str; 34] = [
    "stop",
    "go",
    "in",
    "out",
    "inf",
    "S",
    "Stop",
    "SS",
    "inn",
    "x",
    "y",
    "c",
    "A",
    "B",
    "D",
    "0",
    "1",
    "00",
    "01",
    "1000000",
    "1000001",
    "18446744073709551616",
    "4294967296",
    "n2345678901234567",
    "L2345678901234567",
    "(",
    ")",
    "[",
    "]",
    ",",
    "|",
    ".",
    "=",
    "()",
];

/// A readable or an edge text with bytes or tokens damaged.
pub fn damaged(random: &mut Random) -> Vec<u8> {
    if random.chance(1, 2) {
        let located = random.between(1, 4);
        let mut tokens = random_script::draft(random, located).tokens();
        for _ in 0..random.between(1, 2) {
            damage_tokens(random, &mut tokens);
        }
        return spaced(random, &tokens);
    }
    let mut text = if random.chance(1, 8) {
        edges::text(random)
    } else {
        random_script::text(random)
    };
    for _ in 0..random.between(1, 3) {
        damage_bytes(random, &mut text);
    }
    text
}

/// One token replaced, doubled, exchanged or taken away.
pub fn damage_tokens(random: &mut Random, tokens: &mut Tokens) {
    if tokens.is_empty() {
        return;
    }
    let at = random.below(tokens.len());
    match random.below(5) {
        0 => tokens[at] = random.pick(&ODD_TOKENS).to_string(),
        1 => tokens.insert(at, random.pick(&ODD_TOKENS).to_string()),
        2 => {
            tokens.remove(at);
        }
        3 => {
            let other = random.below(tokens.len());
            tokens.swap(at, other);
        }
        _ => tokens.insert(at, tokens[at].clone()),
    }
}

fn damage_bytes(random: &mut Random, text: &mut Vec<u8>) {
    let at = random.below(text.len() + 1);
    match random.below(6) {
        0 => text.insert(at, random.below(256) as u8),
        1 if at < text.len() => text[at] = random.below(256) as u8,
        2 if at < text.len() => {
            text.remove(at);
        }
        3 => text.truncate(at),
        4 => {
            let end = (at + random.below(20)).min(text.len());
            let again = text[at..end].to_vec();
            text.splice(at..at, again);
        }
        _ => {
            let odd = *random.pick(b"\t\r\0\x7f\x80\xff |.,()[]=SA0");
            text.insert(at, odd);
        }
    }
}

/// A readable draft with several of the faults that questions 1 to 7 ask for.
pub fn several_faults(random: &mut Random) -> Vec<u8> {
    let located = random.between(1, 3);
    let mut draft = random_script::draft(random, located);
    for _ in 0..random.between(1, 4) {
        fault(random, &mut draft);
    }
    random.shuffle(&mut draft.located);
    if random.chance(1, 2) {
        random.shuffle(&mut draft.definitions);
    }
    let mut text = spaced(random, &draft.tokens());
    match random.below(12) {
        0 => text.truncate(text.len() - 1),
        1 => text.extend_from_slice(b" x"),
        2 => text.resize(65_535.max(text.len()), b' '),
        3 => text.resize(65_536.max(text.len()), b'\n'),
        _ => {}
    }
    text
}

/// Adds one fault of a question from 3 to 7 to a draft.
fn fault(random: &mut Random, draft: &mut Draft) {
    match random.weighted(&[2, 2, 2, 2, 1, 2, 1, 2, 2, 4, 4, 4, 4, 6]) {
        0 => draft.located.push(cut(&nested(random.between(32, 34)))),
        1 => draft
            .definitions
            .push(cut(&format!("Deep(x)={}", inner(33, "x")))),
        2 => draft.definitions.push(cut("Five(a,b,c,d,e)=stop")),
        3 => draft.definitions.push(cut("Alike(a,b,a,b,a)=stop")),
        4 => add_many(draft, 33, |k| format!("I{k}=stop")),
        5 => draft
            .located
            .push(located_parts(random.between(250, 260), "stop")),
        6 => draft.definitions.push(many_parts(4_100)),
        7 => draft.located.push(channels(random.between(62, 66))),
        8 => draft.definitions.push(many_variables(random.between(8, 9))),
        9 => repeat_definition(random, draft),
        10 => draft.definitions.push(cut("Two(x,x)=stop")),
        11 => draft.located.push(cut("A[Nobody]")),
        12 => draft.definitions.push(cut("One(x)=One(x,A,B,C,D)|One")),
        _ => draft.located.push(cut(
            "A[in(c,0,x,stop,go(0,x,stop))|out(free,0,free,stop,stop)]",
        )),
    }
}

fn inner(depth: usize, value: &str) -> String {
    let open = format!("go(0,{value},");
    format!("{}stop{}", open.repeat(depth - 1), ")".repeat(depth - 1))
}

fn nested(depth: usize) -> String {
    format!("A[{}]", inner(depth, "A"))
}

fn located_parts(count: usize, part: &str) -> Tokens {
    cut(&format!("A[{}]", vec![part; count].join("|")))
}

fn many_parts(count: usize) -> Tokens {
    cut(&format!("Wide={}", vec!["stop"; count].join("|")))
}

fn channels(count: usize) -> Tokens {
    let parts: Vec<String> = (0..count)
        .map(|k| format!("in(k{k},0,x,stop,stop)"))
        .collect();
    cut(&format!("A[{}]", parts.join("|")))
}

/// A definition of two parameters with inputs in one another.
fn many_variables(count: usize) -> Tokens {
    let open: String = (2..count).map(|k| format!("in(c,0,x{k},")).collect();
    cut(&format!(
        "Many(x0,x1)={open}stop{}",
        ",stop)".repeat(count - 2)
    ))
}

fn add_many(draft: &mut Draft, count: usize, definition: impl Fn(usize) -> String) {
    draft
        .definitions
        .extend((0..count).map(|k| cut(&definition(k))));
}

fn repeat_definition(random: &mut Random, draft: &mut Draft) {
    if draft.definitions.is_empty() {
        draft.definitions.push(cut("Once=stop"));
    }
    let again = random.pick(&draft.definitions).clone();
    draft.definitions.push(again);
}
