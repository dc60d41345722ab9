//! Texts that strain a reader: deep, long, wide, or made of odd bytes, each
//! with the number of the question that refuses it, 0 if it is read.

use super::edges;
use crate::reading::*;

pub struct Hostile {
    pub name: String,
    pub number: u8,
    pub text: Vec<u8>,
}

/// All of them.
pub fn all() -> Vec<Hostile> {
    let mut texts = Vec::new();
    add_unclosed(&mut texts);
    add_closed(&mut texts);
    add_long(&mut texts);
    add_bytes(&mut texts);
    add_full(&mut texts);
    texts
}

fn add(texts: &mut Vec<Hostile>, name: &str, number: u8, text: impl Into<Vec<u8>>) {
    texts.push(Hostile {
        name: name.to_string(),
        number,
        text: text.into(),
    });
}

fn repeated(count: usize, piece: &str, join: &str) -> String {
    vec![piece; count].join(join)
}

fn numbered(count: usize, piece: impl Fn(usize) -> String, join: &str) -> String {
    (0..count).map(piece).collect::<Vec<_>>().join(join)
}

/// Levels that are never closed, as many as a text holds.
fn add_unclosed(texts: &mut Vec<Hostile>) {
    let openers = [
        "go(0,A,",
        "out(c,0,A,",
        "in(c,0,x,",
        "out(c,0,A,stop,",
        "in(c,0,x,stop,",
        "stop|go(0,A,",
        "A(",
        "A[",
        "(",
        "[",
        "A|",
        "D=",
    ];
    for opener in openers {
        let text = format!("A[{}", opener.repeat((MOST_BYTES - 2) / opener.len()));
        add(texts, &format!("unclosed {opener}"), 2, text);
    }
    let text = format!("A[{}", "go(0,A,".repeat(9_361));
    add(texts, "9,361 unclosed levels", 2, text);
    let text = format!("D={}", "go(0,A,".repeat(9_361));
    add(texts, "9,361 unclosed levels in a body", 2, text);
    let names = numbered(5_000, |k| format!("in(x,0,y{k},"), "");
    add(
        texts,
        "5,000 unclosed inputs of different names",
        2,
        format!("A[{names}"),
    );
}

/// Levels that are closed.
fn add_closed(texts: &mut Vec<Hostile>) {
    let brackets = [
        ("go(0,A,", ")"),
        ("out(c,0,A,", ",a)"),
        ("in(c,0,x,", ",a)"),
        ("in(c,0,x,a,", ")"),
        ("go(0,A,a|", ")"),
        ("go(0,A,", "|a)"),
    ];
    for (open, close) in brackets {
        let levels = (MOST_BYTES - 10) / (open.len() + close.len());
        let text = format!("A[{}stop{}].", open.repeat(levels), close.repeat(levels));
        add(texts, &format!("closed {open}{close}"), 3, text);
    }
    let closed = |levels| format!("{}stop{}", "go(0,A,".repeat(levels), ")".repeat(levels));
    add(
        texts,
        "8,190 closed levels",
        3,
        format!("A[{}].", closed(8_190)),
    );
    add(
        texts,
        "8,190 closed levels, one sign missing",
        2,
        format!("A[{}]", closed(8_190)),
    );
    add(
        texts,
        "8,180 closed levels in a body",
        3,
        format!("D={}.A[D].", closed(8_180)),
    );
}

/// Long lists and long words.
fn add_long(texts: &mut Vec<Hostile>) {
    let list = |count, piece, join| repeated(count, piece, join);
    add(
        texts,
        "13,000 parts",
        4,
        format!("A[{}].", list(13_000, "stop", "|")),
    );
    add(
        texts,
        "32,000 parts",
        4,
        format!("A[{}].", list(32_000, "A", "|")),
    );
    add(
        texts,
        "32,000 parts, one sign missing",
        2,
        format!("A[{}]", list(32_000, "A", "|")),
    );
    add(
        texts,
        "16,000 definitions",
        4,
        format!("{}A[b].", "a=b.".repeat(16_000)),
    );
    add(texts, "6,000 different definitions", 4, {
        format!("{}A[a].", numbered(6_000, |k| format!("D{k}=a."), ""))
    });
    add(
        texts,
        "30,000 arguments",
        6,
        format!("A[a({})].", list(30_000, "A", ",")),
    );
    add(texts, "10,000 different locations as arguments", 4, {
        format!("A[a({})].", numbered(10_000, |k| format!("L{k}"), ","))
    });
    add(
        texts,
        "30,000 parameters",
        4,
        format!("a({})=stop.A[a].", list(30_000, "a", ",")),
    );
    add(
        texts,
        "9,000 located processes",
        4,
        format!("{}.", list(9_000, "A[a]", "|")),
    );
    add(texts, "6,000 locations", 4, {
        format!("{}.", numbered(6_000, |k| format!("L{k}[a]"), "|"))
    });
    add(texts, "3,000 channels", 4, {
        format!(
            "A[{}].",
            numbered(3_000, |k| format!("in(c{k},0,x,a,a)"), "|")
        )
    });
    for digit in ["0", "1", "9"] {
        let text = format!("A[go({},A,stop)].", digit.repeat(60_000));
        add(texts, &format!("a timer of 60,000 digits {digit}"), 2, text);
    }
    for letter in ["a", "A"] {
        let text = format!("A[{}].", letter.repeat(65_000));
        add(
            texts,
            &format!("a name of 65,000 letters {letter}"),
            2,
            text,
        );
    }
    for timer in [
        "4294967295",
        "4294967296",
        "18446744073709551615",
        "18446744073709551616",
    ] {
        add(
            texts,
            &format!("timer {timer}"),
            2,
            format!("A[go({timer},A,stop)]."),
        );
    }
}

/// Bytes that no rule knows, and the number of bytes.
fn add_bytes(texts: &mut Vec<Hostile>) {
    add(texts, "no byte", 2, "");
    for byte in [b'\0', b'\t', b'\r', 0x0b, 0x7f, 0x80, 0xa0, 0xc3, 0xff] {
        for at in 0..=8 {
            let mut text = b"A[stop].".to_vec();
            text.insert(at, byte);
            add(texts, &format!("byte {byte} at {at}"), 2, text);
        }
    }
    for byte in 0..=255u8 {
        add(
            texts,
            &format!("65,535 times byte {byte}"),
            2,
            vec![byte; MOST_BYTES],
        );
        add(
            texts,
            &format!("65,536 times byte {byte}"),
            1,
            vec![byte; MOST_BYTES + 1],
        );
    }
    for blank in [" ", "\n"] {
        let blanks = |length: usize| blank.repeat(length - 8);
        let (most, more) = (blanks(MOST_BYTES), blanks(MOST_BYTES + 1));
        add(
            texts,
            "65,535 bytes, blanks behind",
            0,
            format!("A[stop].{most}"),
        );
        add(
            texts,
            "65,535 bytes, blanks in front",
            0,
            format!("{most}A[stop]."),
        );
        add(
            texts,
            "65,535 bytes, blanks inside",
            0,
            format!("A[{most}stop]."),
        );
        add(
            texts,
            "65,536 bytes, blanks behind",
            1,
            format!("A[stop].{more}"),
        );
        add(
            texts,
            "65,536 bytes, blanks in front",
            1,
            format!("{more}A[stop]."),
        );
    }
    add(texts, "a million bytes", 1, vec![b' '; 1_000_000]);
    add(
        texts,
        "bytes at random",
        2,
        edges::hostile(edges::HOSTILE - 1),
    );
}

/// Full tables.
fn add_full(texts: &mut Vec<Hostile>) {
    let parts = |count| repeated(count, "stop", "|");
    add(
        texts,
        "4,096 parts, 4,095 in a body",
        0,
        format!("D={}.A[stop].", parts(4_095)),
    );
    add(
        texts,
        "4,097 parts, 4,096 in a body",
        4,
        format!("D={}.A[stop].", parts(4_096)),
    );
    add(
        texts,
        "4,096 parts, 4,095 in a process",
        0,
        format!("A[go(0,A,{})].", parts(4_095)),
    );
    add(
        texts,
        "4,097 parts, 4,096 in a process",
        4,
        format!("A[go(0,A,{})].", parts(4_096)),
    );
    let (open, close) = ("go(0,A,".repeat(31), ")".repeat(31));
    let deepest = format!("A[{open}{}{close}].", parts(4_065));
    add(
        texts,
        "4,096 parts, 4,065 in the deepest process",
        0,
        deepest,
    );
    let each = repeated(63, &format!("{open}stop|stop{close}"), "|");
    add(
        texts,
        "63 nests of 33 parts each, 32 deep",
        0,
        format!("A[{each}]."),
    );
    add(
        texts,
        "a tree of 4,095 parts",
        0,
        format!("A[{}].", tree(11)),
    );
    add(texts, "every limit at once", 0, every_limit());
}

/// Parts with two others inside, down to a depth.
fn tree(depth: usize) -> String {
    if depth == 0 {
        return "stop".to_string();
    }
    let inner = tree(depth - 1);
    format!("out(c,0,A,{inner},{inner})")
}

/// 65,535 bytes, nesting 32, 32 definitions of 4 parameters, 4,096 parts, 64
/// channels, 64 locations, 256 components, 8 variables at one place, and names
/// of 16 letters.
fn every_limit() -> String {
    let location = |k: usize| format!("Location{k:08}");
    let channel = |k: usize| format!("channel{k:09}");
    let variable = |k: usize| format!("variable{k:08}");
    let parameters = numbered(4, variable, ",");
    let arguments = numbered(4, location, ",");
    // each body has 31 levels around its last part, of which 4 are inputs that bind new names
    let open = numbered(
        31,
        |k| match k {
            0..=3 => format!("in({},0,{},", channel(k), variable(4 + k)),
            _ => format!("go(0,{},", variable(k % 8)),
        },
        "",
    );
    let close = format!("{}{}", ")".repeat(27), ",stop)".repeat(4));
    let body = |k: usize| format!("Definition{k:06}({parameters})={open}stop{close}.\n");
    let definitions = numbered(MOST_DEFINITIONS, body, "");
    let sends = numbered(
        MOST_CHANNELS,
        |k| format!("out({},inf,{},stop,stop)", channel(k), location(k)),
        "|",
    );
    let calls = numbered(
        MOST_DEFINITIONS,
        |k| format!("Definition{k:06}({arguments})"),
        "|",
    );
    let used = MOST_DEFINITIONS * 36 + MOST_CHANNELS * 3 + MOST_DEFINITIONS;
    let standing = MOST_COMPONENTS - MOST_CHANNELS - MOST_DEFINITIONS - 1;
    let inside = MOST_PARTS - used - standing - 1;
    let mut text = format!(
        "{definitions}{}[{sends}|{calls}|{}|go(0,{},{})].",
        location(0),
        repeated(standing, "stop", "|"),
        location(1),
        repeated(inside, "stop", "|")
    );
    let blanks = MOST_BYTES - text.len();
    text.push_str(&" ".repeat(blanks));
    text
}
