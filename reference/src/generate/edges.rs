//! Texts at each limit of document 01 and one past it, and long or deep texts
//! that only the form or a late question refuses.

use crate::random::Random;
use crate::reading::*;

/// How many texts `limit` knows.
pub const LIMITS: usize = 19;

/// A text at a limit, just past it, or far past it.
pub fn text(random: &mut Random) -> Vec<u8> {
    if random.chance(1, 12) {
        let choice = random.below(HOSTILE);
        return hostile(choice);
    }
    let choice = random.below(LIMITS);
    let past = random.weighted(&[4, 5, 1]);
    limit(choice, if past == 2 { 3 } else { past })
}

/// The text of one limit, `past` above it.
pub fn limit(choice: usize, past: usize) -> Vec<u8> {
    match choice {
        0 => padded("A[stop] .", MOST_BYTES + past),
        1 => nested("go(0,A,", ")", MOST_NESTING + past),
        2 => nested("in(c,0,x,stop,", ")", MOST_NESTING + past),
        3 => nested("out(c,inf,A,", ",stop)", MOST_NESTING + past),
        4 => numbered(
            MOST_DEFINITIONS + past,
            |k| format!("D{k}=stop."),
            "",
            "A[D1].",
        ),
        5 => parameters(MOST_PARAMETERS + past),
        6 => numbered(
            MOST_PARTS - 1 + past,
            |_| "stop".to_string(),
            "|",
            ".A[Wide].",
        )
        .prefixed("Wide="),
        7 => spread_parts(MOST_PARTS + past),
        8 => numbered(
            MOST_CHANNELS + past,
            |k| format!("in(c{k},0,x,stop,stop)"),
            "|",
            "].",
        )
        .prefixed("A["),
        9 => numbered(MOST_LOCATIONS + past, |k| format!("L{k}[stop]"), "|", "."),
        10 => locations_as_values(MOST_LOCATIONS + past),
        11 => numbered(MOST_COMPONENTS + past, |_| "A[stop]".to_string(), "|", "."),
        12 => numbered(MOST_COMPONENTS + past, |_| "stop".to_string(), "|", "].").prefixed("A["),
        13 => variables(MOST_VARIABLES + past),
        14 => variables_after_parameters(MOST_VARIABLES + past),
        15 => format!("A[go({},A,stop)].", 1_000_000 + past).into_bytes(),
        16 => format!("A[in({},0,x,stop,stop)].", "c".repeat(16 + past)).into_bytes(),
        17 => format!("{}[stop].", "L".repeat(16 + past)).into_bytes(),
        _ => variables_not_adding(MOST_VARIABLES - 1 + past),
    }
}

trait Prefixed {
    fn prefixed(self, prefix: &str) -> Vec<u8>;
}

impl Prefixed for Vec<u8> {
    fn prefixed(self, prefix: &str) -> Vec<u8> {
        [prefix.as_bytes(), &self].concat()
    }
}

/// Pieces numbered from 1, joined, with an end.
fn numbered(count: usize, piece: impl Fn(usize) -> String, join: &str, end: &str) -> Vec<u8> {
    let pieces: Vec<String> = (1..=count).map(piece).collect();
    (pieces.join(join) + end).into_bytes()
}

fn padded(text: &str, length: usize) -> Vec<u8> {
    let mut text = text.as_bytes().to_vec();
    text.resize(length, b' ');
    text
}

/// A located process with parts nested to a depth.
fn nested(open: &str, close: &str, depth: usize) -> Vec<u8> {
    format!(
        "A[{}stop{}].",
        open.repeat(depth - 1),
        close.repeat(depth - 1)
    )
    .into_bytes()
}

fn parameters(count: usize) -> Vec<u8> {
    let names: Vec<String> = (1..=count).map(|k| format!("x{k}")).collect();
    let values = vec!["A"; count].join(",");
    format!("D({})=go(0,x1,stop).A[D({values})].", names.join(",")).into_bytes()
}

/// Parts at several depths, in definitions and in the network.
fn spread_parts(count: usize) -> Vec<u8> {
    let rest = count - 8;
    let inner = vec!["stop"; rest / 2].join("|");
    let outer = vec!["stop"; rest - rest / 2].join("|");
    format!("D=go(0,A,{inner})|{outer}|stop.A[out(c,0,A,D,stop)|in(c,0,x,stop,D)].").into_bytes()
}

/// Locations that stand in a definition that nobody calls, as values and among
/// surplus arguments. Past the limit this is 4, at the limit 6.
fn locations_as_values(count: usize) -> Vec<u8> {
    let names: Vec<String> = (2..=count).map(|k| format!("L{k}")).collect();
    format!("Idle=go(0,L1,Idle(L{count},{})).L1[stop].", names.join(",")).into_bytes()
}

/// Inputs in one another with different names.
fn variables(count: usize) -> Vec<u8> {
    let open: String = (1..=count).map(|k| format!("in(c,0,x{k},")).collect();
    format!("A[{open}stop{}].", ",stop)".repeat(count)).into_bytes()
}

fn variables_after_parameters(count: usize) -> Vec<u8> {
    let open: String = (4..count).map(|k| format!("in(c,0,x{k},")).collect();
    let close = ",stop)".repeat(count - 4);
    format!("D(x0,x1,x2,x3)={open}stop{close}.A[D(A,B,C,D)].").into_bytes()
}

/// One name more than `count`, bound twice over; in Q and beside it the count
/// starts again.
fn variables_not_adding(count: usize) -> Vec<u8> {
    let open: String = (1..=count).map(|k| format!("in(c,0,x{k},")).collect();
    let again = "in(c,0,x1,in(c,0,x2,stop,stop),in(c,0,y,stop,in(c,0,z,stop,stop)))";
    let close = ",in(c,0,y,stop,stop))".repeat(count);
    format!("A[{open}{again}|in(c,0,w,stop,stop){close}].").into_bytes()
}

/// How many texts `hostile` knows.
pub const HOSTILE: usize = 10;

/// A text that fits into 65,535 bytes and strains a reader.
pub fn hostile(choice: usize) -> Vec<u8> {
    match choice {
        0 => "go(0,A,".repeat(9_361).into_bytes().prefixed("A["),
        1 => nested("go(0,A,", ")", 8_190),
        2 => numbered(13_000, |_| "stop".to_string(), "|", "].").prefixed("A["),
        3 => numbered(32_000, |_| "A".to_string(), "|", "].").prefixed("A["),
        4 => ("a=b.".repeat(16_000) + "A[b].").into_bytes(),
        5 => [vec!["A"; 30_000].join(",").as_bytes(), b")]."]
            .concat()
            .prefixed("A[a("),
        6 => [vec!["a"; 30_000].join(",").as_bytes(), b")=stop.A[a]."]
            .concat()
            .prefixed("a("),
        7 => format!("A[go({},A,stop)].", "9".repeat(60_000)).into_bytes(),
        8 => numbered(5_000, |k| format!("in(x,0,y{k},"), "", "").prefixed("A["),
        _ => (0..60_000u32)
            .map(|k| (k.wrapping_mul(2_654_435_761) >> 24) as u8)
            .collect(),
    }
}
