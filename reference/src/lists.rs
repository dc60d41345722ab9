//! Call lists as text: one call to a line, words separated by single spaces.
//! The format is set out in README.md.

use std::fmt;

use crate::calls::Record;
use crate::term::{Component, Ledger, Network};

/// One call on the current network, or what a host does with it.
#[derive(Clone, Debug, PartialEq, Eq)]
pub enum Call {
    Action(Record),
    Tick(u32),
    /// A step that is lent `room` records.
    Step {
        location: u32,
        room: usize,
    },
    /// A conforming step that is lent `room` records.
    Conforming {
        location: u32,
        room: usize,
    },
    Proposal {
        location: u32,
        records: Vec<Record>,
    },
    Forced,
    /// Whether a location conforms.
    Conforms(u32),
    /// Writing into `room` lent bytes.
    Write {
        room: usize,
    },
    /// Keeps the current network for `Same`.
    Keep,
    /// Compares the current network with the one kept, at first the one read.
    Same,
    /// Reads the text and compares the current network with what it gives.
    Like(String),
    Mean,
    /// A host writes the wait of a component into its table.
    Wait {
        p: u32,
        wait: u32,
    },
    /// A host writes how many messages there were, and for how long in all.
    Messages(Ledger),
}

impl Call {
    /// The network that a host has written into, if it is within the ranges of
    /// question 17; nothing of a call.
    pub fn written_into(&self, network: &Network) -> Option<Network> {
        match self {
            Call::Wait { p, wait } if *wait <= Component::LONGEST_WAIT => {
                let mut network = network.clone();
                network.components.get_mut(*p as usize)?.wait = *wait;
                Some(network)
            }
            Call::Messages(ledger) if ledger.is_in_range() => Some(network.clone().after(*ledger)),
            _ => None,
        }
    }
}

impl fmt::Display for Call {
    fn fmt(&self, f: &mut fmt::Formatter<'_>) -> fmt::Result {
        match self {
            Call::Action(record) => {
                write!(f, "action")?;
                write_record(f, record)
            }
            Call::Tick(location) => write!(f, "tick {location}"),
            Call::Step { location, room } => write!(f, "step {location} {room}"),
            Call::Conforming { location, room } => write!(f, "conforming {location} {room}"),
            Call::Proposal { location, records } => {
                write!(f, "proposal {location}")?;
                records
                    .iter()
                    .try_for_each(|record| write_record(f, record))
            }
            Call::Forced => write!(f, "forced"),
            Call::Conforms(location) => write!(f, "conforms {location}"),
            Call::Write { room } => write!(f, "write {room}"),
            Call::Keep => write!(f, "keep"),
            Call::Same => write!(f, "same"),
            Call::Like(text) => write!(f, "like {text}"),
            Call::Mean => write!(f, "mean"),
            Call::Wait { p, wait } => write!(f, "wait {p} {wait}"),
            Call::Messages(Ledger { total, messages }) => write!(f, "messages {messages} {total}"),
        }
    }
}

fn write_record(f: &mut fmt::Formatter<'_>, record: &Record) -> fmt::Result {
    write!(f, " {} {} {}", record.kind, record.p, record.q)
}

/// A line that is not a call, counted from 1.
#[derive(Clone, Copy, Debug, PartialEq, Eq)]
pub struct BadLine(pub usize);

impl fmt::Display for BadLine {
    fn fmt(&self, f: &mut fmt::Formatter<'_>) -> fmt::Result {
        write!(f, "line {} is not a call", self.0)
    }
}

/// The calls of a list.
pub fn parse(text: &str) -> Result<Vec<Call>, BadLine> {
    let numbered = text.lines().enumerate();
    numbered
        .map(|(index, line)| call(line).ok_or(BadLine(index + 1)))
        .collect()
}

/// A list as text.
pub fn print(calls: &[Call]) -> String {
    calls.iter().map(|call| format!("{call}\n")).collect()
}

fn call(line: &str) -> Option<Call> {
    if let Some(text) = line.strip_prefix("like ") {
        return Some(Call::Like(text.to_string()));
    }
    let mut words = line.split(' ');
    let name = words.next()?;
    if name == "messages" {
        return messages(words.collect::<Vec<&str>>().as_slice());
    }
    let numbers: Vec<u32> = words.map(|word| word.parse().ok()).collect::<Option<_>>()?;
    match (name, numbers.as_slice()) {
        ("action", [kind, p, q]) => Some(Call::Action(Record::new(*kind, *p, *q))),
        ("tick", [location]) => Some(Call::Tick(*location)),
        ("step", [location, room]) => Some(Call::Step {
            location: *location,
            room: *room as usize,
        }),
        ("conforming", [location, room]) => Some(Call::Conforming {
            location: *location,
            room: *room as usize,
        }),
        ("proposal", [location, rest @ ..]) => Some(Call::Proposal {
            location: *location,
            records: records(rest)?,
        }),
        ("forced", []) => Some(Call::Forced),
        ("conforms", [location]) => Some(Call::Conforms(*location)),
        ("write", [room]) => Some(Call::Write {
            room: *room as usize,
        }),
        ("keep", []) => Some(Call::Keep),
        ("same", []) => Some(Call::Same),
        ("mean", []) => Some(Call::Mean),
        ("wait", [p, wait]) => Some(Call::Wait { p: *p, wait: *wait }),
        _ => None,
    }
}

/// The count and the total, which may have more than 32 bits.
fn messages(words: &[&str]) -> Option<Call> {
    let [count, total] = words else { return None };
    Some(Call::Messages(Ledger {
        total: total.parse().ok()?,
        messages: count.parse().ok()?,
    }))
}

fn records(numbers: &[u32]) -> Option<Vec<Record>> {
    let triples = numbers.chunks(3).map(|triple| match triple {
        [kind, p, q] => Some(Record::new(*kind, *p, *q)),
        _ => None,
    });
    triples.collect()
}
