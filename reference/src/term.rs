//! Terms and networks (document 01, *The term and the network*).
//!
//! Names are strings, sub-terms are owned. Equality and order of terms are
//! letter by letter: bound names and the order of parts count.

use std::mem;
use std::sync::Arc;

/// A timer: a number of ticks, or `inf`.
#[derive(Clone, Copy, Debug, PartialEq, Eq, PartialOrd, Ord)]
pub enum Timer {
    Ticks(u32),
    Inf,
}

impl Timer {
    /// The largest number that a timer may be.
    pub const LARGEST: u32 = 1_000_000;

    /// The timer after a tick; `inf` stays `inf`, and 0 stays 0, which at a tick
    /// only a `go` without its right is lowered from.
    pub fn less_one(self) -> Timer {
        match self {
            Timer::Ticks(ticks) => Timer::Ticks(ticks.saturating_sub(1)),
            Timer::Inf => Timer::Inf,
        }
    }

    pub fn is_zero(self) -> bool {
        self == Timer::Ticks(0)
    }
}

/// How communication timers are counted (document 02, R-8). It is given at
/// reading and stays with the network.
#[derive(Clone, Copy, Debug, Default, PartialEq, Eq, PartialOrd, Ord)]
pub enum Edition {
    /// In ticks: an `in` or `out` takes its Q at a tick with timer 0.
    #[default]
    One = 1,
    /// In chances to meet: it takes its Q with timer 0 or 1.
    Two = 2,
}

impl Edition {
    pub const BOTH: [Edition; 2] = [Edition::One, Edition::Two];

    /// The edition of a number, if it is 1 or 2.
    pub fn of(number: u32) -> Option<Edition> {
        Edition::BOTH
            .into_iter()
            .find(|edition| edition.number() == number)
    }

    pub fn number(self) -> u32 {
        self as u32
    }

    /// The largest timer with which an `in` or `out` takes its Q at a tick.
    pub fn last_timer(self) -> Timer {
        match self {
            Edition::One => Timer::Ticks(0),
            Edition::Two => Timer::Ticks(1),
        }
    }
}

/// What a location allows (document 02, R-6), by the numbers of channels and of
/// locations in the text.
#[derive(Clone, Copy, Debug, PartialEq, Eq)]
pub struct Row {
    /// By channel.
    pub send: [bool; Rights::NUMBERS],
    /// By channel.
    pub receive: [bool; Rights::NUMBERS],
    /// By the location moved to; the row's own is not looked at.
    pub leave: [bool; Rights::NUMBERS],
}

impl Row {
    pub const ALL: Row = Row::each(true);
    pub const NONE: Row = Row::each(false);

    const fn each(given: bool) -> Row {
        Row {
            send: [given; Rights::NUMBERS],
            receive: [given; Rights::NUMBERS],
            leave: [given; Rights::NUMBERS],
        }
    }

    /// To send, to receive, to leave.
    pub fn sorts(&self) -> [&[bool; Rights::NUMBERS]; 3] {
        [&self.send, &self.receive, &self.leave]
    }

    pub fn sorts_mut(&mut self) -> [&mut [bool; Rights::NUMBERS]; 3] {
        [&mut self.send, &mut self.receive, &mut self.leave]
    }
}

/// A row for each location number below 64. They are given at reading and stay
/// with the network. Larger numbers, which only a text read without limits has,
/// have every right.
#[derive(Clone, Debug, PartialEq, Eq)]
pub struct Rights {
    pub rows: Vec<Row>,
}

impl Rights {
    /// How many locations have a row, and how many numbers a row knows.
    pub const NUMBERS: usize = 64;

    pub fn all() -> Rights {
        Rights::each(Row::ALL)
    }

    pub fn none() -> Rights {
        Rights::each(Row::NONE)
    }

    fn each(row: Row) -> Rights {
        Rights {
            rows: vec![row; Rights::NUMBERS],
        }
    }

    pub fn send(&self, location: usize, channel: usize) -> bool {
        self.given(location, |row| row.send.get(channel))
    }

    pub fn receive(&self, location: usize, channel: usize) -> bool {
        self.given(location, |row| row.receive.get(channel))
    }

    pub fn leave(&self, location: usize, target: usize) -> bool {
        self.given(location, |row| row.leave.get(target))
    }

    fn given<'r>(&'r self, location: usize, bit: impl Fn(&'r Row) -> Option<&'r bool>) -> bool {
        self.rows.get(location).and_then(bit).is_none_or(|bit| *bit)
    }
}

/// What is given with a text at reading: the number of an edition, which may be
/// none, and the rights.
#[derive(Clone, Debug, PartialEq, Eq)]
pub struct Settings {
    pub edition: u32,
    pub rights: Rights,
}

impl Settings {
    /// The edition of a number, with all rights.
    pub fn all(edition: u32) -> Settings {
        Settings {
            edition,
            rights: Rights::all(),
        }
    }
}

/// What is sent, passed or moved to.
#[derive(Clone, Debug, PartialEq, Eq, PartialOrd, Ord)]
pub enum Value {
    Location(String),
    Variable(String),
}

/// One part of a process. `then` is the document's P, `otherwise` its Q.
#[derive(Clone, Debug, PartialEq, Eq, PartialOrd, Ord)]
pub enum Part {
    Stop,
    Go {
        timer: Timer,
        target: Value,
        then: Process,
    },
    Out {
        channel: String,
        timer: Timer,
        value: Value,
        then: Process,
        otherwise: Process,
    },
    /// Binds `variable` in `then` and not in `otherwise`.
    In {
        channel: String,
        timer: Timer,
        variable: String,
        then: Process,
        otherwise: Process,
    },
    Call {
        identifier: String,
        arguments: Vec<Value>,
    },
}

/// One or more parts in parallel.
#[derive(Clone, Debug, PartialEq, Eq, PartialOrd, Ord)]
pub struct Process {
    pub parts: Vec<Part>,
}

impl Part {
    /// Whether the part has processes inside.
    fn is_inner_node(&self) -> bool {
        !matches!(self, Part::Stop | Part::Call { .. })
    }
}

/// Dropping goes over a list and not down the tree: a text that question 3
/// refuses may hold thousands of levels.
impl Drop for Process {
    fn drop(&mut self) {
        let mut waiting = mem::take(&mut self.parts);
        while let Some(part) = waiting.pop() {
            match part {
                Part::Stop | Part::Call { .. } => {}
                Part::Go { mut then, .. } => unload(&mut then, &mut waiting),
                Part::Out {
                    mut then,
                    mut otherwise,
                    ..
                }
                | Part::In {
                    mut then,
                    mut otherwise,
                    ..
                } => {
                    unload(&mut then, &mut waiting);
                    unload(&mut otherwise, &mut waiting);
                }
            }
        }
    }
}

/// Takes a process apart; what has processes inside waits to be dropped.
fn unload(process: &mut Process, waiting: &mut Vec<Part>) {
    waiting.extend(
        mem::take(&mut process.parts)
            .into_iter()
            .filter(Part::is_inner_node),
    );
}

/// `identifier(parameters) = body .`
#[derive(Clone, Debug, PartialEq, Eq, PartialOrd, Ord)]
pub struct Definition {
    pub identifier: String,
    pub parameters: Vec<String>,
    pub body: Process,
}

/// A located process with its mark, which names its owner, and its wait.
/// Unmarked it has one part; marked it may hold several and counts as one.
/// Equality looks at the wait too; `is_equal` is document 01's.
#[derive(Clone, Debug, PartialEq, Eq)]
pub struct Component {
    pub location: String,
    pub mark: Option<String>,
    pub process: Process,
    /// For how many ticks it has waited (document 02, R-1).
    pub wait: u32,
}

impl Component {
    /// Where a wait halts.
    pub const LONGEST_WAIT: u32 = 1_000_000;

    /// All that document 01 says of a component, in an order of its own: waits
    /// are passed over.
    pub fn seen(&self) -> (&str, Option<&str>, &Process) {
        (&self.location, self.mark.as_deref(), &self.process)
    }

    /// Document 01's *equal* components, whatever their waits.
    pub fn is_equal(&self, other: &Component) -> bool {
        self.seen() == other.seen()
    }

    /// The part of an unmarked component.
    pub fn ready_part(&self) -> Option<&Part> {
        match (&self.mark, self.process.parts.as_slice()) {
            (None, [part]) => Some(part),
            _ => None,
        }
    }

    /// The part of a component that stands at `location` unmarked.
    pub fn ready_at(&self, location: &str) -> Option<&Part> {
        self.ready_part().filter(|_| self.location == location)
    }
}

/// What reading fixes for good: the edition, the rights, definitions in text
/// order, and the names of locations and channels in the order of their numbers.
#[derive(Clone, Debug, PartialEq, Eq)]
pub struct Script {
    pub edition: Edition,
    pub rights: Rights,
    pub definitions: Vec<Definition>,
    pub locations: Vec<String>,
    pub channels: Vec<String>,
}

impl Script {
    pub fn definition(&self, identifier: &str) -> Option<&Definition> {
        self.definitions.iter().find(|d| d.identifier == identifier)
    }

    /// The number of a location's name.
    pub fn location(&self, name: &str) -> Option<usize> {
        self.locations.iter().position(|held| held == name)
    }

    /// The number of a channel's name.
    pub fn channel(&self, name: &str) -> Option<usize> {
        self.channels.iter().position(|held| held == name)
    }
}

/// The messages so far (document 02, R-1): how many there were, and how long their
/// senders had waited in all.
#[derive(Clone, Copy, Debug, Default, PartialEq, Eq)]
pub struct Ledger {
    pub total: u64,
    pub messages: u32,
}

impl Ledger {
    /// How many messages are counted. A communication past them is refused by 18.
    pub const MOST_MESSAGES: u32 = 1_000_000;

    /// What question 17 asks of a table's.
    pub fn is_in_range(self) -> bool {
        self.messages <= Ledger::MOST_MESSAGES && self.total <= self.largest_total()
    }

    /// The largest total that so many messages can have.
    pub fn largest_total(self) -> u64 {
        u64::from(Component::LONGEST_WAIT) * u64::from(self.messages)
    }
}

/// A list of components with the script they came from, and the messages so far.
#[derive(Clone, Debug, PartialEq, Eq)]
pub struct Network {
    pub script: Arc<Script>,
    pub components: Vec<Component>,
    pub ledger: Ledger,
}

impl Network {
    /// The same script and ledger with other components.
    pub fn with(&self, components: Vec<Component>) -> Network {
        Network {
            script: Arc::clone(&self.script),
            components,
            ledger: self.ledger,
        }
    }

    /// The same network after other messages.
    pub fn after(self, ledger: Ledger) -> Network {
        Network { ledger, ..self }
    }

    /// What it was read with.
    pub fn settings(&self) -> Settings {
        Settings {
            edition: self.script.edition.number(),
            rights: self.script.rights.clone(),
        }
    }

    /// The same network under an edition.
    pub fn under(&self, edition: Edition) -> Network {
        self.of(Script {
            edition,
            ..(*self.script).clone()
        })
    }

    /// The same network with other rights.
    pub fn with_rights(&self, rights: Rights) -> Network {
        self.of(Script {
            rights,
            ..(*self.script).clone()
        })
    }

    /// The same components with another script.
    fn of(&self, script: Script) -> Network {
        Network {
            script: Arc::new(script),
            components: self.components.clone(),
            ledger: self.ledger,
        }
    }
}
