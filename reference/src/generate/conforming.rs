//! Scripts whose locations mostly conform: document 02, R-13. Each channel has one
//! sender and one receiver in the whole network, which meet, time out, wander and come
//! back, mostly to one location, and `go` has timer 0. In half of the scripts there is
//! what does not conform: a second sender or receiver, or a `go` that may wait, until its
//! timer has come down.

use super::draft::{cut, first_mostly, some, spaced, Draft};
use crate::random::Random;

const LOCATIONS: [&str; 3] = ["A", "B", "C"];
const CHANNELS: [&str; 4] = ["c", "d", "e", "f"];
const SENDERS: [&str; 4] = ["Page", "Cover", "Sheet", "Proof"];
const READERS: [&str; 4] = ["head", "desk", "clerk", "shelf"];
const WALKER: &str = "walker";
const TIMERS: [&str; 5] = ["0", "1", "2", "5", "inf"];
const LATE: [&str; 4] = ["1", "2", "3", "inf"];

/// A script that reading accepts.
pub fn text(random: &mut Random) -> Vec<u8> {
    let tokens = draft(random).tokens();
    spaced(random, &tokens)
}

/// Senders, readers and walkers, in any order.
pub fn draft(random: &mut Random) -> Draft {
    let locations = some(random, &LOCATIONS, 1, 3);
    let mut writer = Writer {
        homes: CHANNELS.map(|_| first_mostly(random, &locations)),
        locations,
        late: random.weighted(&[3, 1]),
        random,
        draft: Draft::default(),
    };
    let channels = writer.random.between(1, CHANNELS.len());
    for (k, role) in (0..channels).flat_map(|k| Role::BOTH.map(|role| (k, role))) {
        writer.define(role, k);
        writer.locate(role, k);
    }
    writer.walkers();
    if writer.random.chance(1, 4) {
        let (k, role) = (writer.random.below(channels), writer.random.below(2));
        writer.locate(Role::BOTH[role], k);
    }
    if writer.random.chance(1, 12) {
        writer.grow();
    }
    let mut draft = writer.draft;
    random.shuffle(&mut draft.definitions);
    random.shuffle(&mut draft.located);
    draft
}

/// Writes one script.
struct Writer<'r> {
    random: &'r mut Random,
    locations: Vec<&'static str>,
    /// By channel.
    homes: [&'static str; CHANNELS.len()],
    /// How often a `go` may wait.
    late: usize,
    draft: Draft,
}

/// What a channel has one of each of.
#[derive(Clone, Copy)]
enum Role {
    Sender,
    Reader,
}

impl Role {
    const BOTH: [Role; 2] = [Role::Sender, Role::Reader];

    /// The name of its definition, by channel.
    fn name(self, k: usize) -> &'static str {
        match self {
            Role::Sender => SENDERS[k],
            Role::Reader => READERS[k],
        }
    }
}

impl Writer<'_> {
    fn define(&mut self, role: Role, k: usize) {
        let definition = format!("{}={}", role.name(k), self.part(role, k));
        self.draft.definitions.push(cut(&definition));
    }

    /// It stands there, is to be called, or comes from elsewhere.
    fn locate(&mut self, role: Role, k: usize) {
        let process = match self.random.weighted(&[4, 2, 1]) {
            0 => self.part(role, k),
            1 => role.name(k).to_string(),
            _ => self.go("0", role.name(k)),
        };
        let location = self.home(k);
        self.put(location, &process);
    }

    fn put(&mut self, location: &str, process: &str) {
        let located = format!("{location}[{process}]");
        self.draft.located.push(cut(&located));
    }

    fn part(&mut self, role: Role, k: usize) -> String {
        let timer = TIMERS[self.random.weighted(&[2, 1, 2, 2, 3])];
        let (channel, again) = (CHANNELS[k], role.name(k));
        let location = self.home(k);
        let otherwise = self.rest(location, again);
        match role {
            Role::Sender => {
                let then = self.rest(location, again);
                format!("out({channel},{timer},{location},{then},{otherwise})")
            }
            Role::Reader => {
                let then = self.rest("x", again);
                format!("in({channel},{timer},x,{then},{otherwise})")
            }
        }
    }

    /// What comes next: the same again, here or elsewhere.
    fn rest(&mut self, value: &str, again: &str) -> String {
        match self.random.weighted(&[8, 4, 1, 3 * self.late]) {
            0 => again.to_string(),
            1 => format!("go(0,{value},{again})"),
            2 => format!("{again}|stop"),
            _ => {
                let timer = *self.random.pick(&LATE);
                format!("go({timer},{value},{again})")
            }
        }
    }

    fn go(&mut self, timer: &str, then: &str) -> String {
        format!("go({timer},{},{then})", self.location())
    }

    /// Any number of them conforms where they move at once.
    fn walkers(&mut self) {
        let then = self.go("0", WALKER);
        let walks = self.go("0", &then);
        let definition = format!("{WALKER}={walks}");
        self.draft.definitions.push(cut(&definition));
        let mut parts = vec![WALKER.to_string(); self.random.between(0, 2)];
        if self.late > 0 {
            let timer = *self.random.pick(&LATE);
            parts.push(self.go(timer, WALKER));
        }
        for part in parts {
            let location = self.location();
            self.put(location, &part);
        }
    }

    /// What grows until a step would not fit the table.
    fn grow(&mut self) {
        let body = vec!["Grow"; self.random.between(2, 4)].join("|");
        self.draft.definitions.push(cut(&format!("Grow={body}")));
        let location = self.location();
        self.put(location, "Grow");
    }

    /// Where the sender and the reader of a channel mostly are.
    fn home(&mut self, k: usize) -> &'static str {
        if self.random.chance(4, 5) {
            self.homes[k]
        } else {
            self.location()
        }
    }

    fn location(&mut self) -> &'static str {
        first_mostly(self.random, &self.locations)
    }
}
