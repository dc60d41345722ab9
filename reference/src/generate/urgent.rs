//! Scripts in which several inputs hear one channel at one location, with several
//! outputs there: document 02, R-3. Timers come from a few, so that some are equal
//! and some are not. Many components are calls, and most go on with a call, so that
//! inputs and outputs come back when others have waited.

use super::draft::{cut, first_mostly, some, spaced, Draft};
use crate::random::Random;

const LOCATIONS: [&str; 3] = ["A", "B", "C"];
const CHANNELS: [&str; 2] = ["c", "d"];
const READERS: [&str; 3] = ["Head", "reader", "x"];
const SENDERS: [&str; 2] = ["Page", "sender"];
const TIMERS: [&str; 8] = ["0", "1", "2", "3", "5", "10", "999999", "1000000"];

/// A script that reading accepts.
pub fn text(random: &mut Random) -> Vec<u8> {
    let tokens = draft(random).tokens();
    spaced(random, &tokens)
}

/// Readers, senders and calls of them, in any order.
pub fn draft(random: &mut Random) -> Draft {
    let mut timers = some(random, &TIMERS, 1, 4);
    if random.chance(2, 3) {
        timers.push("inf");
    }
    let mut writer = Writer {
        locations: some(random, &LOCATIONS, 1, 3),
        channels: some(random, &CHANNELS, 1, 2),
        timers,
        ends: 0,
        random,
    };
    let mut draft = Draft::default();
    let readers = READERS.map(|name| format!("{name}={}", writer.input()));
    let senders = SENDERS.map(|name| format!("{name}={}", writer.output()));
    let definitions = readers.iter().chain(&senders);
    draft.definitions.extend(definitions.map(|text| cut(text)));
    writer.ends = 1;
    let most = if writer.random.chance(1, 12) { 20 } else { 3 };
    for _ in 0..writer.random.between(3, 2 * most) {
        draft.located.push(cut(&writer.located(true)));
    }
    for _ in 0..writer.random.between(1, most) {
        draft.located.push(cut(&writer.located(false)));
    }
    random.shuffle(&mut draft.definitions);
    random.shuffle(&mut draft.located);
    draft
}

/// Writes parts of one script.
struct Writer<'r> {
    random: &'r mut Random,
    locations: Vec<&'static str>,
    channels: Vec<&'static str>,
    timers: Vec<&'static str>,
    /// How often a part does not go on; a definition always does.
    ends: usize,
}

impl Writer<'_> {
    /// A reader or a sender, mostly at the first location.
    fn located(&mut self, reads: bool) -> String {
        let location = self.location();
        let part = match (self.random.chance(1, 4), reads) {
            (true, true) => self.random.pick(&READERS).to_string(),
            (true, false) => self.random.pick(&SENDERS).to_string(),
            (false, true) => self.input(),
            (false, false) => self.output(),
        };
        format!("{location}[{part}]")
    }

    fn input(&mut self) -> String {
        let (channel, timer) = self.exchange();
        let then = self.rest("x", &READERS);
        let location = self.location();
        let otherwise = self.rest(location, &READERS);
        format!("in({channel},{timer},x,{then},{otherwise})")
    }

    fn output(&mut self) -> String {
        let (channel, timer) = self.exchange();
        let location = self.location();
        let [then, otherwise] = [(); 2].map(|()| self.rest(location, &SENDERS));
        format!("out({channel},{timer},{location},{then},{otherwise})")
    }

    /// A channel and a timer.
    fn exchange(&mut self) -> (&'static str, &'static str) {
        let channel = first_mostly(self.random, &self.channels);
        (channel, *self.random.pick(&self.timers))
    }

    fn location(&mut self) -> &'static str {
        first_mostly(self.random, &self.locations)
    }

    /// What comes next: mostly one of its own sort again, at times elsewhere.
    fn rest(&mut self, value: &str, own: &[&str]) -> String {
        let again = *self.random.pick(own);
        let timer = *self.random.pick(&self.timers);
        match self.random.weighted(&[self.ends, 10, 1, self.ends]) {
            0 => "stop".to_string(),
            1 => again.to_string(),
            2 => format!("go({timer},{value},{again})"),
            _ => format!("{again}|stop"),
        }
    }
}
