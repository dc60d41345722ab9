//! The answers to a call list, line by line, in the format of README.md, so
//! that the printouts of two engines can be compared by diff. At the end
//! stands the verdict of the grouped run.

use std::fmt::Write;

use crate::calls::{Engine, Record, StepCall};
use crate::lists::Call;
use crate::refusal::Refusal;
use crate::rules::Label;
use crate::runs::{Broken, Run};
use crate::term::{Network, Settings};
use crate::writing;

/// What lent buffers hold before a call.
const BLANK_RECORD: Record = Record {
    kind: 77,
    p: 77,
    q: 77,
};
const BLANK_BYTE: u8 = b'#';

/// The printout of a script read with settings and of its calls, answered by
/// `engine`. The run is judged by the right rules whatever the engine's are.
pub fn answers(engine: Engine, script: &[u8], settings: &Settings, calls: &[Call]) -> String {
    let network = match engine.read(script, settings) {
        Ok(network) => network,
        Err(refusal) => return format!("read refused {}\n", refusal.number()),
    };
    let mut session = Session::new(engine, network);
    session.print_reading();
    for (index, call) in calls.iter().enumerate() {
        let _ = writeln!(session.text, "call {index} {call}");
        session.index = index;
        session.answer(call);
    }
    session.finish()
}

/// The engine's answers without their text: whether the run holds, and how
/// many calls were refused.
pub fn verdict(engine: Engine, network: Network, calls: &[Call]) -> (Result<(), Broken>, usize) {
    let mut session = Session::new(engine, network);
    session.quiet = true;
    calls.iter().for_each(|call| session.answer(call));
    let run = match session.run {
        Ok(run) => run.finish(&session.network),
        Err((_, broken)) => Err(broken),
    };
    (run, session.refused)
}

struct Session {
    engine: Engine,
    network: Network,
    kept: Network,
    /// The run so far, or the call and the point at which it broke.
    run: Result<Run, (usize, Broken)>,
    index: usize,
    refused: usize,
    quiet: bool,
    text: String,
}

impl Session {
    fn new(engine: Engine, network: Network) -> Session {
        Session {
            engine,
            kept: network.clone(),
            run: Ok(Run::new(&network)),
            network,
            index: 0,
            refused: 0,
            quiet: false,
            text: String::new(),
        }
    }

    fn line(&mut self, line: String) {
        self.text.push_str(&line);
        self.text.push('\n');
    }

    fn print_reading(&mut self) {
        let script = self.network.script.clone();
        self.line("read ok".to_string());
        self.line(words("locations", &script.locations));
        self.line(words("channels", &script.channels));
        for definition in &script.definitions {
            self.line(format!("definition {}", writing::definition(definition)));
        }
        self.print_network();
    }

    /// Components, their waits in order, and the messages so far.
    fn print_network(&mut self) {
        if self.quiet {
            return;
        }
        let Network {
            components, ledger, ..
        } = &self.network;
        for component in components {
            let _ = writeln!(self.text, "component {}", writing::component(component));
        }
        let waits: Vec<String> = components.iter().map(|c| c.wait.to_string()).collect();
        let (count, total) = (ledger.messages, ledger.total);
        self.line(words("waits", &waits));
        self.line(format!("messages {count} {total}"));
    }

    fn answer(&mut self, call: &Call) {
        match call {
            Call::Action(record) => self.action(*record),
            Call::Tick(location) => self.tick(*location),
            Call::Step { location, room } => self.step(Engine::step, *location, *room),
            Call::Conforming { location, room } => {
                self.step(Engine::conforming_step, *location, *room);
            }
            Call::Proposal { location, records } => self.proposal(*location, records),
            Call::Forced => self.forced(),
            Call::Conforms(location) => self.conforms(*location),
            Call::Write { room } => self.write(*room),
            Call::Keep => {
                self.kept = self.network.clone();
                self.line("ok".to_string());
            }
            Call::Same => {
                let same = self.engine.same(&self.network, &self.kept);
                self.line(yes_or_no(same));
            }
            Call::Like(text) => self.like(text),
            Call::Mean => self.mean(),
            Call::Wait { .. } | Call::Messages(_) => match call.written_into(&self.network) {
                Some(network) => {
                    self.line("ok".to_string());
                    self.accept(network, |_| Ok(()));
                }
                None => self.line("out of range".to_string()),
            },
        }
    }

    fn mean(&mut self) {
        let line = match self.engine.mean(&self.network) {
            Some(mean) => format!("ok {} {} {}", mean.quotient, mean.remainder, mean.count),
            None => "ok none".to_string(),
        };
        self.line(line);
    }

    fn action(&mut self, record: Record) {
        match self.engine.action(&self.network, record) {
            Ok((network, label)) => {
                self.line(format!("ok {label}"));
                self.accept(network, |run| run.action(record));
            }
            Err(refusal) => self.refuse(refusal),
        }
    }

    fn tick(&mut self, location: u32) {
        match self.engine.tick(&self.network, location) {
            Ok(network) => {
                self.line("ok".to_string());
                self.accept(network, |run| run.tick(location));
            }
            Err(refusal) => self.refuse(refusal),
        }
    }

    fn step(&mut self, call: StepCall, location: u32, room: usize) {
        let mut lent = vec![BLANK_RECORD; room];
        match call(self.engine, &self.network, location, &mut lent) {
            Ok(stepped) => {
                let count = stepped.labels.len();
                self.line(format!("ok {count}"));
                for (record, label) in lent.iter().zip(&stepped.labels) {
                    self.line(format!(
                        "record {} {} {} {label}",
                        record.kind, record.p, record.q
                    ));
                }
                self.rest(lent[count..].iter().all(|record| *record == BLANK_RECORD));
                self.accept(stepped.network, |run| {
                    run.whole_step(location, &lent[..count])
                });
            }
            Err(refusal) => {
                self.refuse(refusal);
                self.rest(lent.iter().all(|record| *record == BLANK_RECORD));
            }
        }
    }

    fn proposal(&mut self, location: u32, records: &[Record]) {
        match self.engine.proposal(&self.network, location, records) {
            Ok((network, labels)) => {
                let labels: Vec<String> = labels.iter().map(Label::to_string).collect();
                self.line(words("ok", &labels));
                self.accept(network, |run| run.whole_step(location, records));
            }
            Err(refusal) => self.refuse(refusal),
        }
    }

    fn forced(&mut self) {
        let forced = self.engine.forced(&self.network);
        self.line(format!(
            "ok {:016x} {} {}",
            forced.set, forced.count, forced.lowest
        ));
    }

    fn conforms(&mut self, location: u32) {
        match self.engine.conforms(&self.network, location) {
            Ok(yes) => self.line(yes_or_no(yes)),
            Err(refusal) => self.refuse(refusal),
        }
    }

    fn write(&mut self, room: usize) {
        let mut lent = vec![BLANK_BYTE; room];
        match self.engine.write(&self.network, &mut lent) {
            Ok(length) => {
                self.line(format!("ok {length}"));
                for line in String::from_utf8_lossy(&lent[..length]).lines() {
                    self.line(format!("text {line}"));
                }
                self.rest(lent[length..].iter().all(|byte| *byte == BLANK_BYTE));
            }
            Err(refusal) => {
                self.refuse(refusal);
                self.rest(lent.iter().all(|byte| *byte == BLANK_BYTE));
            }
        }
    }

    /// The text is read with the network's own settings, whose rights go by number.
    fn like(&mut self, text: &str) {
        let settings = self.network.settings();
        match self.engine.read(text.as_bytes(), &settings) {
            Ok(other) => {
                let same = self.engine.same(&self.network, &other);
                self.line(yes_or_no(same));
            }
            Err(refusal) => self.refuse(refusal),
        }
    }

    fn refuse(&mut self, refusal: Refusal) {
        self.engine.refuse(&mut self.network);
        self.refused += 1;
        self.line(refusal.to_string());
    }

    fn rest(&mut self, kept: bool) {
        self.line(if kept { "rest kept" } else { "rest changed" }.to_string());
    }

    /// Goes on with the network that a call returned.
    fn accept(&mut self, network: Network, feed: impl FnOnce(&mut Run) -> Result<(), Broken>) {
        self.network = network;
        self.print_network();
        if let Ok(run) = &mut self.run {
            if let Err(broken) = feed(run) {
                self.run = Err((self.index, broken));
            }
        }
    }

    fn finish(mut self) -> String {
        self.line("end".to_string());
        self.print_network();
        let verdict = match self.run.clone() {
            Err((index, broken)) => format!("run broken at call {index}: {broken}"),
            Ok(run) => match run.finish(&self.network) {
                Ok(()) => "run ok".to_string(),
                Err(broken) => format!("run broken at the end: {broken}"),
            },
        };
        self.line(verdict);
        self.text
    }
}

fn words(first: &str, rest: &[String]) -> String {
    let mut line = first.to_string();
    for word in rest {
        line.push(' ');
        line.push_str(word);
    }
    line
}

fn yes_or_no(yes: bool) -> String {
    if yes { "ok yes" } else { "ok no" }.to_string()
}
