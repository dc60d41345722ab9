//! Readable scripts from few names: channels, variables, identifiers and
//! locations are often spelt alike, components often equal, timers often 0.

use super::draft::{some, spaced, Draft, Tokens};
use crate::random::Random;

const LOCATIONS: [&str; 6] = ["A", "B", "C", "D", "Aa", "Page456789012345"];
const CHANNELS: [&str; 5] = ["c", "x", "d", "y", "longname90123456"];
const VARIABLES: [&str; 6] = ["x", "y", "c", "z", "v1", "stopp"];
const IDENTIFIERS: [&str; 8] = ["A", "B", "D", "c", "x", "Rec", "loop", "Stop"];

/// The names of one script and the shape of its definitions.
struct Names {
    locations: Vec<&'static str>,
    channels: Vec<&'static str>,
    variables: Vec<&'static str>,
    signatures: Vec<(&'static str, Vec<&'static str>)>,
    /// How often a process has one, two or three parts.
    width: [usize; 3],
    /// The deepest nesting, less where processes are wide.
    depth: usize,
    /// How often a part is `stop` where a definition could be called.
    stops: usize,
}

/// A script that reading accepts.
pub fn text(random: &mut Random) -> Vec<u8> {
    let located = random.between(1, 7);
    let tokens = draft(random, located).tokens();
    spaced(random, &tokens)
}

/// A script with nearly as many components as a table holds.
pub fn crowded_text(random: &mut Random) -> Vec<u8> {
    let located = random.between(2, 6);
    let mut draft = draft(random, located);
    let standing = random.between(180, 225);
    let quiet = format!("{}[stop]", LOCATIONS[0]);
    let mut padding: Vec<Tokens> = vec![super::draft::cut(&quiet); standing];
    let middle = random.below(draft.located.len() + 1);
    let tail = draft.located.split_off(middle);
    draft.located.append(&mut padding);
    draft.located.extend(tail);
    spaced(random, &draft.tokens())
}

/// A draft with that many located processes, some of them repeated.
pub fn draft(random: &mut Random, located: usize) -> Draft {
    let names = names(random);
    let mut draft = Draft::default();
    for (identifier, parameters) in &names.signatures {
        let mut writer = Writer {
            random,
            names: &names,
            tokens: Tokens::new(),
        };
        writer.definition(identifier, parameters);
        draft.definitions.push(writer.tokens);
    }
    for _ in 0..located {
        if !draft.located.is_empty() && random.chance(1, 4) {
            let again = random.pick(&draft.located).clone();
            draft.located.push(again);
            continue;
        }
        let mut writer = Writer {
            random,
            names: &names,
            tokens: Tokens::new(),
        };
        writer.located();
        draft.located.push(writer.tokens);
    }
    draft
}

fn names(random: &mut Random) -> Names {
    let locations = some(random, &LOCATIONS, 1, 4);
    let channels = some(random, &CHANNELS, 1, 3);
    let variables = some(random, &VARIABLES, 2, 4);
    let fewest = random.weighted(&[1, 4, 1]);
    let identifiers = some(random, &IDENTIFIERS, fewest, 4);
    let mut signatures = Vec::new();
    for identifier in identifiers {
        let most = variables.len().min(4);
        let count = random.between(0, most);
        signatures.push((identifier, some(random, &variables, count, count)));
    }
    let (width, depth) = *random.pick(&[([1, 0, 0], 5), ([12, 1, 0], 4), ([7, 2, 1], 3)]);
    let stops = if signatures.is_empty() {
        2
    } else {
        random.below(3)
    };
    Names {
        locations,
        channels,
        variables,
        signatures,
        width,
        depth,
        stops,
    }
}

/// Writes tokens of one script.
struct Writer<'r> {
    random: &'r mut Random,
    names: &'r Names,
    tokens: Tokens,
}

impl Writer<'_> {
    fn push(&mut self, token: &str) {
        self.tokens.push(token.to_string());
    }

    fn definition(&mut self, identifier: &str, parameters: &[&str]) {
        self.push(identifier);
        for (index, parameter) in parameters.iter().enumerate() {
            self.push(if index == 0 { "(" } else { "," });
            self.push(parameter);
        }
        if !parameters.is_empty() {
            self.push(")");
        }
        self.push("=");
        let depth = self.random.between(1, self.names.depth);
        self.process(parameters, depth);
    }

    fn located(&mut self) {
        let location = *self.random.pick(&self.names.locations);
        self.push(location);
        self.push("[");
        let depth = self.random.between(1, self.names.depth);
        self.process(&[], depth);
        self.push("]");
    }

    fn process(&mut self, scope: &[&str], depth: usize) {
        let parts = 1 + self.random.weighted(&self.names.width);
        for index in 0..parts {
            if index > 0 {
                self.push("|");
            }
            self.part(scope, depth);
        }
    }

    fn part(&mut self, scope: &[&str], depth: usize) {
        let call = if self.names.signatures.is_empty() {
            0
        } else {
            4
        };
        let inner = if depth == 0 { 0 } else { 1 };
        match self
            .random
            .weighted(&[self.names.stops, 3 * inner, 5 * inner, 6 * inner, call])
        {
            0 => self.push("stop"),
            1 => self.go(scope, depth),
            2 => self.out(scope, depth),
            3 => self.input(scope, depth),
            _ => self.call(scope),
        }
    }

    fn go(&mut self, scope: &[&str], depth: usize) {
        self.push("go");
        self.push("(");
        self.timer();
        self.push(",");
        self.value(scope);
        self.push(",");
        self.process(scope, depth - 1);
        self.push(")");
    }

    fn out(&mut self, scope: &[&str], depth: usize) {
        self.exchange("out");
        self.value(scope);
        self.branches(scope, scope, depth);
    }

    fn input(&mut self, scope: &[&str], depth: usize) {
        self.exchange("in");
        let variable = *self.random.pick(&self.names.variables);
        self.push(variable);
        let mut inner = scope.to_vec();
        if !inner.contains(&variable) {
            inner.push(variable);
        }
        self.branches(&inner, scope, depth);
    }

    fn exchange(&mut self, word: &str) {
        self.push(word);
        self.push("(");
        let channel = *self.random.pick(&self.names.channels);
        self.push(channel);
        self.push(",");
        self.timer();
        self.push(",");
    }

    fn branches(&mut self, then: &[&str], otherwise: &[&str], depth: usize) {
        self.push(",");
        self.process(then, depth - 1);
        self.push(",");
        self.process(otherwise, depth - 1);
        self.push(")");
    }

    fn call(&mut self, scope: &[&str]) {
        let (identifier, parameters) = self.random.pick(&self.names.signatures).clone();
        self.push(identifier);
        for index in 0..parameters.len() {
            self.push(if index == 0 { "(" } else { "," });
            self.value(scope);
        }
        if !parameters.is_empty() {
            self.push(")");
        }
    }

    fn timer(&mut self) {
        let timers = ["0", "1", "2", "3", "inf", "1000000"];
        let choice = self.random.weighted(&[9, 7, 4, 2, 2, 1]);
        self.push(timers[choice]);
    }

    fn value(&mut self, scope: &[&str]) {
        let name = if !scope.is_empty() && self.random.chance(2, 3) {
            *self.random.pick(scope)
        } else {
            *self.random.pick(&self.names.locations)
        };
        self.push(name);
    }
}
