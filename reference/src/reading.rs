//! From bytes to a network (document 01, *Reading* and questions 1 to 7; document
//! 02, question 21).
//!
//! The whole text is read for its form first; while this is done a tally
//! keeps what the later questions need. They are then asked in order. The
//! reader keeps open processes on a list of its own and not on the stack, so
//! that nesting is bounded by memory only.

use std::collections::{HashMap, HashSet};
use std::mem;
use std::sync::Arc;

use crate::refusal::{ask, Refusal};
use crate::term::{
    Component, Definition, Edition, Ledger, Network, Part, Process, Script, Settings, Timer, Value,
};

/// Whether questions 1, 3 and 4 are asked.
#[derive(Clone, Copy, Debug, PartialEq, Eq)]
pub enum Limits {
    On,
    Off,
}

pub const MOST_BYTES: usize = 65_535;
pub const MOST_NESTING: usize = 32;
pub const MOST_DEFINITIONS: usize = 32;
pub const MOST_PARAMETERS: usize = 4;
pub const MOST_PARTS: usize = 4_096;
pub const MOST_CHANNELS: usize = 64;
pub const MOST_LOCATIONS: usize = 64;
pub const MOST_COMPONENTS: usize = 256;
pub const MOST_VARIABLES: usize = 8;

const LONGEST_NAME: usize = 16;
pub(crate) const RESERVED: [&str; 6] = ["stop", "go", "in", "out", "inf", "S"];

/// Reads a text with settings, or gives the first question answered by no. No
/// question asks about the rights.
pub fn read(text: &[u8], settings: &Settings, limits: Limits) -> Result<Network, Refusal> {
    let limited = limits == Limits::On;
    let edition = Edition::of(settings.edition).ok_or(Refusal::NoEdition)?;
    ask(!limited || text.len() <= MOST_BYTES, Refusal::TooLong)?;
    let mut reader = Reader::new(text);
    let (definitions, components) = reader.text().map_err(|NotOfForm| Refusal::NotOfForm)?;
    let tally = reader.tally;
    if limited {
        ask(tally.deepest <= MOST_NESTING, Refusal::TooDeep)?;
        ask(
            small_enough(&tally, &definitions, &components),
            Refusal::TooLarge,
        )?;
    }
    ask(defined_once(&definitions), Refusal::DefinedTwice)?;
    ask(
        calls_defined(&tally.calls, &definitions),
        Refusal::NotDefined,
    )?;
    ask(!tally.unbound, Refusal::NotBound)?;
    let script = Script {
        edition,
        rights: settings.rights.clone(),
        definitions,
        locations: tally.locations.in_order(),
        channels: tally.channels.in_order(),
    };
    Ok(Network {
        script: Arc::new(script),
        components,
        ledger: Ledger::default(),
    })
}

/// Question 4.
fn small_enough(tally: &Tally, definitions: &[Definition], components: &[Component]) -> bool {
    definitions.len() <= MOST_DEFINITIONS
        && definitions
            .iter()
            .all(|d| d.parameters.len() <= MOST_PARAMETERS)
        && tally.parts <= MOST_PARTS
        && tally.channels.names.len() <= MOST_CHANNELS
        && tally.locations.names.len() <= MOST_LOCATIONS
        && components.len() <= MOST_COMPONENTS
        && tally.widest <= MOST_VARIABLES
}

/// Question 5.
fn defined_once(definitions: &[Definition]) -> bool {
    all_different(definitions.iter().map(|d| d.identifier.as_str()))
        && definitions
            .iter()
            .all(|d| all_different(d.parameters.iter().map(String::as_str)))
}

fn all_different<'a>(names: impl Iterator<Item = &'a str>) -> bool {
    let mut seen = HashSet::new();
    names.into_iter().all(|name| seen.insert(name))
}

/// Question 6. Identifiers are different by question 5.
fn calls_defined(calls: &[(&str, usize)], definitions: &[Definition]) -> bool {
    let arity: HashMap<&str, usize> = definitions
        .iter()
        .map(|d| (d.identifier.as_str(), d.parameters.len()))
        .collect();
    calls
        .iter()
        .all(|(identifier, arguments)| arity.get(identifier) == Some(arguments))
}

// --- tokens -----------------------------------------------------------------

/// A word is a longest run of letters and digits. Every other byte that is no
/// blank is a sign; one that the grammar does not know fits nowhere.
#[derive(Clone, Copy, PartialEq)]
enum Token<'t> {
    Word(&'t str),
    Sign(u8),
    End,
}

struct Lexer<'t> {
    text: &'t [u8],
    at: usize,
}

impl<'t> Lexer<'t> {
    fn next(&mut self) -> Token<'t> {
        self.at += run(&self.text[self.at..], |byte| matches!(byte, b' ' | b'\n'));
        let rest = &self.text[self.at..];
        let length = run(rest, |byte| byte.is_ascii_alphanumeric());
        if length > 0 {
            self.at += length;
            let word = std::str::from_utf8(&rest[..length]).expect("letters and digits are UTF-8");
            return Token::Word(word);
        }
        match rest.first() {
            Some(&sign) => {
                self.at += 1;
                Token::Sign(sign)
            }
            None => Token::End,
        }
    }
}

/// The number of leading bytes of one class.
fn run(bytes: &[u8], class: impl Fn(u8) -> bool) -> usize {
    bytes
        .iter()
        .position(|&byte| !class(byte))
        .unwrap_or(bytes.len())
}

// --- what the later questions need ------------------------------------------

/// Different names in the order in which they were first seen.
#[derive(Default)]
struct Numbering<'t> {
    seen: HashSet<&'t str>,
    names: Vec<&'t str>,
}

impl<'t> Numbering<'t> {
    fn note(&mut self, name: &'t str) {
        if self.seen.insert(name) {
            self.names.push(name);
        }
    }

    fn in_order(&self) -> Vec<String> {
        self.names.iter().map(|name| name.to_string()).collect()
    }
}

/// The names bound at the place being read, each with how often it is bound.
#[derive(Default)]
struct Scope<'t> {
    bound: HashMap<&'t str, usize>,
}

impl<'t> Scope<'t> {
    fn enter(&mut self, name: &'t str) {
        *self.bound.entry(name).or_insert(0) += 1;
    }

    fn leave(&mut self, name: &'t str) {
        let times = self
            .bound
            .get_mut(name)
            .expect("a name is left once for each entering");
        *times -= 1;
        if *times == 0 {
            self.bound.remove(name);
        }
    }
}

#[derive(Default)]
struct Tally<'t> {
    deepest: usize,
    parts: usize,
    /// The largest number of different names bound at one part.
    widest: usize,
    locations: Numbering<'t>,
    channels: Numbering<'t>,
    calls: Vec<(&'t str, usize)>,
    unbound: bool,
}

// --- the grammar -------------------------------------------------------------

struct NotOfForm;
type Form<T> = Result<T, NotOfForm>;

/// What the brackets of an open process belong to.
enum Opener<'t> {
    /// A definition or a located process.
    Outermost,
    Go(Timer, Value),
    OutThen(&'t str, Timer, Value),
    OutOtherwise(&'t str, Timer, Value, Process),
    InThen(&'t str, Timer, &'t str),
    InOtherwise(&'t str, Timer, &'t str, Process),
}

/// An open process: what opened it and its parts so far.
struct Level<'t> {
    opener: Opener<'t>,
    parts: Vec<Part>,
}

impl<'t> Level<'t> {
    fn new(opener: Opener<'t>) -> Level<'t> {
        Level {
            opener,
            parts: Vec::with_capacity(1),
        }
    }
}

/// A part is read in one go, or it opens a process that has to be read first.
enum Begun<'t> {
    Whole(Part),
    Opens(Opener<'t>),
}

struct Reader<'t> {
    lexer: Lexer<'t>,
    /// The first token not yet taken.
    ahead: Token<'t>,
    scope: Scope<'t>,
    tally: Tally<'t>,
}

impl<'t> Reader<'t> {
    fn new(text: &'t [u8]) -> Reader<'t> {
        let mut lexer = Lexer { text, at: 0 };
        let ahead = lexer.next();
        Reader {
            lexer,
            ahead,
            scope: Scope::default(),
            tally: Tally::default(),
        }
    }

    /// Definitions, then a network. Both begin with a name; a bracket after it
    /// tells a located process from a definition.
    fn text(&mut self) -> Form<(Vec<Definition>, Vec<Component>)> {
        let mut definitions = Vec::new();
        let mut first = self.name()?;
        while self.ahead != Token::Sign(b'[') {
            definitions.push(self.definition(first)?);
            first = self.name()?;
        }
        let mut components = Vec::new();
        self.located(first, &mut components)?;
        while self.accept(b'|') {
            let location = self.name()?;
            self.located(location, &mut components)?;
        }
        self.sign(b'.')?;
        match self.ahead {
            Token::End => Ok((definitions, components)),
            _ => Err(NotOfForm),
        }
    }

    /// A definition behind its identifier.
    fn definition(&mut self, identifier: &'t str) -> Form<Definition> {
        let mut parameters = Vec::new();
        if self.accept(b'(') {
            parameters.push(self.small()?);
            while self.accept(b',') {
                parameters.push(self.small()?);
            }
            self.sign(b')')?;
        }
        self.sign(b'=')?;
        parameters.iter().for_each(|name| self.scope.enter(name));
        let body = self.process()?;
        parameters.iter().for_each(|name| self.scope.leave(name));
        self.sign(b'.')?;
        Ok(Definition {
            identifier: identifier.to_string(),
            parameters: parameters.iter().map(|name| name.to_string()).collect(),
            body,
        })
    }

    /// A located process behind its name; each part becomes a component.
    fn located(&mut self, name: &'t str, components: &mut Vec<Component>) -> Form<()> {
        let location = self.location(name)?;
        self.sign(b'[')?;
        let mut process = self.process()?;
        self.sign(b']')?;
        for part in mem::take(&mut process.parts) {
            let process = Process { parts: vec![part] };
            components.push(Component {
                location: location.clone(),
                mark: None,
                process,
                wait: 0,
            });
        }
        Ok(())
    }

    /// An outermost process. `levels` holds the open processes, innermost last.
    fn process(&mut self) -> Form<Process> {
        let mut levels = vec![Level::new(Opener::Outermost)];
        loop {
            self.count_part(levels.len());
            match self.part()? {
                Begun::Opens(opener) => levels.push(Level::new(opener)),
                Begun::Whole(part) => {
                    if let Some(process) = self.close(&mut levels, part)? {
                        return Ok(process);
                    }
                }
            }
        }
    }

    fn count_part(&mut self, nesting: usize) {
        self.tally.parts += 1;
        self.tally.deepest = self.tally.deepest.max(nesting);
        self.tally.widest = self.tally.widest.max(self.scope.bound.len());
    }

    /// Puts a part into the innermost open process and closes what ends with
    /// it. Gives the outermost process once that is closed; otherwise another
    /// part has to be read.
    fn close(&mut self, levels: &mut Vec<Level<'t>>, part: Part) -> Form<Option<Process>> {
        let mut part = part;
        while let Some(mut level) = levels.pop() {
            level.parts.push(part);
            if self.accept(b'|') {
                levels.push(level);
                return Ok(None);
            }
            let process = Process { parts: level.parts };
            part = match level.opener {
                Opener::Outermost => return Ok(Some(process)),
                Opener::OutThen(channel, timer, value) => {
                    self.sign(b',')?;
                    let opener = Opener::OutOtherwise(channel, timer, value, process);
                    levels.push(Level::new(opener));
                    return Ok(None);
                }
                Opener::InThen(channel, timer, variable) => {
                    self.scope.leave(variable);
                    self.sign(b',')?;
                    let opener = Opener::InOtherwise(channel, timer, variable, process);
                    levels.push(Level::new(opener));
                    return Ok(None);
                }
                last => self.finish(last, process)?,
            };
        }
        Err(NotOfForm)
    }

    /// The part whose last process has just been read.
    fn finish(&mut self, opener: Opener<'t>, process: Process) -> Form<Part> {
        self.sign(b')')?;
        match opener {
            Opener::Go(timer, target) => Ok(Part::Go {
                timer,
                target,
                then: process,
            }),
            Opener::OutOtherwise(channel, timer, value, then) => Ok(Part::Out {
                channel: channel.to_string(),
                timer,
                value,
                then,
                otherwise: process,
            }),
            Opener::InOtherwise(channel, timer, variable, then) => Ok(Part::In {
                channel: channel.to_string(),
                timer,
                variable: variable.to_string(),
                then,
                otherwise: process,
            }),
            _ => Err(NotOfForm),
        }
    }

    fn part(&mut self) -> Form<Begun<'t>> {
        match self.ahead {
            Token::Word("stop") => {
                self.advance();
                Ok(Begun::Whole(Part::Stop))
            }
            Token::Word("go") => self.go(),
            Token::Word("out") => self.out(),
            Token::Word("in") => self.input(),
            _ => self.call(),
        }
    }

    /// `go(t,v,`
    fn go(&mut self) -> Form<Begun<'t>> {
        self.advance();
        self.sign(b'(')?;
        let timer = self.timer()?;
        self.sign(b',')?;
        let target = self.value()?;
        self.sign(b',')?;
        Ok(Begun::Opens(Opener::Go(timer, target)))
    }

    /// `out(c,t,v,`
    fn out(&mut self) -> Form<Begun<'t>> {
        let (channel, timer) = self.exchange()?;
        let value = self.value()?;
        self.sign(b',')?;
        Ok(Begun::Opens(Opener::OutThen(channel, timer, value)))
    }

    /// `in(c,t,y,`
    fn input(&mut self) -> Form<Begun<'t>> {
        let (channel, timer) = self.exchange()?;
        let variable = self.small()?;
        self.sign(b',')?;
        self.scope.enter(variable);
        Ok(Begun::Opens(Opener::InThen(channel, timer, variable)))
    }

    /// What `out` and `in` have in common: `(c,t,`
    fn exchange(&mut self) -> Form<(&'t str, Timer)> {
        self.advance();
        self.sign(b'(')?;
        let channel = self.small()?;
        self.tally.channels.note(channel);
        self.sign(b',')?;
        let timer = self.timer()?;
        self.sign(b',')?;
        Ok((channel, timer))
    }

    fn call(&mut self) -> Form<Begun<'t>> {
        let identifier = self.name()?;
        let mut arguments = Vec::new();
        if self.accept(b'(') {
            arguments.push(self.value()?);
            while self.accept(b',') {
                arguments.push(self.value()?);
            }
            self.sign(b')')?;
        }
        self.tally.calls.push((identifier, arguments.len()));
        Ok(Begun::Whole(Part::Call {
            identifier: identifier.to_string(),
            arguments,
        }))
    }

    /// A capital makes a location, a small letter a variable.
    fn value(&mut self) -> Form<Value> {
        let name = self.name()?;
        if starts_capital(name) {
            return Ok(Value::Location(self.location(name)?));
        }
        self.tally.unbound |= !self.scope.bound.contains_key(name);
        Ok(Value::Variable(name.to_string()))
    }

    fn location(&mut self, name: &'t str) -> Form<String> {
        if !starts_capital(name) {
            return Err(NotOfForm);
        }
        self.tally.locations.note(name);
        Ok(name.to_string())
    }

    /// A variable or a channel.
    fn small(&mut self) -> Form<&'t str> {
        let name = self.name()?;
        if starts_capital(name) {
            Err(NotOfForm)
        } else {
            Ok(name)
        }
    }

    fn name(&mut self) -> Form<&'t str> {
        match self.ahead {
            Token::Word(word) if is_name(word) => {
                self.advance();
                Ok(word)
            }
            _ => Err(NotOfForm),
        }
    }

    fn timer(&mut self) -> Form<Timer> {
        let timer = match self.ahead {
            Token::Word("inf") => Timer::Inf,
            Token::Word(word) => Timer::Ticks(number(word).ok_or(NotOfForm)?),
            _ => return Err(NotOfForm),
        };
        self.advance();
        Ok(timer)
    }

    fn sign(&mut self, sign: u8) -> Form<()> {
        if self.accept(sign) {
            Ok(())
        } else {
            Err(NotOfForm)
        }
    }

    fn accept(&mut self, sign: u8) -> bool {
        let there = self.ahead == Token::Sign(sign);
        if there {
            self.advance();
        }
        there
    }

    fn advance(&mut self) {
        self.ahead = self.lexer.next();
    }
}

fn is_name(word: &str) -> bool {
    word.len() <= LONGEST_NAME
        && word.starts_with(|first: char| first.is_ascii_alphabetic())
        && !RESERVED.contains(&word)
}

fn starts_capital(name: &str) -> bool {
    name.starts_with(|first: char| first.is_ascii_uppercase())
}

/// A number from 0 to 1,000,000 without a leading zero.
fn number(word: &str) -> Option<u32> {
    let digits = word.bytes().all(|byte| byte.is_ascii_digit());
    let plain = word == "0" || !word.starts_with('0');
    if !digits || !plain || word.len() > 7 {
        return None;
    }
    word.parse().ok().filter(|number| *number <= Timer::LARGEST)
}
