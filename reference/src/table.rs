//! Tables: the words in which another engine keeps a network, as set out in
//! `docs/LAYOUT.md`; question 17 of them, and the network that they stand for.
//!
//! Rows from the lowest place up are terms in postfix form. Question 17 goes
//! over them once with a list of the processes that nothing has taken yet, and
//! what a part takes must be the last of these. So any words get an answer, in
//! time linear in the words in use and without recursion.

use std::collections::HashSet;
use std::fmt;
use std::sync::Arc;

use crate::reading::{
    MOST_CHANNELS, MOST_COMPONENTS, MOST_DEFINITIONS, MOST_LOCATIONS, MOST_PARAMETERS, MOST_PARTS,
    MOST_VARIABLES, RESERVED,
};
use crate::rules::Rules;
use crate::term::{
    Component, Definition, Edition, Ledger, Network, Part, Process, Rights, Row, Script, Timer,
    Value,
};

/// Words of a script.
pub const SCRIPT: usize = 111_888;
/// Words of a state: those of the components, and the ledger behind them.
pub const STATE: usize = LEDGER + 16;

/// Where the script's lists begin, and the words of one entry.
pub const DEFINITIONS: usize = 8;
pub const LOCATIONS: usize = 776;
pub const CHANNELS: usize = 1_032;
pub const PARTS: usize = 1_288;
/// Where the rows of parts end.
pub const PARTS_END: usize = PARTS + ROW * MOST_PARTS;
/// The word of the edition, the first behind the rows.
pub const EDITION: usize = PARTS_END;
/// Where the rights begin, a row for each location: words to send and to receive
/// by channel, then to leave by location. 1 gives the right, any other word does
/// not, and question 17 asks about none of them.
pub const RIGHTS: usize = 99_600;
pub const RIGHTS_ROW: usize = 192;
pub const ROW: usize = 24;
pub const NAME: usize = 4;
pub const COMPONENT: usize = 16;
/// Where the locations of its slots stand, and its wait; words behind it are not used.
pub const SLOTS: std::ops::Range<usize> = 4..12;
pub const WAIT: usize = 12;
/// Where the ledger begins: the total in two words, its low 32 bits first, and the
/// count of messages; words behind them are not used.
pub const LEDGER: usize = COMPONENT * MOST_COMPONENTS;

/// Words of a part's row.
pub const KIND: usize = 0;
/// The channel or the definition.
pub const NUMBER: usize = 1;
pub const TIMER: usize = 2;
/// The value, an input's slot or the number of arguments.
pub const VALUE: usize = 3;
pub const THEN: usize = 4;
pub const OTHERWISE: usize = 5;
pub const NEXT: usize = 6;
pub const LEAST: usize = 7;
pub const IN_SCOPE: usize = 8;
pub const SCOPE: usize = 9;
/// The name that an input binds, or the arguments.
pub const OWN: usize = 17;

const STOP: u32 = 0;
const GO: u32 = 1;
const OUT: u32 = 2;
const IN: u32 = 3;
const CALL: u32 = 4;

const INF: u32 = Timer::LARGEST + 1;
const UNMARKED: u32 = 64;
const FIRST_VARIABLE: u32 = 64;

/// A script and its components, of any content.
#[derive(Clone, Copy, Debug)]
pub struct Table<'w> {
    script: &'w [u32],
    components: &'w [u32],
    /// How many components are in use.
    n: usize,
    left_out: Option<Test>,
}

/// A test of question 17 that a table does not pass, with the number of the
/// name, definition, part or component.
#[derive(Clone, Copy, Debug, PartialEq, Eq, Hash)]
pub struct Fault {
    pub test: Test,
    pub at: usize,
}

/// The tests of question 17, with their numbers in `docs/LAYOUT.md`.
#[derive(Clone, Copy, Debug, PartialEq, Eq, Hash, PartialOrd, Ord)]
pub enum Test {
    /// Not the words of a script and of a state.
    Sizes,
    /// 1
    Counts,
    /// 2
    LocationForm,
    LocationTwice,
    /// 3
    ChannelForm,
    ChannelTwice,
    /// 4
    IdentifierForm,
    IdentifierTwice,
    /// 5
    Parameters,
    /// 6
    ParameterForm,
    ParameterTwice,
    /// 7
    BodyPlace,
    /// 8
    BodyScope,
    /// 9
    Kind,
    /// 10
    ScopeSize,
    /// 11
    ScopeWord,
    /// 12
    ScopeForm,
    /// 13
    ScopeTwice,
    /// 14
    Timer,
    /// 15
    Channel,
    /// 16
    Value,
    /// 17
    BoundForm,
    /// 18
    Slot,
    /// 19
    Callee,
    /// 20
    Arguments,
    /// 21
    ThenPlace,
    /// 22
    ThenScope,
    /// 23
    OtherwisePlace,
    OtherwiseScope,
    /// 24
    NextPlace,
    NextScope,
    /// 25
    Least,
    /// 26
    Components,
    /// 27
    ComponentLocation,
    /// 28
    Mark,
    /// 29
    ComponentPlace,
    /// 30
    ComponentTimer,
    /// 31
    ComponentValue,
    /// 32
    Edition,
    /// 33
    Wait,
    /// 34
    Messages,
    /// 35
    Total,
}

impl Test {
    /// Every test, first to last.
    pub const ALL: [Test; 42] = [
        Test::Sizes,
        Test::Counts,
        Test::LocationForm,
        Test::LocationTwice,
        Test::ChannelForm,
        Test::ChannelTwice,
        Test::IdentifierForm,
        Test::IdentifierTwice,
        Test::Parameters,
        Test::ParameterForm,
        Test::ParameterTwice,
        Test::BodyPlace,
        Test::BodyScope,
        Test::Kind,
        Test::ScopeSize,
        Test::ScopeWord,
        Test::ScopeForm,
        Test::ScopeTwice,
        Test::Timer,
        Test::Channel,
        Test::Value,
        Test::BoundForm,
        Test::Slot,
        Test::Callee,
        Test::Arguments,
        Test::ThenPlace,
        Test::ThenScope,
        Test::OtherwisePlace,
        Test::OtherwiseScope,
        Test::NextPlace,
        Test::NextScope,
        Test::Least,
        Test::Components,
        Test::ComponentLocation,
        Test::Mark,
        Test::ComponentPlace,
        Test::ComponentTimer,
        Test::ComponentValue,
        Test::Edition,
        Test::Wait,
        Test::Messages,
        Test::Total,
    ];

    fn at(self, at: usize) -> Fault {
        Fault { test: self, at }
    }
}

impl fmt::Display for Fault {
    fn fmt(&self, f: &mut fmt::Formatter<'_>) -> fmt::Result {
        write!(f, "17: {:?} of {}", self.test, self.at)
    }
}

type Asked = Result<(), Fault>;

/// A process that nothing has taken yet: the places that it has, and the words
/// where the names in its scope stand.
struct Untaken {
    first: usize,
    least: usize,
    scope: Vec<usize>,
}

/// The names in scope at a part, and the words where they stand.
struct Scope {
    words: Vec<usize>,
    names: Vec<Letters>,
}

// --- question 17 ----------------------------------------------------------------

impl<'w> Table<'w> {
    pub fn new(script: &'w [u32], components: &'w [u32], n: usize) -> Table<'w> {
        Table {
            script,
            components,
            n,
            left_out: None,
        }
    }

    /// The same table for a wrong question 17, with a test left out.
    pub fn without(self, test: Test) -> Table<'w> {
        Table {
            left_out: Some(test),
            ..self
        }
    }

    fn ask(&self, yes: bool, test: Test, at: usize) -> Asked {
        if yes || self.left_out == Some(test) {
            Ok(())
        } else {
            Err(test.at(at))
        }
    }

    /// Question 17, or the first test that is not passed.
    pub fn question_17(&self) -> Asked {
        let sizes = self.script.len() == SCRIPT && self.components.len() == STATE;
        self.ask(sizes, Test::Sizes, 0)?;
        self.counts()?;
        self.names()?;
        self.all_definitions()?;
        self.all_parts()?;
        self.all_components()?;
        let edition = self.edition().is_some();
        self.ask(edition, Test::Edition, EDITION)?;
        self.messages_17()
    }

    /// The total may be as large as so many messages can have made it.
    fn messages_17(&self) -> Asked {
        let ledger = self.ledger();
        let counted = ledger.messages <= Ledger::MOST_MESSAGES;
        self.ask(counted, Test::Messages, LEDGER + 2)?;
        let total = ledger.total <= ledger.largest_total();
        self.ask(total, Test::Total, LEDGER)
    }

    fn counts(&self) -> Asked {
        let most = [MOST_PARTS, MOST_LOCATIONS, MOST_CHANNELS, MOST_DEFINITIONS];
        for (at, most) in most.into_iter().enumerate() {
            self.ask(self.number(at) <= most, Test::Counts, at)?;
        }
        Ok(())
    }

    fn names(&self) -> Asked {
        let form = |first: fn(u8) -> bool| move |name: &Letters| name.is_name(first);
        let locations = (0..self.locations()).map(|l| self.letters(LOCATIONS + NAME * l));
        let capital = form(|first| first.is_ascii_uppercase());
        self.sort(locations, capital, Test::LocationForm, Test::LocationTwice)?;
        let channels = (0..self.channels()).map(|c| self.letters(CHANNELS + NAME * c));
        self.sort(
            channels,
            Letters::is_variable,
            Test::ChannelForm,
            Test::ChannelTwice,
        )?;
        let identifiers = (0..self.definitions()).map(|d| self.letters(head(d) + 2));
        let letter = form(|first| first.is_ascii_alphabetic());
        self.sort(
            identifiers,
            letter,
            Test::IdentifierForm,
            Test::IdentifierTwice,
        )
    }

    fn all_definitions(&self) -> Asked {
        (0..self.definitions()).try_for_each(|d| self.definition_17(d))
    }

    fn definition_17(&self, d: usize) -> Asked {
        self.ask(self.arity(d) <= MOST_PARAMETERS, Test::Parameters, d)?;
        let words = self.parameter_words(d);
        let names = words.iter().map(|at| self.letters(*at));
        let held = self.sort(
            names,
            Letters::is_variable,
            Test::ParameterForm,
            Test::ParameterTwice,
        );
        held.map_err(|fault| fault.test.at(d))?;
        self.ask(self.body(d) < self.parts(), Test::BodyPlace, d)?;
        self.ask(self.scope_words(self.body(d)) == words, Test::BodyScope, d)
    }

    /// The rows from the lowest place up.
    fn all_parts(&self) -> Asked {
        let mut untaken = Vec::new();
        for place in 0..self.parts() {
            let scope = self.scope_17(place)?;
            self.head_17(place, &scope)?;
            let process = self.links(place, &scope, &mut untaken)?;
            untaken.push(process);
        }
        Ok(())
    }

    fn scope_17(&self, place: usize) -> Result<Scope, Fault> {
        self.ask(self.field(place, KIND) <= CALL, Test::Kind, place)?;
        let held = self.field(place, IN_SCOPE) as usize;
        self.ask(held <= MOST_VARIABLES, Test::ScopeSize, place)?;
        let words = self.scope_words(place);
        let inside = words.iter().all(|at| at + NAME <= PARTS_END);
        self.ask(inside, Test::ScopeWord, place)?;
        let names: Vec<Letters> = words.iter().map(|at| self.letters(*at)).collect();
        let held = names.iter().copied();
        let held = self.sort(
            held,
            Letters::is_variable,
            Test::ScopeForm,
            Test::ScopeTwice,
        );
        held.map_err(|fault| fault.test.at(place))?;
        Ok(Scope { words, names })
    }

    /// What a part holds beside its inner processes.
    fn head_17(&self, place: usize, scope: &Scope) -> Asked {
        let field = |word| self.field(place, word);
        let kind = field(KIND);
        if matches!(kind, GO | OUT | IN) {
            self.ask(field(TIMER) <= INF, Test::Timer, place)?;
        }
        if matches!(kind, OUT | IN) {
            let held = (field(NUMBER) as usize) < self.channels();
            self.ask(held, Test::Channel, place)?;
        }
        match kind {
            GO | OUT => self.ask(self.stands(field(VALUE), scope), Test::Value, place),
            IN => self.input_17(place, scope),
            CALL => self.call_17(place, scope),
            _ => Ok(()),
        }
    }

    fn input_17(&self, place: usize, scope: &Scope) -> Asked {
        let bound = self.letters(own_name(place));
        self.ask(bound.is_variable(), Test::BoundForm, place)?;
        let slot = scope.names.iter().position(|name| *name == bound);
        let slot = slot.unwrap_or(scope.names.len());
        self.ask(self.field(place, VALUE) as usize == slot, Test::Slot, place)
    }

    fn call_17(&self, place: usize, scope: &Scope) -> Asked {
        let callee = self.field(place, NUMBER) as usize;
        self.ask(callee < self.definitions(), Test::Callee, place)?;
        let arguments = self.field(place, VALUE) as usize;
        self.ask(arguments == self.arity(callee), Test::Arguments, place)?;
        let held = arguments.min(MOST_PARAMETERS);
        let mut values = (0..held).map(|k| self.field(place, OWN + k));
        let all = values.all(|value| self.stands(value, scope));
        self.ask(all, Test::Value, place)
    }

    /// Whether a value is a held location or a variable in scope.
    fn stands(&self, value: u32, scope: &Scope) -> bool {
        match value.checked_sub(FIRST_VARIABLE) {
            None => (value as usize) < self.locations(),
            Some(slot) => (slot as usize) < scope.names.len(),
        }
    }

    /// Takes P, Q and the next part off the list: the process at a place.
    fn links(
        &self,
        place: usize,
        scope: &Scope,
        untaken: &mut Vec<Untaken>,
    ) -> Result<Untaken, Fault> {
        let field = |word| self.field(place, word);
        let mut least = place;
        if matches!(field(KIND), GO | OUT | IN) {
            let tests = [Test::ThenPlace, Test::ThenScope];
            let wanted = self.scope_of_then(place, scope);
            least = self.take(untaken, Some(field(THEN)), &wanted, tests, place)?;
        }
        if matches!(field(KIND), OUT | IN) {
            let tests = [Test::OtherwisePlace, Test::OtherwiseScope];
            least = self.take(untaken, Some(field(OTHERWISE)), &scope.words, tests, place)?;
        }
        if field(NEXT) != 0 {
            let tests = [Test::NextPlace, Test::NextScope];
            let next = field(NEXT).checked_sub(1);
            least = self.take(untaken, next, &scope.words, tests, place)?;
        }
        self.ask(field(LEAST) as usize == least, Test::Least, place)?;
        Ok(Untaken {
            first: place,
            least,
            scope: scope.words.clone(),
        })
    }

    /// The words where the names in scope of a P stand: an input has entered
    /// its own, if it was not there.
    fn scope_of_then(&self, place: usize, scope: &Scope) -> Vec<usize> {
        let mut words = scope.words.clone();
        let bound = self.letters(own_name(place));
        if self.field(place, KIND) == IN && !scope.names.contains(&bound) {
            words.push(own_name(place));
        }
        words
    }

    fn all_components(&self) -> Asked {
        let some = (1..=MOST_COMPONENTS).contains(&self.n);
        self.ask(some, Test::Components, self.n)?;
        let some = self.n.min(MOST_COMPONENTS);
        (0..some).try_for_each(|p| self.component_17(p))
    }

    fn component_17(&self, p: usize) -> Asked {
        let words = &self.components[COMPONENT * p..][..COMPONENT];
        let location = |word: &u32| (*word as usize) < self.locations();
        self.ask(location(&words[0]), Test::ComponentLocation, p)?;
        let mark = words[1] == UNMARKED || location(&words[1]);
        self.ask(mark, Test::Mark, p)?;
        let place = (words[2] as usize) < self.parts();
        self.ask(place, Test::ComponentPlace, p)?;
        self.ask(words[3] <= INF, Test::ComponentTimer, p)?;
        let held = words[SLOTS].iter().all(location);
        self.ask(held, Test::ComponentValue, p)?;
        self.ask(words[WAIT] <= Component::LONGEST_WAIT, Test::Wait, p)
    }

    /// Each name of its form, and each held once.
    fn sort(
        &self,
        names: impl Iterator<Item = Letters>,
        form: impl Fn(&Letters) -> bool,
        formed: Test,
        once: Test,
    ) -> Asked {
        let mut seen = HashSet::new();
        for (at, name) in names.enumerate() {
            self.ask(form(&name), formed, at)?;
            self.ask(seen.insert(name), once, at)?;
        }
        Ok(())
    }

    /// Takes the last process off the list, which must be the one at the place
    /// named and have a scope. Its least place.
    fn take(
        &self,
        untaken: &mut Vec<Untaken>,
        named: Option<u32>,
        scope: &[usize],
        tests: [Test; 2],
        at: usize,
    ) -> Result<usize, Fault> {
        let [place, scopes] = tests;
        let last = untaken.pop().ok_or(place.at(at))?;
        self.ask(named == Some(last.first as u32), place, at)?;
        self.ask(last.scope == scope, scopes, at)?;
        Ok(last.least)
    }
}

// --- words ----------------------------------------------------------------------

/// The first word of a definition.
fn head(d: usize) -> usize {
    DEFINITIONS + ROW * d
}

/// Where the name stands that the input at a place binds.
fn own_name(place: usize) -> usize {
    PARTS + ROW * place + OWN
}

/// Words past the end are 0.
impl Table<'_> {
    fn number(&self, at: usize) -> usize {
        self.script.get(at).map_or(0, |word| *word as usize)
    }

    fn parts(&self) -> usize {
        self.number(0)
    }

    fn locations(&self) -> usize {
        self.number(1)
    }

    fn channels(&self) -> usize {
        self.number(2)
    }

    fn definitions(&self) -> usize {
        self.number(3)
    }

    fn edition(&self) -> Option<Edition> {
        self.script.get(EDITION).and_then(|word| Edition::of(*word))
    }

    fn ledger(&self) -> Ledger {
        let word = |k: usize| self.components.get(LEDGER + k).copied().unwrap_or(0);
        Ledger {
            total: u64::from(word(0)) + (u64::from(word(1)) << 32),
            messages: word(2),
        }
    }

    fn arity(&self, d: usize) -> usize {
        self.number(head(d))
    }

    fn body(&self, d: usize) -> usize {
        self.number(head(d) + 1)
    }

    fn parameter_words(&self, d: usize) -> Vec<usize> {
        let first = head(d) + 2 + NAME;
        let held = self.arity(d).min(MOST_PARAMETERS);
        (0..held).map(|k| first + NAME * k).collect()
    }

    fn field(&self, place: usize, word: usize) -> u32 {
        self.number(PARTS + ROW * place + word) as u32
    }

    fn scope_words(&self, place: usize) -> Vec<usize> {
        let held = (self.field(place, IN_SCOPE) as usize).min(MOST_VARIABLES);
        let word = |k| self.field(place, SCOPE + k) as usize;
        (0..held).map(word).collect()
    }

    fn letters(&self, at: usize) -> Letters {
        let mut bytes = [0; 16];
        for (k, four) in bytes.chunks_mut(4).enumerate() {
            four.copy_from_slice(&(self.number(at + k) as u32).to_le_bytes());
        }
        Letters(bytes)
    }
}

/// The sixteen bytes of a name; zeros at the end are no letters.
#[derive(Clone, Copy, Debug, PartialEq, Eq, Hash)]
struct Letters([u8; 16]);

impl Letters {
    fn text(&self) -> &[u8] {
        let last = self.0.iter().rposition(|byte| *byte != 0);
        &self.0[..last.map_or(0, |last| last + 1)]
    }

    fn is_name(&self, first: fn(u8) -> bool) -> bool {
        let text = self.text();
        text.first().is_some_and(|byte| first(*byte))
            && text.iter().all(u8::is_ascii_alphanumeric)
            && !RESERVED.iter().any(|word| word.as_bytes() == text)
    }

    /// The form of a variable's name and of a channel's.
    fn is_variable(&self) -> bool {
        self.is_name(|first| first.is_ascii_lowercase())
    }

    fn spelt(&self) -> String {
        String::from_utf8_lossy(self.text()).into_owned()
    }
}

// --- what a table stands for ----------------------------------------------------

/// These are asked of tables that pass question 17.
impl Table<'_> {
    /// The network, if the table passes question 17, with its names in the
    /// order of their numbers.
    pub fn network(&self) -> Result<Network, Fault> {
        self.rightly_asked()?;
        let script = Script {
            edition: self.edition().unwrap_or_default(),
            rights: self.rights(),
            definitions: (0..self.definitions())
                .map(|d| self.definition(d))
                .collect(),
            locations: (0..self.locations()).map(|l| self.location(l)).collect(),
            channels: (0..self.channels()).map(|c| self.channel(c)).collect(),
        };
        Ok(Network {
            script: Arc::new(script),
            components: self.all_meant(),
            ledger: self.ledger(),
        })
    }

    /// The components and the messages alone.
    pub fn network_state(&self) -> Result<(Vec<Component>, Ledger), Fault> {
        self.rightly_asked()?;
        Ok((self.all_meant(), self.ledger()))
    }

    /// Question 17 with no test left out.
    fn rightly_asked(&self) -> Asked {
        let right = Table {
            left_out: None,
            ..*self
        };
        right.question_17()
    }

    fn rights(&self) -> Rights {
        let rows = self.script[RIGHTS..SCRIPT].chunks(RIGHTS_ROW);
        Rights {
            rows: rows.map(row_of).collect(),
        }
    }

    fn all_meant(&self) -> Vec<Component> {
        (0..self.n).map(|p| self.component(p)).collect()
    }

    /// The name of a location by number.
    pub fn location(&self, l: usize) -> String {
        self.letters(LOCATIONS + NAME * l).spelt()
    }

    /// The name of a channel by number.
    pub fn channel(&self, c: usize) -> String {
        self.letters(CHANNELS + NAME * c).spelt()
    }

    /// The identifier of a definition by number.
    pub fn identifier(&self, d: usize) -> String {
        self.letters(head(d) + 2).spelt()
    }

    fn definition(&self, d: usize) -> Definition {
        let parameters = self.parameter_words(d);
        let body = self.body(d);
        Definition {
            identifier: self.identifier(d),
            parameters: parameters.iter().map(|at| self.spelt(*at)).collect(),
            body: self.built(self.field(body, LEAST) as usize, body),
        }
    }

    fn component(&self, p: usize) -> Component {
        let words = &self.components[COMPONENT * p..][..COMPONENT];
        let [location, mark, place, timer] = [0, 1, 2, 3].map(|k| words[k]);
        let place = place as usize;
        let names = self.names_in_scope(place);
        let values: Vec<Value> = words[SLOTS]
            .iter()
            .map(|l| Value::Location(self.location(*l as usize)))
            .collect();
        let values = names.iter().map(String::as_str).zip(&values).collect();
        let process = if mark == UNMARKED {
            self.part_alone(place, timer)
        } else {
            self.built(self.field(place, LEAST) as usize, place)
        };
        Component {
            location: self.location(location as usize),
            mark: (mark != UNMARKED).then(|| self.location(mark as usize)),
            process: Rules::default().put(&values, &process),
            wait: words[WAIT],
        }
    }

    /// The process of the one part at a place, with a timer.
    fn part_alone(&self, place: usize, timer: u32) -> Process {
        let least = match self.field(place, NEXT) {
            0 => self.field(place, LEAST) as usize,
            next => next as usize,
        };
        let mut process = self.built(least, place);
        if let Some(
            Part::Go { timer: own, .. }
            | Part::Out { timer: own, .. }
            | Part::In { timer: own, .. },
        ) = process.parts.first_mut()
        {
            *own = timer_of(timer);
        }
        process
    }

    /// The process of the rows from one place to another, which are its own.
    fn built(&self, least: usize, first: usize) -> Process {
        // processes that nothing has taken yet, last part first
        let mut untaken: Vec<Vec<Part>> = Vec::new();
        for place in least..=first {
            let part = self.part(place, &mut untaken);
            let linked = self.field(place, NEXT) as usize > least;
            let mut parts = if linked {
                untaken.pop().unwrap_or_default()
            } else {
                Vec::new()
            };
            parts.push(part);
            untaken.push(parts);
        }
        taken(&mut untaken)
    }

    fn part(&self, place: usize, untaken: &mut Vec<Vec<Part>>) -> Part {
        let field = |word| self.field(place, word);
        let timer = timer_of(field(TIMER));
        let number = field(NUMBER) as usize;
        let names = self.names_in_scope(place);
        let value = |word| self.value(word, &names);
        match field(KIND) {
            GO => Part::Go {
                timer,
                target: value(field(VALUE)),
                then: taken(untaken),
            },
            OUT => Part::Out {
                channel: self.channel(number),
                timer,
                value: value(field(VALUE)),
                then: taken(untaken),
                otherwise: taken(untaken),
            },
            IN => Part::In {
                channel: self.channel(number),
                timer,
                variable: self.spelt(own_name(place)),
                then: taken(untaken),
                otherwise: taken(untaken),
            },
            CALL => Part::Call {
                identifier: self.identifier(number),
                arguments: (0..field(VALUE) as usize)
                    .map(|k| value(field(OWN + k)))
                    .collect(),
            },
            STOP.. => Part::Stop,
        }
    }

    fn value(&self, word: u32, names: &[String]) -> Value {
        match word.checked_sub(FIRST_VARIABLE) {
            None => Value::Location(self.location(word as usize)),
            Some(slot) => Value::Variable(names[slot as usize].clone()),
        }
    }

    fn names_in_scope(&self, place: usize) -> Vec<String> {
        let words = self.scope_words(place);
        words.iter().map(|at| self.spelt(*at)).collect()
    }

    fn spelt(&self, at: usize) -> String {
        self.letters(at).spelt()
    }
}

/// The last process of the list, its parts in order.
fn taken(untaken: &mut Vec<Vec<Part>>) -> Process {
    let mut parts = untaken.pop().unwrap_or_default();
    parts.reverse();
    Process { parts }
}

/// The rights of one location's words.
fn row_of(words: &[u32]) -> Row {
    let mut row = Row::NONE;
    let bits = row.sorts_mut().into_iter().flatten();
    for (given, word) in bits.zip(words) {
        *given = *word == 1;
    }
    row
}

fn timer_of(word: u32) -> Timer {
    if word == INF {
        Timer::Inf
    } else {
        Timer::Ticks(word)
    }
}
