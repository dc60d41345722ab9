//! A network laid out as a table, as `docs/LAYOUT.md` says that reading does:
//! parts in text order from the highest place down, bodies of definitions
//! first, and each component in a bracket of its own; waits and messages as they are.

use crate::reading::{MOST_COMPONENTS, MOST_PARTS, MOST_VARIABLES};
use crate::table::{
    Table, CHANNELS, COMPONENT, DEFINITIONS, EDITION, LEDGER, LOCATIONS, NAME, OWN, PARTS, RIGHTS,
    RIGHTS_ROW, ROW, SCRIPT, STATE, WAIT,
};
use crate::term::{Component, Network, Part, Process, Script, Timer, Value};

/// The words of a table.
#[derive(Clone, Debug, PartialEq, Eq)]
pub struct Laid {
    pub script: Vec<u32>,
    pub components: Vec<u32>,
    pub n: usize,
}

impl Laid {
    pub fn table(&self) -> Table<'_> {
        Table::new(&self.script, &self.components, self.n)
    }
}

/// The table of a network whose script keeps the limits of question 4, or
/// nothing if its components have too many parts or names in scope.
pub fn lay(network: &Network) -> Option<Laid> {
    let script = &*network.script;
    let bodies = script.definitions.iter().map(|d| size(&d.body));
    let processes = network.components.iter().map(|c| size(&c.process));
    let parts: usize = bodies.chain(processes).sum();
    let n = network.components.len();
    if parts > MOST_PARTS || n > MOST_COMPONENTS {
        return None;
    }
    let mut layer = Layer {
        script,
        words: vec![0; SCRIPT],
        unused: parts,
    };
    layer.counts_and_edition(parts);
    layer.rights();
    layer.names();
    layer.definitions()?;
    let mut components = vec![0; STATE];
    for (component, words) in network
        .components
        .iter()
        .zip(components.chunks_mut(COMPONENT))
    {
        words.copy_from_slice(&layer.component(component)?);
    }
    let ledger = [
        network.ledger.total as u32,
        (network.ledger.total >> 32) as u32,
        network.ledger.messages,
    ];
    components[LEDGER..LEDGER + ledger.len()].copy_from_slice(&ledger);
    Some(Laid {
        script: layer.words,
        components,
        n,
    })
}

/// How many rows a process takes.
fn size(process: &Process) -> usize {
    let part = |part: &Part| match part {
        Part::Stop | Part::Call { .. } => 1,
        Part::Go { then, .. } => 1 + size(then),
        Part::Out {
            then, otherwise, ..
        }
        | Part::In {
            then, otherwise, ..
        } => 1 + size(then) + size(otherwise),
    };
    process.parts.iter().map(part).sum()
}

/// The names in scope with the words where they stand.
type Scope = Vec<(String, usize)>;

struct Layer<'s> {
    script: &'s Script,
    words: Vec<u32>,
    /// The places below this one are unused.
    unused: usize,
}

impl Layer<'_> {
    fn counts_and_edition(&mut self, parts: usize) {
        let script = self.script;
        let counts = [
            parts,
            script.locations.len(),
            script.channels.len(),
            script.definitions.len(),
        ];
        self.words[..4].copy_from_slice(&counts.map(|count| count as u32));
        self.words[EDITION] = script.edition.number();
    }

    fn rights(&mut self) {
        let rows = self.words[RIGHTS..].chunks_mut(RIGHTS_ROW);
        for (words, row) in rows.zip(&self.script.rights.rows) {
            let bits = row.sorts().into_iter().flatten();
            for (word, given) in words.iter_mut().zip(bits) {
                *word = u32::from(*given);
            }
        }
    }

    fn names(&mut self) {
        for (l, name) in self.script.locations.iter().enumerate() {
            self.name(LOCATIONS + NAME * l, name);
        }
        for (c, name) in self.script.channels.iter().enumerate() {
            self.name(CHANNELS + NAME * c, name);
        }
    }

    fn name(&mut self, at: usize, name: &str) {
        let mut bytes = [0; 4 * NAME];
        bytes[..name.len()].copy_from_slice(name.as_bytes());
        for (k, four) in bytes.chunks(4).enumerate() {
            self.words[at + k] = u32::from_le_bytes([four[0], four[1], four[2], four[3]]);
        }
    }

    fn definitions(&mut self) -> Option<()> {
        for (d, definition) in self.script.definitions.iter().enumerate() {
            let at = DEFINITIONS + ROW * d;
            self.name(at + 2, &definition.identifier);
            let mut scope = Scope::new();
            for (k, parameter) in definition.parameters.iter().enumerate() {
                let word = at + 2 + NAME * (1 + k);
                self.name(word, parameter);
                scope.push((parameter.clone(), word));
            }
            self.words[at] = scope.len() as u32;
            self.words[at + 1] = self.process(&definition.body, &scope)? as u32;
        }
        Some(())
    }

    fn component(&mut self, component: &Component) -> Option<[u32; COMPONENT]> {
        let place = self.process(&component.process, &Scope::new())?;
        let mut words = [0; COMPONENT];
        words[0] = self.script.location(&component.location)? as u32;
        words[1] = match &component.mark {
            Some(owner) => self.script.location(owner)? as u32,
            None => 64,
        };
        words[2] = place as u32;
        if component.mark.is_none() {
            words[3] = self.words[PARTS + ROW * place + 2];
        }
        words[WAIT] = component.wait;
        Some(words)
    }

    /// Lays the parts of a process one after the other, and gives the place of
    /// the first.
    fn process(&mut self, process: &Process, scope: &Scope) -> Option<usize> {
        let mut places = Vec::new();
        for part in &process.parts {
            places.push(self.part(part, scope)?);
        }
        let least = self.unused;
        for (index, place) in places.iter().enumerate() {
            let row = &mut self.words[PARTS + ROW * place..][..ROW];
            row[6] = places.get(index + 1).map_or(0, |next| *next as u32 + 1);
            row[7] = least as u32;
        }
        places.first().copied()
    }

    fn part(&mut self, part: &Part, scope: &Scope) -> Option<usize> {
        self.unused = self.unused.checked_sub(1)?;
        let place = self.unused;
        let at = PARTS + ROW * place;
        let head = self.head(part, scope)?;
        self.words[at..at + 4].copy_from_slice(&head);
        self.words[at + 8] = scope.len() as u32;
        for (k, (_, word)) in scope.iter().enumerate() {
            self.words[at + 9 + k] = *word as u32;
        }
        self.inside(part, at, scope)?;
        Some(place)
    }

    /// P and Q, a bound name, arguments.
    fn inside(&mut self, part: &Part, at: usize, scope: &Scope) -> Option<()> {
        match part {
            Part::Stop => {}
            Part::Go { then, .. } => self.words[at + 4] = self.process(then, scope)? as u32,
            Part::Out {
                then, otherwise, ..
            } => self.both(at, (then, scope), (otherwise, scope))?,
            Part::In {
                variable,
                then,
                otherwise,
                ..
            } => {
                self.name(at + OWN, variable);
                let inner = entered(scope, variable, at + OWN)?;
                self.both(at, (then, &inner), (otherwise, scope))?;
            }
            Part::Call { arguments, .. } => {
                for (k, argument) in arguments.iter().enumerate() {
                    self.words[at + OWN + k] = self.value(argument, scope)?;
                }
            }
        }
        Some(())
    }

    fn both(&mut self, at: usize, p: (&Process, &Scope), q: (&Process, &Scope)) -> Option<()> {
        self.words[at + 4] = self.process(p.0, p.1)? as u32;
        self.words[at + 5] = self.process(q.0, q.1)? as u32;
        Some(())
    }

    /// Kind, channel or definition, timer, and value, slot or number of
    /// arguments.
    fn head(&self, part: &Part, scope: &Scope) -> Option<[u32; 4]> {
        let channel = |name: &str| self.script.channel(name).map(|c| c as u32);
        Some(match part {
            Part::Stop => [0; 4],
            Part::Go { timer, target, .. } => [1, 0, ticks(*timer), self.value(target, scope)?],
            Part::Out {
                channel: c,
                timer,
                value,
                ..
            } => [2, channel(c)?, ticks(*timer), self.value(value, scope)?],
            Part::In {
                channel: c,
                timer,
                variable,
                ..
            } => [3, channel(c)?, ticks(*timer), slot(scope, variable)],
            Part::Call {
                identifier,
                arguments,
            } => {
                let mut definitions = self.script.definitions.iter();
                let callee = definitions.position(|d| d.identifier == *identifier)?;
                [4, callee as u32, 0, arguments.len() as u32]
            }
        })
    }

    fn value(&self, value: &Value, scope: &Scope) -> Option<u32> {
        match value {
            Value::Location(name) => self.script.location(name).map(|l| l as u32),
            Value::Variable(name) => Some(64 + slot(scope, name)),
        }
    }
}

/// The index of a name in scope, or how many there are.
fn slot(scope: &Scope, name: &str) -> u32 {
    let found = scope.iter().position(|(held, _)| held == name);
    found.unwrap_or(scope.len()) as u32
}

/// The scope with a name behind it, unless that is there; at most 8.
fn entered(scope: &Scope, name: &str, word: usize) -> Option<Scope> {
    let mut inner = scope.clone();
    if slot(scope, name) as usize == scope.len() {
        inner.push((name.to_string(), word));
    }
    (inner.len() <= MOST_VARIABLES).then_some(inner)
}

fn ticks(timer: Timer) -> u32 {
    match timer {
        Timer::Ticks(ticks) => ticks,
        Timer::Inf => Timer::LARGEST + 1,
    }
}
