//! A network in both engines, and calls on it by both: alike, with the components, waits
//! and messages after each.

use std::fmt;

use timo_reference::calls::{self, Engine, Record};
use timo_reference::lists::{self, Call};
use timo_reference::refusal::Refusal;
use timo_reference::steps::WholeStep;
use timo_reference::term::{Component, Ledger, Network};

use crate::agree::{equal, Agreed};
use crate::alike;
use crate::reading::Pair;
use crate::table;
use crate::timo::{self, State, Table, COMPONENTS, LABEL};

/// Where the engines differ or the claim does not hold: the calls that lead to the
/// network, the steps from there, and what was found.
#[derive(Clone, Debug)]
pub struct Difference {
    pub calls: Vec<Call>,
    pub steps: Vec<Call>,
    pub what: String,
}

impl fmt::Display for Difference {
    fn fmt(&self, f: &mut fmt::Formatter<'_>) -> fmt::Result {
        let [calls, steps] = [&self.calls, &self.steps].map(|calls| lists::print(calls));
        write!(f, "{calls}then from there:\n{steps}{}", self.what)
    }
}

/// A network in both engines, and what calls have made of it by both.
pub struct Both {
    start: (State, Network),
    pub(crate) table: Table,
    pub(crate) network: Network,
    /// For comparing: the same script.
    ended: Table,
}

impl Both {
    /// The network that steps start from after calls that both accept.
    pub fn after(read: &Pair, calls: &[Call]) -> Result<Both, String> {
        let Pair { table, network } = read;
        let mut both = Both {
            start: (table.state, network.clone()),
            table: table.clone(),
            network: network.clone(),
            ended: table.clone(),
        };
        for call in calls {
            equal("a call before", &both.put(call)?, &Ok(()))?;
        }
        both.start = (both.table.state, both.network.clone());
        Ok(both)
    }

    /// The network that steps start from.
    pub fn start(&self) -> &Network {
        &self.start.1
    }

    /// Back to where steps start.
    pub(crate) fn restart(&mut self) {
        let (state, network) = &self.start;
        self.table.state = *state;
        self.network = network.clone();
    }

    /// Keeps the network for comparing.
    pub(crate) fn keep(&mut self) {
        self.ended.state = self.table.state;
    }

    // --- calls by both -------------------------------------------------------

    /// A call by both, or what a host writes into both tables: alike, with the
    /// components, waits and messages after it.
    pub(crate) fn put(&mut self, call: &Call) -> Result<Result<(), u32>, String> {
        let ours = put_to_table(&mut self.table, call);
        let theirs = put_to_network(&self.network, call);
        let theirs = theirs.map(|network| self.network = network);
        let theirs = theirs.map_err(|refusal| u32::from(refusal.number()));
        equal(&call.to_string(), &ours, &theirs)?;
        let (components, ledger) = self.state()?;
        equal("components", &components, &self.network.components)?;
        equal("messages", &ledger, &self.network.ledger)?;
        Ok(ours)
    }

    /// A whole step of the rules as a proposal: accepted, or the number of the refusal,
    /// which only a limit may be the reason of.
    pub(crate) fn whole_step(&mut self, step: &WholeStep) -> Result<Result<(), u32>, String> {
        match self.put(&step.call())? {
            Err(number) if !matches!(number, 13 | 18) => {
                Err(format!("a step of the rules is refused {number}"))
            }
            answer => Ok(answer),
        }
    }

    /// The components that the table stands for, and its messages.
    pub(crate) fn state(&self) -> Result<(Vec<Component>, Ledger), String> {
        table::state(&self.table).map_err(alike::fault)
    }

    /// The labels of a whole step's actions by both. No action changes the components
    /// of another, so all are asked for before the first.
    pub(crate) fn labels(&self, step: &WholeStep) -> Result<Vec<String>, String> {
        step.records
            .iter()
            .map(|record| self.label(*record))
            .collect()
    }

    fn label(&self, record: Record) -> Result<String, String> {
        let Record { kind, p, q } = record;
        let ours = written(LABEL, |lent| {
            let table = &self.table;
            table.action_label(kind, p as usize, q as usize, lent)
        });
        let theirs = Engine::default().label(&self.network, record);
        let theirs = theirs.map(|label| label.to_string());
        let theirs = theirs.map_err(|refusal| u32::from(refusal.number()));
        equal("label", &ours, &theirs)?;
        ours.map_err(|number| format!("label refused {number}"))
    }

    /// The records of a step by the proved engine, which is left where it was; none of
    /// one that is refused.
    pub(crate) fn own_records(&mut self, step: timo::StepCall, location: u32) -> Vec<[u32; 3]> {
        let before = self.table.state;
        let mut records = vec![[0; 3]; COMPONENTS];
        let count = step(&mut self.table, location, &mut records);
        self.table.state = before;
        records.truncate(count.unwrap_or(0));
        records
    }

    /// The components and messages of the network kept.
    pub(crate) fn kept(&self) -> Result<(Vec<Component>, Ledger), String> {
        table::state(&self.ended).map_err(alike::fault)
    }

    /// `same` of this network and the one kept, both ways round.
    pub(crate) fn ends_the_same(&self) -> Agreed {
        equal("same", &self.is_same()?, &true)
    }

    pub(crate) fn is_same(&self) -> Result<bool, String> {
        let ended = table::network(&self.ended).map_err(alike::fault)?;
        let theirs = Ok(Engine::default().same(&self.network, &ended));
        equal("same", &self.table.same(&self.ended), &theirs)?;
        equal("same, exchanged", &self.ended.same(&self.table), &theirs)?;
        Ok(theirs == Ok(true))
    }
}

/// A call that steps, by both engines.
pub struct Stepping {
    pub name: &'static str,
    pub ours: timo::StepCall,
    pub theirs: calls::StepCall,
}

pub const STEP: Stepping = Stepping {
    name: "step",
    ours: Table::step,
    theirs: Engine::step,
};

pub const CONFORMING: Stepping = Stepping {
    name: "conforming step",
    ours: Table::step_conforming,
    theirs: Engine::conforming_step,
};

/// What a call on the proved engine's table answers.
fn put_to_table(table: &mut Table, call: &Call) -> Result<(), u32> {
    let mut stepped = |step: Stepping, location: u32, room: usize| {
        let answer = (step.ours)(table, location, &mut vec![[0; 3]; room]);
        answer.map(|_| ())
    };
    match call {
        Call::Action(Record { kind, p, q }) => {
            let acted = table.action(*kind, *p as usize, *q as usize);
            acted.map(|_| ())
        }
        Call::Tick(location) => table.tick(*location),
        Call::Step { location, room } => stepped(STEP, *location, *room),
        Call::Conforming { location, room } => stepped(CONFORMING, *location, *room),
        Call::Proposal { location, records } => {
            let ours = |Record { kind, p, q }: Record| timo::Record { kind, p, q };
            let records: Vec<timo::Record> = records.iter().copied().map(ours).collect();
            table.propose(*location, &records)
        }
        Call::Wait { p, wait } => {
            table.state.c.at[*p as usize].wait = *wait;
            Ok(())
        }
        Call::Messages(Ledger { total, messages }) => {
            table.state.c.put_messages(*messages, *total);
            Ok(())
        }
        _ => Ok(()),
    }
}

/// The network that a call on the reference engine's answers.
fn put_to_network(network: &Network, call: &Call) -> Result<Network, Refusal> {
    let engine = Engine::default();
    let stepped = |step: Stepping, location: u32, room: usize| {
        let mut lent = vec![Record::new(0, 0, 0); room];
        let stepped = (step.theirs)(engine, network, location, &mut lent);
        stepped.map(|stepped| stepped.network)
    };
    match call {
        Call::Action(record) => engine.action(network, *record).map(|(next, _)| next),
        Call::Tick(location) => engine.tick(network, *location),
        Call::Step { location, room } => stepped(STEP, *location, *room),
        Call::Conforming { location, room } => stepped(CONFORMING, *location, *room),
        Call::Proposal { location, records } => {
            let proposed = engine.proposal(network, *location, records);
            proposed.map(|(next, _)| next)
        }
        _ => Ok(call.written_into(network).unwrap_or(network.clone())),
    }
}

/// What a call writes into lent bytes.
pub(crate) fn written(
    most: usize,
    call: impl FnOnce(&mut [u8]) -> Result<usize, u32>,
) -> Result<String, u32> {
    let mut lent = vec![0; most];
    let length = call(&mut lent)?;
    Ok(String::from_utf8_lossy(&lent[..length]).into_owned())
}
