//! Whole steps that the rules perform, which know no limit: those that are drawn, any
//! partner and optional moves among them, and the engine's own.
//!
//! Beside the components stands for each the position in the first network of the one
//! that it comes from.

use std::mem;

use crate::calls::{in_range, Engine, Record};
use crate::generate::{call_list, host};
use crate::lists::Call;
use crate::random::Random;
use crate::rules::{Action, Kind, Label, Rules, Vanish};
use crate::term::{Component, Network, Part, Script, Timer};

/// Actions that fire at a location, at positions of the network that the step is put
/// to; then the tick there.
#[derive(Clone, Debug, PartialEq, Eq)]
pub struct WholeStep {
    pub location: u32,
    pub records: Vec<Record>,
}

impl WholeStep {
    /// The step as a proposal.
    pub fn call(&self) -> Call {
        Call::Proposal {
            location: self.location,
            records: self.records.clone(),
        }
    }
}

/// An action that has fired.
#[derive(Clone, Debug)]
pub struct Firing {
    pub kind: Kind,
    /// As they stood before it.
    pub components: Vec<Component>,
    /// The positions in the first network of those that they come from.
    pub(crate) origins: Vec<usize>,
    pub label: Label,
}

impl Firing {
    /// The action on one of the components equal to each of its own, if there are
    /// such: the first for each.
    pub fn on_first_equal(&self, components: &[Component]) -> Option<Action> {
        self.on(|wanted, _| components.iter().position(|c| c.is_equal(wanted)))
    }

    /// The action on components found by what they are and whence they come.
    pub(crate) fn on(&self, find: impl Fn(&Component, usize) -> Option<usize>) -> Option<Action> {
        let wanted = self.components.iter().zip(&self.origins);
        let found: Option<Vec<usize>> = wanted.map(|(c, origin)| find(c, *origin)).collect();
        match (self.kind, found?.as_slice()) {
            (Kind::Call, [p]) => Some(Action::Call(*p)),
            (Kind::Move, [p]) => Some(Action::Move(*p)),
            (Kind::Communication, [p, q]) => Some(Action::Communication(*p, *q)),
            _ => None,
        }
    }

    /// The location that a move goes to.
    pub(crate) fn target(&self) -> Option<&str> {
        match &self.label {
            Label::Move { target, .. } => Some(target),
            _ => None,
        }
    }

    /// A move that could have waited.
    pub(crate) fn is_optional(&self) -> bool {
        match self.components[0].ready_part() {
            Some(Part::Go { timer, .. }) => *timer > Timer::Ticks(0),
            _ => false,
        }
    }
}

/// A whole step that the rules have performed.
#[derive(Clone, Debug)]
pub struct Performed {
    pub step: WholeStep,
    /// The name of its location.
    pub location: String,
    pub firings: Vec<Firing>,
}

impl Performed {
    pub fn labels(&self) -> Vec<&Label> {
        self.firings.iter().map(|firing| &firing.label).collect()
    }

    pub(crate) fn moves_to(&self, location: &str) -> bool {
        let mut targets = self.firings.iter().filter_map(Firing::target);
        targets.any(|target| target == location)
    }

    pub(crate) fn fires(&self, kind: Kind) -> bool {
        self.firings.iter().any(|firing| firing.kind == kind)
    }
}

/// Components on their way through whole steps.
pub(crate) struct Working<'n> {
    pub script: &'n Script,
    pub components: Vec<Component>,
    /// For each component, the position in the first network of the one that it comes
    /// from.
    pub origins: Vec<usize>,
}

impl Working<'_> {
    pub fn on(network: &Network) -> Working<'_> {
        Working {
            script: &network.script,
            components: network.components.clone(),
            origins: (0..network.components.len()).collect(),
        }
    }

    /// A whole step, if the rules allow it and every action fires at its location.
    pub fn perform(&mut self, step: &WholeStep) -> Option<Performed> {
        let location = self.script.locations.get(step.location as usize)?.clone();
        let mut firings = Vec::new();
        for record in &step.records {
            let action = in_range(&self.components, *record)?;
            firings.push(self.fire(action).filter(|f| f.label.at() == location)?);
        }
        self.tick(&location)?;
        Some(Performed {
            step: step.clone(),
            location,
            firings,
        })
    }

    pub fn fire(&mut self, action: Action) -> Option<Firing> {
        let positions = action.positions();
        let before = positions.iter().map(|p| self.components[*p].clone());
        let components = before.collect();
        let (label, _) = Rules::default().take(self.script, &mut self.components, action)?;
        Some(Firing {
            kind: action.kind(),
            components,
            origins: positions.iter().map(|p| self.origins[*p]).collect(),
            label,
        })
    }

    pub fn tick(&mut self, location: &str) -> Option<()> {
        let rules = Rules::default();
        if rules.forced(self.script, &self.components, location) {
            return None;
        }
        let before = mem::take(&mut self.components);
        let lists = rules.tick_each(self.script, before, location, Vanish::OwnMarks);
        let lists: Vec<Vec<Component>> = lists.collect();
        let each = self.origins.iter().zip(&lists);
        self.origins = each
            .flat_map(|(origin, list)| vec![*origin; list.len()])
            .collect();
        self.components = lists.concat();
        Some(())
    }
}

// --- steps from a seed -----------------------------------------------------------

/// Actions at a location until its tick is allowed, at times past what is forced. Every
/// action marks a component that was not, so a step ends.
pub(crate) fn drawn_step(
    random: &mut Random,
    network: &Network,
    location: u32,
) -> Option<WholeStep> {
    let name = network.script.locations.get(location as usize)?;
    let records = call_list::whole_step(random, network, name);
    Some(WholeStep { location, records })
}

/// The step that the engine makes itself, and the network after it.
pub(crate) fn own_step(network: &Network, location: u32) -> Option<(WholeStep, Network)> {
    let mut records = vec![Record::new(0, 0, 0); network.components.len()];
    let stepped = Engine::default().step(network, location, &mut records);
    let stepped = stepped.ok()?;
    records.truncate(stepped.labels.len());
    Some((WholeStep { location, records }, stepped.network))
}

/// Calls from a network just read to one that whole steps start from, and that network:
/// whole steps and what a host writes; at times single actions at all locations, which
/// leave marks.
pub fn calls_before(random: &mut Random, read: &Network) -> (Vec<Call>, Network) {
    let mut network = read.clone();
    let mut calls = Vec::new();
    let mut put = |network: &mut Network, call: Call| {
        if let Some(next) = call_list::next(network, &call) {
            *network = next;
            calls.push(call);
        }
    };
    for _ in 0..random.between(0, 5) {
        let location = any_location(random, &network);
        if let Some(step) = drawn_step(random, &network, location) {
            put(&mut network, step.call());
        }
    }
    if random.chance(1, 2) {
        for p in 0..network.components.len() as u32 {
            let wait = random.below(4) as u32;
            put(&mut network, Call::Wait { p, wait });
        }
    }
    if random.chance(1, 8) {
        let room = random.below(3) as u32;
        let few = Call::Messages(host::with_room_for(random, room));
        put(&mut network, few);
    }
    if random.chance(1, 5) {
        for location in 0..network.script.locations.len() as u32 {
            let step = drawn_step(random, &network, location);
            for record in step.into_iter().flat_map(|step| step.records) {
                put(&mut network, Call::Action(record));
            }
        }
    }
    (calls, network)
}

pub(crate) fn any_location(random: &mut Random, network: &Network) -> u32 {
    random.below(network.script.locations.len()) as u32
}
