//! The straight and the grouped run (document 01, *Mixed runs*) and what
//! demand 3 claims of them; and where components stand (document 02, R-6).
//!
//! The run is fed the accepted actions and ticks only; a refused call counts
//! for nothing. It keeps two networks without limits. Every point of the claim
//! is checked on the way, and the first one that fails ends the run.
//!
//! Components are equal whatever their waits, and messages are not counted here: of
//! two equal outputs a note may fire the one that has waited less.
//!
//! Beside the straight network stands for each of its components the position of
//! its ancestor in the network read. An action replaces components at their own
//! positions and leaves this as it is; what a tick makes of a component has the
//! same ancestor. After each action and tick every component must stand where its
//! ancestor was read or where a chain of rights to leave leads from there.

use std::fmt;
use std::mem;

use crate::calls::{in_range, same_in_any_order, Record};
use crate::rules::{Kind, Label, Rules, Vanish};
use crate::term::{Component, Network, Script};

/// A point of the claim that does not hold.
#[derive(Clone, Debug, PartialEq, Eq)]
pub enum Broken {
    /// The rules do not allow an accepted action on the straight network.
    StraightAction,
    /// The rules do not allow an accepted tick on the straight network.
    StraightTick,
    /// The grouped network holds no components equal to a note's.
    NoteWithoutComponents,
    /// A note's components cannot fire.
    NoteCannotFire,
    /// A note fires with another label than its action.
    NoteLabel,
    /// The rules do not allow the tick that closes a whole step.
    GroupedTick,
    /// The straight network is not the engine's last one.
    StraightDiffers,
    /// The grouped network is not a permutation of the engine's last one.
    GroupedDiffers,
    /// The definitions have changed.
    DefinitionsChanged,
    /// The edition has changed.
    EditionChanged,
    /// The rights have changed.
    RightsChanged,
    /// A component stands where no chain of rights to leave leads from where its
    /// ancestor was read.
    OutOfReach,
}

impl fmt::Display for Broken {
    fn fmt(&self, f: &mut fmt::Formatter<'_>) -> fmt::Result {
        f.write_str(match self {
            Broken::StraightAction => "action not allowed on the straight network",
            Broken::StraightTick => "tick not allowed on the straight network",
            Broken::NoteWithoutComponents => "no components equal to those of a note",
            Broken::NoteCannotFire => "a note cannot fire",
            Broken::NoteLabel => "a note fires with another label",
            Broken::GroupedTick => "tick not allowed on the grouped network",
            Broken::StraightDiffers => "straight network differs from the engine's last",
            Broken::GroupedDiffers => "grouped network is no permutation of the engine's last",
            Broken::DefinitionsChanged => "definitions changed",
            Broken::EditionChanged => "edition changed",
            Broken::RightsChanged => "rights changed",
            Broken::OutOfReach => "a component out of its ancestor's reach",
        })
    }
}

/// An accepted action that no tick at its location has closed: its kind, its
/// components as they stood before it, and its label, which names the location.
#[derive(Clone, Debug)]
struct Note {
    kind: Kind,
    components: Vec<Component>,
    label: Label,
}

/// A mixed run under way.
#[derive(Clone, Debug)]
pub struct Run {
    rules: Rules,
    read: Network,
    straight: Vec<Component>,
    /// For each component of the straight network.
    ancestors: Vec<usize>,
    grouped: Vec<Component>,
    notes: Vec<Note>,
    reach: Reach,
}

impl Run {
    /// A run from the network that reading returned, by the right rules with its
    /// edition and rights.
    pub fn new(read: &Network) -> Run {
        Run::judged_by(Rules::default(), read)
    }

    /// A run by other rules, to try whether a component out of reach is noticed.
    pub fn judged_by(rules: Rules, read: &Network) -> Run {
        Run {
            rules,
            read: read.clone(),
            straight: read.components.clone(),
            ancestors: (0..read.components.len()).collect(),
            grouped: read.components.clone(),
            notes: Vec::new(),
            reach: Reach::of(&read.script),
        }
    }

    /// For each component of the straight network the position in the network
    /// read of the one that it comes from.
    pub fn ancestors(&self) -> &[usize] {
        &self.ancestors
    }

    /// An accepted action.
    pub fn action(&mut self, record: Record) -> Result<(), Broken> {
        let action = in_range(&self.straight, record).ok_or(Broken::StraightAction)?;
        let components = action
            .positions()
            .iter()
            .map(|p| self.straight[*p].clone())
            .collect();
        let (label, _) = self
            .rules
            .take(&self.read.script, &mut self.straight, action)
            .ok_or(Broken::StraightAction)?;
        self.notes.push(Note {
            kind: action.kind(),
            components,
            label,
        });
        self.all_within_reach()
    }

    /// An accepted tick.
    pub fn tick(&mut self, location: u32) -> Result<(), Broken> {
        let script = self.read.script.clone();
        let location = script
            .locations
            .get(location as usize)
            .ok_or(Broken::StraightTick)?;
        self.tick_straight(location)?;
        let (of_location, others) = self
            .notes
            .drain(..)
            .partition(|note| note.label.at() == location);
        self.notes = others;
        self.fire_in_order(of_location)?;
        let grouped = mem::take(&mut self.grouped);
        let grouped = self.ticked(grouped, location, Vanish::AllMarks);
        self.grouped = grouped.ok_or(Broken::GroupedTick)?.concat();
        Ok(())
    }

    fn tick_straight(&mut self, location: &str) -> Result<(), Broken> {
        let straight = mem::take(&mut self.straight);
        let lists = self.ticked(straight, location, Vanish::OwnMarks);
        let lists = lists.ok_or(Broken::StraightTick)?;
        let each = self.ancestors.iter().zip(&lists);
        self.ancestors = each
            .flat_map(|(ancestor, list)| vec![*ancestor; list.len()])
            .collect();
        self.straight = lists.concat();
        self.all_within_reach()
    }

    /// The accepted actions of a step or proposal, then its tick.
    pub fn whole_step(&mut self, location: u32, records: &[Record]) -> Result<(), Broken> {
        for record in records {
            self.action(*record)?;
        }
        self.tick(location)
    }

    /// The end of the run, with the network that the engine has last returned.
    pub fn finish(mut self, last: &Network) -> Result<(), Broken> {
        let left = mem::take(&mut self.notes);
        self.fire_in_order(left)?;
        if self.read.script.definitions != last.script.definitions {
            return Err(Broken::DefinitionsChanged);
        }
        if self.read.script.edition != last.script.edition {
            return Err(Broken::EditionChanged);
        }
        if self.read.script.rights != last.script.rights {
            return Err(Broken::RightsChanged);
        }
        if !equal_in_order(&self.straight, &last.components) {
            return Err(Broken::StraightDiffers);
        }
        if !same_in_any_order(&self.grouped, &last.components) {
            return Err(Broken::GroupedDiffers);
        }
        Ok(())
    }

    /// What the tick makes of each component, if the rules allow it.
    fn ticked(
        &self,
        components: Vec<Component>,
        location: &str,
        vanish: Vanish,
    ) -> Option<Vec<Vec<Component>>> {
        let script = &self.read.script;
        if self.rules.forced(script, &components, location) {
            return None;
        }
        let lists = self.rules.tick_each(script, components, location, vanish);
        Some(lists.collect())
    }

    fn all_within_reach(&self) -> Result<(), Broken> {
        let number = |component: &Component| self.read.script.location(&component.location);
        let within = |(component, ancestor): (&Component, &usize)| {
            let from = number(&self.read.components[*ancestor]);
            from.zip(number(component))
                .is_some_and(|(from, to)| self.reach.leads(from, to))
        };
        let each_has_one = self.straight.len() == self.ancestors.len();
        if each_has_one && self.straight.iter().zip(&self.ancestors).all(within) {
            Ok(())
        } else {
            Err(Broken::OutOfReach)
        }
    }

    fn fire_in_order(&mut self, notes: Vec<Note>) -> Result<(), Broken> {
        notes.into_iter().try_for_each(|note| self.fire_note(note))
    }

    /// Fires a note on the first components of the grouped network that are
    /// equal to its own.
    fn fire_note(&mut self, note: Note) -> Result<(), Broken> {
        let first = |wanted: &Component| self.grouped.iter().position(|c| c.is_equal(wanted));
        let positions: Option<Vec<usize>> = note.components.iter().map(first).collect();
        let positions = positions.ok_or(Broken::NoteWithoutComponents)?;
        let components: Vec<&Component> = positions.iter().map(|p| &self.grouped[*p]).collect();
        let fired = self
            .rules
            .fire(&self.read.script, note.kind, &components)
            .ok_or(Broken::NoteCannotFire)?;
        if fired.label != note.label {
            return Err(Broken::NoteLabel);
        }
        for (position, component) in positions.into_iter().zip(fired.components) {
            self.grouped[position] = component;
        }
        Ok(())
    }
}

/// Whether two lists have equal components at each position.
fn equal_in_order(one: &[Component], other: &[Component]) -> bool {
    let mut pairs = one.iter().zip(other);
    one.len() == other.len() && pairs.all(|(one, other)| one.is_equal(other))
}

/// Where chains of rights to leave lead, by the numbers of locations.
#[derive(Clone, Debug)]
struct Reach {
    leads: Vec<Vec<bool>>,
}

impl Reach {
    /// Chains of no right or one, then by and by those through each location.
    fn of(script: &Script) -> Reach {
        let all = 0..script.locations.len();
        let link = |from: usize, to: usize| from == to || script.rights.leave(from, to);
        let links = |from: usize| all.clone().map(|to| link(from, to)).collect();
        let mut leads: Vec<Vec<bool>> = all.clone().map(links).collect();
        for through in all {
            let onward = leads[through].clone();
            for row in leads.iter_mut().filter(|row| row[through]) {
                row.iter_mut().zip(&onward).for_each(|(to, on)| *to |= on);
            }
        }
        Reach { leads }
    }

    fn leads(&self, from: usize, to: usize) -> bool {
        self.leads[from][to]
    }
}
