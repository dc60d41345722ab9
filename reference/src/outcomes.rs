//! Every whole step at a location (document 02, R-13), and what is claimed of them where
//! the location conforms.
//!
//! A whole step is a list of actions that fire at the location, in any order, with any
//! partner and any optional move, after which the tick is allowed. All of them are found
//! by trying every action that can fire, by the rules, which know no limit. The claim:
//! from an unmarked network, at a location that conforms, they all end in the same
//! network and have the same labels, each as often.
//!
//! More than this is true. They take the very same components, so that these stand at
//! each position in the end with the same waits. And marks from before change nothing:
//! what is marked is not ready at any time of the step, and no action of it is another's.

use std::fmt;

use crate::calls::{same_in_any_order, Record};
use crate::generate::call_list;
use crate::random::Random;
use crate::rules::{sends_on, Kind, Label, Rules, Variant};
use crate::steps::{drawn_step, Performed, WholeStep, Working};
use crate::tally::{Sort, Sorted};
use crate::term::{Component, Edition, Network, Part, Script, Timer};

/// A whole step that the rules have performed, and the components after it.
#[derive(Clone, Debug)]
pub struct Outcome {
    pub step: Performed,
    pub components: Vec<Component>,
}

impl Outcome {
    /// The step, if the rules allow it.
    pub fn of(before: &Network, step: &WholeStep) -> Option<Outcome> {
        let mut working = Working::on(before);
        let step = working.perform(step)?;
        let components = working.components;
        Some(Outcome { step, components })
    }

    /// Whether two end in other networks or, if not, have other labels.
    fn differs_from(&self, other: &Outcome) -> Option<Choice> {
        if !same_in_any_order(&self.components, &other.components) {
            return Some(Choice::OtherNetwork);
        }
        let other_labels = self.sorted_labels() != other.sorted_labels();
        other_labels.then_some(Choice::OtherLabels)
    }

    /// The labels, in an order of their own.
    fn sorted_labels(&self) -> Vec<&Label> {
        let mut labels = self.step.labels();
        labels.sort();
        labels
    }
}

/// Whole steps at a location of a network: every one, or some that were drawn.
#[derive(Clone, Debug)]
pub struct Outcomes {
    pub before: Network,
    pub location: u32,
    pub steps: Vec<Outcome>,
}

impl Outcomes {
    /// Every whole step, if there are at most so many.
    pub fn every(before: &Network, location: u32, most: usize) -> Option<Outcomes> {
        let mut search = Search {
            script: &before.script,
            location: before.script.locations.get(location as usize)?,
            most,
            lists: Vec::new(),
        };
        search.go_on(&before.components, &mut Vec::new())?;
        let steps = search.lists.into_iter();
        let steps = steps.map(|records| WholeStep { location, records });
        Outcomes::of(before, location, steps)
    }

    /// So many that are drawn.
    pub fn drawn(
        random: &mut Random,
        before: &Network,
        location: u32,
        count: usize,
    ) -> Option<Outcomes> {
        let steps: Option<Vec<WholeStep>> = (0..count)
            .map(|_| drawn_step(random, before, location))
            .collect();
        Outcomes::of(before, location, steps?)
    }

    /// Every whole step, or if there are more, so many that are drawn.
    pub fn most(
        random: &mut Random,
        before: &Network,
        location: u32,
        most: usize,
    ) -> Option<Outcomes> {
        Outcomes::every(before, location, most)
            .or_else(|| Outcomes::drawn(random, before, location, most))
    }

    fn of(
        before: &Network,
        location: u32,
        steps: impl IntoIterator<Item = WholeStep>,
    ) -> Option<Outcomes> {
        let steps: Option<Vec<Outcome>> = steps
            .into_iter()
            .map(|step| Outcome::of(before, &step))
            .collect();
        Some(Outcomes {
            before: before.clone(),
            location,
            steps: steps?,
        })
    }

    /// Whether the location conforms, by the right condition or by a wrong one.
    pub fn conform_by(&self, variant: Variant) -> bool {
        let rules = Rules { variant };
        let Network {
            script, components, ..
        } = &self.before;
        rules.conforms(script, components, self.name())
    }

    /// The claim without its conditions: they all end in the same network, with the same
    /// labels.
    pub fn are_one(&self) -> Result<(), Choice> {
        let choice = self.choice().map(|(_, choice)| choice);
        choice.map_or(Ok(()), Err)
    }

    /// Two of them that differ, and where.
    pub fn choice(&self) -> Option<([&Outcome; 2], Choice)> {
        let mut pairs = self.steps.windows(2);
        pairs.find_map(|pair| {
            let [one, other] = pair else { return None };
            Some(([one, other], one.differs_from(other)?))
        })
    }

    /// Whether the same components stand at each position in the end, with equal waits.
    pub fn end_alike(&self) -> bool {
        let mut pairs = self.steps.windows(2);
        pairs.all(|pair| pair[0].components == pair[1].components)
    }

    pub fn is_unmarked(&self) -> bool {
        self.before.components.iter().all(|c| c.mark.is_none())
    }

    // --- what may happen in it -----------------------------------------------

    fn name(&self) -> &str {
        &self.before.script.locations[self.location as usize]
    }

    fn is_under(&self, edition: Edition) -> bool {
        self.before.script.edition == edition
    }

    /// How many actions of a kind the first of them has.
    fn fired(&self, kind: Kind) -> usize {
        let firings = self.steps.iter().take(1).flat_map(|one| &one.step.firings);
        firings.filter(|firing| firing.kind == kind).count()
    }

    fn have_several_orders(&self) -> bool {
        self.steps.len() > 1
    }

    fn split(&self) -> bool {
        let before = self.before.components.len();
        self.steps.iter().any(|one| one.components.len() > before)
    }

    /// What is ready at the location and takes no part in the first of them.
    fn left(&self) -> impl Iterator<Item = &Component> {
        let firings = self.steps.iter().take(1).flat_map(|one| &one.step.firings);
        let taken: Vec<usize> = firings.flat_map(|f| f.origins.clone()).collect();
        let all = self.before.components.iter().enumerate();
        let left = all.filter(move |(p, _)| !taken.contains(p)).map(|(_, c)| c);
        left.filter(|c| c.ready_at(self.name()).is_some())
    }

    fn time_out(&self) -> bool {
        let last = self.before.script.edition.last_timer();
        self.left().any(|c| match c.ready_part() {
            Some(Part::Out { timer, .. } | Part::In { timer, .. }) => *timer <= last,
            _ => false,
        })
    }

    /// Whether a `go` with timer 0 lacks its right.
    fn leave_a_go(&self) -> bool {
        self.left().any(|c| match c.ready_part() {
            Some(Part::Go { timer, .. }) => *timer == Timer::Ticks(0),
            _ => false,
        })
    }

    /// Whether an output lacks its right.
    fn leave_an_output(&self) -> bool {
        let lacks_right = |c: &Component| {
            let sends = c.ready_part().and_then(sends_on).is_some();
            sends && !Rules::default().has_right(&self.before.script, c)
        };
        self.left().any(lacks_right)
    }
}

/// Where whole steps differ, so that there is a choice.
#[derive(Clone, Copy, Debug, PartialEq, Eq)]
pub enum Choice {
    /// They end in different networks.
    OtherNetwork,
    /// They end in the same network, with other labels.
    OtherLabels,
}

impl fmt::Display for Choice {
    fn fmt(&self, f: &mut fmt::Formatter<'_>) -> fmt::Result {
        f.write_str(match self {
            Choice::OtherNetwork => "whole steps end in different networks",
            Choice::OtherLabels => "whole steps have other labels",
        })
    }
}

/// The lists of actions that make a whole step.
struct Search<'n> {
    script: &'n Script,
    location: &'n str,
    most: usize,
    lists: Vec<Vec<Record>>,
}

impl Search<'_> {
    /// Adds every list that begins with the records given, which have led to these
    /// components; nothing if there are too many.
    fn go_on(&mut self, components: &[Component], records: &mut Vec<Record>) -> Option<()> {
        let rules = Rules::default();
        if !rules.forced(self.script, components, self.location) {
            self.lists.push(records.clone());
        }
        if self.lists.len() > self.most {
            return None;
        }
        let (enabled, _) = call_list::fitting(self.script, components, Some(self.location));
        for action in enabled {
            let mut after = components.to_vec();
            if rules.take(self.script, &mut after, action).is_none() {
                continue;
            }
            records.push(Record::of(action));
            self.go_on(&after, records)?;
            records.pop();
        }
        Some(())
    }
}

impl Sorted for Outcomes {
    const NAME: &'static str = "locations that conform";
    const SORTS: &'static [Sort<Outcomes>] = &[
        ("under edition 1", |all| all.is_under(Edition::One)),
        ("under edition 2", |all| all.is_under(Edition::Two)),
        ("with several orders", Outcomes::have_several_orders),
        ("a call", |all| all.fired(Kind::Call) > 0),
        ("a move", |all| all.fired(Kind::Move) > 0),
        ("a communication", |all| all.fired(Kind::Communication) > 0),
        ("two of them", |all| all.fired(Kind::Communication) > 1),
        ("a split", Outcomes::split),
        ("a time-out", Outcomes::time_out),
        ("a `go` that lacks its right", Outcomes::leave_a_go),
        ("an output that does", Outcomes::leave_an_output),
    ];
}
