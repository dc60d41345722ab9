//! Every whole step at a location through both engines (document 02, R-13): as a proposal,
//! and as its actions one by one and then the tick, against the conforming step.
//!
//! Which whole steps there are is the reference engine's. Where the location conforms, the
//! proved engine accepts each of them, with the same labels, and ends in the network of its
//! conforming step; the limits, which the claim has not, refuse all of them or none. Where
//! it does not conform, the conforming step is refused, and two whole steps that differ
//! show that there is a choice.

use std::fmt;

use timo_reference::lists::Call;
use timo_reference::outcomes::{Choice, Outcomes};
use timo_reference::random::Random;
use timo_reference::rules::Variant;
use timo_reference::steps::{calls_before, WholeStep};
use timo_reference::tally;

use crate::agree::{equal, Agreed};
use crate::both::{Both, Difference};
use crate::reading::Pair;
use crate::timo::{Label, Table, COMPONENTS};

/// Networks to one script that steps start from, and whole steps at a location: all of
/// them, or some where there are more.
const STARTS: usize = 2;
const MOST: usize = 24;

/// How many locations conform by both engines and how many do not, with what whole steps
/// there show.
#[derive(Clone, Debug, Default)]
pub struct Tally {
    /// Of networks without marks.
    pub unmarked: tally::Tally<Outcomes>,
    /// Those of networks with marks that conform too.
    pub marked: usize,
    /// Whole steps at both.
    pub steps: usize,
    /// Refused in all of them by 13, and by 18.
    pub full: [usize; 2],
    /// Which do not conform, and have one outcome.
    pub single: usize,
    /// Which do not conform and have a choice, by the point that alone is against it:
    /// `Variant::WITH_A_CHOICE`.
    pub choices: [usize; Variant::WITH_A_CHOICE.len()],
}

impl Tally {
    /// Whether there was something of every sort; of the two limits one is enough.
    pub fn is_everywhere(&self) -> bool {
        let counts = [
            self.unmarked.fewest(),
            self.marked,
            self.full[0] + self.full[1],
            self.single,
        ];
        counts.iter().chain(&self.choices).all(|count| *count > 0)
    }
}

impl fmt::Display for Tally {
    fn fmt(&self, f: &mut fmt::Formatter<'_>) -> fmt::Result {
        let [late, senders, receivers] = self.choices;
        write!(
            f,
            "{}; {} with marks; {} whole steps end alike there, refused in each order {} by 13 \
             and {} by 18; with a choice {late} by a late go, {senders} by senders and \
             {receivers} by receivers alone; {} do not conform and have one outcome",
            self.unmarked, self.marked, self.steps, self.full[0], self.full[1], self.single
        )
    }
}

/// Whole steps at each location of some networks that a script comes to.
pub fn outcomes(random: &mut Random, read: &Pair, tally: &mut Tally) -> Result<(), Difference> {
    for _ in 0..STARTS {
        let (calls, network) = calls_before(random, &read.network);
        let differs = |steps: Vec<Call>| {
            let calls = calls.clone();
            move |what| Difference { calls, steps, what }
        };
        let mut both = Both::after(read, &calls).map_err(differs(Vec::new()))?;
        for location in 0..network.script.locations.len() as u32 {
            if let Some(all) = Outcomes::most(random, &network, location, MOST) {
                let steps = vec![conforming(location)];
                both.outcomes(&all, tally).map_err(differs(steps))?;
            }
        }
    }
    Ok(())
}

/// The conforming step, with room for all its records.
fn conforming(location: u32) -> Call {
    Call::Conforming {
        location,
        room: COMPONENTS,
    }
}

impl Both {
    /// Whole steps at a location of the network that steps start from.
    pub fn outcomes(&mut self, all: &Outcomes, tally: &mut Tally) -> Agreed {
        self.restart();
        let conforms = all.conform_by(Variant::Right);
        let tested = self.table.conforms(all.location);
        equal("test of a location", &tested, &Ok(conforms))?;
        if conforms {
            self.end_alike(all, tally)
        } else {
            self.has_choice(all, tally)
        }
    }

    // --- where it conforms ---------------------------------------------------

    /// Each whole step ends as the conforming step does, which is the step.
    fn end_alike(&mut self, all: &Outcomes, tally: &mut Tally) -> Agreed {
        let location = all.location;
        let own = self.own_records(Table::step_conforming, location);
        let labels = sorted(self.acted(&own)?);
        self.restart();
        let stepped = self.put(&Call::Step {
            location,
            room: COMPONENTS,
        })?;
        let after = self.table.state;
        self.restart();
        equal(
            "conforming step",
            &self.put(&conforming(location))?,
            &stepped,
        )?;
        equal("state after both", &(self.table.state == after), &true)?;
        self.keep();
        for one in &all.steps {
            let step = &one.step.step;
            let ended = self.ends_so(step, stepped, &labels);
            ended.map_err(|what| format!("{}: {what}", step.call()))?;
        }
        tally.steps += all.steps.len();
        match stepped {
            Err(number) => tally.full[usize::from(number == 18)] += 1,
            Ok(()) if all.is_unmarked() => tally.unmarked.count(all),
            Ok(()) => tally.marked += 1,
        }
        Ok(())
    }

    /// A whole step is accepted, or refused by a number, as the conforming step; it has
    /// the same labels, and gives the network kept, each component at its position with
    /// its wait, after the same messages.
    fn ends_so(&mut self, step: &WholeStep, stepped: Result<(), u32>, labels: &[Label]) -> Agreed {
        self.restart();
        equal("proposal", &self.whole_step(step)?, &stepped)?;
        if stepped.is_err() {
            return Ok(());
        }
        self.ends_the_same()?;
        equal(
            "components, waits and messages",
            &self.state()?,
            &self.kept()?,
        )?;
        let proposed = self.table.state;
        let acted = sorted(self.acted(&words_of(step))?);
        equal("labels", &acted.as_slice(), &labels)?;
        equal("its tick", &self.table.tick(step.location), &Ok(()))?;
        equal("state one by one", &(self.table.state == proposed), &true)
    }

    /// The labels of actions by the proved engine, from the start; they are left done.
    fn acted(&mut self, records: &[[u32; 3]]) -> Result<Vec<Label>, String> {
        self.restart();
        let mut acted = Vec::new();
        for [kind, p, q] in records {
            let label = self.table.action(*kind, *p as usize, *q as usize);
            acted.push(label.map_err(|number| format!("an action refused {number}"))?);
        }
        Ok(acted)
    }

    // --- where it does not ---------------------------------------------------

    /// The conforming step is refused. Two whole steps that differ, if there are such, are
    /// accepted and differ; a limit may refuse them.
    fn has_choice(&mut self, all: &Outcomes, tally: &mut Tally) -> Agreed {
        let refused = self.put(&conforming(all.location))?;
        equal("conforming step", &refused, &Err(26))?;
        let Some((two, choice)) = all.choice() else {
            tally.single += 1;
            return Ok(());
        };
        for one in two {
            self.keep();
            self.restart();
            if self.whole_step(&one.step.step)?.is_err() {
                return Ok(());
            }
        }
        let same = choice == Choice::OtherLabels;
        equal("same", &self.is_same()?, &same)?;
        if same {
            let [one, other] = two.map(|one| self.acted(&words_of(&one.step.step)));
            let differ = sorted(one?) != sorted(other?);
            equal("other labels", &differ, &true)?;
        }
        for (count, point) in tally.choices.iter_mut().zip(Variant::WITH_A_CHOICE) {
            *count += usize::from(all.conform_by(point));
        }
        Ok(())
    }
}

fn words_of(step: &WholeStep) -> Vec<[u32; 3]> {
    step.records.iter().map(|r| [r.kind, r.p, r.q]).collect()
}

fn sorted(mut labels: Vec<Label>) -> Vec<Label> {
    labels.sort();
    labels
}
