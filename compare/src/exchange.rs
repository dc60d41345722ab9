//! Two whole steps in either order through both engines (document 02, R-7): steps that
//! are drawn, as proposals, and the steps that the engine makes itself.
//!
//! What the claim is made of, and the same actions in the other order, are the reference
//! engine's; both engines perform them. The proved engine has limits, which the claim has
//! not: where they refuse the one order, they refuse the other.

use std::fmt;

use timo_reference::calls::Record;
use timo_reference::exchange::{self, two_locations, Form, Succession, Taking};
use timo_reference::lists::Call;
use timo_reference::random::Random;
use timo_reference::steps::{calls_before, Performed};

use crate::agree::{equal, Agreed};
use crate::both::{written, Both, Difference};
use crate::reading::Pair;
use crate::timo::{Table, COMPONENTS, LINE};

/// Networks to one script that steps start from, and pairs of steps to each.
const STARTS: usize = 3;
const PAIRS: usize = 4;

/// How many pairs of steps were exchanged by both engines, and which wrong forms of the
/// claim none has shown yet.
#[derive(Clone, Debug)]
pub struct Tally {
    pub drawn: exchange::Tally,
    /// The engine's own steps.
    pub own: exchange::Tally,
    /// Of which the claim is not made.
    pub turned_away: usize,
    /// Refused in both orders by 13, and by 18.
    pub full: [usize; 2],
    /// Exchanged with other waits or positions, as another of equal components was taken.
    pub other_waits: usize,
    pub unnoticed: Vec<Form>,
}

impl Default for Tally {
    fn default() -> Tally {
        Tally {
            drawn: exchange::Tally::default(),
            own: exchange::Tally::default(),
            turned_away: 0,
            full: [0; 2],
            other_waits: 0,
            unnoticed: Form::WRONG.to_vec(),
        }
    }
}

impl Tally {
    /// Whether there was something of every sort; of the two limits one is enough.
    pub fn is_everywhere(&self) -> bool {
        let counts = [
            self.drawn.fewest(),
            self.own.all,
            self.turned_away,
            self.full[0] + self.full[1],
            self.other_waits,
        ];
        counts.iter().all(|count| *count > 0)
    }
}

impl fmt::Display for Tally {
    fn fmt(&self, f: &mut fmt::Formatter<'_>) -> fmt::Result {
        write!(
            f,
            "{}; {} times another of equal ones was taken and waits or positions differ; \
             {} turned away, refused in both orders {} by 13 and {} by 18; \
             {} of own steps; {} of {} wrong forms told apart",
            self.drawn,
            self.other_waits,
            self.turned_away,
            self.full[0],
            self.full[1],
            self.own.all,
            Form::WRONG.len() - self.unnoticed.len(),
            Form::WRONG.len()
        )
    }
}

/// Pairs of steps from some networks that a script comes to.
pub fn exchange(random: &mut Random, read: &Pair, tally: &mut Tally) -> Result<(), Difference> {
    for _ in 0..STARTS {
        let (calls, network) = calls_before(random, &read.network);
        let differs = |steps: Vec<Call>| {
            let calls = calls.clone();
            move |what| Difference { calls, steps, what }
        };
        let mut both = Both::after(read, &calls).map_err(differs(Vec::new()))?;
        for _ in 0..PAIRS {
            let at = two_locations(random, &network);
            let Some(pair) = Succession::draw(random, &network, at) else {
                continue;
            };
            let steps = pair.steps.iter().map(|step| step.step.call()).collect();
            both.drawn(&pair, tally).map_err(differs(steps))?;
            let steps = at.map(own_step).to_vec();
            both.own(at, tally).map_err(differs(steps))?;
        }
    }
    Ok(())
}

/// A step that the engine makes itself, with room for all its records.
fn own_step(location: u32) -> Call {
    Call::Step {
        location,
        room: COMPONENTS,
    }
}

impl Both {
    // --- two steps -----------------------------------------------------------

    /// Two steps as proposals from the start: accepted, or the number of the refusal.
    fn perform(&mut self, steps: &[Performed; 2]) -> Result<Result<(), u32>, String> {
        self.restart();
        for performed in steps {
            let theirs = performed.labels().into_iter();
            let theirs: Vec<String> = theirs.map(ToString::to_string).collect();
            equal("labels", &self.labels(&performed.step)?, &theirs)?;
            if let Err(number) = self.whole_step(&performed.step)? {
                return Ok(Err(number));
            }
        }
        Ok(Ok(()))
    }

    /// Two steps that the rules allow: as they were drawn, and in the other order where
    /// that is claimed.
    pub fn drawn(&mut self, pair: &Succession, tally: &mut Tally) -> Agreed {
        let in_order = self.perform(&pair.steps)?;
        self.keep();
        if in_order.is_ok() {
            let components = &self.network.components;
            equal("components in the end", components, &pair.components)?;
            self.try_wrong_forms(pair, tally)?;
        }
        if !Form::Right.admits(pair) {
            tally.turned_away += 1;
            return Ok(());
        }
        for taking in Taking::ALL {
            let other = Form::Right.exchange(pair, taking);
            let other = other.map_err(|broken| broken.to_string())?;
            let exchanged = self.perform(&other.steps)?;
            let what = "accepted in both orders";
            equal(what, &exchanged.is_ok(), &in_order.is_ok())?;
            if in_order.is_ok() {
                self.ends_the_same()?;
                tally.other_waits += usize::from(!self.ends_alike(taking)?);
            }
        }
        match in_order {
            Ok(()) => tally.drawn.count(pair),
            Err(number) => tally.full[usize::from(number == 18)] += 1,
        }
        Ok(())
    }

    /// Whether the same components stand at each position, with the same waits, after
    /// the same messages. They do if the very same components were taken.
    fn ends_alike(&self, taking: Taking) -> Result<bool, String> {
        let ended = self.kept()?;
        let now = self.state()?;
        if taking == Taking::TheSame {
            equal("components, waits and messages", &now, &ended)?;
        }
        equal("count of messages", &now.1.messages, &ended.1.messages)?;
        Ok(now == ended)
    }

    // --- the engine's own steps ----------------------------------------------

    /// The steps that the engine makes itself at two locations, in both orders: the same
    /// labels, and the same components at each position, with the same waits.
    pub fn own(&mut self, at: [u32; 2], tally: &mut Tally) -> Agreed {
        let Some(pair) = self.own_steps(at)? else {
            return Ok(());
        };
        self.keep();
        self.restart();
        let [first, second] = at;
        let admitted = Form::Right.admits(&pair);
        let ours = self.table.may_exchange(first, second);
        equal("may be exchanged", &ours.unwrap_or(false), &admitted)?;
        if !admitted {
            return Ok(());
        }
        let Some(other) = self.own_steps([second, first])? else {
            return Err("own steps refused in the other order".to_string());
        };
        for (one, again) in pair.steps.iter().zip(other.steps.iter().rev()) {
            equal("labels of own steps", &one.labels(), &again.labels())?;
        }
        self.ends_the_same()?;
        self.ends_alike(Taking::TheSame)?;
        tally.own.count(&pair);
        Ok(())
    }

    /// By both from the start; nothing if a limit refuses one.
    fn own_steps(&mut self, at: [u32; 2]) -> Result<Option<Succession>, String> {
        self.restart();
        let theirs = Succession::of_own_steps(&self.network, at);
        for (k, location) in at.into_iter().enumerate() {
            let ours = written(LINE, |lent| self.table.step_line(location, lent));
            let records = self.own_records(Table::step, location);
            if self.put(&own_step(location))?.is_err() {
                equal("own steps refused", &true, &theirs.is_none())?;
                return Ok(None);
            }
            let Some(pair) = &theirs else { continue };
            let step = &pair.steps[k];
            equal("line of a step", &ours, &Ok(line(step)))?;
            let theirs: Vec<[u32; 3]> = step.step.records.iter().map(words_of).collect();
            equal("records", &records, &theirs)?;
        }
        equal("own steps accepted", &true, &theirs.is_some())?;
        Ok(theirs)
    }

    // --- wrong forms of the claim --------------------------------------------

    /// Strikes out those that two steps tell apart by both engines. The network of the
    /// two steps in their order is kept.
    fn try_wrong_forms(&mut self, pair: &Succession, tally: &mut Tally) -> Agreed {
        let mut unnoticed = Vec::new();
        for form in tally.unnoticed.drain(..) {
            let noticed = self.tells_apart(form, pair)?;
            let theirs = form.judge(pair, Taking::FirstEqual).is_err();
            equal(&format!("{form:?} told apart"), &noticed, &theirs)?;
            if !noticed {
                unnoticed.push(form);
            }
        }
        tally.unnoticed = unnoticed;
        Ok(())
    }

    fn tells_apart(&mut self, form: Form, pair: &Succession) -> Result<bool, String> {
        if form.admits(pair) {
            Ok(!self.exchanges_by(form, pair)?)
        } else {
            Ok(Form::Right.admits(pair))
        }
    }

    /// Whether a form's claim holds: the actions in the other order one by one, each on
    /// the first equal components, with the form's ticks, are accepted and give the same
    /// network.
    fn exchanges_by(&mut self, form: Form, pair: &Succession) -> Result<bool, String> {
        self.restart();
        let actions = pair.steps.iter().rev();
        for (step, ticking) in actions.zip(form.ticks(pair)) {
            for firing in &step.firings {
                let Some(action) = firing.on_first_equal(&self.network.components) else {
                    return Ok(false);
                };
                if self.put(&Call::Action(Record::of(action)))?.is_err() {
                    return Ok(false);
                }
            }
            if self.put(&Call::Tick(ticking.step.location))?.is_err() {
                return Ok(false);
            }
        }
        self.is_same()
    }
}

/// The line of a step.
fn line(step: &Performed) -> String {
    let labels = step.labels().into_iter();
    let labels: String = labels.map(|label| format!(" {label}")).collect();
    format!("{}{labels}\n", step.location)
}

fn words_of(record: &Record) -> [u32; 3] {
    [record.kind, record.p, record.q]
}
