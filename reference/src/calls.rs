//! The outward calls (document 01, *Actions*, *The tick at l*, *The other
//! calls*; document 02, R-1, R-3, R-9 and R-13), each with its questions in the order
//! of *Questions, asked downward*.
//!
//! A network goes in as a shared reference and a new one comes out, so that a
//! refusal leaves it as it was. Lent buffers are written only after the last
//! question.

use std::cmp::Ordering;

use crate::reading::{self, Limits, MOST_COMPONENTS};
use crate::refusal::{ask, Refusal};
use crate::rules::{hears_on, sends_on, Action, Label, Rules, Vanish, Variant};
use crate::term::{
    Component, Definition, Edition, Ledger, Network, Part, Process, Script, Settings, Timer,
};
use crate::writing;

/// An action as callers hand it in, of any content.
#[derive(Clone, Copy, Debug, PartialEq, Eq)]
pub struct Record {
    pub kind: u32,
    pub p: u32,
    pub q: u32,
}

impl Record {
    pub fn new(kind: u32, p: u32, q: u32) -> Record {
        Record { kind, p, q }
    }

    /// The record of an action; q is 0 for kinds 1 and 2.
    pub fn of(action: Action) -> Record {
        let number = |position: usize| position as u32;
        match action {
            Action::Call(p) => Record::new(1, number(p), 0),
            Action::Move(p) => Record::new(2, number(p), 0),
            Action::Communication(p, q) => Record::new(3, number(p), number(q)),
        }
    }
}

/// A label by the numbers of its names. Kind 1: the definition a is called.
/// Kind 2: the move to location a. Kind 3: location b is sent on channel a. It
/// fires at location `at`. Where there is no b it is 0, and of a refused action
/// all are.
#[derive(Clone, Copy, Debug, Default, PartialEq, Eq)]
pub struct Numbers {
    pub kind: u32,
    pub a: u32,
    pub b: u32,
    pub at: u32,
}

/// What a step returns beside the records in the lent buffer.
#[derive(Clone, Debug)]
pub struct Stepped {
    pub network: Network,
    /// One label for each record written.
    pub labels: Vec<Label>,
}

/// The step, or the conforming step.
pub type StepCall = fn(Engine, &Network, u32, &mut [Record]) -> Result<Stepped, Refusal>;

/// The locations where the tick is not allowed.
#[derive(Clone, Copy, Debug, PartialEq, Eq)]
pub struct Forced {
    /// Bit k stands for location number k.
    pub set: u64,
    pub count: u32,
    /// The lowest such location, or 64 for none.
    pub lowest: u32,
}

/// How long the senders of all messages had waited, on the whole: a quotient with
/// its remainder over the count, which is above 0.
#[derive(Clone, Copy, Debug, PartialEq, Eq)]
pub struct Mean {
    pub quotient: u32,
    pub remainder: u32,
    pub count: u32,
}

impl Mean {
    /// The nearest whole tick; exactly at the half the even one (document 02, R-9).
    pub fn rounded(self) -> u32 {
        let is_odd = self.quotient % 2 == 1;
        let up = match self.against_half() {
            Ordering::Less => false,
            Ordering::Equal => is_odd,
            Ordering::Greater => true,
        };
        self.quotient + u32::from(up)
    }

    /// How the fraction compares with a half.
    fn against_half(self) -> Ordering {
        let twice = 2 * u64::from(self.remainder);
        twice.cmp(&u64::from(self.count))
    }
}

/// The calls, by the right rules or by a wrong variant.
#[derive(Clone, Copy, Debug, Default)]
pub struct Engine {
    rules: Rules,
}

impl Engine {
    pub fn new(variant: Variant) -> Engine {
        Engine {
            rules: Rules { variant },
        }
    }

    /// Whether the rules are the right ones.
    pub fn is_right(self) -> bool {
        self.is(Variant::Right)
    }

    fn is(self, variant: Variant) -> bool {
        self.rules.variant == variant
    }

    /// Questions 21 and 1 to 7. The edition is given as a number.
    pub fn read(self, text: &[u8], settings: &Settings) -> Result<Network, Refusal> {
        reading::read(text, settings, Limits::On)
    }

    /// Questions 8 to 11, 20 and 18.
    pub fn action(self, network: &Network, record: Record) -> Result<(Network, Label), Refusal> {
        let mut working = Working::on(network);
        let action = self.questioned(&working, working.ledger, record)?;
        let label = self.take(&mut working, action)?;
        Ok((working.network(), label))
    }

    /// The label of an action that is not made: questions 8 to 11 and 20. Nothing is
    /// counted, so 18 is not asked.
    pub fn label(self, network: &Network, record: Record) -> Result<Label, Refusal> {
        let mut working = Working::on(network);
        let action = self.questioned(&working, Ledger::default(), record)?;
        self.take(&mut working, action)
    }

    /// The label of an action on a script, or of a refused one, by number.
    pub fn numbers(self, script: &Script, label: Option<&Label>) -> Numbers {
        let right = label.map_or(Numbers::default(), |label| numbered(script, label));
        match self.rules.variant {
            Variant::NumbersMoveWithB if right.kind == 2 => Numbers { b: 77, ..right },
            Variant::NumbersMeetingAsNine if right.kind == 3 => Numbers { kind: 9, ..right },
            Variant::NumbersRefusal if right.kind == 0 => Numbers { kind: 1, ..right },
            _ => right,
        }
    }

    /// Questions 8, 12, 13. The count of messages is not asked about.
    pub fn tick(self, network: &Network, location: u32) -> Result<Network, Refusal> {
        let location = location_name(network, location)?;
        if self.is(Variant::FullCountStopsTick) {
            ask(!is_full(network.ledger), Refusal::MessagesFull)?;
        }
        self.close(Working::on(network), location)
    }

    /// Questions 8, 15, 18, 13. Question 12 cannot come up: one pass upward leaves
    /// nothing that is forced, whichever input each output meets.
    pub fn step(
        self,
        network: &Network,
        location: u32,
        lent: &mut [Record],
    ) -> Result<Stepped, Refusal> {
        let location = location_name(network, location)?;
        let passed = self.pass(network, location)?;
        self.end_step(passed, location, lent)
    }

    /// Questions 8, 26 and then those of the step, which it is.
    pub fn conforming_step(
        self,
        network: &Network,
        location: u32,
        lent: &mut [Record],
    ) -> Result<Stepped, Refusal> {
        let location = self.location_of_profile(network, location)?;
        let passed = self.pass(network, location)?;
        if self.is(Variant::AsksProfileAfterRoom) {
            passed.fits(lent)?;
        }
        ask(
            self.may_step_conforming(network, &passed, location),
            Refusal::NotConforming,
        )?;
        let open = self.is(Variant::ConformingLeavesOutTick);
        let open = open.then(|| passed.working.clone().network());
        let stepped = self.end_step(passed, location, lent)?;
        let network = open.unwrap_or(stepped.network);
        Ok(Stepped { network, ..stepped })
    }

    /// Question 8 of a conforming step.
    fn location_of_profile(self, network: &Network, location: u32) -> Result<&str, Refusal> {
        let name = location_name(network, location);
        match self.rules.variant {
            Variant::AsksProfileBeforeRange => name.map_err(|_| Refusal::NotConforming),
            _ => name,
        }
    }

    /// Question 26 of a conforming step.
    fn may_step_conforming(self, network: &Network, passed: &Passed, location: &str) -> bool {
        let script = &network.script;
        match self.rules.variant {
            Variant::ConformingStepsAnywhere => true,
            Variant::AsksProfileOfWhatIsLeft => {
                let left = &passed.working.components;
                self.rules.conforms(script, left, location)
            }
            _ => self.rules.conforms(script, &network.components, location),
        }
    }

    /// Question 8. Whether a location conforms (document 02, R-13).
    pub fn conforms(self, network: &Network, location: u32) -> Result<bool, Refusal> {
        let location = location_name(network, location)?;
        let Network {
            script, components, ..
        } = network;
        let yes = self.rules.conforms(script, components, location);
        if self.is(Variant::TestRefuses) {
            ask(yes, Refusal::NotConforming)?;
        }
        Ok(yes)
    }

    /// What stands beside the number of a test: no, where it is refused.
    pub fn said(self, tested: Result<bool, Refusal>) -> bool {
        tested.unwrap_or(self.is(Variant::RefusedTestSaysYes))
    }

    /// The actions of a step, one pass upward.
    fn pass<'n>(self, network: &'n Network, location: &str) -> Result<Passed<'n>, Refusal> {
        let mut working = Working::on(network);
        let mut records = Vec::new();
        let mut labels = Vec::new();
        for position in 0..working.components.len() {
            if let Some(action) = self.choice(&working, position, location) {
                labels.push(self.take(&mut working, action)?);
                records.push(Record::of(action));
            }
        }
        Ok(Passed {
            working,
            records,
            labels,
        })
    }

    /// Questions 15, 18 and 13 of a step after its actions, and its tick.
    fn end_step(
        self,
        passed: Passed,
        location: &str,
        lent: &mut [Record],
    ) -> Result<Stepped, Refusal> {
        let room = passed.fits(lent);
        let Passed {
            working,
            records,
            labels,
        } = passed;
        let counted = ask(self.may_enter(&working), Refusal::MessagesFull);
        let closed = self.close(working, location);
        let network = match self.rules.variant {
            Variant::AsksCountBeforeRoom => counted.and(room).and(closed),
            Variant::AsksCountAfterSize => room.and(closed).and_then(|n| counted.and(Ok(n))),
            _ => room.and(counted).and(closed),
        }?;
        lent[..records.len()].copy_from_slice(&records);
        Ok(Stepped { network, labels })
    }

    /// Question 8 for the location; each action in turn 8 to 11, 20, 18 and 16; then
    /// 12 and 13.
    pub fn proposal(
        self,
        network: &Network,
        location: u32,
        records: &[Record],
    ) -> Result<(Network, Vec<Label>), Refusal> {
        let location = location_name(network, location)?;
        let mut working = Working::on(network);
        let mut labels = Vec::new();
        for record in records {
            let ledger = match self.rules.variant {
                Variant::AsksCountOfBefore => network.ledger,
                _ => working.ledger,
            };
            let asked = self.questioned(&working, ledger, *record);
            if self.asks_place_before(&asked) {
                let at = &working.components[record.p as usize].location;
                ask(at == location, Refusal::Elsewhere)?;
            }
            let label = self.take(&mut working, asked?)?;
            ask(label.at() == location, Refusal::Elsewhere)?;
            labels.push(label);
        }
        Ok((self.close(working, location)?, labels))
    }

    /// The mistake of asking 16 of a proposal's action before another question.
    fn asks_place_before(self, asked: &Result<Action, Refusal>) -> bool {
        match asked {
            Err(Refusal::NoRight) => self.is(Variant::AsksRightLast),
            Err(Refusal::MessagesFull) => self.is(Variant::AsksCountAfterPlace),
            _ => false,
        }
    }

    /// No question. The mean over all messages, or nothing if there were none.
    pub fn mean(self, network: &Network) -> Option<Mean> {
        let Ledger { total, messages } = network.ledger;
        let count = u64::from(messages);
        let quotient = total.checked_div(count)?;
        Some(Mean {
            quotient: quotient as u32,
            remainder: (total - quotient * count) as u32,
            count: messages,
        })
    }

    /// The whole tick that is printed for a mean.
    pub fn rounded(self, mean: Mean) -> u32 {
        let Mean {
            quotient,
            remainder,
            ..
        } = mean;
        let at_half = mean.against_half() == Ordering::Equal;
        match self.rules.variant {
            Variant::MeanRoundsDown => quotient,
            Variant::MeanRoundsUp => quotient + u32::from(remainder > 0),
            Variant::HalfGoesDown if at_half => quotient,
            Variant::HalfGoesUp if at_half => quotient + 1,
            Variant::HalfGoesToOdd if at_half => quotient + (quotient + 1) % 2,
            Variant::HalfByRemainder if at_half => quotient + remainder % 2,
            _ => mean.rounded(),
        }
    }

    /// Whether a mean is printed after a refusal too, which is a mistake.
    pub(crate) fn prints_mean_after_refusal(self) -> bool {
        self.is(Variant::MeanAfterRefusal)
    }

    /// What a refused call leaves: the network as it was.
    pub fn refuse(self, network: &mut Network) {
        network.ledger.messages += u32::from(self.is(Variant::CountsRefusals));
    }

    /// No question. A network read with limits has at most 64 locations; of
    /// one read without, only the first 64 are reported.
    pub fn forced(self, network: &Network) -> Forced {
        let mut set = 0u64;
        let working = Working::on(network);
        for (number, location) in network.script.locations.iter().take(64).enumerate() {
            if self.stops_tick(&working, location) {
                set |= 1 << number;
            }
        }
        Forced {
            set,
            count: set.count_ones(),
            lowest: set.trailing_zeros(),
        }
    }

    /// No question. Networks of different editions are not the same; rights, waits
    /// and messages are not compared.
    pub fn same(self, one: &Network, other: &Network) -> bool {
        let same = self.one_edition(one.script.edition, other.script.edition)
            && sorted_definitions(one) == sorted_definitions(other)
            && same_in_any_order(&one.components, &other.components);
        match self.rules.variant {
            Variant::SameLooksAtWaits => same && sorted_waits(one) == sorted_waits(other),
            Variant::SameLooksAtMessages => same && one.ledger == other.ledger,
            _ => same,
        }
    }

    fn one_edition(self, one: Edition, other: Edition) -> bool {
        one == other || self.is(Variant::SameAcrossEditions)
    }

    /// Questions 14 and 15. Gives the length of the text, which shows neither the
    /// edition nor the rights.
    pub fn write(self, network: &Network, lent: &mut [u8]) -> Result<usize, Refusal> {
        ask(all_unmarked(&network.components), Refusal::MarkedText)?;
        let text = writing::network(network);
        ask(text.len() <= lent.len(), Refusal::BufferShort)?;
        lent[..text.len()].copy_from_slice(text.as_bytes());
        Ok(text.len())
    }

    /// Questions 8 to 11, 20 and 18 for an action, after so many messages. Kinds 1
    /// and 2 do not look at q.
    fn questioned(
        self,
        working: &Working,
        ledger: Ledger,
        record: Record,
    ) -> Result<Action, Refusal> {
        let components = &working.components;
        let action = in_range(components, record).ok_or(Refusal::OutOfRange)?;
        let chosen: Vec<&Component> = action.positions().iter().map(|p| &components[*p]).collect();
        ask(all_unmarked(chosen.iter().copied()), Refusal::Marked)?;
        ask(of_forms(action, &chosen), Refusal::WrongForm)?;
        let script = &working.read.script;
        let met = ask(together(&chosen), Refusal::Apart);
        let right = ask(self.rules.has_right(script, chosen[0]), Refusal::NoRight);
        let meets = matches!(action, Action::Communication(..));
        let counted = ask(!meets || !is_full(ledger), Refusal::MessagesFull);
        let [first, second, third] = match self.rules.variant {
            Variant::AsksRightFirst => [right, met, counted],
            Variant::AsksCountBeforeRight => [met, counted, right],
            Variant::AsksCountBeforeMeeting => [counted, met, right],
            _ => [met, right, counted],
        };
        first.and(second).and(third).and(Ok(action))
    }

    /// Question 18 of a step, of which only the tick is left to be done.
    fn may_enter(self, working: &Working) -> bool {
        let [before, after] = [working.read.ledger, working.ledger];
        match self.rules.variant {
            Variant::FullCountStopsStep if is_full(before) => false,
            Variant::StepAsksForOneMessage => !is_full(before) || after == before,
            _ => after.messages <= Ledger::MOST_MESSAGES,
        }
    }

    /// Takes an action that the questions have let through.
    fn take(self, working: &mut Working, action: Action) -> Result<Label, Refusal> {
        let script = &working.read.script;
        let taken = self.rules.take(script, &mut working.components, action);
        let (label, message) = taken.ok_or(Refusal::WrongForm)?;
        working.ledger = self.rules.entered(working.ledger, message);
        Ok(label)
    }

    /// The forced test. How many messages there were plays no part in it.
    fn stops_tick(self, working: &Working, location: &str) -> bool {
        let script = &working.read.script;
        if self.is(Variant::FullCountFreesPair) && is_full(working.ledger) {
            let mut rest = working.components.clone();
            rest.retain(|c| c.ready_part().and_then(sends_on).is_none());
            return self.rules.forced(script, &rest, location);
        }
        self.rules.forced(script, &working.components, location)
    }

    /// The tick with questions 12 and 13.
    fn close(self, mut working: Working, location: &str) -> Result<Network, Refusal> {
        ask(!self.stops_tick(&working, location), Refusal::Forced)?;
        let script = &working.read.script;
        working.components =
            self.rules
                .tick(script, working.components, location, Vanish::OwnMarks);
        ask(
            working.components.len() <= MOST_COMPONENTS,
            Refusal::TableFull,
        )?;
        Ok(working.network())
    }

    /// What a step fires when its pass comes to `position`: an action that has
    /// its right.
    fn choice(self, working: &Working, position: usize, location: &str) -> Option<Action> {
        let Working {
            read: network,
            components,
            ..
        } = working;
        let script = &network.script;
        let part = components[position].ready_at(location)?;
        if !self.rules.lets_fire(script, location, part) {
            return None;
        }
        match part {
            Part::Call { .. } => Some(Action::Call(position)),
            Part::Go { timer, .. } if self.rules.is_due(script.edition, *timer) => {
                Some(Action::Move(position))
            }
            Part::Out { channel, .. } => {
                let partner = self.partner(&network.components, components, location, channel)?;
                Some(Action::Communication(position, partner))
            }
            _ => None,
        }
    }

    /// Document 02, R-3: of the inputs ready at the location on the channel the one
    /// with the least timer, and among equal timers the one that stands lowest.
    /// `first` are the components that the pass began with, which only a wrong
    /// variant asks.
    fn partner(
        self,
        first: &[Component],
        now: &[Component],
        location: &str,
        channel: &str,
    ) -> Option<usize> {
        let asked = match self.rules.variant {
            Variant::FiresReadyAtFirst => first,
            _ => now,
        };
        let any_channel = self.is(Variant::FiresLeastOfAnyChannel);
        let input = |component: &Component| match component.ready_at(location)? {
            Part::In {
                channel: heard,
                timer,
                ..
            } if heard == channel || any_channel => Some(*timer),
            _ => None,
        };
        let inputs = asked.iter().enumerate();
        let inputs = inputs.filter_map(|(position, c)| Some((position, input(c)?)));
        let (partner, _) = inputs.reduce(|lower, next| {
            if self.goes_before(next.1, lower.1) {
                next
            } else {
                lower
            }
        })?;
        let hears = now[partner].ready_at(location).and_then(hears_on);
        (hears == Some(channel)).then_some(partner)
    }

    /// Whether an input with a timer is chosen before one that stands lower.
    fn goes_before(self, timer: Timer, of_lower: Timer) -> bool {
        match self.rules.variant {
            Variant::FiresHighestOfEquals => !is_less(of_lower, timer),
            Variant::FiresLowestInput => false,
            Variant::FiresInfFirst if timer == Timer::Inf => of_lower != Timer::Inf,
            Variant::FiresInfFirst if of_lower == Timer::Inf => false,
            Variant::FiresGreatestTimer => is_less(of_lower, timer),
            _ => is_less(timer, of_lower),
        }
    }
}

/// A call under way: the network that it was put to, and what its actions have made
/// of it so far.
#[derive(Clone)]
struct Working<'n> {
    read: &'n Network,
    components: Vec<Component>,
    ledger: Ledger,
}

impl Working<'_> {
    fn on(network: &Network) -> Working<'_> {
        Working {
            read: network,
            components: network.components.clone(),
            ledger: network.ledger,
        }
    }

    fn network(self) -> Network {
        self.read.with(self.components).after(self.ledger)
    }
}

/// A step of which only the tick is left to be done.
struct Passed<'n> {
    working: Working<'n>,
    records: Vec<Record>,
    labels: Vec<Label>,
}

impl Passed<'_> {
    /// Question 15.
    fn fits(&self, lent: &[Record]) -> Result<(), Refusal> {
        ask(self.records.len() <= lent.len(), Refusal::BufferShort)
    }
}

/// Question 18 answered by no.
fn is_full(ledger: Ledger) -> bool {
    ledger.messages >= Ledger::MOST_MESSAGES
}

/// Numbers by their size; `inf` is greater than every number.
fn is_less(one: Timer, other: Timer) -> bool {
    match (one, other) {
        (Timer::Ticks(one), Timer::Ticks(other)) => one < other,
        (Timer::Ticks(_), Timer::Inf) => true,
        (Timer::Inf, _) => false,
    }
}

fn numbered(script: &Script, label: &Label) -> Numbers {
    let location = |name: &str| number(script.location(name));
    let at = location(label.at());
    let (kind, a, b) = match label {
        Label::Call { identifier, .. } => {
            let mut definitions = script.definitions.iter();
            let called = definitions.position(|d| d.identifier == *identifier);
            (1, number(called), 0)
        }
        Label::Move { target, .. } => (2, location(target), 0),
        Label::Communication { channel, value, .. } => {
            (3, number(script.channel(channel)), location(value))
        }
    };
    Numbers { kind, a, b, at }
}

/// The number of a name that the script holds.
fn number(found: Option<usize>) -> u32 {
    found.map_or(u32::MAX, |number| number as u32)
}

/// Question 8 for a location number.
fn location_name(network: &Network, location: u32) -> Result<&str, Refusal> {
    let number = usize::try_from(location).map_err(|_| Refusal::OutOfRange)?;
    network
        .script
        .locations
        .get(number)
        .map(String::as_str)
        .ok_or(Refusal::OutOfRange)
}

/// Questions 9 and 14.
fn all_unmarked<'c>(components: impl IntoIterator<Item = &'c Component>) -> bool {
    components.into_iter().all(|c| c.mark.is_none())
}

/// Question 10.
fn of_forms(action: Action, chosen: &[&Component]) -> bool {
    let parts: Vec<Option<&Part>> = chosen.iter().map(|c| c.ready_part()).collect();
    matches!(
        (action, parts.as_slice()),
        (Action::Call(_), [Some(Part::Call { .. })])
            | (Action::Move(_), [Some(Part::Go { .. })])
            | (
                Action::Communication(..),
                [Some(Part::Out { .. }), Some(Part::In { .. })]
            )
    )
}

/// Question 11, of components that passed question 10.
fn together(chosen: &[&Component]) -> bool {
    let [output, input] = chosen else {
        return true;
    };
    let sent = output.ready_part().and_then(sends_on);
    let heard = input.ready_part().and_then(hears_on);
    output.location == input.location && sent == heard
}

/// Question 8 for an action.
pub(crate) fn in_range(components: &[Component], record: Record) -> Option<Action> {
    let position = |number: u32| {
        let position = usize::try_from(number).ok()?;
        (position < components.len()).then_some(position)
    };
    match record.kind {
        1 => Some(Action::Call(position(record.p)?)),
        2 => Some(Action::Move(position(record.p)?)),
        3 => Some(Action::Communication(
            position(record.p)?,
            position(record.q)?,
        )),
        _ => None,
    }
}

fn sorted_definitions(network: &Network) -> Vec<&Definition> {
    let mut definitions: Vec<&Definition> = network.script.definitions.iter().collect();
    definitions.sort();
    definitions
}

/// Whether two lists hold equal components, each as often, whatever their waits.
pub fn same_in_any_order(one: &[Component], other: &[Component]) -> bool {
    sorted(one) == sorted(other)
}

fn sorted(components: &[Component]) -> Vec<(&str, Option<&str>, &Process)> {
    let mut sorted: Vec<_> = components.iter().map(Component::seen).collect();
    sorted.sort();
    sorted
}

fn sorted_waits(network: &Network) -> Vec<u32> {
    let mut waits: Vec<u32> = network.components.iter().map(|c| c.wait).collect();
    waits.sort_unstable();
    waits
}
