//! Whole steps at two locations in either order (document 02, R-7), and what is
//! claimed of them.
//!
//! Two whole steps are performed one after the other by the rules, which know no
//! limit. The claim is made of those that start from an unmarked network, at two
//! locations, neither moving a component to the other's location: the same actions
//! make whole steps in the other order too, and the same network results. The same
//! actions are as many, of the same kinds, on equal components as they stood before
//! each action, in the same order. Which of several equal components is taken is free.
//!
//! Each component is known by the position in the first network of the one that it comes
//! from. So the very same components can be taken in the other order, and then the same
//! components stand at each position in the end, with the same waits. If others are
//! taken, waits may differ.
//!
//! `Form` puts a wrong form of the claim in the place of the right one, to try whether
//! a comparison notices.

use std::fmt;

use crate::calls::{same_in_any_order, Record};
use crate::random::Random;
use crate::rules::{Kind, Rules};
use crate::steps::{any_location, drawn_step, own_step, Firing, Performed, WholeStep, Working};
use crate::tally::{self, Sort, Sorted};
use crate::term::{Component, Edition, Network, Part, Script};
use crate::writing::spelling;

/// Two whole steps, one after the other, that the rules have performed from a network.
#[derive(Clone, Debug)]
pub struct Succession {
    pub before: Network,
    pub steps: [Performed; 2],
    /// The components in the end.
    pub components: Vec<Component>,
}

impl Succession {
    /// Both steps, if the rules allow them.
    pub fn perform(before: &Network, steps: [&WholeStep; 2]) -> Option<Succession> {
        let mut working = Working::on(before);
        let [first, second] = steps.map(|step| working.perform(step));
        Some(Succession {
            before: before.clone(),
            steps: [first?, second?],
            components: working.components,
        })
    }

    /// Whole steps at two locations that are drawn, by the rules: optional moves and any
    /// partner among them.
    pub fn draw(random: &mut Random, before: &Network, at: [u32; 2]) -> Option<Succession> {
        let [first, second] = at;
        let first = drawn_step(random, before, first)?;
        let mut working = Working::on(before);
        working.perform(&first)?;
        let between = before.with(working.components);
        let second = drawn_step(random, &between, second)?;
        Succession::perform(before, [&first, &second])
    }

    /// The steps that the engine makes itself at two locations, if none is refused.
    pub fn of_own_steps(before: &Network, at: [u32; 2]) -> Option<Succession> {
        let [first, second] = at;
        let (first, between) = own_step(before, first)?;
        let (second, _) = own_step(&between, second)?;
        Succession::perform(before, [&first, &second])
    }

    pub fn script(&self) -> &Script {
        &self.before.script
    }

    /// The network in the end. Messages are not counted here.
    pub fn after(&self) -> Network {
        self.before.with(self.components.clone())
    }

    fn locations(&self) -> [&str; 2] {
        let [first, second] = &self.steps;
        [&first.location, &second.location]
    }

    /// Whether equal components stand at each position in the end, with equal waits.
    pub fn ends_alike(&self, other: &Succession) -> bool {
        self.components == other.components
    }

    // --- what may happen in it -----------------------------------------------

    /// Whether a component with several parts was split.
    fn splits(&self) -> bool {
        self.components.len() > self.before.components.len()
    }

    fn fires(&self, kind: Kind) -> bool {
        self.steps.iter().any(|step| step.fires(kind))
    }

    fn targets(&self) -> impl Iterator<Item = (&str, &str)> {
        let firings = self.steps.iter().flat_map(|step| &step.firings);
        firings.filter_map(|firing| Some((firing.label.at(), firing.target()?)))
    }

    fn moves_to_its_own(&self) -> bool {
        self.targets().any(|(at, target)| at == target)
    }

    fn moves_to_a_third(&self) -> bool {
        let both = self.locations();
        self.targets().any(|(_, target)| !both.contains(&target))
    }

    fn moves_early(&self) -> bool {
        let mut firings = self.steps.iter().flat_map(|step| &step.firings);
        firings.any(Firing::is_optional)
    }

    /// The components that stand in the end as a `go` at one of the two locations for
    /// the other.
    fn standing(&self) -> impl Iterator<Item = &Component> {
        let [first, second] = self.locations();
        let goes = |c: &Component, at: &str, other: &str| match c.ready_at(at) {
            Some(Part::Go { target, .. }) => spelling(target) == other,
            _ => false,
        };
        let stands = move |c: &&Component| goes(c, first, second) || goes(c, second, first);
        self.components.iter().filter(stands)
    }

    fn leaves_go_standing(&self) -> bool {
        self.standing().next().is_some()
    }

    fn leaves_go_without_right(&self) -> bool {
        self.standing().any(|c| self.lacks_right(c))
    }

    /// Whether something at one of the two locations lacks its right in the end.
    fn withholds(&self) -> bool {
        let both = self.locations();
        let mut there = self.components.iter();
        there.any(|c| both.contains(&c.location.as_str()) && self.lacks_right(c))
    }

    fn lacks_right(&self, component: &Component) -> bool {
        !Rules::default().has_right(self.script(), component)
    }

    fn is_under(&self, edition: Edition) -> bool {
        self.script().edition == edition
    }
}

impl Working<'_> {
    /// The actions of a step once more, without its tick.
    fn repeat(&mut self, step: &Performed, taking: Taking) -> Result<Performed, Broken> {
        let mut records = Vec::new();
        let mut firings = Vec::new();
        for firing in &step.firings {
            let action = firing.on(|wanted, origin| self.find(wanted, origin, taking));
            let action = action.ok_or(Broken::NoComponents)?;
            let again = self.fire(action).ok_or(Broken::CannotFire)?;
            if again.label != firing.label {
                return Err(Broken::OtherLabel);
            }
            records.push(Record::of(action));
            firings.push(again);
        }
        let location = step.step.location;
        Ok(Performed {
            step: WholeStep { location, records },
            location: step.location.clone(),
            firings,
        })
    }

    /// The position of a component equal to the one wanted.
    fn find(&self, wanted: &Component, origin: usize, taking: Taking) -> Option<usize> {
        let all = 0..self.components.len();
        let mut equal = all.filter(|p| self.components[*p].is_equal(wanted));
        match taking {
            Taking::FirstEqual => equal.next(),
            Taking::LastEqual => equal.next_back(),
            Taking::TheSame => equal.find(|p| self.origins[*p] == origin),
        }
    }
}

/// Which of several equal components an action takes in the other order.
#[derive(Clone, Copy, Debug, PartialEq, Eq)]
pub enum Taking {
    FirstEqual,
    LastEqual,
    /// The one that comes from the same component of the first network.
    TheSame,
}

impl Taking {
    pub const ALL: [Taking; 3] = [Taking::FirstEqual, Taking::LastEqual, Taking::TheSame];
}

/// A point of the claim that does not hold.
#[derive(Clone, Copy, Debug, PartialEq, Eq)]
pub enum Broken {
    /// Two steps of which the claim is made are turned away.
    TurnedAway,
    /// In the other order an action finds no components equal to its own.
    NoComponents,
    /// An action cannot fire in the other order.
    CannotFire,
    /// An action has another label in the other order.
    OtherLabel,
    /// The rules do not allow a tick in the other order.
    Tick,
    /// Another network results.
    OtherNetwork,
}

impl fmt::Display for Broken {
    fn fmt(&self, f: &mut fmt::Formatter<'_>) -> fmt::Result {
        f.write_str(match self {
            Broken::TurnedAway => "two steps turned away that may be exchanged",
            Broken::NoComponents => "no components equal to those of an action",
            Broken::CannotFire => "an action cannot fire in the other order",
            Broken::OtherLabel => "an action has another label in the other order",
            Broken::Tick => "tick not allowed in the other order",
            Broken::OtherNetwork => "another network in the other order",
        })
    }
}

/// The right form of the claim, or one with a mistake.
#[derive(Clone, Copy, Debug, PartialEq, Eq)]
pub enum Form {
    Right,
    /// Overlooks moves of the first step to the second's location.
    FirstMayMove,
    /// Overlooks moves of the second step to the first's location.
    SecondMayMove,
    /// Does not ask that the locations are different.
    OneLocation,
    /// Does not ask that the first network is unmarked.
    MarksMayStand,
    /// Exchanges the actions, and leaves the ticks in their order.
    TicksStay,
    /// Turns two steps away if a `go` for the other location is left standing.
    StandingGoCounts,
    /// Turns two steps away if one moves a component to its own location.
    OwnLocationCounts,
    /// Turns two steps away if one moves a component to a third location.
    ThirdLocationCounts,
}

impl Form {
    /// Every form with a mistake.
    pub const WRONG: [Form; 8] = [
        Form::FirstMayMove,
        Form::SecondMayMove,
        Form::OneLocation,
        Form::MarksMayStand,
        Form::TicksStay,
        Form::StandingGoCounts,
        Form::OwnLocationCounts,
        Form::ThirdLocationCounts,
    ];

    /// Whether the claim is made of two steps.
    pub fn admits(self, pair: &Succession) -> bool {
        let [first, second] = &pair.steps;
        let unmarked = pair.before.components.iter().all(|c| c.mark.is_none());
        (unmarked || self == Form::MarksMayStand)
            && (first.location != second.location || self == Form::OneLocation)
            && (!first.moves_to(&second.location) || self == Form::FirstMayMove)
            && (!second.moves_to(&first.location) || self == Form::SecondMayMove)
            && !self.turns_away(pair)
    }

    /// The mistakes of asking for more.
    fn turns_away(self, pair: &Succession) -> bool {
        match self {
            Form::StandingGoCounts => pair.leaves_go_standing(),
            Form::OwnLocationCounts => pair.moves_to_its_own(),
            Form::ThirdLocationCounts => pair.moves_to_a_third(),
            _ => false,
        }
    }

    /// The steps whose ticks follow the actions of the second step and of the first.
    pub fn ticks(self, pair: &Succession) -> [&Performed; 2] {
        let [first, second] = &pair.steps;
        match self {
            Form::TicksStay => [first, second],
            _ => [second, first],
        }
    }

    /// The same actions in the other order from the same network, if that is allowed
    /// and gives the same network.
    pub fn exchange(self, pair: &Succession, taking: Taking) -> Result<Succession, Broken> {
        let [first, second] = &pair.steps;
        let [early, late] = self.ticks(pair);
        let mut working = Working::on(&pair.before);
        let second = working.repeat(second, taking)?;
        working.tick(&early.location).ok_or(Broken::Tick)?;
        let first = working.repeat(first, taking)?;
        working.tick(&late.location).ok_or(Broken::Tick)?;
        if !same_in_any_order(&working.components, &pair.components) {
            return Err(Broken::OtherNetwork);
        }
        Ok(Succession {
            before: pair.before.clone(),
            steps: [second, first],
            components: working.components,
        })
    }

    /// The claim for two steps: nothing where it is not made, else the steps in the
    /// other order.
    pub fn judge(self, pair: &Succession, taking: Taking) -> Result<Option<Succession>, Broken> {
        if self.admits(pair) {
            self.exchange(pair, taking).map(Some)
        } else if Form::Right.admits(pair) {
            Err(Broken::TurnedAway)
        } else {
            Ok(None)
        }
    }
}

/// Two locations, mostly different ones.
pub fn two_locations(random: &mut Random, network: &Network) -> [u32; 2] {
    let first = any_location(random, network);
    let drawn = [(); 4].map(|()| any_location(random, network));
    let other = drawn.into_iter().find(|second| *second != first);
    [first, other.unwrap_or(first)]
}

// --- how many there were -------------------------------------------------------

/// How many pairs of steps were exchanged, of each sort.
pub type Tally = tally::Tally<Succession>;

impl Sorted for Succession {
    const NAME: &'static str = "exchanged";
    const SORTS: &'static [Sort<Succession>] = &[
        ("under edition 1", |pair| pair.is_under(Edition::One)),
        ("under edition 2", |pair| pair.is_under(Edition::Two)),
        ("with a call", |pair| pair.fires(Kind::Call)),
        ("a communication", |pair| pair.fires(Kind::Communication)),
        ("a split", Succession::splits),
        ("a move to a third location", Succession::moves_to_a_third),
        ("one to its own", Succession::moves_to_its_own),
        ("one before its time", Succession::moves_early),
        (
            "a `go` left standing for the other location",
            Succession::leaves_go_standing,
        ),
        (
            "one that lacks its right",
            Succession::leaves_go_without_right,
        ),
        ("anything that lacks its right", Succession::withholds),
    ];
}
