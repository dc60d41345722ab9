//! The rules (document 01, *Actions* and *The tick at l*; Table 2; document 02,
//!
//!
//! `fire` takes the components of an action and gives what they become, with
//! the label and, of a communication, how long its sender had waited; positions
//! play no part in it. The tick is a map from each
//! component to a list of components, with the test "whose marks vanish" as a
//! parameter. The right rules look at the script's edition in one place: when an
//! `in` or `out` takes its Q at a tick. They ask for rights in two: an action that
//! lacks its right does not fire, and stops no tick. Waits decide nothing, and the
//! rules do not know how many messages there were. Nothing here knows a limit.
//!
//! `Variant` puts a wrong rule in the place of a right one, to try whether a
//! comparison notices. Everything but such trials uses `Variant::Right`.

use std::collections::HashSet;
use std::fmt;
use std::mem;

use crate::term::{Component, Edition, Ledger, Part, Process, Script, Timer, Value};
use crate::writing::spelling;

/// The right rules, or rules with one mistake.
#[derive(Clone, Copy, Debug, Default, PartialEq, Eq)]
pub enum Variant {
    #[default]
    Right,
    /// Lets a tick time out a pair whose timers are both 0.
    TimesOutPairAtZero,
    /// Clears every owner's marks at any tick.
    ClearsAllMarks,
    /// Ticks what another location has marked.
    TicksMarkedByOthers,
    /// Puts a value under an inner binder of the same name.
    SubstitutesUnderBinder,
    /// Splits a marked process when it is marked.
    SplitsEarly,
    /// Marks a moved component with its target.
    MarksMoveWithTarget,
    /// Lets a step choose the highest of the inputs with the least timer.
    FiresHighestOfEquals,
    /// Lets a step choose the lowest ready input, whatever its timer.
    FiresLowestInput,
    /// Lets a step choose an input with `inf` before those with a number.
    FiresInfFirst,
    /// Lets a step choose the input with the greatest timer, `inf` above all.
    FiresGreatestTimer,
    /// Lets a step look for the least timer on all channels; an output meets that
    /// input or none.
    FiresLeastOfAnyChannel,
    /// Lets a step choose among the inputs that were ready when its pass began; one
    /// that has met an output is chosen again, and nothing fires.
    FiresReadyAtFirst,
    /// Leaves a Q of several parts in one component.
    ForgetsSplitOfQ,
    /// Lowers the timers of a Q in the tick that gives it.
    LowersFreshQ,
    /// Gives the label of a move in numbers a b of 77.
    NumbersMoveWithB,
    /// Gives the label of a communication in numbers the kind 9.
    NumbersMeetingAsNine,
    /// Gives a refused action a label in numbers.
    NumbersRefusal,
    /// Forces a `go` with timer 1 under edition 2, as if it were counted so too.
    ForcesGoAtOne,
    /// Gives the Q of a timer of 2 too under edition 2.
    TakesQAtTwo,
    /// Lowers a timer of 1 under edition 2, as under edition 1.
    LowersOneUnderTwo,
    /// Lets a tick under edition 2 time out a pair whose timers are at most 1.
    TimesOutPairAtOne,
    /// Gives the Q of a timer of 1 under edition 1, as under edition 2.
    TakesQAtOneUnderOne,
    /// Lowers the timers of a Q in the tick that gives it, under edition 2.
    LowersFreshQUnderTwo,
    /// Says that networks of different editions are the same.
    SameAcrossEditions,
    /// Looks up the right to leave in the target's row, for the location left.
    AsksLeaveAtTarget,
    /// Asks for a right to move to one's own location.
    OwnLocationNeedsRight,
    /// Lets a pair meet without the right to receive.
    ReceiveNotAsked,
    /// Lets a pair meet without the right to send.
    SendNotAsked,
    /// Looks up the right to send with the two numbers exchanged.
    RightsByTheOtherIndex,
    /// Lets a `go` with timer 0 stop the tick without its right.
    GoWithoutRightStopsTick,
    /// Lets a pair stop the tick without its right.
    PairWithoutRightStopsTick,
    /// Lets a step fire a `go` with timer 0 without its right.
    StepFiresWithoutRight,
    /// Lets a step fire a pair without its right.
    StepMeetsWithoutRight,
    /// Asks question 20 before 11, of the output.
    AsksRightFirst,
    /// Asks question 16 before 20 in a proposal.
    AsksRightLast,
    /// Gives the P of a `go` with timer 0 that lacks its right, at its location.
    StuckGoTakesP,
    /// Gives `stop` for a `go` with timer 0 that lacks its right.
    StuckGoStops,
    /// Keeps an `in` or `out` that lacks its right when it should take its Q.
    StuckPairKeepsTimer,
    /// Adds the receiver's wait to the total.
    AddsReceiversWait,
    /// Adds the sender's wait as the action leaves it, which is 0.
    AddsWaitAfterReset,
    /// Adds the waits of sender and receiver.
    AddsBothWaits,
    /// Keeps 32 bits of the total.
    TotalHas32Bits,
    /// Counts a move as a message.
    CountsMoves,
    /// Counts a refused call as a message.
    CountsRefusals,
    /// Lets a wait pass 1,000,000.
    WaitPassesLongest,
    /// Lets what is unmarked wait at the ticks of other locations too.
    WaitsAtEveryTick,
    /// Lets what another location has marked wait.
    MarkedWaits,
    /// Lets `stop` wait.
    StopWaits,
    /// Does not let wait what has `inf`.
    InfDoesNotWait,
    /// Does not let a `go` with timer 0 wait that lacks its right.
    StuckGoDoesNotWait,
    /// Gives each part of a Q the wait of what it takes the place of.
    QKeepsWait,
    /// Counts the tick that gives a Q as its first.
    QHasWaited,
    /// Keeps the wait of what a tick unmarks, which is 0 but in a table made by hand.
    UnmarkingKeepsWait,
    /// Counts the tick that unmarks a component as its first.
    UnmarkedHasWaited,
    /// Keeps the wait of what moves.
    MoveKeepsWait,
    /// Keeps the waits of what meets.
    MeetingKeepsWaits,
    /// Keeps the wait of a call, which is 0 but in a table made by hand.
    CallKeepsWait,
    /// Refuses every tick at a full count.
    FullCountStopsTick,
    /// Lets no pair stop a tick at a full count.
    FullCountFreesPair,
    /// Refuses a step without communications at a full count.
    FullCountStopsStep,
    /// Lets a step at a count that is not full have any number of communications.
    StepAsksForOneMessage,
    /// Asks question 18 of a step before 15.
    AsksCountBeforeRoom,
    /// Asks question 18 of a step after 13.
    AsksCountAfterSize,
    /// Asks question 18 before 20.
    AsksCountBeforeRight,
    /// Asks question 18 before 11.
    AsksCountBeforeMeeting,
    /// Asks question 18 after 16 in a proposal.
    AsksCountAfterPlace,
    /// Asks question 18 of each action of a proposal by the count before all of them.
    AsksCountOfBefore,
    /// Says that networks with other waits are not the same.
    SameLooksAtWaits,
    /// Says that networks after other messages are not the same.
    SameLooksAtMessages,
    /// Prints the mean without its fraction.
    MeanRoundsDown,
    /// Prints the next whole tick for a mean with a fraction.
    MeanRoundsUp,
    /// Prints a mean at the half without its fraction.
    HalfGoesDown,
    /// Prints the next whole tick for a mean at the half.
    HalfGoesUp,
    /// Prints the odd one of the two whole ticks that are nearest at the half.
    HalfGoesToOdd,
    /// Prints the next whole tick at the half where the remainder is odd.
    HalfByRemainder,
    /// Prints a mean after a refusal too.
    MeanAfterRefusal,
    /// Lets any number of receivers on a channel conform.
    ReceiversNotCounted,
    /// Lets any number of senders on a channel conform.
    SendersNotCounted,
    /// Counts senders and receivers on a channel together, of which one conforms.
    CountsBothTogether,
    /// Counts only the senders and receivers that have their right.
    CountsOnlyWithRight,
    /// Counts what is marked too, as if it were ready.
    CountsMarked,
    /// Lets no location conform in a network with a mark.
    MarkDoesNotConform,
    /// Counts what is ready at other locations too.
    CountsElsewhere,
    /// Does not let a ready call conform.
    CallDoesNotConform,
    /// Lets a `go` with a timer above 0 conform.
    LateGoConforms,
    /// Lets a `go` with `inf` conform, as if it were 0.
    InfGoConforms,
    /// Lets a `go` with timer 1 conform under edition 2, as if it were counted so too.
    GoAtOneConformsUnderTwo,
    /// Lets a `go` with a timer above 0 conform that lacks its right.
    LateGoWithoutRightConforms,
    /// Does not let a `go` with timer 0 conform that lacks its right.
    StuckGoDoesNotConform,
    /// Refuses the test of a location by 26 where it says no.
    TestRefuses,
    /// Says yes beside the number of a refused test.
    RefusedTestSaysYes,
    /// Asks question 26 before 8: nothing conforms out of range.
    AsksProfileBeforeRange,
    /// Asks question 26 after 15.
    AsksProfileAfterRoom,
    /// Asks question 26 of what the actions leave ready.
    AsksProfileOfWhatIsLeft,
    /// Lets a conforming step do what the step does at every location.
    ConformingStepsAnywhere,
    /// Leaves the tick out of a conforming step.
    ConformingLeavesOutTick,
}

impl Variant {
    /// The wrong choices of a step's partner: document 02, R-3.
    pub const WRONG_CHOICES: [Variant; 6] = [
        Variant::FiresHighestOfEquals,
        Variant::FiresLowestInput,
        Variant::FiresInfFirst,
        Variant::FiresGreatestTimer,
        Variant::FiresLeastOfAnyChannel,
        Variant::FiresReadyAtFirst,
    ];

    /// Every variant with a mistake that the answers to a list can show.
    pub const WRONG: [Variant; 34] = [
        Variant::TimesOutPairAtZero,
        Variant::ClearsAllMarks,
        Variant::TicksMarkedByOthers,
        Variant::SubstitutesUnderBinder,
        Variant::SplitsEarly,
        Variant::MarksMoveWithTarget,
        Variant::FiresHighestOfEquals,
        Variant::FiresLowestInput,
        Variant::FiresInfFirst,
        Variant::FiresGreatestTimer,
        Variant::FiresLeastOfAnyChannel,
        Variant::FiresReadyAtFirst,
        Variant::ForgetsSplitOfQ,
        Variant::LowersFreshQ,
        Variant::ForcesGoAtOne,
        Variant::TakesQAtTwo,
        Variant::LowersOneUnderTwo,
        Variant::TimesOutPairAtOne,
        Variant::TakesQAtOneUnderOne,
        Variant::LowersFreshQUnderTwo,
        Variant::AsksLeaveAtTarget,
        Variant::OwnLocationNeedsRight,
        Variant::ReceiveNotAsked,
        Variant::SendNotAsked,
        Variant::RightsByTheOtherIndex,
        Variant::GoWithoutRightStopsTick,
        Variant::PairWithoutRightStopsTick,
        Variant::StepFiresWithoutRight,
        Variant::StepMeetsWithoutRight,
        Variant::AsksRightFirst,
        Variant::AsksRightLast,
        Variant::StuckGoTakesP,
        Variant::StuckGoStops,
        Variant::StuckPairKeepsTimer,
    ];

    /// Every variant with a mistake in waits, messages or question 18 that the answers
    /// to a list can show: document 02, R-1.
    pub const WRONG_WAITS: [Variant; 31] = [
        Variant::AddsReceiversWait,
        Variant::AddsWaitAfterReset,
        Variant::AddsBothWaits,
        Variant::TotalHas32Bits,
        Variant::CountsMoves,
        Variant::CountsRefusals,
        Variant::WaitPassesLongest,
        Variant::WaitsAtEveryTick,
        Variant::MarkedWaits,
        Variant::StopWaits,
        Variant::InfDoesNotWait,
        Variant::StuckGoDoesNotWait,
        Variant::QKeepsWait,
        Variant::QHasWaited,
        Variant::UnmarkingKeepsWait,
        Variant::UnmarkedHasWaited,
        Variant::MoveKeepsWait,
        Variant::MeetingKeepsWaits,
        Variant::CallKeepsWait,
        Variant::FullCountStopsTick,
        Variant::FullCountFreesPair,
        Variant::FullCountStopsStep,
        Variant::StepAsksForOneMessage,
        Variant::AsksCountBeforeRoom,
        Variant::AsksCountAfterSize,
        Variant::AsksCountBeforeRight,
        Variant::AsksCountBeforeMeeting,
        Variant::AsksCountAfterPlace,
        Variant::AsksCountOfBefore,
        Variant::SameLooksAtWaits,
        Variant::SameLooksAtMessages,
    ];

    /// Every variant with a mistake in the mean that `timorun` prints, which only a
    /// comparison of printouts can notice.
    pub const WRONG_PRINTOUTS: [Variant; 7] = [
        Variant::MeanRoundsDown,
        Variant::MeanRoundsUp,
        Variant::HalfGoesDown,
        Variant::HalfGoesUp,
        Variant::HalfGoesToOdd,
        Variant::HalfByRemainder,
        Variant::MeanAfterRefusal,
    ];

    /// Every variant with a mistake in labels by number or beside the number of a
    /// refusal, which a comparison by letter cannot notice.
    pub const WRONG_NUMBERS: [Variant; 4] = [
        Variant::NumbersMoveWithB,
        Variant::NumbersMeetingAsNine,
        Variant::NumbersRefusal,
        Variant::RefusedTestSaysYes,
    ];

    /// Every variant with a mistake in what conforms: document 02, R-13.
    pub const WRONG_CONFORMING: [Variant; 13] = [
        Variant::ReceiversNotCounted,
        Variant::SendersNotCounted,
        Variant::CountsBothTogether,
        Variant::CountsOnlyWithRight,
        Variant::CountsMarked,
        Variant::MarkDoesNotConform,
        Variant::CountsElsewhere,
        Variant::CallDoesNotConform,
        Variant::LateGoConforms,
        Variant::InfGoConforms,
        Variant::GoAtOneConformsUnderTwo,
        Variant::LateGoWithoutRightConforms,
        Variant::StuckGoDoesNotConform,
    ];

    /// Those of them that leave one point of the condition out. What they let conform
    /// beside the right ones may have a choice.
    pub const WITH_A_CHOICE: [Variant; 3] = [
        Variant::LateGoConforms,
        Variant::SendersNotCounted,
        Variant::ReceiversNotCounted,
    ];

    /// Every variant with a mistake in what the two calls of the profile make of that
    /// and that the answers to a list can show.
    pub const WRONG_PROFILE: [Variant; 6] = [
        Variant::TestRefuses,
        Variant::AsksProfileBeforeRange,
        Variant::AsksProfileAfterRoom,
        Variant::AsksProfileOfWhatIsLeft,
        Variant::ConformingStepsAnywhere,
        Variant::ConformingLeavesOutTick,
    ];

    /// Every variant with a mistake in comparing networks of different editions,
    /// which the answers to a list cannot show: its networks have one edition.
    pub const WRONG_SAME: [Variant; 1] = [Variant::SameAcrossEditions];

    /// All of them that a list can show, but those of printouts.
    pub fn every_wrong() -> Vec<Variant> {
        [
            &Variant::WRONG[..],
            &Variant::WRONG_WAITS,
            &Variant::WRONG_CONFORMING,
            &Variant::WRONG_PROFILE,
            &Variant::WRONG_NUMBERS,
            &Variant::WRONG_SAME,
        ]
        .concat()
    }
}

/// An action with the positions of its components.
#[derive(Clone, Copy, Debug, PartialEq, Eq)]
pub enum Action {
    /// Kind 1.
    Call(usize),
    /// Kind 2.
    Move(usize),
    /// Kind 3: the output's position and the input's.
    Communication(usize, usize),
}

impl Action {
    pub fn kind(self) -> Kind {
        match self {
            Action::Call(_) => Kind::Call,
            Action::Move(_) => Kind::Move,
            Action::Communication(..) => Kind::Communication,
        }
    }

    /// The positions in the order in which `fire` wants the components.
    pub fn positions(self) -> Vec<usize> {
        match self {
            Action::Call(p) | Action::Move(p) => vec![p],
            Action::Communication(p, q) => vec![p, q],
        }
    }
}

#[derive(Clone, Copy, Debug, PartialEq, Eq)]
pub enum Kind {
    Call = 1,
    Move = 2,
    Communication = 3,
}

/// What an action did and where: `id@l`, `v@l` or `c<v>@l`.
#[derive(Clone, Debug, PartialEq, Eq, PartialOrd, Ord)]
pub enum Label {
    Call {
        identifier: String,
        at: String,
    },
    Move {
        target: String,
        at: String,
    },
    Communication {
        channel: String,
        value: String,
        at: String,
    },
}

impl Label {
    /// The location where the action fired.
    pub fn at(&self) -> &str {
        match self {
            Label::Call { at, .. } | Label::Move { at, .. } | Label::Communication { at, .. } => at,
        }
    }
}

impl fmt::Display for Label {
    fn fmt(&self, f: &mut fmt::Formatter<'_>) -> fmt::Result {
        match self {
            Label::Call { identifier, at } => write!(f, "{identifier}@{at}"),
            Label::Move { target, at } => write!(f, "{target}@{at}"),
            Label::Communication { channel, value, at } => write!(f, "{channel}<{value}>@{at}"),
        }
    }
}

/// Whose marks vanish at a tick: those of its location, or all as in Table 2.
#[derive(Clone, Copy, Debug, PartialEq, Eq)]
pub enum Vanish {
    OwnMarks,
    AllMarks,
}

/// The components after an action, in the order of those before it.
#[derive(Clone, Debug)]
pub struct Fired {
    pub components: Vec<Component>,
    pub label: Label,
    pub message: Message,
}

/// How long the sender of a communication had waited; nothing of another action.
pub type Message = Option<u64>;

#[derive(Clone, Copy, Debug, Default)]
pub struct Rules {
    pub variant: Variant,
}

impl Rules {
    pub(crate) fn is(self, variant: Variant) -> bool {
        self.variant == variant
    }

    // --- actions -------------------------------------------------------------

    /// Fires an action on its components, or gives nothing if it cannot fire.
    pub fn fire(self, script: &Script, kind: Kind, components: &[&Component]) -> Option<Fired> {
        let first = components.first()?;
        if !self.lets_fire(script, &first.location, first.ready_part()?) {
            return None;
        }
        let mut fired = match (kind, components) {
            (Kind::Call, [caller]) => self.call(script, caller),
            (Kind::Move, [mover]) => self.movement(mover),
            (Kind::Communication, [output, input]) => self.communication(output, input),
            _ => None,
        }?;
        if self.keeps_waits(kind) {
            for (after, before) in fired.components.iter_mut().zip(components) {
                after.wait = before.wait;
            }
        }
        Some(fired)
    }

    /// Fires an action at its positions and gives its label and its message.
    pub fn take(
        self,
        script: &Script,
        components: &mut Vec<Component>,
        action: Action,
    ) -> Option<(Label, Message)> {
        let positions = action.positions();
        let before: Option<Vec<&Component>> =
            positions.iter().map(|p| components.get(*p)).collect();
        let fired = self.fire(script, action.kind(), &before?)?;
        for (position, component) in positions.into_iter().zip(fired.components) {
            components[position] = component;
        }
        if self.is(Variant::SplitsEarly) {
            *components = mem::take(components).into_iter().flat_map(split).collect();
        }
        Some((fired.label, fired.message))
    }

    fn call(self, script: &Script, caller: &Component) -> Option<Fired> {
        let Part::Call {
            identifier,
            arguments,
        } = caller.ready_part()?
        else {
            return None;
        };
        let definition = script.definition(identifier)?;
        if definition.parameters.len() != arguments.len() {
            return None;
        }
        let names = definition.parameters.iter().map(String::as_str);
        let values: Values = names.zip(arguments).collect();
        let body = self.put(&values, &definition.body);
        let at = caller.location.clone();
        let label = Label::Call {
            identifier: identifier.clone(),
            at: at.clone(),
        };
        Some(Fired {
            components: vec![marked(&at, &at, body)],
            label,
            message: None,
        })
    }

    /// The mark's owner is the location that was left.
    fn movement(self, mover: &Component) -> Option<Fired> {
        let Part::Go { target, then, .. } = mover.ready_part()? else {
            return None;
        };
        let Value::Location(target) = target else {
            return None;
        };
        let at = mover.location.clone();
        let owner = if self.is(Variant::MarksMoveWithTarget) {
            target
        } else {
            &at
        };
        let moved = marked(target, owner, then.clone());
        Some(Fired {
            components: vec![moved],
            label: Label::Move {
                target: target.clone(),
                at,
            },
            message: self.is(Variant::CountsMoves).then_some(0),
        })
    }

    fn communication(self, output: &Component, input: &Component) -> Option<Fired> {
        let Part::Out {
            channel,
            value,
            then: sent,
            ..
        } = output.ready_part()?
        else {
            return None;
        };
        let Part::In {
            channel: heard,
            variable,
            then: received,
            ..
        } = input.ready_part()?
        else {
            return None;
        };
        if output.location != input.location || channel != heard {
            return None;
        }
        let at = output.location.clone();
        let received = self.put(&vec![(variable.as_str(), value)], received);
        let components = vec![marked(&at, &at, sent.clone()), marked(&at, &at, received)];
        let value = spelling(value).to_string();
        Some(Fired {
            components,
            label: Label::Communication {
                channel: channel.clone(),
                value,
                at,
            },
            message: Some(self.added(output, input)),
        })
    }

    // --- messages ------------------------------------------------------------

    /// What a communication adds to the total: the sender's wait.
    fn added(self, sender: &Component, receiver: &Component) -> u64 {
        let [sent, received] = [sender, receiver].map(|c| u64::from(c.wait));
        match self.variant {
            Variant::AddsReceiversWait => received,
            Variant::AddsWaitAfterReset => 0,
            Variant::AddsBothWaits => sent + received,
            _ => sent,
        }
    }

    /// The ledger after an action. No limit is asked for here.
    pub fn entered(self, ledger: Ledger, message: Message) -> Ledger {
        let Some(wait) = message else { return ledger };
        let total = ledger.total + wait;
        Ledger {
            total: if self.is(Variant::TotalHas32Bits) {
                total % (1 << 32)
            } else {
                total
            },
            messages: ledger.messages + 1,
        }
    }

    /// The mistake of not setting waits to 0 at an action.
    fn keeps_waits(self, kind: Kind) -> bool {
        self.is(match kind {
            Kind::Call => Variant::CallKeepsWait,
            Kind::Move => Variant::MoveKeepsWait,
            Kind::Communication => Variant::MeetingKeepsWaits,
        })
    }

    // --- rights --------------------------------------------------------------

    /// Question 20, whether an action has its right: that of the component itself
    /// or, in a communication, of the output. A call needs none.
    pub fn has_right(self, script: &Script, component: &Component) -> bool {
        let part = component.ready_part();
        part.is_none_or(|part| self.may_act(script, &component.location, part))
    }

    /// Whether a part ready at a location has the right to what it would do.
    pub(crate) fn may_act(self, script: &Script, location: &str, part: &Part) -> bool {
        match part {
            Part::Stop | Part::Call { .. } => true,
            Part::Go { target, .. } => self.may_leave(script, location, spelling(target)),
            Part::Out { channel, .. } | Part::In { channel, .. } => {
                self.may_meet(script, location, channel)
            }
        }
    }

    /// The right of the location that is left. One's own location needs none.
    fn may_leave(self, script: &Script, location: &str, target: &str) -> bool {
        if location == target && !self.is(Variant::OwnLocationNeedsRight) {
            return true;
        }
        let numbers = script.location(location).zip(script.location(target));
        numbers.is_none_or(|(from, to)| match self.variant {
            Variant::AsksLeaveAtTarget => script.rights.leave(to, from),
            _ => script.rights.leave(from, to),
        })
    }

    /// Both rights of the location for the channel.
    fn may_meet(self, script: &Script, location: &str, channel: &str) -> bool {
        let numbers = script.location(location).zip(script.channel(channel));
        numbers.is_none_or(|(l, c)| {
            let send = match self.variant {
                Variant::SendNotAsked => true,
                Variant::RightsByTheOtherIndex => script.rights.send(c, l),
                _ => script.rights.send(l, c),
            };
            send && (script.rights.receive(l, c) || self.is(Variant::ReceiveNotAsked))
        })
    }

    /// Whether a step or a rule lets a part ready at a location fire.
    pub(crate) fn lets_fire(self, script: &Script, location: &str, part: &Part) -> bool {
        let unasked = [
            Variant::StepFiresWithoutRight,
            Variant::StepMeetsWithoutRight,
        ];
        self.overlooks(unasked, part) || self.may_act(script, location, part)
    }

    /// Whether a part ready at a location counts for the forced test.
    fn counts(self, script: &Script, location: &str, part: &Part) -> bool {
        let unasked = [
            Variant::GoWithoutRightStopsTick,
            Variant::PairWithoutRightStopsTick,
        ];
        self.overlooks(unasked, part) || self.may_act(script, location, part)
    }

    /// The mistake of not asking for the right of a `go`, or of a pair.
    fn overlooks(self, [of_go, of_pair]: [Variant; 2], part: &Part) -> bool {
        match part {
            Part::Go { .. } => self.is(of_go),
            _ => self.is(of_pair),
        }
    }

    // --- substitution --------------------------------------------------------

    /// The process with values put for free names, all at once.
    pub(crate) fn put(self, values: &Values, process: &Process) -> Process {
        Process {
            parts: process
                .parts
                .iter()
                .map(|part| self.put_part(values, part))
                .collect(),
        }
    }

    fn put_part(self, values: &Values, part: &Part) -> Part {
        match part {
            Part::Stop => Part::Stop,
            Part::Go {
                timer,
                target,
                then,
            } => Part::Go {
                timer: *timer,
                target: put_value(values, target),
                then: self.put(values, then),
            },
            Part::Out {
                channel,
                timer,
                value,
                then,
                otherwise,
            } => Part::Out {
                channel: channel.clone(),
                timer: *timer,
                value: put_value(values, value),
                then: self.put(values, then),
                otherwise: self.put(values, otherwise),
            },
            Part::In {
                channel,
                timer,
                variable,
                then,
                otherwise,
            } => Part::In {
                channel: channel.clone(),
                timer: *timer,
                variable: variable.clone(),
                then: self.put(&self.under_binder(values, variable), then),
                otherwise: self.put(values, otherwise),
            },
            Part::Call {
                identifier,
                arguments,
            } => Part::Call {
                identifier: identifier.clone(),
                arguments: arguments
                    .iter()
                    .map(|value| put_value(values, value))
                    .collect(),
            },
        }
    }

    /// What is still put in where `variable` is bound anew.
    fn under_binder<'v>(self, values: &Values<'v>, variable: &str) -> Values<'v> {
        if self.is(Variant::SubstitutesUnderBinder) {
            return values.clone();
        }
        values
            .iter()
            .copied()
            .filter(|(name, _)| *name != variable)
            .collect()
    }

    // --- the tick ------------------------------------------------------------

    /// Whether a call, a communication or a move with timer 0 could fire at
    /// `location`; exactly then the tick there is not allowed. What lacks its right
    /// could not. The edition plays no part in it but in wrong variants.
    pub fn forced(self, script: &Script, components: &[Component], location: &str) -> bool {
        let edition = script.edition;
        let ready: Vec<&Part> = components
            .iter()
            .filter_map(|component| component.ready_at(location))
            .filter(|part| self.counts(script, location, part))
            .collect();
        ready.iter().any(|part| self.fires_alone(edition, part))
            || self.pair_could_meet(edition, &ready)
    }

    /// A call, or a move that can wait no longer.
    fn fires_alone(self, edition: Edition, part: &Part) -> bool {
        match part {
            Part::Call { .. } => true,
            Part::Go { timer, .. } => self.is_due(edition, *timer),
            _ => false,
        }
    }

    /// Whether a `go` with this timer can wait no longer.
    pub(crate) fn is_due(self, edition: Edition, timer: Timer) -> bool {
        let too_early = self.is(Variant::ForcesGoAtOne) && edition == Edition::Two;
        timer.is_zero() || too_early && timer == Timer::Ticks(1)
    }

    /// Timers play no part in it.
    fn pair_could_meet(self, edition: Edition, ready: &[&Part]) -> bool {
        if self.is(Variant::TimesOutPairAtZero) {
            return pair_above(0, ready);
        }
        if self.is(Variant::TimesOutPairAtOne) && edition == Edition::Two {
            return pair_above(1, ready);
        }
        let sent: HashSet<&str> = ready.iter().filter_map(|part| sends_on(part)).collect();
        ready
            .iter()
            .filter_map(|part| hears_on(part))
            .any(|channel| sent.contains(channel))
    }

    /// The network after the tick at `location`, which must be allowed.
    pub fn tick(
        self,
        script: &Script,
        components: Vec<Component>,
        location: &str,
        vanish: Vanish,
    ) -> Vec<Component> {
        self.tick_each(script, components, location, vanish)
            .flatten()
            .collect()
    }

    /// The same with what becomes of each component apart.
    pub fn tick_each<'t>(
        self,
        script: &'t Script,
        components: Vec<Component>,
        location: &'t str,
        vanish: Vanish,
    ) -> impl Iterator<Item = Vec<Component>> + 't {
        components
            .into_iter()
            .map(move |c| self.tick_component(script, c, location, vanish))
    }

    fn tick_component(
        self,
        script: &Script,
        c: Component,
        location: &str,
        vanish: Vanish,
    ) -> Vec<Component> {
        let all = vanish == Vanish::AllMarks || self.is(Variant::ClearsAllMarks);
        match &c.mark {
            None if c.location == location => self.tick_ready(script, c),
            None => vec![self.not_ticked(c, Variant::WaitsAtEveryTick)],
            Some(owner) if all || owner == location => split(self.unmarked(c)),
            Some(_) if c.location == location && self.is(Variant::TicksMarkedByOthers) => {
                vec![Component {
                    process: self.tick_all_parts(script, location, c.process),
                    ..c
                }]
            }
            Some(_) if c.location == location => vec![self.not_ticked(c, Variant::MarkedWaits)],
            Some(_) => vec![c],
        }
    }

    /// A component that this tick leaves as it is, or its wait longer by a mistake.
    fn not_ticked(self, mut component: Component, mistake: Variant) -> Component {
        if self.is(mistake) {
            component.wait = self.longer(component.wait);
        }
        component
    }

    /// A component that loses its mark. Its wait begins anew.
    fn unmarked(self, component: Component) -> Component {
        Component {
            mark: None,
            wait: match self.variant {
                Variant::UnmarkingKeepsWait => component.wait,
                Variant::UnmarkedHasWaited => 1,
                _ => 0,
            },
            ..component
        }
    }

    /// The wait after a tick that leaves a component its part: one more if the
    /// part has a timer, which the tick has lowered or kept.
    fn wait_after(self, component: &Component) -> u32 {
        let waits = match component.ready_part() {
            Some(Part::Stop) => self.is(Variant::StopWaits),
            Some(Part::Go { timer, .. }) if timer.is_zero() => {
                !self.is(Variant::StuckGoDoesNotWait)
            }
            Some(Part::Go { timer, .. } | Part::Out { timer, .. } | Part::In { timer, .. }) => {
                *timer != Timer::Inf || !self.is(Variant::InfDoesNotWait)
            }
            Some(Part::Call { .. }) | None => false,
        };
        if waits {
            self.longer(component.wait)
        } else {
            component.wait
        }
    }

    /// One tick more; a wait halts.
    fn longer(self, wait: u32) -> u32 {
        if self.is(Variant::WaitPassesLongest) {
            wait + 1
        } else {
            (wait + 1).min(Component::LONGEST_WAIT)
        }
    }

    /// The wait of each part of a Q that takes the place of a component.
    fn wait_of_q(self, component: &Component) -> u32 {
        match self.variant {
            Variant::QKeepsWait => component.wait,
            Variant::QHasWaited => 1,
            _ => 0,
        }
    }

    /// A component ready at the ticking location.
    fn tick_ready(self, script: &Script, mut component: Component) -> Vec<Component> {
        match self.timed_out(script, &mut component) {
            Some(otherwise) => {
                let given = Component {
                    process: otherwise,
                    wait: self.wait_of_q(&component),
                    ..component
                };
                if self.is(Variant::ForgetsSplitOfQ) {
                    vec![given]
                } else {
                    split(given)
                }
            }
            None => {
                component.wait = self.wait_after(&component);
                component.process.parts.iter_mut().for_each(lower);
                vec![component]
            }
        }
    }

    /// The Q of an `in` or `out` that has no tick left.
    fn timed_out(self, script: &Script, component: &mut Component) -> Option<Process> {
        let [part] = component.process.parts.as_mut_slice() else {
            return None;
        };
        let mut otherwise = self.expired_branch(script, &component.location, part)?;
        if self.lowers_fresh_q(script.edition) {
            otherwise.parts.iter_mut().for_each(lower);
        }
        Some(otherwise)
    }

    /// Takes the Q out of an `in` or `out` that has no tick left.
    fn expired_branch(self, script: &Script, at: &str, part: &mut Part) -> Option<Process> {
        let stuck = self.is(Variant::StuckPairKeepsTimer) && !self.may_act(script, at, part);
        match part {
            Part::Out {
                timer, otherwise, ..
            }
            | Part::In {
                timer, otherwise, ..
            } if *timer <= self.last_timer(script.edition) && !stuck => Some(taken_out(otherwise)),
            Part::Go { timer, then, .. } if timer.is_zero() => self.stuck_go(then),
            _ => None,
        }
    }

    /// The mistakes of replacing a `go` with timer 0 at a tick that is allowed, so
    /// that it lacks its right.
    fn stuck_go(self, then: &mut Process) -> Option<Process> {
        match self.variant {
            Variant::StuckGoTakesP => Some(taken_out(then)),
            Variant::StuckGoStops => Some(Process {
                parts: vec![Part::Stop],
            }),
            _ => None,
        }
    }

    /// The largest timer with which an `in` or `out` takes its Q.
    fn last_timer(self, edition: Edition) -> Timer {
        match (self.variant, edition) {
            (Variant::TakesQAtOneUnderOne, Edition::One) => Timer::Ticks(1),
            (Variant::LowersOneUnderTwo, Edition::Two) => Timer::Ticks(0),
            (Variant::TakesQAtTwo, Edition::Two) => Timer::Ticks(2),
            _ => edition.last_timer(),
        }
    }

    fn lowers_fresh_q(self, edition: Edition) -> bool {
        match self.variant {
            Variant::LowersFreshQ => true,
            Variant::LowersFreshQUnderTwo => edition == Edition::Two,
            _ => false,
        }
    }

    /// The mistake of ticking a marked process: every part is lowered or replaced
    /// by its Q.
    fn tick_all_parts(self, script: &Script, at: &str, mut process: Process) -> Process {
        let mut after = Vec::new();
        for mut part in mem::take(&mut process.parts) {
            match self.expired_branch(script, at, &mut part) {
                Some(mut otherwise) => after.append(&mut otherwise.parts),
                None => {
                    lower(&mut part);
                    after.push(part);
                }
            }
        }
        Process { parts: after }
    }
}

/// Names with the values put for them.
type Values<'v> = Vec<(&'v str, &'v Value)>;

fn put_value(values: &Values, value: &Value) -> Value {
    let Value::Variable(variable) = value else {
        return value.clone();
    };
    match values.iter().find(|(name, _)| name == variable) {
        Some((_, put)) => (*put).clone(),
        None => value.clone(),
    }
}

pub(crate) fn sends_on(part: &Part) -> Option<&str> {
    match part {
        Part::Out { channel, .. } => Some(channel),
        _ => None,
    }
}

pub(crate) fn hears_on(part: &Part) -> Option<&str> {
    match part {
        Part::In { channel, .. } => Some(channel),
        _ => None,
    }
}

/// The mistake of passing over a pair whose timers are both at most a number.
fn pair_above(ticks: u32, ready: &[&Part]) -> bool {
    let at_end = |part: &Part| match part {
        Part::Out { timer, .. } | Part::In { timer, .. } => *timer <= Timer::Ticks(ticks),
        _ => false,
    };
    ready.iter().any(|one| {
        ready.iter().any(|other| {
            sends_on(one).is_some()
                && sends_on(one) == hears_on(other)
                && !(at_end(one) && at_end(other))
        })
    })
}

/// What an action makes of a component; its wait begins anew.
fn marked(location: &str, owner: &str, process: Process) -> Component {
    Component {
        location: location.to_string(),
        mark: Some(owner.to_string()),
        process,
        wait: 0,
    }
}

/// An inner process, for which nothing is left.
fn taken_out(inner: &mut Process) -> Process {
    Process {
        parts: mem::take(&mut inner.parts),
    }
}

/// One component for each part, left to right.
fn split(mut component: Component) -> Vec<Component> {
    if component.process.parts.len() == 1 {
        return vec![component];
    }
    let parts = mem::take(&mut component.process.parts);
    let single = |part| Component {
        process: Process { parts: vec![part] },
        ..component.clone()
    };
    parts.into_iter().map(single).collect()
}

/// One tick less, where a part has a timer.
fn lower(part: &mut Part) {
    match part {
        Part::Go { timer, .. } | Part::Out { timer, .. } | Part::In { timer, .. } => {
            *timer = timer.less_one();
        }
        Part::Stop | Part::Call { .. } => {}
    }
}
