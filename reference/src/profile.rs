//! The single-outcome profile (document 02, R-13): when a location conforms.
//!
//! No `go` ready there has a timer above 0, and each channel has at most one sender
//! and at most one receiver ready there. Rights play no part in it, nor does the
//! edition; what is marked is not ready. `outcomes` has what is claimed of it.

use std::collections::HashSet;

use crate::rules::{hears_on, sends_on, Rules, Variant};
use crate::term::{Component, Edition, Part, Script, Timer};

impl Rules {
    /// Whether `location` conforms.
    pub fn conforms(self, script: &Script, components: &[Component], location: &str) -> bool {
        let marked = components.iter().any(|c| c.mark.is_some());
        if marked && self.is(Variant::MarkDoesNotConform) {
            return false;
        }
        let looked_at = |c| self.parts_of_profile(c, location);
        let parts: Vec<&Part> = components.iter().flat_map(looked_at).collect();
        let waits = |part: &&Part| self.may_wait(script, location, part);
        !parts.iter().any(waits) && self.each_has_one(script, location, &parts)
    }

    /// Whether no two of these parts send on one channel, and no two hear on one.
    fn each_has_one(self, script: &Script, location: &str, parts: &[&Part]) -> bool {
        let is_counted = |part: &&&Part| {
            !self.is(Variant::CountsOnlyWithRight) || self.may_act(script, location, part)
        };
        let counted = || parts.iter().filter(is_counted);
        let senders = counted().filter_map(|part| sends_on(part));
        let receivers = counted().filter_map(|part| hears_on(part));
        match self.variant {
            Variant::CountsBothTogether => all_differ(senders.chain(receivers)),
            Variant::SendersNotCounted => all_differ(receivers),
            Variant::ReceiversNotCounted => all_differ(senders),
            _ => all_differ(senders) && all_differ(receivers),
        }
    }

    /// The part of a component that is ready at `location`; nothing of another.
    fn parts_of_profile<'c>(self, component: &'c Component, location: &str) -> &'c [Part] {
        let is_ready = component.mark.is_none() || self.is(Variant::CountsMarked);
        let is_there = component.location == location || self.is(Variant::CountsElsewhere);
        if is_ready && is_there {
            &component.process.parts
        } else {
            &[]
        }
    }

    /// Whether a part is a `go` that does not have to fire.
    fn may_wait(self, script: &Script, location: &str, part: &Part) -> bool {
        let Part::Go { timer, .. } = part else {
            let calls = matches!(part, Part::Call { .. });
            return calls && self.is(Variant::CallDoesNotConform);
        };
        let has_right = || self.may_act(script, location, part);
        let is_above = *timer > Timer::Ticks(0);
        let by_two = script.edition == Edition::Two && *timer == Timer::Ticks(1);
        match self.variant {
            Variant::LateGoConforms => false,
            Variant::InfGoConforms => is_above && *timer != Timer::Inf,
            Variant::GoAtOneConformsUnderTwo => is_above && !by_two,
            Variant::LateGoWithoutRightConforms => is_above && has_right(),
            Variant::StuckGoDoesNotConform => is_above || !has_right(),
            _ => is_above,
        }
    }
}

fn all_differ<'p>(mut channels: impl Iterator<Item = &'p str>) -> bool {
    let mut met = HashSet::new();
    channels.all(|channel| met.insert(channel))
}
