//! A script and a list of calls through both engines, under an edition and with
//! rights.

use timo_reference::calls::{Engine, Numbers, Record};
use timo_reference::generate::call_list;
use timo_reference::lists::Call;
use timo_reference::random::Random;
use timo_reference::runs::{Broken, Run};
use timo_reference::term::{Component, Ledger, Network};
use timo_reference::writing;

use crate::agree::{equal, Agreed};
use crate::alike;
use crate::both::{Stepping, CONFORMING, STEP};
use crate::reading::{self, settings_of, Pair};
use crate::table;
use crate::timo::{self, Comp, Mean, Settings, Table};

const BLANK: [u32; 3] = [77; 3];
const BLANK_BYTE: u8 = b'#';
/// What is past the components in use, in the spare words of each and behind the
/// messages.
const PAST: Comp = Comp {
    loc: 70,
    mark: 71,
    place: 72,
    timer: 73,
    vals: [74; 8],
    wait: 2_000_000,
    spare: SPARE,
};
const SPARE: [u32; 3] = [76, 77, 78];
const BEHIND: [u32; 13] = [79; 13];
/// Calls on a network made by hand.
const ANY_CALLS: usize = 12;

/// How many calls were accepted and refused by both, how many of these for want of
/// a right and by a full count, how many messages had waited and how many were counted
/// past 32 bits, how many pairs of networks are the same and not the same by both, and
/// what both said of the profile.
#[derive(Clone, Copy, Debug, Default)]
pub struct Tally {
    pub accepted: usize,
    pub refused: usize,
    pub lacking: usize,
    pub full: usize,
    pub waited: usize,
    pub large: usize,
    pub pairs: alike::Tally,
    pub profile: Profile,
}

/// What both said of the profile: how many locations conform and do not, how many
/// conforming steps fire nothing, one action and several, and how many are refused by 26.
#[derive(Clone, Copy, Debug, Default)]
pub struct Profile {
    pub yes: usize,
    pub no: usize,
    pub idle: usize,
    pub one: usize,
    pub several: usize,
    pub refused: usize,
}

impl Profile {
    fn add(&mut self, other: Profile) {
        self.yes += other.yes;
        self.no += other.no;
        self.idle += other.idle;
        self.one += other.one;
        self.several += other.several;
        self.refused += other.refused;
    }

    fn counts(&self) -> [usize; 6] {
        [
            self.yes,
            self.no,
            self.idle,
            self.one,
            self.several,
            self.refused,
        ]
    }
}

impl Tally {
    pub fn add(&mut self, other: Tally) {
        self.accepted += other.accepted;
        self.refused += other.refused;
        self.lacking += other.lacking;
        self.full += other.full;
        self.waited += other.waited;
        self.large += other.large;
        self.pairs.same += other.pairs.same;
        self.pairs.not_same += other.pairs.not_same;
        self.pairs.refused += other.pairs.refused;
        self.profile.add(other.profile);
    }

    /// Whether there was something of every sort.
    pub fn is_everywhere(&self) -> bool {
        let pairs = self.pairs;
        let counts = [
            self.accepted,
            self.refused,
            self.full,
            self.waited,
            self.large,
            pairs.same,
            pairs.not_same,
            pairs.refused,
        ];
        let profile = self.profile.counts();
        counts.iter().chain(&profile).all(|count| *count > 0)
    }
}

/// Where the engines first differ.
#[derive(Clone, Copy, Debug, PartialEq, Eq)]
pub enum Place {
    Reading,
    Call(usize),
    /// The grouped run as a whole.
    End,
}

/// Where the two engines differ, and what each said.
#[derive(Clone, Debug)]
pub struct Difference {
    pub place: Place,
    pub what: String,
}

/// Reads the script by both engines and puts the calls to both, each on the
/// network that the calls before it left. What the proved engine accepted is
/// run again straight and grouped, by the right rules. A script that both
/// refuse makes no calls. `engine` may be a wrong variant, for which a
/// difference is wanted.
pub fn differ(
    engine: Engine,
    settings: Settings,
    script: &[u8],
    calls: &[Call],
) -> Result<Tally, Difference> {
    let at = |place| move |what| Difference { place, what };
    let read = reading::read(script, settings).map_err(at(Place::Reading))?;
    let Ok(pair) = read else {
        return Ok(Tally::default());
    };
    let run = Run::new(&pair.network);
    let mut session = Session::new(engine, pair, Some(run));
    session.compare(0).map_err(at(Place::Reading))?;
    for (index, call) in calls.iter().enumerate() {
        let answered = session.put(call, index);
        let answered = answered.and_then(|()| session.state());
        answered.map_err(at(Place::Call(index)))?;
    }
    let tally = session.tally;
    session.finish().map_err(at(Place::End))?;
    Ok(tally)
}

struct Session {
    engine: Engine,
    table: Table,
    network: Network,
    kept: Pair,
    /// The run of what the proved engine accepted, if it began with reading.
    run: Option<Run>,
    tally: Tally,
}

impl Session {
    /// The words that no component in use has as its own hold anything.
    fn new(engine: Engine, mut pair: Pair, run: Option<Run>) -> Session {
        let n = pair.table.state.n;
        let components = &mut pair.table.state.c;
        components.at[n..].fill(PAST);
        components.at.iter_mut().for_each(|c| c.spare = SPARE);
        components.spare = BEHIND;
        Session {
            engine,
            run,
            kept: pair.clone(),
            table: pair.table,
            network: pair.network,
            tally: Tally::default(),
        }
    }

    /// Question 17 by both, the components that the table stands for, their waits, the
    /// messages so far and their mean.
    fn state(&self) -> Agreed {
        equal("question 17", &self.table.is_valid(), &true)?;
        let (ours, ledger) = table::state(&self.table).map_err(alike::fault)?;
        let theirs = &self.network.components;
        if ours != *theirs {
            let shown = |list: &[_]| list.iter().map(writing::component).collect::<Vec<_>>();
            equal("components", &shown(&ours), &shown(theirs))?;
            equal("waits", &waits(&ours), &waits(theirs))?;
        }
        equal("messages", &ledger, &self.network.ledger)?;
        self.mean()
    }

    /// By both, after every call.
    fn mean(&self) -> Agreed {
        let theirs = self.engine.mean(&self.network).map(|mean| Mean {
            count: mean.count,
            quotient: mean.quotient,
            remainder: mean.remainder,
        });
        let theirs = Ok(theirs.unwrap_or_default());
        equal("mean", &self.table.mean(), &theirs)
    }

    fn put(&mut self, call: &Call, index: usize) -> Agreed {
        match call {
            Call::Action(record) => self.action(*record),
            Call::Tick(location) => self.tick(*location),
            Call::Step { location, room } => self.step(&STEP, *location, *room).map(|_| ()),
            Call::Conforming { location, room } => self.conforming(*location, *room),
            Call::Proposal { location, records } => self.proposal(*location, records),
            Call::Forced => self.forced(),
            Call::Conforms(location) => self.conforms(*location),
            Call::Write { room } => self.write(*room),
            Call::Keep => self.keep(index),
            Call::Same => self.same(),
            Call::Like(text) => self.like(text),
            Call::Mean => self.mean(),
            Call::Wait { .. } | Call::Messages(_) => self.written_into(call),
        }
    }

    /// What a host writes into its table, if it is in range, into both.
    fn written_into(&mut self, call: &Call) -> Agreed {
        let Some(network) = call.written_into(&self.network) else {
            return Ok(());
        };
        self.network = network;
        let components = &mut self.table.state.c;
        match call {
            Call::Wait { p, wait } => components.at[*p as usize].wait = *wait,
            Call::Messages(Ledger { total, messages }) => {
                components.put_messages(*messages, *total);
            }
            _ => {}
        }
        Ok(())
    }

    fn action(&mut self, record: Record) -> Agreed {
        let before = self.table.state;
        let (code, ours) = self
            .table
            .acted(record.kind, record.p as usize, record.q as usize);
        let theirs = self.engine.action(&self.network, record);
        let label = theirs.as_ref().ok().map(|(_, label)| label);
        let number = theirs.as_ref().err().map_or(0, |refusal| refusal.number());
        equal("action", &code, &u32::from(number))?;
        self.tally.lacking += usize::from(code == 20);
        self.tally.full += usize::from(code == 18);
        let numbers = self.engine.numbers(&self.network.script, label);
        equal("label in numbers", &numbers_of(ours), &numbers)?;
        if let Ok((network, label)) = theirs {
            self.network = network;
            let ours = table::label(&self.table.words, ours);
            equal("label", &ours, &label.to_string())?;
        }
        self.settle(code == 0, &before, |run| run.action(record))
    }

    fn tick(&mut self, location: u32) -> Agreed {
        let before = self.table.state;
        let ours = self.table.tick(location);
        let theirs = self.engine.tick(&self.network, location);
        let theirs = theirs.map(|network| self.network = network);
        let theirs = theirs.map_err(|refusal| u32::from(refusal.number()));
        equal("tick", &ours, &theirs)?;
        self.settle(ours.is_ok(), &before, |run| run.tick(location))
    }

    /// The step or the conforming step; what both answered.
    fn step(
        &mut self,
        step: &Stepping,
        location: u32,
        room: usize,
    ) -> Result<Result<usize, u32>, String> {
        let before = self.table.state;
        let mut ours_lent = vec![BLANK; room];
        let ours = (step.ours)(&mut self.table, location, &mut ours_lent);
        let mut theirs_lent = vec![Record::new(BLANK[0], BLANK[1], BLANK[2]); room];
        let theirs = (step.theirs)(self.engine, &self.network, location, &mut theirs_lent);
        let theirs = theirs.map(|stepped| {
            self.network = stepped.network;
            stepped.labels.len()
        });
        let theirs = theirs.map_err(|refusal| u32::from(refusal.number()));
        equal(step.name, &ours, &theirs)?;
        self.tally.full += usize::from(ours == Err(18));
        let theirs_lent: Vec<[u32; 3]> = theirs_lent.iter().map(|r| [r.kind, r.p, r.q]).collect();
        equal(
            "records lent to a step",
            &up_to_blanks(&ours_lent),
            &up_to_blanks(&theirs_lent),
        )?;
        let taken = ours_lent.iter().take(ours.unwrap_or(0));
        let taken: Vec<Record> = taken.map(|[k, p, q]| Record::new(*k, *p, *q)).collect();
        self.settle(ours.is_ok(), &before, |run| {
            run.whole_step(location, &taken)
        })?;
        Ok(ours)
    }

    fn conforming(&mut self, location: u32, room: usize) -> Agreed {
        let profile = match self.step(&CONFORMING, location, room)? {
            Ok(0) => &mut self.tally.profile.idle,
            Ok(1) => &mut self.tally.profile.one,
            Ok(_) => &mut self.tally.profile.several,
            Err(26) => &mut self.tally.profile.refused,
            Err(_) => return Ok(()),
        };
        *profile += 1;
        Ok(())
    }

    /// The test of a location: its code, and what stands beside it; what is lent to it is
    /// left as it was.
    fn conforms(&mut self, location: u32) -> Agreed {
        let before = self.table.state;
        let ours = self.table.tested(location);
        let theirs = self.engine.conforms(&self.network, location);
        let number = theirs.err().map_or(0, |refusal| refusal.number());
        let theirs = (u32::from(number), self.engine.said(theirs));
        equal("test of a location", &ours, &theirs)?;
        let kept = self.table.state == before;
        equal("state kept by a test", &kept, &true)?;
        let profile = &mut self.tally.profile;
        match ours {
            (0, true) => profile.yes += 1,
            (0, false) => profile.no += 1,
            _ => {}
        }
        Ok(())
    }

    fn proposal(&mut self, location: u32, records: &[Record]) -> Agreed {
        let before = self.table.state;
        let ours_records: Vec<timo::Record> = records
            .iter()
            .map(|r| timo::Record {
                kind: r.kind,
                p: r.p,
                q: r.q,
            })
            .collect();
        let ours = self.table.propose(location, &ours_records);
        let theirs = self.engine.proposal(&self.network, location, records);
        let theirs = theirs.map(|(network, _)| self.network = network);
        let theirs = theirs.map_err(|refusal| u32::from(refusal.number()));
        equal("proposal", &ours, &theirs)?;
        self.tally.full += usize::from(ours == Err(18));
        self.settle(ours.is_ok(), &before, |run| {
            run.whole_step(location, records)
        })
    }

    fn forced(&self) -> Agreed {
        let ours = self.table.forced();
        let ours = ours.map(|report| (report.set, report.count, report.lowest));
        let theirs = self.engine.forced(&self.network);
        equal(
            "forced report",
            &ours,
            &Ok((theirs.set, theirs.count, theirs.lowest)),
        )
    }

    fn write(&mut self, room: usize) -> Agreed {
        let mut ours_lent = vec![BLANK_BYTE; room];
        let mut theirs_lent = ours_lent.clone();
        let ours = self.table.write(&mut ours_lent);
        let theirs = self.engine.write(&self.network, &mut theirs_lent);
        let theirs = theirs.map_err(|refusal| u32::from(refusal.number()));
        equal("write", &ours, &theirs)?;
        let text = |lent: &[u8]| String::from_utf8_lossy(lent).into_owned();
        equal(
            "bytes lent to write",
            &text(&ours_lent),
            &text(&theirs_lent),
        )?;
        match ours {
            Ok(length) => self.read_back(&ours_lent[..length]),
            Err(_) => Ok(()),
        }
    }

    /// Where the written text meets the limits, reading it under the network's
    /// own edition gives the network, whatever the rights. The words lent still hold
    /// the script.
    fn read_back(&self, text: &[u8]) -> Agreed {
        let words = self.table.words.clone();
        let Ok(again) = reading::read_over(text, settings_of(&self.network), words)? else {
            return Ok(());
        };
        equal(
            "same as the text read back",
            &again.table.same(&self.table),
            &Ok(true),
        )?;
        let ours = table::network(&self.table).map_err(alike::fault)?;
        let back = table::network(&again.table).map_err(alike::fault)?;
        let seen = |list: &[Component]| list.iter().map(writing::component).collect::<Vec<_>>();
        let (ours_seen, back_seen) = (seen(&ours.components), seen(&back.components));
        equal("components read back", &back_seen, &ours_seen)?;
        let began = back.components.iter().all(|c| c.wait == 0) && back.ledger == Ledger::default();
        equal("waits and messages read back are 0", &began, &true)?;
        let definitions = &back.script.definitions;
        equal(
            "definitions read back",
            definitions,
            &ours.script.definitions,
        )
    }

    /// Keeps the network, and compares it with others that are made from it.
    fn keep(&mut self, index: usize) -> Agreed {
        self.kept = Pair {
            table: self.table.clone(),
            network: self.network.clone(),
        };
        self.compare(index)
    }

    /// One of the networks made by hand goes through both engines by itself. That
    /// is done with the right engine, so it would tell nothing of a wrong variant.
    fn compare(&mut self, index: usize) -> Agreed {
        if !self.engine.is_right() {
            return Ok(());
        }
        let mut random = Random::new(index as u64);
        let made = alike::compare(&mut random, &self.table, &mut self.tally.pairs)?;
        run_by_itself(&mut random, made)
    }

    /// Compares the network with the one kept, and with itself under the other
    /// edition, with other rights and with other waits.
    fn same(&self) -> Agreed {
        self.compared_with(&self.kept.table, &self.kept.network)?;
        for table in [
            self.table.under_other_edition(),
            self.table.with_other_rights(),
            self.table.with_other_waits(),
        ] {
            let network = table::network(&table).map_err(alike::fault)?;
            self.compared_with(&table, &network)?;
        }
        Ok(())
    }

    /// Reads a text under the network's own edition, with its rights by number, and
    /// compares the network with it. The words lent still hold this network's script.
    fn like(&self, text: &str) -> Agreed {
        let words = self.table.words.clone();
        let settings = settings_of(&self.network);
        let Ok(other) = reading::read_over(text.as_bytes(), settings, words)? else {
            return Ok(());
        };
        self.compared_with(&other.table, &other.network)
    }

    /// `same` with another network, both ways round.
    fn compared_with(&self, table: &Table, network: &Network) -> Agreed {
        let theirs = self.engine.same(&self.network, network);
        equal("same", &self.table.same(table), &Ok(theirs))?;
        equal("same, exchanged", &table.same(&self.table), &Ok(theirs))
    }

    /// Counts the answer; a refusal has left the state as it was, an accepted
    /// call what is beside the components, and it feeds the run.
    fn settle(
        &mut self,
        accepted: bool,
        before: &timo::State,
        feed: impl FnOnce(&mut Run) -> Result<(), Broken>,
    ) -> Agreed {
        if accepted {
            self.tally.accepted += 1;
            self.count_messages(before);
            let n = self.table.state.n;
            let kept = self.table.state.beside(n) == before.beside(n);
            equal("words beside the components", &kept, &true)?;
            return held(self.run.as_mut().map_or(Ok(()), feed));
        }
        self.tally.refused += 1;
        self.engine.refuse(&mut self.network);
        equal(
            "state kept by a refusal",
            &(self.table.state == *before),
            &true,
        )
    }

    /// Whether an accepted call added to the total, and whether that has 33 bits.
    fn count_messages(&mut self, before: &timo::State) {
        let total = self.table.state.c.total();
        let added = total > before.c.total();
        self.tally.waited += usize::from(added);
        self.tally.large += usize::from(added && total >= 1 << 32);
    }

    fn finish(self) -> Agreed {
        let last = table::network(&self.table).map_err(alike::fault)?;
        held(self.run.map_or(Ok(()), |run| run.finish(&last)))
    }
}

/// A network made by hand: the test, a conforming step and a step at each location, the
/// report and the text, then a few calls of any sort.
pub fn run_by_itself(random: &mut Random, pair: Pair) -> Agreed {
    let room = 256;
    let steps = (0..pair.table.words[1]).flat_map(|location| {
        [
            Call::Conforms(location),
            Call::Conforming { location, room },
            Call::Step { location, room },
        ]
    });
    let first: Vec<Call> = steps
        .chain([Call::Forced, Call::Write { room: 65_536 }])
        .collect();
    let any = call_list::calls(random, pair.network.clone(), ANY_CALLS);
    for calls in [first, any] {
        let mut session = Session::new(Engine::default(), pair.clone(), None);
        session.state()?;
        for call in calls.iter().filter(|call| **call != Call::Keep) {
            session.put(call, 0).map_err(|what| at_call(call, what))?;
            session.state().map_err(|what| at_call(call, what))?;
        }
    }
    Ok(())
}

fn at_call(call: &Call, what: String) -> String {
    format!("{call}: {what}")
}

/// Lent records without the blank ones at the end. Of two buffers of one length the
/// rests are equal if these are.
fn up_to_blanks(lent: &[[u32; 3]]) -> &[[u32; 3]] {
    let last = lent.iter().rposition(|record| *record != BLANK);
    &lent[..last.map_or(0, |last| last + 1)]
}

fn waits(components: &[Component]) -> Vec<u32> {
    components.iter().map(|c| c.wait).collect()
}

fn numbers_of(label: timo::Label) -> Numbers {
    Numbers {
        kind: label.kind,
        a: label.a,
        b: label.b,
        at: label.at,
    }
}

fn held(run: Result<(), Broken>) -> Agreed {
    run.map_err(|broken| format!("grouped run: {broken}"))
}
