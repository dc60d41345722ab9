//! The proved engine's library: its declarations, as in `include/timo.h`, and
//! a safe interface to them. The calls take any content; nothing has to be
//! tested beforehand.

use std::cmp::Ordering;

/// Words of a script.
pub const WORDS: usize = 111_888;
/// The word of a script that holds its edition, 1 or 2.
pub const EDITION: usize = 99_592;
/// Where in a script the rights begin, a row of `RIGHTS_ROW` words for each
/// location, in the order of `Row`: 1 is a right, any other word none.
pub const RIGHTS: usize = 99_600;
pub const RIGHTS_ROW: usize = 192;

/// Bytes that hold the name of every location and channel, every label, every line of a
/// step, every printout.
pub const NAME: usize = 16;
pub const LABEL: usize = 51;
pub const LINE: usize = 13_329;
pub const PRINTOUT: usize = 3_477_768;

/// How many components a state has space for.
pub const COMPONENTS: usize = 256;

/// The mark of a component that has none.
pub const UNMARKED: u32 = 64;

/// The kind of a move.
pub const MOVE: u32 = 2;

/// Where a wait halts, and how many messages are counted.
pub const WAIT: u32 = 1_000_000;
pub const MESSAGES: u32 = 1_000_000;

/// Stands for the number of a refusal that comes with anything but its number.
pub const MORE_THAN_A_NUMBER: u32 = 1_000;

/// The rights of a location by number: to send and to receive on a channel, to
/// leave for another location.
#[repr(C)]
#[derive(Clone, Copy, Debug, PartialEq, Eq)]
pub struct Row {
    pub send: [bool; 64],
    pub receive: [bool; 64],
    pub leave: [bool; 64],
}

impl Row {
    pub const ALL: Row = Row {
        send: [true; 64],
        receive: [true; 64],
        leave: [true; 64],
    };
}

/// What is given with a text at reading: its edition, and a row of rights for
/// each location. An edition other than 1 and 2 is refused by 21.
#[repr(C)]
#[derive(Clone, Copy, Debug, PartialEq, Eq)]
pub struct Settings {
    pub edition: u32,
    pub rights: [Row; 64],
}

impl Settings {
    pub const EDITION_1: Settings = Settings::all(1);
    pub const EDITION_2: Settings = Settings::all(2);
    /// The editions that reading takes, with all rights.
    pub const BOTH: [Settings; 2] = [Settings::EDITION_1, Settings::EDITION_2];

    /// An edition with all rights.
    pub const fn all(edition: u32) -> Settings {
        Settings {
            edition,
            rights: [Row::ALL; 64],
        }
    }
}

/// An edition with all rights, as the library gives it.
pub fn all_rights(edition: u32) -> Settings {
    // SAFETY: nothing is lent.
    unsafe { timo_all_rights(edition) }
}

/// A component: location, mark, place of its part, timer, a location for each
/// slot, its wait, and words that are not used.
#[repr(C)]
#[derive(Clone, Copy, Debug, PartialEq, Eq)]
pub struct Comp {
    pub loc: u32,
    pub mark: u32,
    pub place: u32,
    pub timer: u32,
    pub vals: [u32; 8],
    pub wait: u32,
    pub spare: [u32; 3],
}

impl Comp {
    pub const ZERO: Comp = Comp {
        loc: 0,
        mark: 0,
        place: 0,
        timer: 0,
        vals: [0; 8],
        wait: 0,
        spare: [0; 3],
    };
}

/// The components, and behind them the messages so far: how long their senders had
/// waited in all, in two words, and how many there were. Then words that are not used.
#[repr(C)]
#[derive(Clone, Copy, Debug, PartialEq, Eq)]
pub struct Comps {
    pub at: [Comp; COMPONENTS],
    pub total_low: u32,
    pub total_high: u32,
    pub messages: u32,
    pub spare: [u32; 13],
}

impl Comps {
    pub const ZERO: Comps = Comps {
        at: [Comp::ZERO; COMPONENTS],
        total_low: 0,
        total_high: 0,
        messages: 0,
        spare: [0; 13],
    };

    pub fn total(&self) -> u64 {
        u64::from(self.total_low) + (u64::from(self.total_high) << 32)
    }

    /// Writes how many messages there were, and for how long in all.
    pub fn put_messages(&mut self, messages: u32, total: u64) {
        self.total_low = total as u32;
        self.total_high = (total >> 32) as u32;
        self.messages = messages;
    }
}

/// The spare words of a state: those of every position, and those behind the messages.
pub type Spare = ([[u32; 3]; COMPONENTS], [u32; 13]);

/// The components; the first `n` are in use.
#[repr(C)]
#[derive(Clone, Copy, Debug, PartialEq, Eq)]
pub struct State {
    pub c: Comps,
    pub n: usize,
}

impl State {
    /// What a refused reading returns.
    pub const ZERO: State = State {
        c: Comps::ZERO,
        n: 0,
    };

    /// The words that no component in use has as its own and that count nothing: the
    /// spare ones, and the positions past `n`.
    pub fn beside(&self, n: usize) -> (Spare, &[Comp]) {
        let spare = self.c.at.map(|c| c.spare);
        ((spare, self.c.spare), &self.c.at[n..])
    }
}

impl Default for State {
    fn default() -> State {
        State::ZERO
    }
}

/// A label in numbers; all 0 if the action is refused.
#[repr(C)]
#[derive(Clone, Copy, Debug, Default, PartialEq, Eq, PartialOrd, Ord)]
pub struct Label {
    pub kind: u32,
    pub a: u32,
    pub b: u32,
    pub at: u32,
}

/// An action of a proposal.
#[repr(C)]
#[derive(Clone, Copy, Debug)]
pub struct Record {
    pub kind: u32,
    pub p: u32,
    pub q: u32,
}

/// The answer of reading; the words lent to it are beside it.
#[repr(C)]
pub struct Reading {
    pub code: u32,
    pub state: State,
}

#[repr(C)]
struct Acted {
    code: u32,
    label: Label,
}

#[repr(C)]
struct Ticked {
    code: u32,
    n: usize,
}

#[repr(C)]
struct Stepped {
    code: u32,
    count: usize,
    n: usize,
}

/// The forced report.
#[repr(C)]
#[derive(Clone, Copy, Debug, Default, PartialEq, Eq)]
pub struct Report {
    pub code: u32,
    pub set: u64,
    pub count: u32,
    pub lowest: u32,
}

/// How long the senders of all messages had waited on the whole; all 0 if there were
/// none.
#[derive(Clone, Copy, Debug, Default, PartialEq, Eq)]
pub struct Mean {
    pub count: u32,
    pub quotient: u32,
    pub remainder: u32,
}

impl Mean {
    /// The nearest whole tick, exactly at the half the even one, as `timorun` prints
    /// it; nothing if there were no messages.
    pub fn whole_ticks(self) -> Option<u32> {
        if self.count == 0 {
            return None;
        }
        let twice = 2 * u64::from(self.remainder);
        let more = match twice.cmp(&u64::from(self.count)) {
            Ordering::Less => 0,
            Ordering::Equal => self.quotient % 2,
            Ordering::Greater => 1,
        };
        Some(self.quotient + more)
    }
}

#[repr(C)]
struct Averaged {
    code: u32,
    count: u32,
    quotient: u32,
    remainder: u32,
}

#[repr(C)]
struct Written {
    code: u32,
    len: usize,
}

#[repr(C)]
struct Compared {
    code: u32,
    yes: bool,
}

#[repr(C)]
struct Tested {
    code: u32,
    yes: bool,
}

#[repr(C)]
struct Counted {
    code: u32,
    count: u32,
}

extern "C" {
    fn timo_all_rights(edition: u32) -> Settings;
    fn timo_read(text: *const u8, n: usize, settings: Settings, w: *mut u32) -> Reading;
    fn timo_same(
        w: *const u32,
        a: *const Comps,
        n: usize,
        v: *const u32,
        b: *const Comps,
        m: usize,
    ) -> Compared;
    fn timo_valid(w: *const u32, c: *const Comps, n: usize) -> bool;
    fn timo_action(w: *const u32, c: *mut Comps, n: usize, kind: u32, p: usize, q: usize) -> Acted;
    fn timo_tick(w: *const u32, c: *mut Comps, n: usize, l: u32) -> Ticked;
    fn timo_step(
        w: *const u32,
        c: *mut Comps,
        n: usize,
        l: u32,
        records: *mut [u32; 3],
        lent: usize,
    ) -> Stepped;
    fn timo_conforms(w: *const u32, c: *const Comps, n: usize, l: u32) -> Tested;
    fn timo_step_conforming(
        w: *const u32,
        c: *mut Comps,
        n: usize,
        l: u32,
        records: *mut [u32; 3],
        lent: usize,
    ) -> Stepped;
    fn timo_propose(
        w: *const u32,
        c: *mut Comps,
        n: usize,
        l: u32,
        records: *const Record,
        given: usize,
    ) -> Ticked;
    fn timo_forced(w: *const u32, c: *const Comps, n: usize) -> Report;
    fn timo_mean(w: *const u32, c: *const Comps, n: usize) -> Averaged;
    fn timo_write(w: *const u32, c: *const Comps, n: usize, buf: *mut u8, lent: usize) -> Written;
    fn timo_locations(w: *const u32, c: *const Comps, n: usize) -> Counted;
    fn timo_location_name(
        w: *const u32,
        c: *const Comps,
        n: usize,
        l: u32,
        buf: *mut u8,
        lent: usize,
    ) -> Written;
    fn timo_channels(w: *const u32, c: *const Comps, n: usize) -> Counted;
    fn timo_channel_name(
        w: *const u32,
        c: *const Comps,
        n: usize,
        h: u32,
        buf: *mut u8,
        lent: usize,
    ) -> Written;
    fn timo_action_label(
        w: *const u32,
        c: *const Comps,
        n: usize,
        kind: u32,
        p: usize,
        q: usize,
        buf: *mut u8,
        lent: usize,
    ) -> Written;
    fn timo_step_line(
        w: *const u32,
        c: *const Comps,
        n: usize,
        l: u32,
        buf: *mut u8,
        lent: usize,
    ) -> Written;
    fn timo_printout(text: *const u8, n: usize, buf: *mut u8, lent: usize) -> usize;
}

/// Reading into lent words. A refusal leaves them unchanged.
pub fn read_into(text: &[u8], settings: Settings, words: &mut [u32; WORDS]) -> Reading {
    // SAFETY: the text is only read; `words` is not reached otherwise meanwhile.
    unsafe { timo_read(text.as_ptr(), text.len(), settings, words.as_mut_ptr()) }
}

/// The whole printout of a text, which is read under edition 1 and with all
/// rights: its length. Fewer bytes get its first ones.
pub fn printout(text: &[u8], lent: &mut [u8]) -> usize {
    // SAFETY: the text is only read; `lent` is not reached otherwise meanwhile.
    unsafe { timo_printout(text.as_ptr(), text.len(), lent.as_mut_ptr(), lent.len()) }
}

/// A script's words, all of one content, without a copy on the stack.
pub fn words_of(word: u32) -> Box<[u32; WORDS]> {
    let words = vec![word; WORDS].into_boxed_slice().try_into();
    words.expect("a script has its number of words")
}

/// The step, or the conforming step.
pub type StepCall = fn(&mut Table, u32, &mut [[u32; 3]]) -> Result<usize, u32>;

/// A script and a state, of any content. The calls are lent the state itself,
/// so that a caller sees whether a refused call changed it.
#[derive(Clone)]
pub struct Table {
    pub words: Box<[u32; WORDS]>,
    pub state: State,
}

impl Table {
    /// The network of a text, or the number of its refusal.
    pub fn read(text: &[u8], settings: Settings) -> Result<Table, u32> {
        let mut words = words_of(0);
        let Reading { code, state } = read_into(text, settings, &mut words);
        answer(code, state).map(|state| Table { words, state })
    }

    /// The same network under the other edition.
    pub fn under_other_edition(&self) -> Table {
        let mut other = self.clone();
        other.words[EDITION] = if self.words[EDITION] == 1 { 2 } else { 1 };
        other
    }

    /// The same network with each right given that it lacks, and no other.
    pub fn with_other_rights(&self) -> Table {
        let mut other = self.clone();
        for right in &mut other.words[RIGHTS..] {
            *right = u32::from(*right != 1);
        }
        other
    }

    /// The same network with other waits, and after other messages.
    pub fn with_other_waits(&self) -> Table {
        let mut other = self.clone();
        let n = other.state.n;
        for component in &mut other.state.c.at[..n] {
            component.wait = if component.wait == 0 { WAIT } else { 0 };
        }
        let messages = u32::from(self.state.c.messages == 0);
        other.state.c.put_messages(messages, messages.into());
        other
    }

    /// Whether two tables stand for the same network.
    pub fn same(&self, other: &Table) -> Result<bool, u32> {
        let (a, b) = (&self.state, &other.state);
        // SAFETY: as for `is_valid`, for both.
        let compared = unsafe {
            timo_same(
                self.words.as_ptr(),
                &a.c,
                a.n,
                other.words.as_ptr(),
                &b.c,
                b.n,
            )
        };
        answer(compared.code, compared.yes)
    }

    pub fn is_valid(&self) -> bool {
        // SAFETY: the pointers are to WORDS words and to a state's components, which
        // the call only reads.
        unsafe { timo_valid(self.words.as_ptr(), &self.state.c, self.state.n) }
    }

    /// A single action; its label, or the number of its refusal.
    pub fn action(&mut self, kind: u32, p: usize, q: usize) -> Result<Label, u32> {
        let (code, label) = self.acted(kind, p, q);
        answer(code, label)
    }

    /// A single action; its code and what stands in the label's place.
    pub fn acted(&mut self, kind: u32, p: usize, q: usize) -> (u32, Label) {
        let (c, n) = (&mut self.state.c, self.state.n);
        // SAFETY: as for `step`.
        let acted = unsafe { timo_action(self.words.as_ptr(), c, n, kind, p, q) };
        (acted.code, acted.label)
    }

    pub fn tick(&mut self, location: u32) -> Result<(), u32> {
        let (c, n) = (&mut self.state.c, self.state.n);
        // SAFETY: as for `step`.
        let ticked = unsafe { timo_tick(self.words.as_ptr(), c, n, location) };
        self.state.n = ticked.n;
        answer(ticked.code, ())
    }

    /// The step; the number of records written.
    pub fn step(&mut self, location: u32, lent: &mut [[u32; 3]]) -> Result<usize, u32> {
        // SAFETY: as for `is_valid`; the components and `lent` are not reached
        // otherwise meanwhile.
        self.stepped(lent, |w, c, n, records, size| unsafe {
            timo_step(w, c, n, location, records, size)
        })
    }

    /// Whether a location conforms to the single-outcome profile (document 02, R-13): no
    /// ready `go` there has a timer above 0, and each channel has at most one ready sender
    /// and one ready receiver there. Then all whole steps there end in the same network,
    /// with the same labels.
    pub fn conforms(&self, location: u32) -> Result<bool, u32> {
        let (code, yes) = self.tested(location);
        answer(code, yes)
    }

    /// The test of a location; its code and what stands beside it.
    pub fn tested(&self, location: u32) -> (u32, bool) {
        let (c, n) = (&self.state.c, self.state.n);
        // SAFETY: as for `is_valid`.
        let tested = unsafe { timo_conforms(self.words.as_ptr(), c, n, location) };
        (tested.code, tested.yes)
    }

    /// The step at a location that conforms, which is else refused by 26; the number of
    /// records written.
    pub fn step_conforming(&mut self, location: u32, lent: &mut [[u32; 3]]) -> Result<usize, u32> {
        // SAFETY: as for `step`.
        self.stepped(lent, |w, c, n, records, size| unsafe {
            timo_step_conforming(w, c, n, location, records, size)
        })
    }

    /// What a step writes into lent records: their number.
    fn stepped(
        &mut self,
        lent: &mut [[u32; 3]],
        call: impl FnOnce(*const u32, *mut Comps, usize, *mut [u32; 3], usize) -> Stepped,
    ) -> Result<usize, u32> {
        let State { c, n } = &mut self.state;
        let stepped = call(self.words.as_ptr(), c, *n, lent.as_mut_ptr(), lent.len());
        *n = stepped.n;
        answer(stepped.code, stepped.count)
    }

    /// Whether the steps at two locations may be done in either order (document 02, R-7),
    /// or the number of a step's refusal: the locations are different, nothing is marked,
    /// and neither step would move a component to the other's location.
    pub fn may_exchange(&self, one: u32, other: u32) -> Result<bool, u32> {
        let there = self.step_moves(one, other)?;
        let back = self.step_moves(other, one)?;
        let mut components = self.state.c.at.iter().take(self.state.n);
        let unmarked = components.all(|c| c.mark == UNMARKED);
        Ok(one != other && unmarked && !there && !back)
    }

    /// Whether the step at a location would move a component to another, by the labels of
    /// its records as numbers: as text a call and a move can look alike.
    fn step_moves(&self, from: u32, to: u32) -> Result<bool, u32> {
        let mut lent = [[0; 3]; COMPONENTS];
        let count = self.clone().step(from, &mut lent)?;
        let mut acting = self.clone();
        for [kind, p, q] in &lent[..count] {
            let label = acting.action(*kind, *p as usize, *q as usize)?;
            if label.kind == MOVE && label.a == to {
                return Ok(true);
            }
        }
        Ok(false)
    }

    /// The records in order and then the tick, all or none.
    pub fn propose(&mut self, location: u32, records: &[Record]) -> Result<(), u32> {
        let (c, n) = (&mut self.state.c, self.state.n);
        // SAFETY: as for `step`, and the records are only read.
        let ticked = unsafe {
            timo_propose(
                self.words.as_ptr(),
                c,
                n,
                location,
                records.as_ptr(),
                records.len(),
            )
        };
        self.state.n = ticked.n;
        answer(ticked.code, ())
    }

    pub fn forced(&self) -> Result<Report, u32> {
        // SAFETY: as for `is_valid`.
        let report = unsafe { timo_forced(self.words.as_ptr(), &self.state.c, self.state.n) };
        answer(report.code, Report { code: 0, ..report })
    }

    /// The mean of the messages so far.
    pub fn mean(&self) -> Result<Mean, u32> {
        // SAFETY: as for `is_valid`.
        let averaged = unsafe { timo_mean(self.words.as_ptr(), &self.state.c, self.state.n) };
        let mean = Mean {
            count: averaged.count,
            quotient: averaged.quotient,
            remainder: averaged.remainder,
        };
        answer(averaged.code, mean)
    }

    /// What a call writes about the table into lent bytes: its length.
    fn written(
        &self,
        lent: &mut [u8],
        call: impl FnOnce(*const u32, *const Comps, usize, *mut u8, usize) -> Written,
    ) -> Result<usize, u32> {
        let (c, n) = (&self.state.c, self.state.n);
        let written = call(self.words.as_ptr(), c, n, lent.as_mut_ptr(), lent.len());
        answer(written.code, written.len)
    }

    /// Writing; the length of the text.
    pub fn write(&self, lent: &mut [u8]) -> Result<usize, u32> {
        // SAFETY: as for `step`.
        self.written(lent, |w, c, n, buf, size| unsafe {
            timo_write(w, c, n, buf, size)
        })
    }

    /// How many locations there are.
    pub fn locations(&self) -> Result<u32, u32> {
        // SAFETY: as for `is_valid`.
        let counted = unsafe { timo_locations(self.words.as_ptr(), &self.state.c, self.state.n) };
        answer(counted.code, counted.count)
    }

    /// The name of a location; its length.
    pub fn location_name(&self, location: u32, lent: &mut [u8]) -> Result<usize, u32> {
        // SAFETY: as for `step`.
        self.written(lent, |w, c, n, buf, size| unsafe {
            timo_location_name(w, c, n, location, buf, size)
        })
    }

    /// How many channels there are.
    pub fn channels(&self) -> Result<u32, u32> {
        // SAFETY: as for `is_valid`.
        let counted = unsafe { timo_channels(self.words.as_ptr(), &self.state.c, self.state.n) };
        answer(counted.code, counted.count)
    }

    /// The name of a channel; its length.
    pub fn channel_name(&self, channel: u32, lent: &mut [u8]) -> Result<usize, u32> {
        // SAFETY: as for `step`.
        self.written(lent, |w, c, n, buf, size| unsafe {
            timo_channel_name(w, c, n, channel, buf, size)
        })
    }

    /// The label of an action, which is not made; its length. The records of a
    /// step are shown by the table as it was before the step.
    pub fn action_label(
        &self,
        kind: u32,
        p: usize,
        q: usize,
        lent: &mut [u8],
    ) -> Result<usize, u32> {
        // SAFETY: as for `step`.
        self.written(lent, |w, c, n, buf, size| unsafe {
            timo_action_label(w, c, n, kind, p, q, buf, size)
        })
    }

    /// The line of the step at a location, which is not made; its length.
    pub fn step_line(&self, location: u32, lent: &mut [u8]) -> Result<usize, u32> {
        // SAFETY: as for `step`.
        self.written(lent, |w, c, n, buf, size| unsafe {
            timo_step_line(w, c, n, location, buf, size)
        })
    }
}

/// The result, or the number of the refusal, beside which there are only zeros.
fn answer<T: Default + PartialEq>(code: u32, result: T) -> Result<T, u32> {
    match code {
        0 => Ok(result),
        _ if result == T::default() => Err(code),
        _ => Err(MORE_THAN_A_NUMBER),
    }
}
