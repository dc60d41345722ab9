//! Call lists on a network: mostly what is enabled there, about a third
//! refused, all locations mixed. In half of the lists a host writes waits and
//! messages, at first and at times later. The list is made by following the network
//! with the right engine.

use super::damage::damage_tokens;
use super::draft::{cut, spaced, Tokens};
use super::host;
use crate::calls::{Engine, Record, StepCall};
use crate::lists::Call;
use crate::random::Random;
use crate::refusal::Refusal;
use crate::rules::{Action, Rules};
use crate::term::{Component, Ledger, Network, Part, Script, Timer};
use crate::writing;

/// That many calls from a network just read, and what a host writes before them. One
/// list in four has a step first.
pub fn calls(random: &mut Random, network: Network, count: usize) -> Vec<Call> {
    let mut network = network;
    let writes = random.chance(1, 2);
    let mut calls = if writes {
        first_calls(random, &network)
    } else {
        Vec::new()
    };
    for call in &calls {
        network = next(&network, call).unwrap_or(network);
    }
    for index in 0..count {
        let some = if index == 0 && random.chance(1, 4) {
            vec![step(random, &network)]
        } else if is_full(&network) && random.chance(1, 6) {
            vec![host::counts_anew(random)]
        } else if writes && random.chance(1, 16) {
            written(random, &network)
        } else if writes && random.chance(1, 4) {
            at_the_edge(random, &network)
        } else {
            vec![call(random, &network)]
        };
        for call in some {
            network = next(&network, &call).unwrap_or(network);
            calls.push(call);
        }
    }
    calls
}

/// At a full count nothing is handed over; a host lets that last for a few calls.
fn is_full(network: &Network) -> bool {
    network.ledger.messages == Ledger::MOST_MESSAGES
}

/// The network after a call, if the call changes it.
pub fn next(network: &Network, call: &Call) -> Option<Network> {
    let engine = Engine::default();
    match call {
        Call::Action(record) => engine.action(network, *record).ok().map(|(next, _)| next),
        Call::Tick(location) => engine.tick(network, *location).ok(),
        Call::Step { location, room } => stepped(Engine::step, network, *location, *room),
        Call::Conforming { location, room } => {
            stepped(Engine::conforming_step, network, *location, *room)
        }
        Call::Proposal { location, records } => engine
            .proposal(network, *location, records)
            .ok()
            .map(|(next, _)| next),
        _ => call.written_into(network),
    }
}

fn stepped(call: StepCall, network: &Network, location: u32, room: usize) -> Option<Network> {
    let mut lent = vec![Record::new(0, 0, 0); room];
    let stepped = call(Engine::default(), network, location, &mut lent);
    stepped.ok().map(|stepped| stepped.network)
}

fn call(random: &mut Random, network: &Network) -> Call {
    match random.weighted(&[37, 8, 12, 16, 6, 10, 11, 4, 2, 4, 4, 2, 5, 6, 9]) {
        0 => enabled_action(random, network),
        1 => Call::Action(any_record(random, network)),
        2 => Call::Action(fitting_record(random, network)),
        3 => Call::Tick(any_location(random, network)),
        4 => Call::Tick(quiet_location(random, network)),
        5 => proposal(random, network),
        6 => step(random, network),
        7 => Call::Forced,
        8 => Call::Keep,
        9 => same(random, network),
        10 => write(random, network),
        11 => Call::Mean,
        12 => Call::Tick(location_of_a_last_chance(random, network)),
        13 => Call::Conforms(location_with_something(random, network)),
        _ => conforming(random, network),
    }
}

// --- actions and ticks --------------------------------------------------------

fn enabled_action(random: &mut Random, network: &Network) -> Call {
    let (enabled, withheld) = fitting(&network.script, &network.components, None);
    let among = if !withheld.is_empty() && random.chance(1, 6) {
        withheld
    } else {
        enabled
    };
    if among.is_empty() {
        return Call::Tick(quiet_location(random, network));
    }
    let mut record = Record::of(*random.pick(&among));
    if record.kind < 3 {
        record.q = any_number(random, network.components.len());
    }
    Call::Action(record)
}

/// Every action that can fire, at one location or at all; and every one that
/// lacks its right only.
pub(crate) fn fitting(
    script: &Script,
    components: &[Component],
    location: Option<&str>,
) -> (Vec<Action>, Vec<Action>) {
    let has_right =
        |action: &Action| Rules::default().has_right(script, &components[action.positions()[0]]);
    fitting_but_for_rights(components, location)
        .into_iter()
        .partition(has_right)
}

fn fitting_but_for_rights(components: &[Component], location: Option<&str>) -> Vec<Action> {
    let mut actions = Vec::new();
    for (p, component) in components.iter().enumerate() {
        if location.is_some_and(|location| location != component.location) {
            continue;
        }
        match component.ready_part() {
            Some(Part::Call { .. }) => actions.push(Action::Call(p)),
            Some(Part::Go { .. }) => actions.push(Action::Move(p)),
            Some(Part::Out { channel, .. }) => {
                let inputs = inputs(components, &component.location, channel);
                actions.extend(inputs.map(|q| Action::Communication(p, q)));
            }
            _ => {}
        }
    }
    actions
}

fn inputs<'a>(
    components: &'a [Component],
    location: &'a str,
    channel: &'a str,
) -> impl Iterator<Item = usize> + 'a {
    let hears = move |position: &usize| match components[*position].ready_at(location) {
        Some(Part::In { channel: heard, .. }) => heard == channel,
        _ => false,
    };
    (0..components.len()).filter(hears)
}

/// A record whose kind fits the component at p, marked or not, and for an
/// output any input, wherever it stands.
fn fitting_record(random: &mut Random, network: &Network) -> Record {
    let components = &network.components;
    let p = random.below(components.len());
    match &components[p].process.parts[0] {
        Part::Call { .. } => Record::of(Action::Call(p)),
        Part::Go { .. } => Record::of(Action::Move(p)),
        Part::Out { .. } => {
            let is_input = |q: &usize| matches!(components[*q].process.parts[0], Part::In { .. });
            let inputs: Vec<usize> = (0..components.len()).filter(is_input).collect();
            let q = if inputs.is_empty() {
                p
            } else {
                *random.pick(&inputs)
            };
            Record::of(Action::Communication(p, q))
        }
        _ => any_record(random, network),
    }
}

/// Any kind at positions that are mostly in range.
fn any_record(random: &mut Random, network: &Network) -> Record {
    let kind = [1, 2, 3, 0, 4, u32::MAX][random.weighted(&[6, 6, 12, 1, 1, 1])];
    let components = network.components.len();
    Record::new(
        kind,
        any_number(random, components),
        any_number(random, components),
    )
}

/// Mostly below `bound`, at times at it, past it or far away.
fn any_number(random: &mut Random, bound: usize) -> u32 {
    let far = [
        255,
        256,
        257,
        65_535,
        65_536,
        0x8000_0000,
        0xffff_fffe,
        u32::MAX,
    ];
    match random.weighted(&[20, 1, 1, 1]) {
        0 => random.below(bound) as u32,
        1 => bound as u32,
        2 => bound as u32 + 1,
        _ => *random.pick(&far),
    }
}

fn any_location(random: &mut Random, network: &Network) -> u32 {
    if random.chance(1, 25) {
        let far = [
            63,
            64,
            65,
            255,
            256,
            u32::MAX,
            network.script.locations.len() as u32,
        ];
        return *random.pick(&far);
    }
    random.below(network.script.locations.len()) as u32
}

/// A location where the tick is allowed, if there is one.
fn quiet_location(random: &mut Random, network: &Network) -> u32 {
    let forced = Engine::default().forced(network).set;
    let all = 0..network.script.locations.len() as u32;
    let quiet: Vec<u32> = all.filter(|number| (forced >> number) & 1 == 0).collect();
    if quiet.is_empty() {
        any_location(random, network)
    } else {
        *random.pick(&quiet)
    }
}

/// A location where a pair may meet of which one has timer 0, if there is one.
fn location_of_a_last_chance(random: &mut Random, network: &Network) -> u32 {
    let components = &network.components;
    let at_zero = |position: usize| match components[position].ready_part() {
        Some(Part::In { timer, .. } | Part::Out { timer, .. }) => *timer == Timer::Ticks(0),
        _ => false,
    };
    let (enabled, _) = fitting(&network.script, components, None);
    let last = enabled.iter().filter_map(|action| match action {
        Action::Communication(p, q) if at_zero(*p) || at_zero(*q) => Some(*p),
        _ => None,
    });
    location_of_one(random, network, &last.collect::<Vec<usize>>())
}

/// The location of one of these components, or any where there is none.
fn location_of_one(random: &mut Random, network: &Network, of: &[usize]) -> u32 {
    if of.is_empty() {
        return any_location(random, network);
    }
    let at = &network.components[*random.pick(of)].location;
    let number = network.script.location(at);
    number.map_or_else(|| any_location(random, network), |number| number as u32)
}

// --- steps and proposals -------------------------------------------------------

fn step(random: &mut Random, network: &Network) -> Call {
    let location = if random.chance(1, 2) {
        location_with_a_choice(random, network)
    } else {
        any_location(random, network)
    };
    let room = room(random);
    Call::Step { location, room }
}

/// Mostly room for all records.
fn room(random: &mut Random) -> usize {
    [256, 0, 1, 2, 300][random.weighted(&[10, 2, 2, 1, 1])]
}

/// A conforming step, half of them where it is not refused by 26 and fires something.
fn conforming(random: &mut Random, network: &Network) -> Call {
    let location = if random.chance(1, 2) {
        location_that_conforms(random, network)
    } else {
        location_with_something(random, network)
    };
    let room = room(random);
    Call::Conforming { location, room }
}

/// Mostly a location where something is ready, but for `stop`.
fn location_with_something(random: &mut Random, network: &Network) -> u32 {
    if random.chance(1, 4) {
        return any_location(random, network);
    }
    let does = |p: &usize| {
        let part = network.components[*p].ready_part();
        part.is_some_and(|part| *part != Part::Stop)
    };
    let there: Vec<usize> = (0..network.components.len()).filter(does).collect();
    location_of_one(random, network, &there)
}

/// A location that conforms and whose tick is not allowed yet, if there is one.
fn location_that_conforms(random: &mut Random, network: &Network) -> u32 {
    let Network {
        script, components, ..
    } = network;
    let rules = Rules::default();
    let fires = |name: &&String| {
        rules.conforms(script, components, name) && rules.forced(script, components, name)
    };
    let names: Vec<&String> = script.locations.iter().filter(fires).collect();
    if names.is_empty() {
        return location_with_something(random, network);
    }
    let name = *random.pick(&names);
    script.location(name).unwrap_or(0) as u32
}

/// A location where an output may meet one of several inputs, if there is one.
fn location_with_a_choice(random: &mut Random, network: &Network) -> u32 {
    let (enabled, _) = fitting(&network.script, &network.components, None);
    let choice = |pair: &[Action]| match pair {
        [Action::Communication(p, _), Action::Communication(again, _)] if p == again => Some(*p),
        _ => None,
    };
    let outputs: Vec<usize> = enabled.windows(2).filter_map(choice).collect();
    location_of_one(random, network, &outputs)
}

/// Actions at one location until its tick is allowed; at times one too few, or
/// with an action spoilt.
fn proposal(random: &mut Random, network: &Network) -> Call {
    let location = any_location(random, network);
    let mut records = match network.script.locations.get(location as usize) {
        Some(name) => whole_step(random, network, name),
        None => every_record(network),
    };
    match random.below(8) {
        0 => {
            records.pop();
        }
        1 => spoil(random, network, &mut records),
        2 => random.shuffle(&mut records),
        _ => {}
    }
    Call::Proposal { location, records }
}

/// Actions at a location, at times past what is forced, until its tick is allowed.
pub fn whole_step(random: &mut Random, network: &Network, location: &str) -> Vec<Record> {
    let rules = Rules::default();
    let mut components = network.components.clone();
    let mut records = Vec::new();
    loop {
        let (enabled, _) = fitting(&network.script, &components, Some(location));
        let forced = rules.forced(&network.script, &components, location);
        if enabled.is_empty() || (!forced && random.chance(1, 2)) {
            return records;
        }
        let action = *random.pick(&enabled);
        let _ = rules.take(&network.script, &mut components, action);
        records.push(Record::of(action));
    }
}

/// Of every action that fits, with its right or without.
fn every_record(network: &Network) -> Vec<Record> {
    fitting_but_for_rights(&network.components, None)
        .into_iter()
        .map(Record::of)
        .collect()
}

fn spoil(random: &mut Random, network: &Network, records: &mut Vec<Record>) {
    let elsewhere = every_record(network);
    let bad = if !elsewhere.is_empty() && random.chance(1, 2) {
        *random.pick(&elsewhere)
    } else {
        any_record(random, network)
    };
    let at = random.below(records.len() + 1);
    records.insert(at, bad);
}

// --- what a host writes ---------------------------------------------------------

/// What a host writes into a table just read; before it, if the network grows so, steps
/// into both limits.
fn first_calls(random: &mut Random, network: &Network) -> Vec<Call> {
    let mut calls = steps_into_both_limits(random, network);
    if !matches!(calls.as_slice(), [.., Call::Messages(_), _]) {
        calls.clear();
    }
    calls.extend(host::first_writes(random, network));
    calls
}

/// A wait or messages, or steps into both limits.
fn written(random: &mut Random, network: &Network) -> Vec<Call> {
    if random.chance(1, 3) {
        steps_into_both_limits(random, network)
    } else {
        vec![host::write(random, network)]
    }
}

/// Where a pair may meet, a count that a call behind it just reaches or passes; then the
/// count is as it was, so that it is not full for long. Elsewhere any call.
fn at_the_edge(random: &mut Random, network: &Network) -> Vec<Call> {
    let (enabled, _) = fitting(&network.script, &network.components, None);
    let meets = |action: &&Action| matches!(action, Action::Communication(..));
    let meetings: Vec<&Action> = enabled.iter().filter(meets).collect();
    if meetings.is_empty() {
        return vec![call(random, network)];
    }
    let (one, location) = meeting(random, network, &meetings);
    let mut lent = vec![Record::new(0, 0, 0); 256];
    let free = network.clone().after(Ledger::default());
    let stepped = Engine::default().step(&free, location, &mut lent);
    let (count, messages) = match &stepped {
        Ok(stepped) => (stepped.labels.len(), stepped.network.ledger.messages),
        Err(_) => (0, 1),
    };
    let past = *random.pick(&[0, 1, 1, 1, messages]);
    let room = messages.saturating_sub(past);
    let (room, edge) = match random.weighted(&[4, 2, 2, 2, 1, 6]) {
        0 => (room, proposal_of(location, &lent[..count])),
        1 => (
            0,
            proposal_of(any_location(random, network), &[Record::of(one)]),
        ),
        2 => (0, Call::Tick(location)),
        3 => (past.min(1), Call::Action(Record::of(one))),
        4 => (0, Call::Forced),
        _ => (room, step_with_room(random, location, count)),
    };
    let ledger = host::with_room_for(random, room);
    let before = Call::Messages(network.ledger);
    vec![Call::Messages(ledger), edge, before]
}

/// A step whose buffer holds all its records, or only half of them; one in three is a
/// conforming one.
fn step_with_room(random: &mut Random, location: u32, count: usize) -> Call {
    let room = *random.pick(&[256, 256, count, count / 2]);
    if random.chance(1, 3) {
        Call::Conforming { location, room }
    } else {
        Call::Step { location, room }
    }
}

/// Steps at a location, until one there would neither fit the table nor be counted.
fn steps_into_both_limits(random: &mut Random, network: &Network) -> Vec<Call> {
    let calls = |p: &usize| {
        let part = network.components[*p].ready_part();
        matches!(part, Some(Part::Call { .. }))
    };
    let calls: Vec<usize> = (0..network.components.len()).filter(calls).collect();
    let location = location_of_one(random, network, &calls);
    let room = 256;
    let step = Call::Step { location, room };
    let engine = Engine::default();
    let mut lent = vec![Record::new(0, 0, 0); 256];
    let mut made = Vec::new();
    let mut network = network.clone();
    for _ in 0..8 {
        let full = host::with_room_for(random, 0);
        let mut refused = |ledger| {
            let network = network.clone().after(ledger);
            engine.step(&network, location, &mut lent).err()
        };
        let both = [refused(Ledger::default()), refused(full)];
        if both == [Some(Refusal::TableFull), Some(Refusal::MessagesFull)] {
            let conforms = engine.conforms(&network, location) == Ok(true);
            let last = match conforms && random.chance(1, 2) {
                true => Call::Conforming { location, room },
                false => step,
            };
            made.extend([Call::Messages(full), last]);
            return made;
        }
        let Some(after) = next(&network, &step) else {
            return made;
        };
        network = after;
        made.push(step.clone());
    }
    made
}

/// One of these meetings with its location; mostly one beside which another pair may
/// meet in the same step.
fn meeting(random: &mut Random, network: &Network, of: &[&Action]) -> (Action, u32) {
    let at = |action: &Action| &network.components[action.positions()[0]].location;
    let apart = |one: &Action, other: &Action| {
        let positions = other.positions();
        at(one) == at(other) && !one.positions().iter().any(|p| positions.contains(p))
    };
    let beside_another = |one: &&&Action| of.iter().any(|other| apart(one, other));
    let several: Vec<&&Action> = of.iter().filter(beside_another).collect();
    let one = if several.is_empty() || random.chance(1, 4) {
        **random.pick(of)
    } else {
        ***random.pick(&several)
    };
    (one, location_of_one(random, network, &one.positions()[..1]))
}

fn proposal_of(location: u32, records: &[Record]) -> Call {
    Call::Proposal {
        location,
        records: records.to_vec(),
    }
}

// --- comparing and writing -----------------------------------------------------

fn same(random: &mut Random, network: &Network) -> Call {
    if random.chance(1, 3) {
        return Call::Same;
    }
    Call::Like(like(random, network))
}

/// The network's own text with components and definitions in another order, at
/// times changed in one token.
fn like(random: &mut Random, network: &Network) -> String {
    let mut definitions: Vec<String> = network
        .script
        .definitions
        .iter()
        .map(writing::definition)
        .collect();
    let mut located: Vec<String> = network
        .components
        .iter()
        .map(|c| format!("{}[{}]", c.location, writing::process(&c.process)))
        .collect();
    if random.chance(1, 2) {
        random.shuffle(&mut definitions);
        random.shuffle(&mut located);
    }
    let text = format!("{} {} .", definitions.join(" "), located.join(" | "));
    let mut tokens = cut(&text);
    if random.chance(1, 2) {
        alter(random, &mut tokens);
    }
    let text = String::from_utf8_lossy(&spaced(random, &tokens)).replace('\n', " ");
    text.trim_end().to_string()
}

/// One token replaced by another of its class, at times by any.
fn alter(random: &mut Random, tokens: &mut Tokens) {
    if random.chance(1, 6) {
        return damage_tokens(random, tokens);
    }
    let at = random.below(tokens.len());
    let alike = |token: &&String| class(token) == class(&tokens[at]);
    let others: Vec<&String> = tokens.iter().filter(alike).collect();
    let other = random.pick(&others).to_string();
    tokens[at] = other;
}

/// Numbers, capitals, small letters and single signs.
fn class(token: &str) -> u8 {
    match token.as_bytes()[0] {
        b'0'..=b'9' => b'0',
        b'A'..=b'Z' => b'A',
        b'a'..=b'z' => b'a',
        sign => sign,
    }
}

/// A buffer that is mostly large enough; at times of the very length, or one
/// byte short.
fn write(random: &mut Random, network: &Network) -> Call {
    let length = writing::network(network).len();
    let room = [65_536, length, length - 1, 0][random.weighted(&[4, 2, 2, 1])];
    Call::Write { room }
}
