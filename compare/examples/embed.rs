//! The library from Rust: what `examples/embed.c` does, and the same printout.

use compare::timo::{
    all_rights, printout, read_into, words_of, Record, Settings, StepCall, Table, EDITION, LABEL,
    LINE, MESSAGES, NAME, PRINTOUT, WAIT,
};

const PAGE: &[u8] = b"Page(x) = go(0,x,out(c,1,x,stop,stop)) .\n\
    A[Page(B)] | B[in(c,2,y,go(0,y,stop),stop)] .\n";

/// A pair at timer 1, and an output at 1 that nobody hears, with an input at 1 as
/// its Q.
const CHANCES: &[u8] = b"A[out(c,1,A,stop,stop) | in(c,1,x,stop,stop)] | \
    B[out(c,1,B,stop,in(d,1,y,stop,go(1,B,stop)))] .\n";

/// A page from the scanner and two from the vault that all want to be shelved in
/// the public index, one of them by way of the desk.
const PAGES: &[u8] = b"Scanner[go(0,Public,out(shelf,1,Public,stop,go(inf,Scanner,stop)))] | \
    Vault[go(0,Public,out(shelf,1,Public,stop,stop)) | \
    go(0,Desk,go(0,Public,out(shelf,1,Public,stop,stop)))] | \
    Public[in(shelf,inf,x,stop,stop)] .\n";

/// A page and two index heads, of which the second is about to time out.
const HEADS: &[u8] = b"Index[out(page,inf,Monday,stop,stop) | in(page,3,x,stop,stop) | \
    in(page,0,x,stop,go(0,Missed,stop))] .\n";

/// Three articles at the desk, and two readers that come later.
const ARTICLES: &[u8] = b"Desk[out(page,9,Monday,stop,stop) | out(page,9,Tuesday,stop,stop) | \
    out(page,9,Friday,stop,stop) | go(1,Desk,in(page,9,x,stop,stop)) | \
    go(2,Desk,in(page,9,x,stop,stop))] .\n";

/// Two desks that send articles to the index, as `examples/either_order.timo`.
const DESKS: &[u8] = b"North[in(page,1,x,go(0,x,out(file,1,x,stop,stop)) | go(1,x,stop),stop)] | \
    South[go(0,Index,stop) | go(3,Index,stop)] | \
    North[out(page,0,Index,stop,stop)] | \
    Index[in(file,1,y,stop,go(0,Missed,stop))] .\n";

/// An article that may leave the desk within a tick, and an index that waits for it.
const LEAVES: &[u8] = b"Desk[go(1,Index,out(file,1,Monday,stop,stop))] | \
    Index[in(file,3,x,stop,stop)] .\n";

/// The bytes that a call wrote, or its refusal.
fn put(answer: Result<usize, u32>, bytes: &[u8]) {
    match answer {
        Ok(length) => print!("{}", String::from_utf8_lossy(&bytes[..length])),
        Err(number) => println!("text: refused {number}"),
    }
}

fn refused<T>(what: &str, answer: Result<T, u32>) {
    println!("{what}: refused {}", answer.err().unwrap_or(0));
}

fn yes_or_no(yes: bool) -> &'static str {
    if yes {
        "yes"
    } else {
        "no"
    }
}

fn put_network(table: &Table) {
    let mut text = [0; 512];
    put(table.write(&mut text), &text);
}

fn put_location(table: &Table, location: u32) {
    let mut name = [0; NAME];
    put(table.location_name(location, &mut name), &name);
}

fn put_channel(table: &Table, channel: u32) {
    let mut name = [0; NAME];
    put(table.channel_name(channel, &mut name), &name);
}

/// For how many ticks the senders of all messages had waited, on the whole, and as
/// `timorun` prints it.
fn put_mean(table: &Table) -> Result<(), u32> {
    let mean = table.mean()?;
    match mean.whole_ticks() {
        None => println!("mean wait: no messages"),
        Some(ticks) => println!(
            "mean wait: {} and {}/{}, in whole ticks {ticks}",
            mean.quotient, mean.remainder, mean.count
        ),
    }
    Ok(())
}

/// The longest wait of a component that is in use.
fn put_longest_wait(table: &Table) {
    let used = &table.state.c.at[..table.state.n];
    let longest = used.iter().map(|component| component.wait).max();
    println!("longest wait: {}", longest.unwrap_or(0));
}

/// What there is, what must happen, and the line of the step to come.
fn look(table: &Table) -> Result<u32, u32> {
    let mut line = [0; LINE];
    let locations = table.locations()?;
    let channels = table.channels()?;
    let forced = table.forced()?;
    put_network(table);
    print!("{locations} locations:");
    for location in 0..locations {
        print!(" ");
        put_location(table, location);
    }
    print!("; {channels} channel:");
    for channel in 0..channels {
        print!(" ");
        put_channel(table, channel);
    }
    print!("\nforced: {}, the lowest ", forced.count);
    put_location(table, forced.lowest);
    print!("\nto come: ");
    put(table.step_line(0, &mut line), &line);
    Ok(locations)
}

/// A step at a location, and its line: the location and the label of each record,
/// asked of the table before the step.
fn step_by(call: StepCall, table: &mut Table, location: u32) -> Result<(), u32> {
    let before = table.clone();
    let mut records = [[0; 3]; 256];
    let count = call(table, location, &mut records)?;
    put_location(&before, location);
    for [kind, p, q] in &records[..count] {
        let mut label = [0; LABEL];
        print!(" ");
        let answer = before.action_label(*kind, *p as usize, *q as usize, &mut label);
        put(answer, &label);
    }
    println!();
    Ok(())
}

fn step(table: &mut Table, location: u32) -> Result<(), u32> {
    step_by(Table::step, table, location)
}

/// An action and then the tick, and the two as a proposal.
fn single_calls(table: &Table) -> Result<(), u32> {
    let (mut one, mut other) = (table.clone(), table.clone());
    let call = Record {
        kind: 1,
        p: 0,
        q: 0,
    };
    refused("tick first", one.tick(0));
    let label = one.action(1, 0, 0)?;
    println!(
        "action: kind {}, definition {}, at location {}",
        label.kind, label.a, label.at
    );
    refused("the action again", one.action(1, 0, 0));
    refused("writing a mark", one.write(&mut []));
    one.tick(0)?;
    other.propose(0, &[call])?;
    println!("proposal: code 0, same {}", yes_or_no(one.same(&other)?));
    refused("a proposal of nothing", table.clone().propose(0, &[]));
    Ok(())
}

fn refusals(mut table: Table, locations: u32) {
    let settings = Settings::EDITION_1;
    let mut words = words_of(0);
    let code = read_into(b"", settings, &mut words).code;
    println!("no text: refused {code}");
    refused("edition 3", Table::read(PAGE, all_rights(3)));
    refused("no text, no edition", Table::read(b"", all_rights(0)));
    let unbound = Table::read(b"A[go(1,x,stop)] .", settings);
    refused("unbound variable", unbound);
    refused("no such location", table.location_name(locations, &mut []));
    refused("no bytes", table.location_name(0, &mut []));
    refused("no records", table.step(0, &mut []));
    println!("valid: {}", yes_or_no(table.is_valid()));
    table.state.c.at[0].vals[7] = locations;
    let valid = yes_or_no(table.is_valid());
    println!("valid with a value out of range: {valid}");
    table.state.n = 0;
    refused("no component", table.tick(0));
}

/// Under both editions the pair stops the tick and meets. The output at timer 1
/// is lowered under edition 1 and takes its Q under edition 2; that Q is not
/// lowered in the same tick.
fn editions() -> Result<(), u32> {
    for edition in [1, 2] {
        let mut table = Table::read(CHANCES, all_rights(edition))?;
        println!("edition {}:", table.words[EDITION]);
        refused("tick first", table.tick(0));
        step(&mut table, 0)?;
        for _ in 0..3 {
            step(&mut table, 1)?;
            put_network(&table);
        }
    }
    let one = Table::read(CHANCES, Settings::EDITION_1)?;
    let mut two = Table::read(CHANCES, Settings::EDITION_2)?;
    let same = yes_or_no(one.same(&two)?);
    println!("same text, other edition: same {same}");
    two.words[EDITION] = 0;
    refused("no edition in the table", two.tick(1));
    Ok(())
}

/// The number of a location by its name, which the network must have.
fn number_of(table: &Table, wanted: &str) -> Result<usize, u32> {
    let mut name = [0; NAME];
    for location in 0..table.locations()? {
        let length = table.location_name(location, &mut name)?;
        if &name[..length] == wanted.as_bytes() {
            return Ok(location as usize);
        }
    }
    Err(8)
}

/// Two rounds of steps over all locations, and what they leave.
fn rounds(mut table: Table) -> Result<(), u32> {
    for _ in 0..2 {
        for location in 0..table.locations()? {
            step(&mut table, location)?;
        }
    }
    put_network(&table);
    Ok(())
}

/// An embargo: no right leads out of the vault and the desk. So neither page from
/// the vault reaches the public index, the one that may go to the desk included.
/// No tick waits for them, and their timers stay 0. Then the public index may not
/// receive: the page that is there takes its time-out.
fn rights() -> Result<(), u32> {
    let mut settings = all_rights(1);
    let open = Table::read(PAGES, settings)?;
    for from in ["Vault", "Desk"] {
        for to in ["Scanner", "Public"] {
            settings.rights[number_of(&open, from)?].leave[number_of(&open, to)?] = false;
        }
    }
    println!("embargo:");
    let mut table = Table::read(PAGES, settings)?;
    let same = yes_or_no(open.same(&table)?);
    println!("same text, other rights: same {same}");
    refused("from the vault", table.action(2, 1, 0));
    rounds(table)?;
    settings.rights[number_of(&open, "Public")?].receive[0] = false;
    print!("nothing is received on ");
    put_channel(&open, 0);
    println!(" there:");
    rounds(Table::read(PAGES, settings)?)
}

/// The step serves the head that is about to time out. A proposal may name the
/// other one, and then the first takes its Q.
fn urgent() -> Result<(), u32> {
    let mut table = Table::read(HEADS, Settings::EDITION_1)?;
    let mut proposed = table.clone();
    println!("two heads:");
    step(&mut table, 0)?;
    put_network(&table);
    proposed.propose(
        0,
        &[Record {
            kind: 3,
            p: 0,
            q: 1,
        }],
    )?;
    put_network(&proposed);
    Ok(())
}

/// Articles that wait for their readers. Then the count of messages is full: a pair
/// that could meet stops the tick and may not meet, until the host counts anew.
fn waits() -> Result<(), u32> {
    let mut table = Table::read(ARTICLES, Settings::EDITION_1)?;
    let mut full = table.clone();
    println!("articles:");
    for round in 0..5 {
        if round == 3 {
            full = table.clone();
        }
        put_longest_wait(&table);
        put_mean(&table)?;
        step(&mut table, 0)?;
    }
    put_longest_wait(&table);
    put_mean(&table)?;
    println!("a full count:");
    full.state.c.messages = MESSAGES;
    refused("tick", full.tick(0));
    refused("step", full.step(0, &mut [[0; 3]; 256]));
    full.state.c.put_messages(0, 0);
    step(&mut full, 0)?;
    put_mean(&full)?;
    full.state.c.at[2].wait = WAIT + 1;
    refused("a wait past the longest", full.mean());
    Ok(())
}

/// The steps at two locations in either order, from the same network: whether neither
/// moves a component to the other's location, and whether they lead to the same one.
fn either(table: &mut Table, one: &str, two: &str) -> Result<(), u32> {
    let mut turned = table.clone();
    let l = number_of(table, one)? as u32;
    let m = number_of(table, two)? as u32;
    let exchangeable = table.may_exchange(l, m)?;
    step(table, l)?;
    step(table, m)?;
    println!("in the other order:");
    step(&mut turned, m)?;
    step(&mut turned, l)?;
    println!(
        "{one} and {two}: may be exchanged {}, same {}",
        yes_or_no(exchangeable),
        yes_or_no(table.same(&turned)?)
    );
    Ok(())
}

/// The two desks may be exchanged. A desk and the index may not: its article arrives, and
/// the head there is still waiting or has just timed out.
fn either_order() -> Result<(), u32> {
    let mut table = Table::read(DESKS, Settings::EDITION_1)?;
    println!("two desks:");
    either(&mut table, "North", "South")?;
    let index = number_of(&table, "Index")? as u32;
    step(&mut table, index)?;
    println!("a desk and the index:");
    either(&mut table, "North", "Index")
}

/// The step at a location if it does not depend on a choice.
fn step_if_it_conforms(table: &mut Table, location: u32) -> Result<(), u32> {
    let conforms = table.conforms(location)?;
    put_location(table, location);
    println!(" conforms: {}", yes_or_no(conforms));
    let stepped = step_by(Table::step_conforming, table, location);
    if stepped.is_err() {
        refused("step", stepped);
    }
    Ok(())
}

/// An article that may go or stay is a choice, so the desk does not conform, and its
/// conforming step is refused. A step lets the timer come down to 0; then the article has
/// to go, and every whole step ends alike.
fn one_outcome() -> Result<(), u32> {
    let mut table = Table::read(LEAVES, Settings::EDITION_1)?;
    let desk = number_of(&table, "Desk")? as u32;
    let index = number_of(&table, "Index")? as u32;
    println!("one outcome:");
    step_if_it_conforms(&mut table, desk)?;
    step(&mut table, desk)?;
    step_if_it_conforms(&mut table, desk)?;
    step_if_it_conforms(&mut table, index)?;
    put_network(&table);
    refused("no such location", table.conforms(table.locations()?));
    Ok(())
}

fn main() -> Result<(), u32> {
    let read = Table::read(PAGE, Settings::EDITION_1)?;
    let mut table = read.clone();
    let locations = look(&table)?;
    for _ in 0..4 {
        for location in 0..locations {
            step(&mut table, location)?;
        }
    }
    put_network(&table);
    put_mean(&table)?;
    single_calls(&read)?;
    refusals(read, locations);
    editions()?;
    rights()?;
    urgent()?;
    waits()?;
    either_order()?;
    one_outcome()?;
    let mut printed = vec![0; PRINTOUT];
    let length = printout(PAGE, &mut printed);
    let measured = printout(PAGE, &mut []);
    println!("printout: {length} bytes, {measured} where none are lent");
    put(Ok(length), &printed);
    Ok(())
}
