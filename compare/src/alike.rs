//! `same` on a network and on others made from it by hand, against the
//! reference engine; and question 17 of all calls where a table stands for no
//! network. Whether it does is asked of both engines.

use timo_reference::calls::Engine;
use timo_reference::random::Random;
use timo_reference::table::{
    Fault, DEFINITIONS, EDITION, LOCATIONS, PARTS, RIGHTS, RIGHTS_ROW, ROW,
};
use timo_reference::term::Network;

use crate::agree::{equal, Agreed};
use crate::reading::Pair;
use crate::table;
use crate::timo::{Record, Table, MESSAGES, UNMARKED, WAIT};

/// How many pairs are the same and not the same, and how many were refused.
#[derive(Clone, Copy, Debug, Default)]
pub struct Tally {
    pub same: usize,
    pub not_same: usize,
    pub refused: usize,
}

/// Compares a valid table with tables made from it, both ways round. Gives one
/// of those that stand for a network.
pub fn compare(random: &mut Random, table: &Table, tally: &mut Tally) -> Result<Pair, String> {
    let made: Result<Vec<Made>, String> = variations(random, table)
        .into_iter()
        .map(|(change, table)| Made::new(change, table))
        .collect();
    let made = made?;
    let (given, others) = (&made[0], &made[1..]);
    judge(given, given, tally)?;
    for other in others {
        judge(given, other, tally)?;
        judge(other, given, tally)?;
        if other.network.is_none() {
            refused_by_all(&other.table)?;
        }
    }
    judge(random.pick(others), random.pick(others), tally)?;
    let good: Vec<Pair> = made.into_iter().filter_map(Made::pair).collect();
    Ok(random.pick(&good).clone())
}

/// A table with the change that made it and the network that it stands for, if
/// it stands for one.
struct Made {
    change: &'static str,
    table: Table,
    network: Option<Network>,
}

impl Made {
    fn new(change: &'static str, table: Table) -> Result<Made, String> {
        let network = table::network(&table);
        if table.is_valid() != network.is_ok() {
            let said = network.map_or_else(fault, |_| "yes".to_string());
            return Err(format!("question 17 of {change}: reference engine {said}"));
        }
        Ok(Made {
            change,
            table,
            network: network.ok(),
        })
    }

    fn pair(self) -> Option<Pair> {
        let network = self.network?;
        Some(Pair {
            table: self.table,
            network,
        })
    }
}

/// What the reference engine says of a table that does not pass.
pub fn fault(fault: Fault) -> String {
    format!("no, {fault}")
}

fn judge(one: &Made, other: &Made, tally: &mut Tally) -> Agreed {
    let answer = match (&one.network, &other.network) {
        (Some(one), Some(other)) => Ok(Engine::default().same(one, other)),
        _ => Err(17),
    };
    *match answer {
        Ok(true) => &mut tally.same,
        Ok(false) => &mut tally.not_same,
        Err(_) => &mut tally.refused,
    } += 1;
    let what = format!("same of {} and {}", one.change, other.change);
    equal(&what, &one.table.same(&other.table), &answer)
}

/// Every call on a table that stands for no network is refused 17, whatever
/// else is wrong with it, and leaves what was given and lent to it.
pub fn refused_by_all(table: &Table) -> Agreed {
    let mut after = table.clone();
    let mut records = [[77; 3]; 2];
    let mut bytes = [b'#'; 8];
    let record = |kind, p, q| Record { kind, p, q };
    let codes = [
        after.action(1, 0, 0).err(),
        after.action(9, usize::MAX, 0).err(),
        after.tick(0).err(),
        after.tick(64).err(),
        after.step(0, &mut records).err(),
        after.step(u32::MAX, &mut []).err(),
        after.conforms(0).err(),
        after.conforms(64).err(),
        after.step_conforming(0, &mut records).err(),
        after.step_conforming(u32::MAX, &mut []).err(),
        after.propose(0, &[record(1, 0, 0)]).err(),
        after.propose(65, &[record(0, 256, 256)]).err(),
        after.forced().err(),
        after.mean().err(),
        after.write(&mut bytes).err(),
        after.write(&mut []).err(),
        after.same(table).err(),
        after.locations().err(),
        after.channels().err(),
        after.location_name(0, &mut bytes).err(),
        after.channel_name(64, &mut []).err(),
        after.action_label(1, 0, 0, &mut bytes).err(),
        after.step_line(0, &mut bytes).err(),
    ];
    equal("calls on a bad table", &codes, &[Some(17); 23])?;
    let lent = records == [[77; 3]; 2] && bytes == [b'#'; 8];
    let kept = after.state == table.state && after.words == table.words && lent;
    equal("table and buffers kept by 17", &kept, &true)
}

/// Tables made from one by changes of its state and its words, and the tables
/// that the calls make of it.
fn variations(random: &mut Random, table: &Table) -> Vec<(&'static str, Table)> {
    let mut made = vec![("the network", table.clone())];
    let mut add = |name, change: &mut dyn FnMut(&mut Table)| {
        let mut other = table.clone();
        change(&mut other);
        made.push((name, other));
    };
    let n = table.state.n;
    let at = random.below(n);
    let from = random.below(n);
    let location = random.below(table.words[1] as usize) as u32;
    add("components in another order", &mut |other| {
        random.shuffle(&mut other.state.c.at[..n]);
    });
    if n < 256 {
        add("a component twice", &mut |other| {
            other.state.c.at[n] = other.state.c.at[from];
            other.state.n += 1;
        });
    }
    add("the last component missing", &mut |other| {
        other.state.n -= 1
    });
    add("a component in another's place", &mut |other| {
        other.state.c.at[at] = other.state.c.at[from];
    });
    add("another owner or a mark", &mut |other| {
        other.state.c.at[at].mark = location;
    });
    add("a mark taken away", &mut |other| {
        other.state.c.at[at].mark = UNMARKED;
    });
    add("another location", &mut |other| {
        other.state.c.at[at].loc = location;
    });
    add("another timer", &mut |other| {
        other.state.c.at[at].timer += 1;
    });
    add("other values", &mut |other| {
        other.state.c.at[at].vals = [location; 8];
    });
    add("other waits and messages", &mut |other| {
        *other = other.with_other_waits();
    });
    add("another wait", &mut |other| {
        other.state.c.at[at].wait = *random.pick(&[1, 9, WAIT - 1, WAIT]);
    });
    add("a wait too long", &mut |other| {
        other.state.c.at[at].wait = *random.pick(&[WAIT + 1, u32::MAX]);
    });
    add("messages of any number", &mut |other| {
        any_messages(random, other);
    });
    add("names of locations exchanged", &mut |other| {
        exchange(other, LOCATIONS, 0, location as usize, 4);
    });
    if table.words[3] > 0 {
        let last = table.words[3] as usize - 1;
        add("definitions exchanged under their calls", &mut |other| {
            exchange(other, DEFINITIONS, 0, last, ROW);
        });
        add("definitions in another order", &mut |other| {
            exchange(other, DEFINITIONS, 0, last, ROW);
            follow(other, 0, last);
        });
    }
    add("a word of the script", &mut |other| {
        let row = PARTS + ROW * random.below(other.words[0] as usize);
        let word = &mut other.words[row + random.below(21)];
        *word = *random.pick(&[0, 1, 5, 64, 65, word.wrapping_add(1), word.wrapping_sub(1)]);
    });
    add("the other edition", &mut |other| {
        *other = other.under_other_edition();
    });
    add("no edition", &mut |other| {
        other.words[EDITION] = *random.pick(&[0, 3, u32::MAX]);
    });
    add("other rights", &mut |other| {
        *other = other.with_other_rights();
    });
    add("a right that is none", &mut |other| {
        let at = RIGHTS + random.below(2 * RIGHTS_ROW);
        other.words[at] = *random.pick(&[0, 1, 2, 257, u32::MAX]);
    });
    add("a tick", &mut |other| {
        let _ = other.tick(location);
    });
    add("a step", &mut |other| {
        let _ = other.step(location, &mut [[0; 3]; 256]);
    });
    made
}

/// A count and a total at their limits or past them, at most by one or by a bit.
pub fn any_messages(random: &mut Random, table: &mut Table) {
    let counts = [0, 1, 2, 4_295, MESSAGES - 1, MESSAGES, MESSAGES + 1];
    let messages = match random.below(8) {
        0 => random.draw() as u32,
        1 => MESSAGES + (1 << 31),
        _ => *random.pick(&counts),
    };
    let largest = u64::from(WAIT) * u64::from(messages);
    let total = match random.below(6) {
        0 => 0,
        1 => largest,
        2 => largest + 1,
        3 => largest.saturating_sub(1),
        4 => largest ^ (1 << random.between(30, 63)),
        _ => random.draw() % (largest + 1),
    };
    table.state.c.put_messages(messages, total);
}

/// Exchanges two entries of one of the script's lists.
fn exchange(table: &mut Table, list: usize, one: usize, other: usize, width: usize) {
    for k in 0..width {
        table
            .words
            .swap(list + width * one + k, list + width * other + k);
    }
}

/// Lets calls and scopes follow two definitions that were exchanged.
fn follow(table: &mut Table, one: usize, other: usize) {
    let definition = |d: usize| match d {
        d if d == one => other,
        d if d == other => one,
        d => d,
    };
    for place in 0..table.words[0] as usize {
        let row = &mut table.words[PARTS + ROW * place..][..ROW];
        if row[0] == 4 {
            row[1] = definition(row[1] as usize) as u32;
        }
        let held = row[8] as usize;
        let in_definitions = |o: &u32| (DEFINITIONS..LOCATIONS).contains(&(*o as usize));
        for offset in row[9..9 + held].iter_mut().filter(|o| in_definitions(o)) {
            let inside = *offset as usize - DEFINITIONS;
            let moved = definition(inside / ROW) * ROW + inside % ROW;
            *offset = (DEFINITIONS + moved) as u32;
        }
    }
}
