//! Rights that matter, while most scripts still run. Scripts have few names, so
//! that what is given or withheld has low numbers.

use crate::random::Random;
use crate::term::{Rights, Row};

/// Below this number rights are chosen with care.
const LOW: usize = 6;

/// Rights of any sort.
pub fn rights(random: &mut Random) -> Rights {
    let mut rights = match random.weighted(&[1, 1, 7, 3, 3, 4]) {
        0 => Rights::all(),
        1 => Rights::none(),
        2 => but_a_few(random, true),
        3 => but_a_few(random, false),
        4 => by_coin(random),
        _ => of_one_sort(random),
    };
    if random.chance(1, 2) {
        own_by_coin(random, &mut rights);
    }
    if random.chance(1, 2) {
        far_by_coin(random, &mut rights);
    }
    rights
}

/// With some rights the other way.
fn but_a_few(random: &mut Random, given: bool) -> Rights {
    let mut rights = if given { Rights::all() } else { Rights::none() };
    for _ in 0..random.between(1, 16) {
        let (row, number) = (low(random), low(random));
        let sort = random.weighted(&[1, 1, 2]);
        rights.rows[row].sorts_mut()[sort][number] = !given;
    }
    rights
}

/// Lower numbers more often.
fn low(random: &mut Random) -> usize {
    let most = random.between(1, LOW);
    random.below(most)
}

fn by_coin(random: &mut Random) -> Rights {
    let mut rights = Rights::all();
    for bits in rights.rows.iter_mut().flat_map(Row::sorts_mut) {
        *bits = coins(random);
    }
    rights
}

/// All given but those of one sort, which are withheld or drawn.
fn of_one_sort(random: &mut Random) -> Rights {
    let mut rights = Rights::all();
    let choice = random.below(3);
    let withheld = random.chance(1, 3);
    for row in &mut rights.rows {
        *row.sorts_mut()[choice] = if withheld {
            [false; Rights::NUMBERS]
        } else {
            coins(random)
        };
    }
    rights
}

/// The bits that nothing looks at: those for leaving for one's own location.
fn own_by_coin(random: &mut Random, rights: &mut Rights) {
    for (l, row) in rights.rows.iter_mut().enumerate() {
        row.leave[l] = random.chance(1, 2);
    }
}

/// Rows and bits past the low numbers.
fn far_by_coin(random: &mut Random, rights: &mut Rights) {
    for (l, row) in rights.rows.iter_mut().enumerate() {
        let first = if l < LOW { LOW } else { 0 };
        for bits in row.sorts_mut() {
            bits[first..].copy_from_slice(&coins(random)[first..]);
        }
    }
}

fn coins(random: &mut Random) -> [bool; Rights::NUMBERS] {
    let bits = random.draw();
    std::array::from_fn(|k| (bits >> k) & 1 == 1)
}
