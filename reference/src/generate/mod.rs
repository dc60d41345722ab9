//! Scripts, rights and call lists that reach the corners, from a seed.
//!
//! | module   | what it makes                                                  |
//! |----------|----------------------------------------------------------------|
//! | `draft`  | scripts as lists of tokens, and their spacing                  |
//! | `random_script` | readable scripts from few names, so that many meet      |
//! | `urgent` | readable scripts with several inputs for an output             |
//! | `waiting` | readable scripts in which articles wait                       |
//! | `conforming` | readable scripts whose locations mostly conform            |
//! | `edges`  | every limit and one past it; deep and long texts               |
//! | `damage` | damaged texts, and texts that several questions refuse         |
//! | `hostile` | deep, long and wide texts with their numbers              |
//! | `faults` | every fault that questions 1 to 7 ask for, in pairs            |
//! | `vectors` | small scripts with their printouts                            |
//! | `rights` | rights that matter, while most scripts still run               |
//! | `host`   | waits and messages that a host writes into its table           |
//! | `call_list` | calls on a network, biased toward what is enabled           |

pub mod call_list;
pub mod conforming;
pub mod damage;
pub mod draft;
pub mod edges;
pub mod faults;
pub mod host;
pub mod hostile;
pub mod random_script;
pub mod rights;
pub mod urgent;
pub mod vectors;
pub mod waiting;

pub use self::rights::rights;

use crate::calls::Engine;
use crate::lists::Call;
use crate::random::Random;
use crate::term::Settings;

/// The seed of one script among many, far from those of its neighbours.
pub fn seed(seed: u64, index: u64) -> u64 {
    Random::new(seed.wrapping_mul(0x1_0000_0001).wrapping_add(index)).draw()
}

/// A text of any sort.
pub fn script(seed: u64) -> Vec<u8> {
    let mut random = Random::new(seed);
    match random.weighted(&[40, 20, 20, 20]) {
        0 => random_script::text(&mut random),
        1 => edges::text(&mut random),
        2 => damage::damaged(&mut random),
        _ => damage::several_faults(&mut random),
    }
}

/// A text that is meant to be read and then run; one in five has several inputs for
/// an output, one in five has articles that wait, in one in six locations mostly
/// conform, one in twelve is of any sort.
pub fn script_to_run(seed: u64) -> Vec<u8> {
    let mut random = Random::new(seed);
    match random.weighted(&[35, 5, 22, 22, 18, 9]) {
        0 => random_script::text(&mut random),
        1 => random_script::crowded_text(&mut random),
        2 => urgent::text(&mut random),
        3 => waiting::text(&mut random),
        4 => conforming::text(&mut random),
        _ => script(seed.wrapping_add(1)),
    }
}

/// A text whose run ends with a mean that is often at the half.
pub fn script_with_mean(seed: u64) -> Vec<u8> {
    waiting::met(&mut Random::new(seed))
}

/// A text whose locations mostly conform.
pub fn script_with_one_outcome(seed: u64) -> Vec<u8> {
    conforming::text(&mut Random::new(seed))
}

/// A list of calls for a text, made by following its network with settings;
/// empty if the text is refused.
pub fn calls(seed: u64, script: &[u8], settings: &Settings) -> Vec<Call> {
    let mut random = Random::new(seed ^ 0x5eed_ca11);
    match Engine::default().read(script, settings) {
        Ok(network) => {
            let count = random.between(100, 500);
            call_list::calls(&mut random, network, count)
        }
        Err(_) => Vec::new(),
    }
}
