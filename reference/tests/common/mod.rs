//! Short forms for the tests.
#![allow(dead_code)]

pub mod cases;

use timo_reference::calls::{Engine, Record};
use timo_reference::refusal::Refusal;
use timo_reference::term::{Edition, Network, Settings};
use timo_reference::writing;

pub fn engine() -> Engine {
    Engine::default()
}

/// The network of a text under edition 1 with all rights.
pub fn read(text: &str) -> Network {
    read_under(Edition::One, text)
}

/// With all rights.
pub fn read_under(edition: Edition, text: &str) -> Network {
    read_with(&Settings::all(edition.number()), text)
}

pub fn read_with(settings: &Settings, text: &str) -> Network {
    engine()
        .read(text.as_bytes(), settings)
        .unwrap_or_else(|refusal| panic!("{refusal}: {text}"))
}

/// The number of the question that refuses a text under edition 1, 0 if it is
/// read.
pub fn question(text: impl AsRef<[u8]>) -> u8 {
    question_under(1, text)
}

pub fn question_under(edition: u32, text: impl AsRef<[u8]>) -> u8 {
    number(engine().read(text.as_ref(), &Settings::all(edition)))
}

pub fn number<T>(answer: Result<T, Refusal>) -> u8 {
    answer.err().map_or(0, Refusal::number)
}

/// Components with their marks, separated by semicolons.
pub fn shown(network: &Network) -> String {
    let components: Vec<String> = network.components.iter().map(writing::component).collect();
    components.join("; ")
}

pub fn written(network: &Network) -> String {
    let mut lent = vec![0; 1 << 24];
    let length = engine()
        .write(network, &mut lent)
        .expect("an unmarked network");
    String::from_utf8(lent[..length].to_vec()).expect("ASCII")
}

pub fn act(network: &Network, kind: u32, p: u32, q: u32) -> Network {
    engine()
        .action(network, Record::new(kind, p, q))
        .expect("an allowed action")
        .0
}

pub fn act_number(network: &Network, kind: u32, p: u32, q: u32) -> u8 {
    number(engine().action(network, Record::new(kind, p, q)))
}

pub fn label(network: &Network, kind: u32, p: u32, q: u32) -> String {
    engine()
        .action(network, Record::new(kind, p, q))
        .expect("an allowed action")
        .1
        .to_string()
}

pub fn tick(network: &Network, location: u32) -> Network {
    engine().tick(network, location).expect("an allowed tick")
}

pub fn tick_number(network: &Network, location: u32) -> u8 {
    number(engine().tick(network, location))
}

/// A step with room enough: the network, the records and the labels.
pub fn step(network: &Network, location: u32) -> (Network, Vec<Record>, Vec<String>) {
    let mut lent = vec![Record::new(9, 9, 9); 256];
    let stepped = engine().step(network, location, &mut lent).expect("a step");
    lent.truncate(stepped.labels.len());
    let labels = stepped
        .labels
        .iter()
        .map(|label| label.to_string())
        .collect();
    (stepped.network, lent, labels)
}

pub fn stepped(network: &Network, location: u32) -> Network {
    step(network, location).0
}

/// A text whose first component is a call.
pub const CALLER: &str = "D=stop. A[D|go(1,B,stop)] | B[stop] .";

/// A network whose first component is a call, and what an action, a tick, a step
/// and a proposal make of it.
pub fn after_each_call(network: Network) -> [Network; 5] {
    let acted = act(&network, 1, 0, 0);
    let ticked = tick(&acted, 0);
    let stepped = stepped(&network, 0);
    let (proposed, _) = engine()
        .proposal(&network, 0, &[Record::new(1, 0, 0)])
        .expect("an allowed proposal");
    [network, acted, ticked, stepped, proposed]
}
