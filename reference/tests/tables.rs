//! Question 17 of tables made by hand: a table that fails each of its tests,
//! tables that pass by a hair, and words of any content.

mod common;

use std::collections::HashSet;

use common::{act, engine, read, read_under, stepped};
use timo_reference::deep::on_big_stack;
use timo_reference::generate;
use timo_reference::layout::{lay, Laid};
use timo_reference::random::Random;
use timo_reference::table::{
    Table, Test, CHANNELS, COMPONENT, DEFINITIONS, EDITION, LEDGER, LOCATIONS, PARTS, RIGHTS,
    RIGHTS_ROW, ROW, SCRIPT, SLOTS, STATE, WAIT,
};
use timo_reference::term::{Edition, Network, Rights, Settings};
use timo_reference::writing;

/// From the highest place down: D's body `go` 9, its two parts `stop` 8 and the
/// call 7; E's body 6; the call of D 5; `in` 4, its P `out` 3 with `stop` 2 and
/// `stop` 1, its Q `stop` 0.
const TEXT: &str = "D(x,y) = go(1,x,stop | D(y,A)) . E = stop .
    A[D(B,A)] | A[in(c,2,z,out(d,inf,z,stop,stop),stop)] .";
const GO: usize = 9;
const FIRST_STOP: usize = 8;
const CALL: usize = 7;
const BODY_OF_E: usize = 6;
const IN: usize = 4;
const OUT: usize = 3;

fn good() -> Laid {
    lay(&read(TEXT)).expect("a small network")
}

fn spelt(name: &[u8; 4]) -> u32 {
    u32::from_le_bytes(*name)
}

/// A word of the row of a place.
fn at(place: usize, word: usize) -> usize {
    PARTS + ROW * place + word
}

fn network_of(laid: &Laid) -> Network {
    laid.table().network().expect("a network")
}

/// The test that a changed table does not pass.
fn failed(change: impl FnOnce(&mut Laid)) -> Option<Test> {
    let mut laid = good();
    change(&mut laid);
    let network = laid.table().network();
    assert_eq!(network.is_ok(), laid.table().question_17().is_ok());
    network.err().map(|fault| fault.test)
}

fn word_made(word: usize, content: u32) -> Option<Test> {
    failed(|laid| laid.script[word] = content)
}

fn component_made(p: usize, word: usize, content: u32) -> Option<Test> {
    failed(|laid| laid.components[COMPONENT * p + word] = content)
}

#[test]
fn what_is_laid_out_passes_and_stands_for_the_network() {
    let network = read(TEXT);
    assert_eq!(good().table().network(), Ok(network));
}

#[test]
fn places_are_as_the_page_says() {
    let script = good().script;
    let row = |place: usize| &script[at(place, 0)..at(place, 9)];
    assert_eq!(row(GO), [1, 0, 1, 64, 8, 0, 0, 7, 2]);
    assert_eq!(row(FIRST_STOP), [0, 0, 0, 0, 0, 0, 8, 7, 2]);
    assert_eq!(row(CALL), [4, 0, 0, 2, 0, 0, 0, 7, 2]);
    assert_eq!(row(IN), [3, 0, 2, 0, 3, 0, 0, 0, 0]);
    assert_eq!(row(OUT), [2, 1, 1_000_001, 64, 2, 1, 0, 1, 1]);
    assert_eq!(script[at(OUT, 9)] as usize, at(IN, 17));
}

/// The whole table of the page: every word before the rights that is not 0.
#[test]
fn the_example_of_the_page() {
    let text = "D(x) = go(1,x,stop) . A[in(c,2,y,D(y),stop)] .";
    let laid = lay(&read(text)).expect("a small network");
    let shown = |words: &[u32]| {
        let named = words.iter().enumerate().filter(|(_, word)| **word != 0);
        let lines: Vec<String> = named.map(|(at, word)| format!("{at} {word}")).collect();
        lines.join(", ")
    };
    let page = include_str!("../../docs/LAYOUT.md");
    let flat = page.split_whitespace().collect::<Vec<_>>().join(" ");
    let before_rights = &laid.script[..RIGHTS];
    for words in [shown(before_rights), shown(&laid.components[..COMPONENT])] {
        assert!(flat.contains(&words), "{words}");
    }
    assert!(laid.script[RIGHTS..].iter().all(|word| *word == 1));
}

#[test]
fn counts_and_names() {
    for (word, most) in [4_096, 64, 64, 32].into_iter().enumerate() {
        assert_eq!(word_made(word, most + 1), Some(Test::Counts));
        assert_eq!(word_made(word, u32::MAX), Some(Test::Counts));
    }
    for name in [
        b"a\0\0\0",
        b"\0\0\0\0",
        b"S\0\0\0",
        b"A\0B\0",
        b"A-\0\0",
        b"A\xff\0\0",
    ] {
        assert_eq!(word_made(LOCATIONS, spelt(name)), Some(Test::LocationForm));
    }
    assert_eq!(
        word_made(LOCATIONS, spelt(b"B\0\0\0")),
        Some(Test::LocationTwice)
    );
    for name in [
        b"C\0\0\0", b"1\0\0\0", b"stop", b"go\0\0", b"in\0\0", b"out\0", b"inf\0",
    ] {
        assert_eq!(word_made(CHANNELS, spelt(name)), Some(Test::ChannelForm));
    }
    assert_eq!(
        word_made(CHANNELS, spelt(b"d\0\0\0")),
        Some(Test::ChannelTwice)
    );
    let identifier = DEFINITIONS + 2;
    for name in [b"1\0\0\0", b"S\0\0\0", b"stop"] {
        assert_eq!(
            word_made(identifier, spelt(name)),
            Some(Test::IdentifierForm)
        );
    }
    assert_eq!(
        word_made(identifier, spelt(b"E\0\0\0")),
        Some(Test::IdentifierTwice)
    );
    for name in [b"SS\0\0", b"Stop", b"Z9z9"] {
        assert_eq!(word_made(LOCATIONS, spelt(name)), None);
    }
    for name in [b"inn\0", b"s\0\0\0", b"gO\0\0"] {
        assert_eq!(word_made(CHANNELS, spelt(name)), None);
    }
    let full = |laid: &mut Laid| laid.script[CHANNELS..CHANNELS + 4].fill(spelt(b"abcd"));
    assert_eq!(failed(full), None);
}

#[test]
fn the_edition() {
    assert_eq!(good().script[EDITION], 1);
    for word in [
        0,
        3,
        256 + 1,
        65_536 + 2,
        0x8000_0001,
        u32::MAX - 1,
        u32::MAX,
    ] {
        assert_eq!(word_made(EDITION, word), Some(Test::Edition));
    }
    let mut laid = good();
    laid.script[EDITION] = 2;
    let network = network_of(&laid);
    assert_eq!(network, read_under(Edition::Two, TEXT));
    assert_ne!(network, read(TEXT));
    assert_eq!(lay(&network), Some(laid));
}

/// A row for each of 64 locations: words to send, to receive and to leave. Word 1
/// gives a right and any other does not, and every word passes question 17.
#[test]
fn the_rights() {
    assert_eq!(RIGHTS + 64 * RIGHTS_ROW, SCRIPT);
    assert_eq!(network_of(&good()).script.rights, Rights::all());
    for (location, number) in [(0, 0), (0, 63), (1, 2), (5, 1), (63, 0), (63, 63)] {
        for sort in 0..3 {
            let mut rights = Rights::all();
            let row = &mut rights.rows[location];
            [&mut row.send, &mut row.receive, &mut row.leave][sort][number] = false;
            let expected = read(TEXT).with_rights(rights);
            let mut laid = good();
            let word = RIGHTS + RIGHTS_ROW * location + 64 * sort + number;
            for content in [2, 255, 256 + 1, 65_536 + 1, 0x8000_0001, u32::MAX, 0] {
                laid.script[word] = content;
                assert_eq!(network_of(&laid), expected);
            }
            assert_eq!(lay(&expected), Some(laid));
        }
    }
}

#[test]
fn definitions() {
    assert_eq!(word_made(DEFINITIONS, 5), Some(Test::Parameters));
    assert_eq!(word_made(DEFINITIONS, 1), Some(Test::BodyScope));
    assert_eq!(word_made(DEFINITIONS + 1, 10), Some(Test::BodyPlace));
    assert_eq!(word_made(DEFINITIONS + 1, u32::MAX), Some(Test::BodyPlace));
    assert_eq!(word_made(DEFINITIONS + 1, 6), Some(Test::BodyScope));
    let parameter = DEFINITIONS + 6;
    assert_eq!(
        word_made(parameter, spelt(b"X\0\0\0")),
        Some(Test::ParameterForm)
    );
    assert_eq!(
        word_made(parameter, spelt(b"y\0\0\0")),
        Some(Test::ParameterTwice)
    );
    assert_eq!(word_made(parameter, spelt(b"name")), None);
    let exchanged = |laid: &mut Laid| {
        for place in [GO, FIRST_STOP, CALL] {
            laid.script.swap(at(place, 9), at(place, 10));
        }
    };
    assert_eq!(failed(exchanged), Some(Test::BodyScope));
}

#[test]
fn heads_of_parts() {
    assert_eq!(word_made(at(0, 0), 5), Some(Test::Kind));
    for place in [GO, OUT, IN] {
        assert_eq!(word_made(at(place, 2), 1_000_001), None);
        assert_eq!(word_made(at(place, 2), 1_000_002), Some(Test::Timer));
    }
    for place in [OUT, IN] {
        assert_eq!(word_made(at(place, 1), 2), Some(Test::Channel));
    }
    assert_eq!(word_made(at(GO, 3), 1), None);
    assert_eq!(word_made(at(GO, 3), 65), None);
    for value in [2, 63, 66, u32::MAX] {
        assert_eq!(word_made(at(GO, 3), value), Some(Test::Value));
        assert_eq!(word_made(at(CALL, 17), value), Some(Test::Value));
    }
    let capital = spelt(b"Z\0\0\0");
    assert_eq!(word_made(at(IN, 17), capital), Some(Test::ScopeForm));
    let bound = |laid: &mut Laid| {
        laid.script[at(IN, 17)] = capital;
        for place in [1, 2, OUT] {
            laid.script[at(place, 9)] = 14;
        }
    };
    assert_eq!(failed(bound), Some(Test::BoundForm));
    assert_eq!(word_made(at(IN, 3), 1), Some(Test::Slot));
    assert_eq!(word_made(at(CALL, 1), 2), Some(Test::Callee));
    assert_eq!(word_made(at(CALL, 3), 1), Some(Test::Arguments));
    assert_eq!(word_made(at(CALL, 1), 1), Some(Test::Arguments));
    let empty = |laid: &mut Laid| {
        laid.script[at(CALL, 1)] = 1;
        laid.script[at(CALL, 3)] = 0;
        laid.script[at(CALL, 17)] = u32::MAX;
    };
    assert_eq!(failed(empty), None);
}

#[test]
fn scopes() {
    assert_eq!(word_made(at(0, 8), 9), Some(Test::ScopeSize));
    assert_eq!(word_made(at(0, 8), u32::MAX), Some(Test::ScopeSize));
    let scope = |words: &'static [u32]| {
        move |laid: &mut Laid| {
            laid.script[at(BODY_OF_E, 8)] = words.len() as u32;
            laid.script[at(BODY_OF_E, 9)..][..words.len()].copy_from_slice(words);
            // E is defined by another row, so that nothing reaches this one
            laid.script[DEFINITIONS + ROW + 1] = 0;
        }
    };
    const X: u32 = 14;
    const Y: u32 = 18;
    const C: u32 = CHANNELS as u32;
    const UNUSED: u32 = 99_588;
    assert_eq!(failed(scope(&[])), None);
    assert_eq!(failed(scope(&[X, Y, C])), None);
    assert_eq!(failed(scope(&[99_589])), Some(Test::ScopeWord));
    assert_eq!(failed(scope(&[u32::MAX])), Some(Test::ScopeWord));
    assert_eq!(failed(scope(&[X, UNUSED])), Some(Test::ScopeForm));
    assert_eq!(failed(scope(&[LOCATIONS as u32])), Some(Test::ScopeForm));
    assert_eq!(failed(scope(&[X, Y, X])), Some(Test::ScopeTwice));
    for (name, test) in [
        (b"v9\0\0", None),
        (b"V\0\0\0", Some(Test::ScopeForm)),
        (b"inf\0", Some(Test::ScopeForm)),
        (b"x\0\0\0", Some(Test::ScopeTwice)),
    ] {
        let spelt_at_the_end = |laid: &mut Laid| {
            scope(&[X, UNUSED])(laid);
            laid.script[UNUSED as usize] = spelt(name);
        };
        assert_eq!(failed(spelt_at_the_end), test);
    }
}

#[test]
fn places() {
    assert_eq!(word_made(at(GO, 4), 7), Some(Test::ThenPlace));
    assert_eq!(word_made(at(GO, 4), 9), Some(Test::ThenPlace));
    assert_eq!(word_made(at(0, 0), 1), Some(Test::ThenPlace));
    assert_eq!(word_made(at(FIRST_STOP, 10), 14), Some(Test::ScopeTwice));
    assert_eq!(
        word_made(at(GO, 10), CHANNELS as u32),
        Some(Test::BodyScope)
    );
    assert_eq!(word_made(at(OUT, 9), 14), Some(Test::ThenScope));
    assert_eq!(word_made(at(IN, 17), spelt(b"v\0\0\0")), None);
    assert_eq!(word_made(at(IN, 5), 1), Some(Test::OtherwisePlace));
    assert_eq!(word_made(at(0, 8), 1), Some(Test::ScopeForm));
    let other_scope = |laid: &mut Laid| {
        laid.script[at(0, 8)] = 1;
        laid.script[at(0, 9)] = 14;
    };
    assert_eq!(failed(other_scope), Some(Test::OtherwiseScope));
    assert_eq!(word_made(at(FIRST_STOP, 6), 7), Some(Test::NextPlace));
    assert_eq!(
        word_made(at(FIRST_STOP, 6), u32::MAX),
        Some(Test::NextPlace)
    );
    assert_eq!(word_made(at(0, 6), 1), Some(Test::NextPlace));
    let own_scope = |laid: &mut Laid| {
        laid.script[at(CALL, 8)] = 3;
        laid.script[at(CALL, 11)] = CHANNELS as u32;
    };
    assert_eq!(failed(own_scope), Some(Test::NextScope));
    assert_eq!(word_made(at(IN, 7), 1), Some(Test::Least));
    assert_eq!(word_made(at(FIRST_STOP, 6), 0), Some(Test::Least));
}

#[test]
fn components() {
    for n in [0, 257, usize::MAX] {
        assert_eq!(failed(|laid| laid.n = n), Some(Test::Components));
    }
    assert_eq!(component_made(1, 0, 2), Some(Test::ComponentLocation));
    for mark in [2, 63, 65] {
        assert_eq!(component_made(1, 1, mark), Some(Test::Mark));
    }
    assert_eq!(component_made(1, 1, 1), None);
    assert_eq!(component_made(1, 2, 10), Some(Test::ComponentPlace));
    assert_eq!(component_made(1, 3, 1_000_001), None);
    assert_eq!(component_made(1, 3, 1_000_002), Some(Test::ComponentTimer));
    for word in 4..12 {
        assert_eq!(component_made(1, word, 1), None);
        assert_eq!(component_made(1, word, 2), Some(Test::ComponentValue));
        assert_eq!(component_made(2, word, 2), None);
    }
    let marked = |laid: &mut Laid| {
        laid.components[1] = 0;
        laid.components[3] = 1_000_002;
    };
    assert_eq!(failed(marked), Some(Test::ComponentTimer));
    for p in [0, 1] {
        assert_eq!(component_made(p, WAIT, 1_000_000), None);
        assert_eq!(component_made(p, WAIT, 1_000_001), Some(Test::Wait));
    }
}

#[test]
fn messages() {
    let made = |word, content| failed(|laid| laid.components[LEDGER + word] = content);
    assert_eq!(made(0, 1), Some(Test::Total));
    assert_eq!(made(1, 1), Some(Test::Total));
    assert_eq!(made(2, 1_000_000), None);
    assert_eq!(made(2, 1_000_001), Some(Test::Messages));
}

#[test]
fn words_that_nothing_looks_at() {
    let parts = good().script[0] as usize;
    let unused = (4..8)
        .chain(DEFINITIONS + 22..DEFINITIONS + ROW)
        .chain(DEFINITIONS + 2 * ROW..LOCATIONS)
        .chain(LOCATIONS + 8..CHANNELS)
        .chain(CHANNELS + 8..PARTS)
        .chain((1..6).map(|word| at(0, word)))
        .chain([1, 5].map(|word| at(GO, word)))
        .chain((11..ROW).map(|word| at(GO, word)))
        .chain([2, 4, 5, 19, 20, 23].map(|word| at(CALL, word)))
        .chain(at(parts, 0)..EDITION)
        .chain(EDITION + 1..RIGHTS);
    let filled = |laid: &mut Laid| {
        for word in unused {
            laid.script[word] = 0xdead_beef;
        }
        for component in laid.components.chunks_mut(COMPONENT) {
            component[WAIT + 1..].fill(u32::MAX);
        }
        laid.components[2 * COMPONENT..LEDGER].fill(u32::MAX);
        laid.components[LEDGER + 3..].fill(u32::MAX);
    };
    let mut laid = good();
    filled(&mut laid);
    assert_eq!(laid.table().network(), Ok(read(TEXT)));
}

#[test]
fn other_sizes_do_not_pass() {
    let laid = good();
    for (script, components) in [(0, 0), (SCRIPT - 1, STATE), (SCRIPT, STATE - 1)] {
        let (script, components) = (&laid.script[..script], &laid.components[..components]);
        let table = Table::new(script, components, laid.n);
        assert_eq!(
            table.network().map_err(|fault| fault.test),
            Err(Test::Sizes)
        );
    }
}

/// A component that stands inside a body: its names have values, an inner
/// binder of the same name hides one, and only the part itself counts while it
/// is not marked.
#[test]
fn values_and_marks() {
    let text = "D(x,y) = stop | in(c,3,x,go(1,x,D(x,y)),go(1,x,stop)) | stop . A[D(B,A)] .";
    let mut laid = lay(&read(text)).expect("a small network");
    let body = laid.script[DEFINITIONS + 1];
    let second = laid.script[at(body as usize, 6)] - 1;
    laid.components[..SLOTS.end].copy_from_slice(&[1, 64, second, 7, 1, 0, 0, 0, 0, 0, 0, 0]);
    let shown = |laid: &Laid| writing::component(&network_of(laid).components[0]);
    let input = "in(c,7,x,go(1,x,D(x,A)),go(1,B,stop))";
    assert_eq!(shown(&laid), format!("B[] {input}"));
    laid.components[1] = 0;
    let input = input.replace("c,7", "c,3");
    assert_eq!(shown(&laid), format!("B[A] {input} | stop"));
}

#[test]
fn networks_of_every_sort_are_laid_out_and_found_again() {
    let mut laid_out = 0;
    for index in 0..400 {
        let script = generate::script_to_run(generate::seed(17, index));
        let settings = Settings {
            edition: Edition::BOTH[index as usize % 2].number(),
            rights: generate::rights(&mut Random::new(index)),
        };
        let Ok(network) = engine().read(&script, &settings) else {
            continue;
        };
        let later = stepped(&network, 0);
        for network in [network, later] {
            if let Some(laid) = lay(&network) {
                assert_eq!(laid.table().network(), Ok(network));
                laid_out += 1;
            }
        }
    }
    assert!(laid_out > 500, "{laid_out}");
    let marked = act(&read(TEXT), 1, 0, 0);
    let laid = lay(&marked).expect("a small network");
    assert_eq!(laid.table().network(), Ok(marked));
}

/// One level for each of 4,096 rows, and one process of as many parts.
#[test]
fn the_deepest_and_the_longest_table() {
    let mut deep = lay(&read("A[stop] .")).expect("a small network");
    let mut long = deep.clone();
    for place in 1..4_096 {
        let below = place as u32 - 1;
        deep.script[at(place, 0)] = 1;
        deep.script[at(place, 4)] = below;
        long.script[at(place, 6)] = below + 1;
    }
    for laid in [&mut deep, &mut long] {
        laid.script[0] = 4_096;
        laid.components[1] = 0;
        laid.components[2] = 4_095;
    }
    assert_eq!(deep.table().question_17(), Ok(()));
    let levels = on_big_stack(|| {
        writing::component(&network_of(&deep).components[0])
            .matches("go(0,A,")
            .count()
    });
    assert_eq!(levels, 4_095);
    let network = network_of(&long);
    assert_eq!(network.components[0].process.parts.len(), 4_096);
}

/// Random words anywhere, then words of any content in a good table: an answer
/// each time, and most tests are met.
#[test]
fn words_of_any_content() {
    let mut random = Random::new(17);
    let mut met = HashSet::new();
    let small = [0, 1, 2, 3, 4, 5, 8, 9, 63, 64, 65, 66, u32::MAX];
    for _ in 0..40 {
        let mut laid = good();
        let bound = *random.pick(&[2, 5, 70, u32::MAX as usize]);
        let mut fill = |words: &mut [u32]| {
            for word in words {
                *word = random.below(bound) as u32;
            }
        };
        fill(&mut laid.script);
        fill(&mut laid.components);
        met.insert(laid.table().network().err().map(|fault| fault.test));
    }
    for _ in 0..20_000 {
        let mut laid = good();
        let word = random.below(at(10, 0));
        laid.script[word] = *random.pick(&small);
        met.insert(laid.table().network().err().map(|fault| fault.test));
    }
    assert!(met.contains(&None));
    assert!(met.len() > 20, "{met:?}");
}
