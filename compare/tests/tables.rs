//! Tables made by hand, through both engines: question 17 by both, and all calls
//! where both say yes. The words that reading writes, held against the page on
//! the layout.

use compare::alike::refused_by_all;
use compare::differ::run_by_itself;
use compare::reading::{theirs, with_rights, Pair};
use compare::table;
use compare::tables::{any_components, make, Tally};
use compare::timo::{
    words_of, Comp, Comps, Settings, State, Table, EDITION, RIGHTS, RIGHTS_ROW, UNMARKED, WORDS,
};
use timo_reference::calls::Engine;
use timo_reference::deep::on_big_stack;
use timo_reference::generate;
use timo_reference::layout::lay;
use timo_reference::random::Random;
use timo_reference::table::{
    Test, CHANNELS, DEFINITIONS, IN_SCOPE, LEAST, LOCATIONS, NEXT, OWN, PARTS, ROW, SCOPE, THEN,
    TIMER, VALUE,
};
use timo_reference::term::Network;
use timo_reference::writing;

const SCRIPT: &[u8] = b"D(x,y)=go(1,x,stop|D(y,A)).E=stop.
    A[D(B,A)|in(c,2,z,out(d,0,z,stop,stop),stop)]|B[stop].";
/// Where D's parameters stand.
const X: u32 = 14;
const Y: u32 = 18;
/// The last four words of the rows.
const LAST: u32 = 99_588;
/// The first word behind the edition.
const BEHIND: u32 = EDITION as u32 + 1;

fn read(text: &[u8]) -> Table {
    read_under(Settings::EDITION_1, text)
}

fn read_under(settings: Settings, text: &[u8]) -> Table {
    Table::read(text, settings).expect("a good script")
}

/// Question 17 by both engines, and the calls; the test that is not passed.
fn judged(name: &str, table: &Table) -> Option<Test> {
    let network = table::network(table);
    let test = network.as_ref().err().map(|fault| fault.test);
    assert_eq!(table.is_valid(), network.is_ok(), "{name}: {test:?}");
    let agreed = match network {
        Err(_) => refused_by_all(table),
        Ok(network) => {
            let table = table.clone();
            run_by_itself(&mut Random::new(17), Pair { table, network })
        }
    };
    agreed.unwrap_or_else(|what| panic!("{name}: {what}"));
    test
}

#[test]
fn tables_of_every_sort() {
    let mut tally = Tally::default();
    for index in 0..60 {
        let seed = generate::seed(1_717, index);
        let rights = generate::rights(&mut Random::new(index));
        let settings = with_rights(1 + index as u32 % 2, &rights);
        let Ok(good) = Table::read(&generate::script_to_run(seed), settings) else {
            continue;
        };
        let mut random = Random::new(seed);
        for _ in 0..60 {
            let made = make(&mut random, &good);
            tally.judge(&mut random, &good, &made);
        }
    }
    println!("{tally}: {:?}", tally.refused);
    tally.agreed().unwrap_or_else(|what| panic!("{what}"));
    assert!(tally.passed > 500 && tally.needed.len() > 25, "{tally}");
}

// --- every word -----------------------------------------------------------------

/// A script with each kind of part, a name bound twice, and names in scope on
/// the outside, in the words from 99,580 on.
fn small_table() -> Table {
    let mut table = read(
        b"D(x,y)=go(1,x,stop|D(y,A))|in(c,3,x,out(d,0,x,stop,E),stop).E=stop.
        A[D(B,A)|in(c,2,z,out(d,0,z,stop,stop),stop)]|B[stop].",
    );
    let scope = [99_580, X, 99_584];
    for (at, name) in [(99_580, b"v\0\0\0"), (99_584, b"w\0\0\0")] {
        table.words[at] = u32::from_le_bytes(*name);
    }
    table.words[BEHIND as usize] = u32::from_le_bytes(*b"u\0\0\0");
    put_go(&mut table, &scope);
    stood_at(table)
}

/// Contents that mean something somewhere, and the neighbours of a word.
fn contents(table: &Table, word: u32) -> Vec<u32> {
    let rows = 0..table.words[0] as usize;
    let own = rows.map(|place| (PARTS + ROW * place + OWN) as u32);
    let names = [
        b"x\0\0\0", b"y\0\0\0", b"z\0\0\0", b"v\0\0\0", b"c\0\0\0", b"d\0\0\0", b"A\0\0\0",
        b"B\0\0\0", b"D\0\0\0", b"E\0\0\0", b"S\0\0\0", b"in\0\0", b"stop", b"x\0y\0", b"x-\0\0",
        b"1\0\0\0",
    ];
    let mut contents: Vec<u32> = (0..40).chain(62..74).collect();
    contents.extend([776, 780, 1_032, 1_036, 4_095, 4_096, 4_097]);
    contents.extend([99_580, 99_584, 99_588, 99_589, 99_590, BEHIND]);
    contents.extend([1_000_000, 1_000_001, 1_000_002, u32::MAX]);
    contents.extend([word.wrapping_add(1), word.wrapping_sub(1)]);
    contents.extend(own);
    contents.extend(names.map(|name| u32::from_le_bytes(*name)));
    contents
}

/// Question 17 by both of a changed table; the calls, if it stands for another
/// network.
fn one_word(name: &str, table: &Table, network: &Network, tally: &mut Tally) {
    let found = table::network(table);
    assert_eq!(table.is_valid(), found.is_ok(), "{name}: {found:?}");
    match found {
        Err(fault) => tally.refusal(table, fault.test),
        Ok(found) if found == *network => tally.passed += 1,
        Ok(found) => {
            tally.passed += 1;
            let table = table.clone();
            let network = found;
            run_by_itself(&mut Random::new(17), Pair { table, network })
                .unwrap_or_else(|what| panic!("{name}: {what}"));
        }
    }
}

/// Every word of a small table with every content that means something: by both
/// alike, and each test of question 17 refuses some table alone, but those of
/// bound names and parameters, which the scopes of P and the body include.
#[test]
fn every_word_of_a_small_table() {
    let mut table = small_table();
    let network = table::network(&table).expect("a network");
    let mut tally = Tally::default();
    let rows = PARTS + ROW * (table.words[0] as usize + 1);
    let words = (0..DEFINITIONS + 3 * ROW)
        .chain(LOCATIONS..LOCATIONS + 12)
        .chain(CHANNELS..CHANNELS + 12)
        .chain(PARTS..rows)
        .chain(99_580..99_600)
        .chain(WORDS - 4..WORDS);
    for at in words {
        let before = table.words[at];
        for content in contents(&table, before) {
            table.words[at] = content;
            let name = format!("word {at} from {before} to {content}");
            one_word(&name, &table, &network, &mut tally);
        }
        table.words[at] = before;
    }
    every_component_word(&mut table, &network, &mut tally);
    every_word_of_the_ledger(&mut table, &network, &mut tally);
    for (name, table) in past_a_limit() {
        one_word(name, &table, &network, &mut tally);
    }
    println!("{tally}");
    let mut unneeded = Test::ALL.to_vec();
    unneeded.retain(|test| !tally.needed.contains(test));
    let included = [
        Test::Sizes,
        Test::ParameterForm,
        Test::ParameterTwice,
        Test::BoundForm,
    ];
    assert_eq!(unneeded, included);
}

/// Tables that only a limit refuses.
fn past_a_limit() -> [(&'static str, Table); 4] {
    let names: Vec<String> = (1..64).map(|k| format!("go(0,L{k},stop)")).collect();
    let mut locations = read(format!("L[{}].", names.join("|")).as_bytes());
    locations.words[1] = 65;
    locations.words[CHANNELS] = u32::from_le_bytes(*b"Last");
    let mut parameters = read(b"D(a,b,c,d)=stop.A[stop].");
    parameters.words[DEFINITIONS] = 5;
    let mut scope = stood_at(with_scope(&[BEHIND], b""));
    scope.words[BEHIND as usize] = u32::from_le_bytes(*b"u\0\0\0");
    [
        ("65 locations", locations),
        ("five parameters", parameters),
        ("nine names in scope", names_in_scope(9)),
        ("a name past the words", scope),
    ]
}

fn every_component_word(table: &mut Table, network: &Network, tally: &mut Tally) {
    for p in 0..table.state.n + 1 {
        let before = table.state.c.at[p];
        for content in contents(table, 0) {
            let [mut loc, mut mark, mut place, mut timer, mut wait] = [before; 5];
            loc.loc = content;
            mark.mark = content;
            place.place = content;
            timer.timer = content;
            wait.wait = content;
            let value = |k: usize| {
                let mut value = before;
                value.vals[k] = content;
                value
            };
            let spare = |k: usize| {
                let mut spare = before;
                spare.spare[k] = content;
                spare
            };
            let changed = [loc, mark, place, timer]
                .into_iter()
                .chain((0..8).map(value))
                .chain([wait])
                .chain((0..3).map(spare));
            for (k, after) in changed.enumerate() {
                table.state.c.at[p] = after;
                let name = format!("component {p}: word {k} to {content}");
                one_word(&name, table, network, tally);
            }
        }
        table.state.c.at[p] = before;
    }
    let n = table.state.n;
    for used in [0, 1, n + 1, 256, 257, usize::MAX] {
        table.state.n = used;
        let name = format!("{used} components in use");
        one_word(&name, table, network, tally);
    }
    table.state.n = n;
}

/// The words of the messages, by themselves and beside a count, and those behind them.
fn every_word_of_the_ledger(table: &mut Table, network: &Network, tally: &mut Tally) {
    let before = table.state.c;
    for count in [0, 1, 4_295, 1_000_000, 1_000_001] {
        for content in contents(table, 0)
            .into_iter()
            .chain([3_567_587_328, 232, 233])
        {
            for k in 0..16 {
                let c = &mut table.state.c;
                c.messages = count;
                match k {
                    0 => c.total_low = content,
                    1 => c.total_high = content,
                    2 => c.messages = content,
                    _ => c.spare[k - 3] = content,
                }
                let name = format!("{count} messages, word {k} of the ledger to {content}");
                one_word(&name, table, network, tally);
                table.state.c = before;
            }
        }
    }
}

#[test]
fn words_of_any_content() {
    let mut random = Random::new(2_026);
    for bound in [2, 3, 5, 65, 1 << 16, 1 << 32] {
        let mut any = || random.below(bound) as u32;
        let mut table = Table {
            words: words_of(0),
            state: State::ZERO,
        };
        table.words.fill_with(&mut any);
        any_components(&mut table.state, &mut any);
        table.state.n = 1 + any() as usize % 256;
        judged(&format!("words below {bound}"), &table);
    }
}

// --- scopes on the outside ------------------------------------------------------

/// `go(2,v0,stop)` above the rows of a script, with a scope of its own, and a
/// name in the last words of the rows.
fn with_scope(scope: &[u32], name: &[u8]) -> Table {
    let mut table = read(SCRIPT);
    let mut spelt = [0; 16];
    spelt[..name.len()].copy_from_slice(name);
    for (k, four) in spelt.chunks(4).enumerate() {
        table.words[LAST as usize + k] = u32::from_le_bytes([four[0], four[1], four[2], four[3]]);
    }
    put_go(&mut table, scope);
    table
}

/// `go(2,v0,stop)` in the rows above those in use.
fn put_go(table: &mut Table, scope: &[u32]) {
    let parts = table.words[0];
    for (place, kind) in [(parts, 0), (parts + 1, 1)] {
        let row = &mut table.words[PARTS + ROW * place as usize..][..ROW];
        row.fill(0);
        row[0] = kind;
        row[LEAST] = parts;
        row[IN_SCOPE] = scope.len() as u32;
        row[SCOPE..SCOPE + scope.len()].copy_from_slice(scope);
        if kind == 1 {
            row[TIMER] = 2;
            row[VALUE] = 64;
            row[THEN] = parts;
        }
    }
    table.words[0] += 2;
}

/// The same with a component at the `go`.
fn stood_at(mut table: Table) -> Table {
    table.state.c.at[0] = Comp {
        loc: 0,
        mark: UNMARKED,
        place: table.words[0] - 1,
        timer: 0,
        vals: [1, 0, 0, 0, 0, 0, 0, 0],
        wait: 0,
        spare: [0; 3],
    };
    table
}

/// What is in scope, the words where it stands, the name in the last words, and
/// the test that refuses it.
type Case = (&'static str, &'static [u32], &'static [u8], Option<Test>);

const CHANNEL: u32 = CHANNELS as u32;
const LOCATION: u32 = LOCATIONS as u32;

const GOOD: [Case; 4] = [
    ("a parameter of D", &[X], b"", None),
    ("both parameters", &[Y, X], b"", None),
    ("a channel's name", &[CHANNEL], b"", None),
    ("a long name", &[LAST, X], b"longestOfAllName", None),
];

const NOT_OF_FORM: [(&str, &[u32], &[u8]); 6] = [
    ("a capital first", &[LAST], b"X"),
    ("a location's name", &[LOCATION], b""),
    ("a digit first", &[LAST], b"9x"),
    ("a reserved word", &[X, LAST], b"inf"),
    ("no letter", &[LAST], b""),
    ("a hole", &[LAST], b"x\0y"),
];

const BAD: [Case; 4] = [
    ("twice at one word", &[X, Y, X], b"", Some(Test::ScopeTwice)),
    (
        "twice at two words",
        &[X, LAST],
        b"x",
        Some(Test::ScopeTwice),
    ),
    ("past the words", &[LAST + 1], b"", Some(Test::ScopeWord)),
    (
        "at the edition",
        &[EDITION as u32],
        b"",
        Some(Test::ScopeWord),
    ),
];

#[test]
fn names_in_scope_that_nothing_binds() {
    let not_of_form = NOT_OF_FORM.map(|(name, scope, letters)| {
        let test = Some(Test::ScopeForm);
        (name, scope, letters, test)
    });
    for (name, scope, letters, test) in [&GOOD[..], &not_of_form, &BAD].concat() {
        let unreached = with_scope(scope, letters);
        assert_eq!(judged(name, &unreached), test, "{name}, unreached");
        assert_eq!(judged(name, &stood_at(unreached)), test, "{name}");
    }
}

/// A table with eight names in scope on the outside, and a number that says how
/// many there are.
fn names_in_scope(number: u32) -> Table {
    let scope: Vec<u32> = (0..8).map(|k| LAST - 4 * k).collect();
    let mut table = stood_at(with_scope(&scope, b""));
    for (at, digit) in scope.iter().zip(b'0'..) {
        table.words[*at as usize] = u32::from_le_bytes([b'v', digit, 0, 0]);
    }
    let parts = table.words[0] as usize;
    for place in [parts - 1, parts - 2] {
        table.words[PARTS + ROW * place + IN_SCOPE] = number;
    }
    table
}

#[test]
fn eight_names_in_scope_and_nine() {
    assert_eq!(judged("eight names", &names_in_scope(8)), None);
    let nine = judged("nine names", &names_in_scope(9));
    assert_eq!(nine, Some(Test::ScopeSize));
}

/// Rows that nothing reaches are asked everything but a binder for their names.
#[test]
fn rows_that_nothing_reaches() {
    let changed = |word: usize, content: u32| {
        let mut table = with_scope(&[X], b"");
        let place = table.words[0] as usize - 1;
        table.words[PARTS + ROW * place + word] = content;
        judged("a row that nothing reaches", &table)
    };
    assert_eq!(changed(0, 5), Some(Test::Kind));
    assert_eq!(changed(TIMER, 1_000_002), Some(Test::Timer));
    assert_eq!(changed(VALUE, 65), Some(Test::Value));
    assert_eq!(changed(THEN, 0), Some(Test::ThenPlace));
    assert_eq!(changed(SCOPE, Y), Some(Test::ThenScope));
    assert_eq!(changed(NEXT, 1), Some(Test::NextPlace));
    assert_eq!(changed(LEAST, 0), Some(Test::Least));
    assert_eq!(changed(ROW - 1, u32::MAX), None);
}

// --- large tables ---------------------------------------------------------------

/// One level for each of 4,096 rows, and one process of as many parts.
#[test]
fn the_deepest_and_the_longest_table() {
    let mut deep = read(b"A[stop].");
    let mut long = deep.clone();
    for place in 1..4_096 {
        let row = PARTS + ROW * place;
        deep.words[row..row + ROW].fill(0);
        long.words[row..row + ROW].fill(0);
        deep.words[row] = 1;
        deep.words[row + THEN] = place as u32 - 1;
        long.words[row + NEXT] = place as u32;
    }
    for table in [&mut deep, &mut long] {
        table.words[0] = 4_096;
        table.state.c.at[0].place = 4_095;
        assert_eq!(on_big_stack(|| judged("unmarked", table)), None);
        table.state.c.at[0].mark = 0;
        assert_eq!(on_big_stack(|| judged("marked", table)), None);
        table.words[PARTS + ROW * 2_000 + LEAST] = 1;
        assert_eq!(judged("another least place", table), Some(Test::Least));
    }
}

// --- what reading writes --------------------------------------------------------

/// A text with a bracket for each component is written into just the words that
/// the page on the layout says.
#[test]
fn reading_lays_a_text_out_as_the_page_says() {
    let mut laid_out = 0;
    for index in 0..300 {
        let script = generate::script_to_run(generate::seed(18, index));
        let rights = generate::rights(&mut Random::new(index));
        let settings = with_rights(1 + index as u32 % 2, &rights);
        let Ok(network) = Engine::default().read(&script, &theirs(&settings)) else {
            continue;
        };
        let text = writing::network(&network);
        let Ok(network) = Engine::default().read(text.as_bytes(), &theirs(&settings)) else {
            continue;
        };
        let table = read_under(settings, text.as_bytes());
        let laid = lay(&network).expect("a network within the limits");
        let used = PARTS + ROW * laid.script[0] as usize;
        assert!(table.words[..used] == laid.script[..used], "{text}");
        assert_eq!(table.words[EDITION], laid.script[EDITION]);
        assert!(table.words[RIGHTS..] == laid.script[RIGHTS..], "{text}");
        assert_eq!(table::words(&table.state), laid.components, "{text}");
        assert_eq!(table.state.n, laid.n);
        laid_out += 1;
    }
    assert!(laid_out > 200, "{laid_out}");
}

#[test]
fn a_script_and_a_state_have_as_many_words_by_both() {
    assert_eq!(WORDS, timo_reference::table::SCRIPT);
    assert_eq!(EDITION, timo_reference::table::EDITION);
    assert_eq!(RIGHTS, timo_reference::table::RIGHTS);
    assert_eq!(RIGHTS_ROW, timo_reference::table::RIGHTS_ROW);
    let words = table::words(&State::ZERO).len();
    assert_eq!(words, timo_reference::table::STATE);
    assert_eq!(size_of::<Comps>(), 4 * words);
    assert_eq!(size_of::<Comp>(), 64);
}
