//! `compare SEED N`: N generated scripts with rights and call lists, and ten times
//! as many texts of any sort, through the proved engine's library and the
//! reference engine under both editions, pairs of whole steps in either order, every
//! whole step where a location conforms and thirty tables made by hand from each script;
//! and the printouts of all texts. Prints the first difference with its seed, a shrunken
//! script and list, and ends with status 1; then puts each wrong variant of the rules in
//! the reference's place and says of any that no list has told apart.

use std::env;
use std::process::ExitCode;

use compare::both::Difference;
use compare::differ::{self, differ, Place, Tally};
use compare::exchange;
use compare::profile;
use compare::reading::{self, ours, theirs, with_rights, Pair};
use compare::shrink::{shrink, Case};
use compare::tables;
use compare::timo::{self, Settings, Table};
use timo_reference::calls::Engine;
use timo_reference::generate::{self, edges};
use timo_reference::lists::{self, Call};
use timo_reference::program;
use timo_reference::random::Random;
use timo_reference::rights;
use timo_reference::rules::Variant;
use timo_reference::term::{self, Edition, Rights};

/// Texts of any sort to one list.
const TEXTS: u64 = 10;
/// Tables made by hand to one list.
const TABLES: usize = 30;
/// Tests of question 17 that some table has to fail alone.
const MOST_TESTS: usize = 25;

fn main() -> ExitCode {
    let numbers: Option<Vec<u64>> = env::args().skip(1).map(|word| word.parse().ok()).collect();
    let Some([seed, count]) = numbers.as_deref() else {
        eprintln!("usage: compare SEED N");
        return ExitCode::FAILURE;
    };
    let compared = texts(*seed, *count)
        .and_then(|()| printouts(*seed, *count))
        .and_then(|()| all_lists(*seed, *count))
        .and_then(|lists| exchanges(&lists).map(|()| lists))
        .and_then(|lists| profiles(&lists).map(|()| lists))
        .and_then(|lists| all_tables(&lists).and_then(|()| variants(&lists)));
    match compared {
        Ok(()) => ExitCode::SUCCESS,
        Err(why) => {
            println!("{why}");
            ExitCode::FAILURE
        }
    }
}

/// Texts at each limit and past it, and texts of any sort, each with some rights
/// under both editions and under none.
fn texts(seed: u64, count: u64) -> Result<(), String> {
    let mut numbers = [0; 8];
    let mut random = Random::new(seed);
    let mut read = |name: String, text: Vec<u8>| {
        let rights = generate::rights(&mut random);
        let none = with_rights(no_edition(&mut random), &rights);
        let read = reading::read(&text, none).and(reading::read_under_both(&text, &rights));
        let read = read.map_err(|what| report_of_text(&name, none, &rights, &text, what))?;
        numbers[read.err().unwrap_or(0) as usize] += 1;
        Ok::<(), String>(())
    };
    for (choice, past) in (0..edges::LIMITS).flat_map(|choice| [(choice, 0), (choice, 1)]) {
        read(
            format!("limit {choice}, {past} past"),
            edges::limit(choice, past),
        )?;
    }
    for index in 0..count * TEXTS {
        let seed = generate::seed(seed, index);
        read(format!("text of seed {seed}"), generate::script(seed))?;
    }
    println!(
        "texts by both alike under both editions: {} read, refused 1 to 7: {:?}; all refused 21 under none",
        numbers[0],
        &numbers[1..]
    );
    enough(
        numbers.iter().all(|count| *count > 0),
        "a question that no text meets",
    )
}

/// What `timorun` prints on texts of any sort, on scripts that are meant to be run and
/// on those with a mean, byte by byte; each wrong mean is told apart.
fn printouts(seed: u64, count: u64) -> Result<(), String> {
    let sorts = [
        generate::script,
        generate::script_to_run,
        generate::script_with_mean,
    ];
    let mut unnoticed = Variant::WRONG_PRINTOUTS.to_vec();
    for (index, sort) in (0..count).flat_map(|index| sorts.map(|sort| (index, sort))) {
        let seed = generate::seed(seed, index);
        let text = sort(seed);
        let ours = printed(&text);
        if ours != printed_by(Engine::default(), &text) {
            return Err(format!("the printout of a text of seed {seed} differs"));
        }
        unnoticed.retain(|variant| ours == printed_by(Engine::new(*variant), &text));
    }
    println!(
        "printouts by both alike: {}, {} wrong means told apart",
        sorts.len() as u64 * count,
        Variant::WRONG_PRINTOUTS.len() - unnoticed.len()
    );
    enough(
        unnoticed.is_empty(),
        &format!("not told apart: {unnoticed:?}"),
    )
}

fn printed(text: &[u8]) -> Vec<u8> {
    let mut lent = vec![0; timo::PRINTOUT];
    let length = timo::printout(text, &mut lent);
    lent.truncate(length);
    lent
}

fn printed_by(engine: Engine, text: &[u8]) -> Vec<u8> {
    let mut printed = Vec::new();
    program::run(engine, text, &mut printed).expect("a buffer takes all bytes");
    printed
}

/// An edition that reading refuses by 21.
fn no_edition(random: &mut Random) -> u32 {
    let number = random.draw() as u32;
    match random.below(4) {
        0 => 0,
        1 => 3,
        2 => u32::MAX,
        _ => number.max(3),
    }
}

/// A script that both read, with its list, which was made by following the script
/// under its own edition and with its own rights.
struct List {
    seed: u64,
    own: Settings,
    script: Vec<u8>,
    calls: Vec<Call>,
}

impl List {
    /// Its own rights under an edition.
    fn under(&self, edition: u32) -> Settings {
        Settings {
            edition,
            ..self.own
        }
    }

    /// The list through both engines.
    fn differ(&self, engine: Engine, settings: Settings) -> Result<Tally, differ::Difference> {
        differ(engine, settings, &self.script, &self.calls)
    }
}

fn all_lists(seed: u64, count: u64) -> Result<Vec<List>, String> {
    let lists: Vec<List> = (0..count)
        .map(|index| list(seed, index))
        .filter(|list| !list.calls.is_empty())
        .collect();
    println!("{} lists", lists.len());
    for edition in Edition::BOTH.map(Edition::number) {
        let name = format!("edition {edition}, own rights");
        let total = together(&name, &lists, |list| list.under(edition))?;
        enough(total.lacking > 0, "no action lacks its right")?;
    }
    let total = together("own edition, all rights", &lists, |list| {
        Settings::all(list.own.edition)
    })?;
    enough(total.lacking == 0, "an action lacks its right")?;
    Ok(lists)
}

/// All lists, each with settings of its own.
fn together(
    name: &str,
    lists: &[List],
    settings: impl Fn(&List) -> Settings,
) -> Result<Tally, String> {
    let engine = Engine::default();
    let mut total = Tally::default();
    for list in lists {
        let settings = settings(list);
        let Ok(tally) = list.differ(engine, settings) else {
            let name = format!("list of seed {}", list.seed);
            return Err(report(&name, engine, settings, &list.script, &list.calls));
        };
        total.add(tally);
    }
    println!(
        "{name}, calls by both alike: {} accepted, {} refused, {} of them by 20 and {} by 18; the grouped run and the chain of leave rights hold",
        total.accepted, total.refused, total.lacking, total.full
    );
    println!(
        "{name}, waits and messages by both alike: {} calls added to the total, {} of them past 32 bits",
        total.waited, total.large
    );
    let profile = total.profile;
    println!(
        "{name}, profile by both alike: {} locations conform, {} do not; {} conforming steps accepted, {} with one action and {} with several, {} refused by 26",
        profile.yes,
        profile.no,
        profile.idle + profile.one + profile.several,
        profile.one,
        profile.several,
        profile.refused
    );
    println!(
        "{name}, pairs of networks by both alike: {} same, {} not the same, {} refused 17",
        total.pairs.same, total.pairs.not_same, total.pairs.refused
    );
    enough(total.is_everywhere(), "no call of one sort")?;
    Ok(total)
}

/// The editions take turns.
fn list(seed: u64, index: u64) -> List {
    let edition = Edition::BOTH[index as usize % 2].number();
    let seed = generate::seed(seed, index);
    let script = generate::script_to_run(seed);
    let rights = generate::rights(&mut Random::new(!seed));
    let own = term::Settings { edition, rights };
    let calls = generate::calls(seed, &script, &own);
    List {
        seed,
        own: ours(&own),
        script,
        calls,
    }
}

/// Pairs of whole steps in either order, from what each script is after some steps, under
/// both editions and with its own rights; each wrong form of the claim is told apart.
fn exchanges(lists: &[List]) -> Result<(), String> {
    let mut tally = exchange::Tally::default();
    for list in lists {
        from_both_editions(list.seed, &list.script, list.own, |random, pair| {
            exchange::exchange(random, pair, &mut tally)
        })?;
    }
    println!("pairs of whole steps by both alike in either order: {tally}");
    let unnoticed = &tally.unnoticed;
    enough(
        unnoticed.is_empty(),
        &format!("not told apart: {unnoticed:?}"),
    )?;
    let few = !tally.is_everywhere() && lists.len() >= 100;
    enough(!few, "no pair of steps of one sort")
}

/// Every whole step at each location, from what each script is after some steps and from
/// what one is whose locations mostly conform, under both editions, with the script's own
/// rights or with all.
fn profiles(lists: &[List]) -> Result<(), String> {
    let mut tally = profile::Tally::default();
    for (index, list) in lists.iter().enumerate() {
        let conforming = generate::script_with_one_outcome(list.seed);
        let all = Settings::all(list.own.edition);
        let rights = if index % 2 == 0 { list.own } else { all };
        for script in [&list.script, &conforming] {
            from_both_editions(list.seed, script, rights, |random, pair| {
                profile::outcomes(random, pair, &mut tally)
            })?;
        }
    }
    println!("whole steps at a location by both alike: {tally}");
    let few = !tally.is_everywhere() || tally.unmarked.all < 5 * lists.len();
    enough(
        !few || lists.len() < 100,
        "few locations that conform, or none of one sort",
    )
}

/// What is done with a script that both read, under each edition.
fn from_both_editions(
    seed: u64,
    script: &[u8],
    rights: Settings,
    mut work: impl FnMut(&mut Random, &Pair) -> Result<(), Difference>,
) -> Result<(), String> {
    for edition in Edition::BOTH.map(Edition::number) {
        let settings = Settings { edition, ..rights };
        let Ok(pair) = reading::read(script, settings)? else {
            continue;
        };
        let mut random = Random::new(seed ^ u64::from(edition));
        work(&mut random, &pair).map_err(|difference| {
            let rights = rights::print(&pair.network.script.rights, &pair.network.script);
            let script = in_lines(script);
            format!("script of seed {seed}, edition {edition}:\n{rights}{script}\n{difference}")
        })?;
    }
    Ok(())
}

/// Tables made by hand from what each script is after some steps, under an edition
/// by its seed and with its own rights.
fn all_tables(lists: &[List]) -> Result<(), String> {
    let mut tally = tables::Tally::default();
    for list in lists {
        let seed = list.seed;
        let mut random = Random::new(seed);
        let settings = list.under(*random.pick(&[1, 2]));
        let good = Table::read(&list.script, settings);
        let mut good = good.map_err(|number| format!("refused {number}"))?;
        for _ in 0..TABLES {
            let mut made = tables::make(&mut random, &good);
            made.change = format!("script of seed {seed}, {}", made.change);
            tally.judge(&mut random, &good, &made);
            if random.chance(1, 4) {
                let location = random.below(good.words[1] as usize) as u32;
                let _ = good.step(location, &mut [[0; 3]; 256]);
            }
        }
    }
    println!("tables made by hand, by both alike: {tally}");
    tally.agreed()?;
    enough(tally.passed > 0, "no table stands for a network")?;
    let few = tally.needed.len() < MOST_TESTS && lists.len() >= 100;
    enough(!few, &format!("few tests: {:?}", tally.needed))
}

/// Each wrong variant differs from the proved engine on some list under its own
/// edition and with its own rights.
fn variants(lists: &[List]) -> Result<(), String> {
    let noticed = |variant: Variant| {
        let engine = Engine::new(variant);
        let differs = |list: &List| list.differ(engine, list.own).is_err();
        lists.iter().any(differs)
    };
    let wrong = Variant::every_wrong();
    let count = wrong.len();
    let unnoticed: Vec<Variant> = wrong.into_iter().filter(|v| !noticed(*v)).collect();
    println!(
        "{} of {count} wrong variants told apart",
        count - unnoticed.len()
    );
    enough(
        unnoticed.is_empty(),
        &format!("not told apart: {unnoticed:?}"),
    )
}

fn enough(holds: bool, else_say: &str) -> Result<(), String> {
    if holds {
        Ok(())
    } else {
        Err(else_say.to_string())
    }
}

/// The difference in reading a text: under one edition or none, or between the
/// two.
fn report_of_text(
    name: &str,
    none: Settings,
    rights: &Rights,
    text: &[u8],
    what: String,
) -> String {
    let both = [1, 2].map(|edition| with_rights(edition, rights));
    let mut given = both.into_iter().chain([none]);
    let differs = |settings: &Settings| reading::read(text, *settings).is_err();
    match given.find(differs) {
        Some(settings) => report(name, Engine::default(), settings, text, &[]),
        None => format!("{name}: {what}"),
    }
}

/// The rights that a case's script is read with, by name.
fn rights_of(case: &Case) -> String {
    let settings = theirs(&case.settings);
    let read = Engine::default().read(&case.script, &settings);
    let shown = |network: term::Network| rights::print(&settings.rights, &network.script);
    read.map_or(String::new(), shown)
}

/// A script as it can be shown.
fn in_lines(script: &[u8]) -> String {
    script.escape_ascii().to_string().replace("\\n", "\n")
}

/// The difference on a script and a list, both shrunken.
fn report(name: &str, engine: Engine, settings: Settings, script: &[u8], calls: &[Call]) -> String {
    let Some(case) = Case::of(engine, settings, script, calls) else {
        return format!("{name}: differs only at times");
    };
    let case = shrink(engine, case);
    let place = match case.difference.place {
        Place::Reading => "in reading".to_string(),
        Place::Call(index) => format!("at call {index}, {}", case.calls[index]),
        Place::End => "at the end".to_string(),
    };
    format!(
        "{name}, edition {}, shrunken:\n{}{}\n{}differs {place}: {}",
        settings.edition,
        rights_of(&case),
        in_lines(&case.script),
        lists::print(&case.calls),
        case.difference.what
    )
}
