//! A difference is shown by a small script and a short list. The wrong variants
//! of the reference engine make differences.

use compare::differ::Place;
use compare::reading::ours;
use compare::shrink::{shrink, Case};
use compare::timo::Settings;
use timo_reference::calls::Engine;
use timo_reference::generate;
use timo_reference::lists::Call;
use timo_reference::random::Random;
use timo_reference::rules::Variant;
use timo_reference::term::{self, Edition};
use timo_reference::trials::try_each;

/// A script with what it is read with, and a list that was made by following it.
struct List {
    settings: Settings,
    script: Vec<u8>,
    calls: Vec<Call>,
}

/// Two lists for each script, one with the rights of its seed and one with all; the
/// editions take turns.
fn lists_of(index: u64) -> [List; 2] {
    let edition = Edition::BOTH[index as usize % 2].number();
    let seed = generate::seed(2026, index);
    let script = generate::script_to_run(seed);
    let rights = generate::rights(&mut Random::new(!seed));
    let own = term::Settings { edition, rights };
    [own, term::Settings::all(edition)].map(|settings| List {
        calls: generate::calls(seed, &script, &settings),
        settings: ours(&settings),
        script: script.clone(),
    })
}

/// The first list on which a variant differs.
fn difference(engine: Engine, lists: &[List]) -> Case {
    let case = |list: &List| Case::of(engine, list.settings, &list.script, &list.calls);
    let first = lists.iter().find_map(case);
    first.expect("a list that tells the variant apart")
}

/// A small script and a few calls show the variant.
fn shown(variant: Variant, lists: &[List]) {
    let engine = Engine::new(variant);
    let case = shrink(engine, difference(engine, lists));
    let script = String::from_utf8_lossy(&case.script).into_owned();
    let edition = case.settings.edition;
    println!("{variant:?}, edition {edition}: {script} {:?}", case.calls);
    assert!(script.len() <= 200, "{variant:?}: {script}");
    assert!(case.calls.len() <= 10, "{variant:?}: {:?}", case.calls);
    assert_eq!(
        case.difference.place,
        Place::Call(case.calls.len() - 1),
        "{variant:?}"
    );
    assert!(Case::of(engine, case.settings, &case.script, &case.calls).is_some());
}

#[test]
fn every_wrong_variant_is_shown_by_a_few_calls_on_a_small_script() {
    let lists: Vec<List> = (0..100).flat_map(lists_of).collect();
    // The last ones take longest, so they come first.
    let variants = Variant::every_wrong().into_iter().rev();
    try_each(variants.collect(), |variant| shown(variant, &lists));
}
