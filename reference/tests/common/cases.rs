//! Scripts with their settings and calls, from numbers.

use super::engine;
use timo_reference::calls::Engine;
use timo_reference::generate;
use timo_reference::lists::Call;
use timo_reference::printout;
use timo_reference::random::Random;
use timo_reference::runs::Broken;
use timo_reference::term::{Edition, Network, Settings};

/// A script that is read with settings, and its calls.
#[derive(Clone)]
pub struct Case {
    pub settings: Settings,
    pub script: Vec<u8>,
    pub calls: Vec<Call>,
}

impl Case {
    pub fn network(&self) -> Network {
        engine()
            .read(&self.script, &self.settings)
            .expect("a list belongs to a readable script")
    }

    pub fn answers(&self, engine: Engine) -> String {
        printout::answers(engine, &self.script, &self.settings, &self.calls)
    }

    /// Whether the run holds, and how many calls were refused.
    pub fn verdict(&self, engine: Engine) -> (Result<(), Broken>, usize) {
        printout::verdict(engine, self.network(), &self.calls)
    }

    /// The same script and calls with other settings.
    pub fn with(&self, settings: Settings) -> Case {
        Case {
            settings,
            ..self.clone()
        }
    }

    pub fn under_the_other_edition(&self) -> Case {
        let rights = self.settings.rights.clone();
        let edition = 3 - self.settings.edition;
        self.with(Settings { edition, rights })
    }

    pub fn text(&self) -> String {
        String::from_utf8_lossy(&self.script).into_owned()
    }
}

/// The editions take turns; of four lists one has all rights.
fn case(index: u64) -> Option<Case> {
    let seed = generate::seed(2024, index);
    let mut settings = Settings::all(Edition::BOTH[index as usize % 2].number());
    if index % 8 > 1 {
        settings.rights = generate::rights(&mut Random::new(seed));
    }
    let script = generate::script_to_run(seed);
    let calls = generate::calls(seed, &script, &settings);
    (!calls.is_empty()).then_some(Case {
        settings,
        script,
        calls,
    })
}

pub fn cases(count: u64) -> impl Iterator<Item = Case> {
    (0..count).filter_map(case)
}
