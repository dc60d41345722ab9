//! Workloads of the benchmark, and how they are timed.

use std::fmt;
use std::hint::black_box;
use std::time::{Duration, Instant};

use timo_reference::random::Random;

use crate::timo::{Settings, State, StepCall, Table};

/// A measurement is the least of so many, each of which goes on so long.
const TIMES: usize = 9;
const LEAST: Duration = Duration::from_millis(30);

/// Doors between neighbours of a square grid, and rovers spread over it.
pub fn grid(side: usize, rovers: usize) -> String {
    let name = |row: usize, column: usize| format!("L{}{}", row + 1, column + 1);
    let mut components = Vec::new();
    for row in 0..side {
        for column in 0..side {
            let mut door = |to: String| components.push(format!("{}[D({to})]", name(row, column)));
            if row > 0 {
                door(name(row - 1, column));
            }
            if column > 0 {
                door(name(row, column - 1));
            }
            if column + 1 < side {
                door(name(row, column + 1));
            }
            if row + 1 < side {
                door(name(row + 1, column));
            }
        }
    }
    for rover in 0..rovers {
        let place = rover * 37 % (side * side);
        components.push(format!("{}[rover]", name(place / side, place % side)));
    }
    format!(
        "D(l) = out(m,2,l,D(l),D(l)) .\nrover = in(m,0,x,go(0,x,rover),rover) .\n{} .\n",
        components.join(" | ")
    )
}

/// An output on a channel within its P, so many deep, around `stop`.
fn outputs(channel: &str, depth: usize) -> String {
    (0..depth).fold(String::from("stop"), |inner, _| {
        format!("out({channel},9,A,{inner},stop)")
    })
}

/// Outputs on one channel and inputs on another or the same, as many of each,
/// with a P that goes on so many outputs deep. All timers are equal.
pub fn facing(pairs: usize, sent: &str, heard: &str, depth: usize) -> String {
    let timers = Timers::Equal.of(pairs);
    in_order(pairs, sent, heard, &timers, depth)
}

/// Outputs on one channel, then an input on another or the same with each timer.
fn in_order(outs: usize, sent: &str, heard: &str, timers: &[u32], depth: usize) -> String {
    let rest = outputs("e", depth);
    let mut components = vec![format!("A[out({sent},9,A,{rest},stop)]"); outs];
    let input = |timer: &u32| format!("A[in({heard},{timer},x,{rest},stop)]");
    components.extend(timers.iter().map(input));
    format!("{} .\n", components.join(" | "))
}

/// How the timers of inputs go with their positions. But for those that are equal
/// they all differ.
#[derive(Clone, Copy, Debug, PartialEq, Eq)]
pub enum Timers {
    Equal,
    Rising,
    Falling,
    Random,
}

impl Timers {
    pub const ALL: [Timers; 4] = [
        Timers::Equal,
        Timers::Rising,
        Timers::Falling,
        Timers::Random,
    ];

    /// From 9 on and less than 1,000,000 for up to 256 inputs.
    pub fn of(self, count: usize) -> Vec<u32> {
        let mut timers: Vec<u32> = (0..count as u32).map(|k| 9 + 3_001 * k).collect();
        match self {
            Timers::Equal => timers.fill(9),
            Timers::Rising => {}
            Timers::Falling => timers.reverse(),
            Timers::Random => Random::new(3).shuffle(&mut timers),
        }
        timers
    }

    /// The order of a word.
    pub fn named(word: &str) -> Option<Timers> {
        Timers::ALL
            .into_iter()
            .find(|timers| timers.to_string() == word)
    }
}

impl fmt::Display for Timers {
    fn fmt(&self, f: &mut fmt::Formatter) -> fmt::Result {
        f.write_str(match self {
            Timers::Equal => "equal",
            Timers::Rising => "rising",
            Timers::Falling => "falling",
            Timers::Random => "random",
        })
    }
}

/// What a step finds at its location.
#[derive(Clone, Copy, Debug, PartialEq, Eq)]
pub enum Load {
    /// Outputs and inputs on one channel, as many of each, which all fire.
    Fires,
    /// Outputs on one channel and inputs on another, of which none fires.
    Idle,
    /// Inputs on one channel, twice as many, and no output.
    Inputs,
}

impl Load {
    pub const ALL: [Load; 3] = [Load::Fires, Load::Idle, Load::Inputs];

    /// With a P that goes on so many outputs deep.
    pub fn script(self, pairs: usize, timers: Timers, depth: usize) -> String {
        let (outs, heard, inputs) = match self {
            Load::Fires => (pairs, "c", pairs),
            Load::Idle => (pairs, "d", pairs),
            Load::Inputs => (0, "c", 2 * pairs),
        };
        in_order(outs, "c", heard, &timers.of(inputs), depth)
    }

    /// How many actions the first step has.
    fn fired(self, pairs: usize) -> usize {
        match self {
            Load::Fires => pairs,
            Load::Idle | Load::Inputs => 0,
        }
    }

    /// Its row in a table.
    pub fn row(self, pairs: usize) -> String {
        match self {
            Load::Fires => format!("{pairs} pairs that fire"),
            Load::Idle => format!("{pairs} pairs that do not"),
            Load::Inputs => format!("{} inputs alone", 2 * pairs),
        }
    }

    /// The load of a word.
    pub fn named(word: &str) -> Option<Load> {
        match word {
            "fires" => Some(Load::Fires),
            "idle" => Some(Load::Idle),
            "inputs" => Some(Load::Inputs),
            _ => None,
        }
    }
}

/// Outputs that nobody hears, each with as many parts as the depth twice over and
/// one.
pub fn nested(count: usize, depth: usize) -> String {
    let components = vec![format!("A[{}]", outputs("c", depth)); count];
    format!("{} .\n", components.join(" | "))
}

/// What a step takes that fires all of so many pairs, and what one takes over as
/// many outputs and inputs whose channels differ, so that none fires: document
/// 02, R-5. The networks are the same but for the channel's name.
pub struct Ratio {
    pub pairs: usize,
    /// Outputs that follow in the P of each.
    pub depth: usize,
    /// µs of the step that fires.
    pub fires: f64,
    /// µs of the step that does not.
    pub idle: f64,
}

impl Ratio {
    pub const HEAD: &'static str = "| pairs | outputs that follow | a step that fires them µs | one that fires none µs | ratio |\n|---|---|---|---|---|";

    pub fn measure(pairs: usize, depth: usize) -> Ratio {
        let micros = |load| First::of(load, pairs, Timers::Equal, depth).micros();
        Ratio {
            pairs,
            depth,
            fires: micros(Load::Fires),
            idle: micros(Load::Idle),
        }
    }

    /// From one pair to as many as a network holds, and on larger scripts.
    pub fn all() -> impl Iterator<Item = Ratio> {
        [(1, 0), (16, 0), (64, 0), (128, 0), (128, 2), (128, 4)]
            .into_iter()
            .map(|(pairs, depth)| Ratio::measure(pairs, depth))
    }

    pub fn ratio(&self) -> f64 {
        self.fires / self.idle
    }
}

impl fmt::Display for Ratio {
    fn fmt(&self, f: &mut fmt::Formatter) -> fmt::Result {
        write!(
            f,
            "| {} | {} | {:.2} | {:.2} | {:.2} |",
            self.pairs,
            self.depth,
            self.fires,
            self.idle,
            self.ratio()
        )
    }
}

/// What the first step takes with the timers of the inputs in each order: document
/// 02, R-3. The partner is the one with the least timer, so an order may not cost
/// much more than another.
pub struct Orders {
    pub load: Load,
    pub pairs: usize,
    /// µs by `Timers::ALL`.
    pub micros: [f64; Timers::ALL.len()],
}

impl Orders {
    pub fn head() -> String {
        let cells = Timers::ALL.map(|timers| format!(" {timers} µs | ratio |"));
        let lines = "---|".repeat(2 * cells.len());
        format!("| a step over |{}\n|---|{lines}", cells.concat())
    }

    /// The least time of each over so many rounds.
    pub fn measure(load: Load, pairs: usize, rounds: usize) -> Orders {
        let mut micros = [f64::INFINITY; Timers::ALL.len()];
        for _ in 0..rounds {
            for (least, timers) in micros.iter_mut().zip(Timers::ALL) {
                *least = least.min(First::of(load, pairs, timers, 0).micros());
            }
        }
        Orders {
            load,
            pairs,
            micros,
        }
    }

    /// How much longer an order takes than equal timers.
    pub fn ratio(&self, timers: Timers) -> f64 {
        self.micros[timers as usize] / self.micros[Timers::Equal as usize]
    }
}

impl fmt::Display for Orders {
    fn fmt(&self, f: &mut fmt::Formatter) -> fmt::Result {
        write!(f, "| {} |", self.load.row(self.pairs))?;
        for timers in Timers::ALL {
            let micros = self.micros[timers as usize];
            write!(f, " {micros:.2} | {:.2} |", self.ratio(timers))?;
        }
        Ok(())
    }
}

/// A sender and a receiver on each of so many channels, then `stop` up to so many
/// components, the last of which may be another part.
fn over_channels(channels: usize, components: usize, last: Option<&str>) -> String {
    let pair = |k| {
        [
            format!("A[out(c{k},9,A,stop,stop)]"),
            format!("A[in(c{k},9,x,stop,stop)]"),
        ]
    };
    let mut located: Vec<String> = (0..channels).flat_map(pair).collect();
    located.resize(components.max(located.len()), "A[stop]".to_string());
    if let Some(part) = last {
        located.pop();
        located.push(format!("A[{part}]"));
    }
    format!("{} .\n", located.join(" | "))
}

/// What the test of a location takes, and the conforming step beside the step: document
/// 02, R-13. Of a location that does not conform the conforming step is refused.
pub struct Profile {
    pub workload: String,
    pub components: usize,
    pub conforms: bool,
    /// µs of the test, of the step and of the conforming step.
    pub micros: [f64; 3],
}

impl Profile {
    pub const HEAD: &'static str = "| first location of | components | conforms | test µs | step µs | conforming step µs | over the step |\n|---|---|---|---|---|---|---|";

    pub fn measure(workload: &str, script: &str) -> Profile {
        let mut first = First::read(script);
        let restoring = micros(|| first.put_back());
        let table = &first.table;
        let conforms = table.conforms(0) == Ok(true);
        let test = micros(|| usize::from(table.conforms(0) == Ok(true)));
        let steps: [StepCall; 2] = [Table::step, Table::step_conforming];
        let [step, conforming] = steps.map(|call| micros(|| first.step_by(call)) - restoring);
        Profile {
            workload: workload.to_string(),
            components: first.start.n,
            conforms,
            micros: [test, step, conforming],
        }
    }

    /// Pairs on channels of their own, up to as many as there are, with more components
    /// that do nothing; a second sender that comes last; and a grid.
    pub fn all() -> impl Iterator<Item = Profile> {
        let pairs = [8, 16, 32, 64].map(|k| {
            let script = over_channels(k, 0, None);
            (format!("{k} pairs over {k} channels"), script)
        });
        let idle = [64, 128, 256].map(|components| {
            let script = over_channels(0, components, None);
            (format!("{components} `stop`"), script)
        });
        let second = "out(c0,9,A,stop,stop)";
        let others = [
            ("64 pairs and 128 `stop`", over_channels(64, 256, None)),
            (
                "the last a second sender",
                over_channels(64, 256, Some(second)),
            ),
            ("grid 8 by 8", grid(8, 32)),
        ];
        let others = others.map(|(workload, script)| (workload.to_string(), script));
        let all = idle.into_iter().chain(pairs).chain(others);
        all.map(|(workload, script)| Profile::measure(&workload, &script))
    }
}

impl fmt::Display for Profile {
    fn fmt(&self, f: &mut fmt::Formatter) -> fmt::Result {
        let [test, step, conforming] = self.micros;
        write!(
            f,
            "| {} | {} | {} | {test:.2} | {step:.2} | {conforming:.2} | {:.2} |",
            self.workload,
            self.components,
            if self.conforms { "yes" } else { "no" },
            conforming / step
        )
    }
}

/// The first step of a network.
pub struct First {
    table: Table,
    start: State,
    lent: Vec<[u32; 3]>,
}

impl First {
    pub fn of(load: Load, pairs: usize, timers: Timers, depth: usize) -> First {
        let mut first = First::read(&load.script(pairs, timers, depth));
        assert_eq!(first.step(), load.fired(pairs));
        first
    }

    fn read(script: &str) -> First {
        let table = Table::read(script.as_bytes(), Settings::EDITION_1);
        let table = table.expect("the workload is read");
        let start = table.state;
        let lent = vec![[0; 3]; 256];
        First { table, start, lent }
    }

    fn put_back(&mut self) -> usize {
        self.table.state = self.start;
        black_box(&mut self.table.state).n
    }

    /// The state is put back before it.
    pub fn step(&mut self) -> usize {
        self.step_by(Table::step)
    }

    fn step_by(&mut self, call: StepCall) -> usize {
        self.put_back();
        black_box(call(&mut self.table, 0, &mut self.lent).unwrap_or(0))
    }

    /// What it takes to put the state back is taken off.
    fn micros(mut self) -> f64 {
        micros(|| self.step()) - micros(|| self.put_back())
    }
}

/// The time of one run.
pub fn micros(mut run: impl FnMut() -> usize) -> f64 {
    let times = (0..TIMES).map(|_| {
        let start = Instant::now();
        let mut runs = 0;
        while start.elapsed() < LEAST {
            black_box(run());
            runs += 1;
        }
        start.elapsed().as_secs_f64() * 1e6 / f64::from(runs)
    });
    times.fold(f64::INFINITY, f64::min)
}
