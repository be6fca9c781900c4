//! Rows of the benchmark: both sides called in turns, and what their times come to.

use rimonakh::Table;
use std::fmt::Debug;
use std::hint::black_box;
use std::time::{Duration, Instant};

/// What a side works on: a table, a buffer, and how often it was called.
#[derive(Clone, Default)]
pub struct State {
    pub words: Vec<u64>,
    pub store: Vec<u8>,
    pub out: Vec<u8>,
    pub calls: u16,
}

/// The library's table over lent words and bytes.
pub type Lent<'a> = Table<&'a mut [u64], &'a mut [u8]>;

impl State {
    /// A buffer of so many bytes.
    pub fn room(bytes: usize) -> State {
        State::default().with_room(bytes)
    }

    pub fn with_room(self, bytes: usize) -> State {
        let out = vec![0; bytes];
        State { out, ..self }
    }

    pub fn table(&mut self) -> Lent<'_> {
        self.parts().0
    }

    pub fn parts(&mut self) -> (Lent<'_>, &mut [u8]) {
        let table = Table::over(&mut self.words[..], &mut self.store[..]);
        (table, &mut self.out)
    }
}

#[derive(Clone, Copy, PartialEq)]
pub enum Mode {
    Times,
    Markdown,
    Names,
    Once,
}

/// Turns that each side has, fewer where they would take longer than `LONGEST`.
const TURNS: usize = 41;
const FEWEST: usize = 7;
const LONGEST: Duration = Duration::from_secs(4);

/// How long a turn is to take at least, unless one call takes longer.
const TURN: Duration = Duration::from_micros(100);

type Side<'a> = &'a dyn Fn(&mut State);

/// One call. Callgrind counts what happens in here.
#[no_mangle]
#[inline(never)]
pub fn measured(side: Side, state: &mut State) {
    side(black_box(state));
}

pub struct Bench {
    mode: Mode,
    only: String,
    /// The heading of the next row, until it is printed.
    heading: Option<String>,
}

/// A row that is not measured yet.
pub struct Row<'a> {
    bench: &'a mut Bench,
    name: String,
    things: usize,
    again: bool,
    slow: bool,
}

impl Bench {
    pub fn new(mode: Mode, only: String) -> Bench {
        Bench {
            mode,
            only,
            heading: None,
        }
    }

    /// Whether each side is called once, so that rows should be short.
    pub fn counts(&self) -> bool {
        self.mode == Mode::Once
    }

    /// The rows that follow belong together.
    pub fn group(&mut self, heading: &str) {
        self.heading = Some(heading.into());
    }

    /// A row: `bench.row("what a call does").run(&state, library, careful)`.
    pub fn row(&mut self, name: impl Into<String>) -> Row<'_> {
        Row {
            bench: self,
            name: name.into(),
            things: 1,
            again: false,
            slow: false,
        }
    }

    fn print_heading(&mut self) {
        let Some(heading) = self.heading.take() else {
            return;
        };
        match self.mode {
            Mode::Times => {
                let cells = ["library, ns", "careful, ns", "ratio"];
                println!("\n{}", columns(&heading, cells));
            }
            Mode::Markdown => println!(
                "\n| {heading} | library, ns | careful Rust, ns | ratio | quartiles |\n|---|---|---|---|---|"
            ),
            Mode::Names | Mode::Once => {}
        }
    }
}

impl Row<'_> {
    /// Each call does so many things; times are of one of them.
    pub fn each(self, things: usize) -> Self {
        Row { things, ..self }
    }

    /// The state is made anew before each call, which is not measured.
    pub fn again(self) -> Self {
        Row {
            again: true,
            ..self
        }
    }

    /// Whether it is too slow to be counted.
    pub fn slow(self, slow: bool) -> Self {
        Row { slow, ..self }
    }

    /// Measures both sides, each on a state of its own. Every call is to be accepted, and both leave the same bytes in their buffers.
    pub fn run<A, B, E: Debug, F: Debug>(
        self,
        state: &State,
        library: impl Fn(&mut State) -> Result<A, E>,
        careful: impl Fn(&mut State) -> Result<B, F>,
    ) {
        if !self.name.contains(&self.bench.only) {
            return;
        }
        self.bench.print_heading();
        let sides: [Side; 2] = [
            &|s| {
                black_box(library(s)).unwrap();
            },
            &|s| {
                black_box(careful(s)).unwrap();
            },
        ];
        match self.bench.mode {
            Mode::Names => println!("{}", self.name),
            Mode::Once => self.once(state, sides),
            Mode::Times | Mode::Markdown => {
                let times = self.time(state, sides);
                self.print(times);
            }
        }
    }

    /// Calls each side once before it is counted.
    fn once(&self, start: &State, sides: [Side; 2]) {
        if self.slow {
            return;
        }
        for side in sides {
            let mut state = start.clone();
            side(&mut state);
            if self.again {
                state = start.clone();
            }
            measured(side, &mut state);
        }
        println!("{}\t{}", self.name, self.things);
    }

    /// The nanoseconds of one thing in each turn of each side.
    fn time(&self, start: &State, sides: [Side; 2]) -> [Vec<f64>; 2] {
        let mut states = [start.clone(), start.clone()];
        let began = Instant::now();
        sides[0](&mut states[0]);
        let once = began.elapsed().max(Duration::from_nanos(1));
        sides[1](&mut states[1]);
        let calls = match self.again {
            true => 1,
            false => (TURN.as_nanos() / once.as_nanos()).clamp(1, 10_000) as usize,
        };
        let turn = 2 * once * calls as u32;
        let turns = ((LONGEST.as_nanos() / turn.as_nanos()) as usize).clamp(FEWEST, TURNS);
        let mut times = [vec![], vec![]];
        for _ in 0..turns {
            for ((side, state), times) in sides.iter().zip(&mut states).zip(&mut times) {
                if self.again {
                    state.clone_from(start);
                }
                let began = Instant::now();
                for _ in 0..calls {
                    measured(side, state);
                }
                let each = began.elapsed().as_nanos() as f64 / calls as f64;
                times.push(each / self.things as f64);
            }
        }
        assert_eq!(states[0].out, states[1].out, "{}", self.name);
        times
    }

    fn print(&self, [library, careful]: [Vec<f64>; 2]) {
        let ratios = library.iter().zip(&careful).map(|(a, b)| a / b);
        let [low, ratio, high] = quartiles(ratios.collect());
        let [library, careful] = [library, careful].map(|times| nanoseconds(quartiles(times)[1]));
        let (name, ratio) = (&self.name, format!("{ratio:.2}"));
        let spread = format!("{low:.2} to {high:.2}");
        match self.bench.mode {
            Mode::Markdown => {
                println!("| {name} | {library} | {careful} | {ratio} | {spread} |")
            }
            _ => println!("{} ({spread})", columns(name, [&library, &careful, &ratio])),
        }
    }
}

/// A line of what is printed: a name, two sides and their ratio.
pub fn columns(name: &str, [library, careful, ratio]: [&str; 3]) -> String {
    format!("{name:<56} {library:>12} {careful:>12} {ratio:>8}")
}

fn quartiles(mut of: Vec<f64>) -> [f64; 3] {
    of.sort_by(f64::total_cmp);
    [1, 2, 3].map(|k| of[of.len() * k / 4])
}

fn nanoseconds(x: f64) -> String {
    match x {
        x if x < 1.0 => format!("{x:.3}"),
        x if x < 100.0 => format!("{x:.1}"),
        x => format!("{x:.0}"),
    }
}
