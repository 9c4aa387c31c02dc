//! Two functions run in turn, round after round, warm and cold; the ratio of a round is the Rust's time over ours.
use std::hint::black_box;
use std::time::Instant;

/// Nanoseconds a call of what is measured (of numbers and headers, 1,024 of them), and the ratio: medians over the rounds.
#[derive(Clone, Copy)]
pub struct Times {
    pub ours: f64,
    pub rust: f64,
    pub ratio: f64,
}

pub struct Figure {
    pub group: &'static str,
    pub name: &'static str,
    pub against: &'static str,
    /// The warm ratio that was asked for.
    pub goal: Option<f64>,
    pub warm: Times,
    pub cold: Times,
}

pub struct Race {
    rounds: usize,
    cold_rounds: usize,
    /// What is walked through between cold calls, so that neither input nor code's data is in a near cache.
    elsewhere: Vec<u64>,
    pub figures: Vec<Figure>,
    load: String,
}

const ROUND_NS: f64 = 100_000.0;
const ELSEWHERE: usize = 32 << 20;

fn load() -> String {
    std::fs::read_to_string("/proc/loadavg").map_or("unknown".into(), |text| text.split(' ').take(3).collect::<Vec<_>>().join(" "))
}

impl Race {
    pub fn new(quick: bool) -> Race {
        let (rounds, cold_rounds) = if quick { (15, 9) } else { (101, 41) };
        Race { rounds, cold_rounds, elsewhere: vec![1; ELSEWHERE / 8], figures: vec![], load: load() }
    }

    pub fn run(
        &mut self,
        group: &'static str,
        name: &'static str,
        against: &'static str,
        goal: Option<f64>,
        mut ours: impl FnMut() -> u64,
        mut rust: impl FnMut() -> u64,
    ) {
        let warm = self.warm(&mut ours, &mut rust);
        let cold = self.cold(&mut ours, &mut rust);
        eprintln!("{group}, {name}: warm {:.2}, cold {:.2}", warm.ratio, cold.ratio);
        self.figures.push(Figure { group, name, against, goal, warm, cold });
    }

    fn warm(&self, ours: &mut dyn FnMut() -> u64, rust: &mut dyn FnMut() -> u64) -> Times {
        let (n, m) = (calls(ours), calls(rust));
        let times = (0..self.rounds).map(|_| (timed(ours, n), timed(rust, m))).collect();
        medians(times)
    }

    fn cold(&self, ours: &mut dyn FnMut() -> u64, rust: &mut dyn FnMut() -> u64) -> Times {
        let one = |f: &mut dyn FnMut() -> u64| {
            black_box(self.elsewhere.iter().step_by(8).fold(0u64, |sum, n| sum.wrapping_add(*n)));
            timed(f, 1)
        };
        let times = (0..self.cold_rounds).map(|_| (one(ours), one(rust))).collect();
        medians(times)
    }

    /// What the figures were taken on.
    pub fn machine(&self) -> String {
        let cpu = std::fs::read_to_string("/proc/cpuinfo").unwrap_or_default();
        let model = cpu.lines().find(|line| line.starts_with("model name")).and_then(|line| line.split(": ").nth(1)).unwrap_or("unknown");
        let cores = std::thread::available_parallelism().map_or(0, usize::from);
        let rustc = std::env::var("RUSTC_VERSION").unwrap_or("rustc unknown".into());
        let kit = std::env::var("KIT_VERSION").unwrap_or("kit unknown".into());
        format!("{model}, {cores} cores; {rustc}; {kit}; load {} at the start, {} at the end", self.load, load())
    }
}

/// Calls that fill a round.
fn calls(f: &mut dyn FnMut() -> u64) -> u32 {
    let start = Instant::now();
    let mut n = 0u32;
    while start.elapsed().as_nanos() < 300_000 {
        black_box(f());
        n += 1;
    }
    let each = start.elapsed().as_nanos() as f64 / f64::from(n);
    ((ROUND_NS / each) as u32).max(1)
}

fn timed(f: &mut dyn FnMut() -> u64, n: u32) -> f64 {
    let start = Instant::now();
    for _ in 0..n {
        black_box(f());
    }
    start.elapsed().as_nanos() as f64 / f64::from(n)
}

fn medians(times: Vec<(f64, f64)>) -> Times {
    let median = |mut all: Vec<f64>| {
        all.sort_by(f64::total_cmp);
        all[all.len() / 2]
    };
    Times {
        ours: median(times.iter().map(|t| t.0).collect()),
        rust: median(times.iter().map(|t| t.1).collect()),
        ratio: median(times.iter().map(|t| t.1 / t.0.max(1.0)).collect()),
    }
}
