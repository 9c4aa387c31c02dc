//! A run: cases in parts, each part asked of the oracle in one go, several parts at a time.
use crate::case::Case;
use crate::judge::judge;
use crate::make;
use crate::oracle::Oracle;
use crate::report::{grouped, Counts};
use crate::rng::Rng;
use crate::shrink::smaller;
use crate::subject::Subject;
use std::io::{IsTerminal, Write};
use std::sync::atomic::{AtomicBool, AtomicU64, Ordering};
use std::sync::Mutex;
use std::time::Instant;

pub struct Plan {
    pub seed: u64,
    pub cases: u64,
    pub jobs: usize,
    pub oracle: Option<Oracle>,
    /// Makes the subject that is held to the model, where there is one.
    pub library: Option<fn() -> Box<dyn Subject>>,
}

const PART: u64 = 5_000;

/// The stack on which the library is called: no function of it needs more.
const STACK: usize = 512 * 1024;

/// A case that failed, and what is wrong.
pub struct Failure {
    pub number: u64,
    pub case: Case,
    pub wrong: String,
}

/// Stops the run where its worker panics, so that nobody waits for what is left.
struct StopsOnPanic<'a>(&'a AtomicBool);

impl Drop for StopsOnPanic<'_> {
    fn drop(&mut self) {
        if std::thread::panicking() {
            self.0.store(true, Ordering::Relaxed);
        }
    }
}

impl Plan {
    /// How many short inputs are in the run: all of them, or half of a small run.
    fn short(&self) -> u64 {
        make::short::len().min(self.cases / 2)
    }

    /// The case of a number: a short input, or a random one with a stream of its own; the last ones are the long tables.
    pub fn case(&self, number: u64) -> Case {
        if let Some(place) = (number + make::long::LEN).checked_sub(self.cases) {
            return make::long::member(place);
        }
        let short = self.short();
        let always = make::short::always();
        if number < short.min(always) {
            return make::short::member(number);
        }
        if number < short {
            let (all, some) = (make::short::len() - always, short - always);
            let start = if some == all { 0 } else { Rng::new(self.seed, u64::MAX).below(all) };
            let place = (start as u128 + (number - always) as u128 * all as u128 / some as u128) as u64 % all;
            return make::short::member(always + place);
        }
        make::case(&mut Rng::new(self.seed, number))
    }

    /// Runs all cases, and answers the counts and the first failure.
    pub fn run(&self) -> Result<(Counts, Option<Failure>), String> {
        let next = AtomicU64::new(0);
        let stop = AtomicBool::new(false);
        let counts = Mutex::new(Counts::new());
        let failure: Mutex<Option<Failure>> = Mutex::new(None);
        let error: Mutex<Option<String>> = Mutex::new(None);
        let started = Instant::now();
        std::thread::scope(|scope| {
            for _ in 0..self.jobs {
                let work = || {
                    let _stops = StopsOnPanic(&stop);
                    let mut library = self.library.map(|make| make());
                    while !stop.load(Ordering::Relaxed) {
                        let from = next.fetch_add(PART, Ordering::Relaxed);
                        if from >= self.cases {
                            break;
                        }
                        let done = self.part(from, self.cases.min(from + PART), &mut library);
                        match done {
                            Ok((more, failed)) => {
                                counts.lock().unwrap().join(&more);
                                if let Some(failed) = failed {
                                    stop.store(true, Ordering::Relaxed);
                                    let mut failure = failure.lock().unwrap();
                                    if failure.as_ref().is_none_or(|other| failed.number < other.number) {
                                        *failure = Some(failed);
                                    }
                                }
                            }
                            Err(text) => {
                                stop.store(true, Ordering::Relaxed);
                                *error.lock().unwrap() = Some(text);
                            }
                        }
                    }
                };
                std::thread::Builder::new().stack_size(STACK).spawn_scoped(scope, work).expect("a thread");
            }
            self.progress(&counts, &stop, started);
        });
        if let Some(text) = error.into_inner().unwrap() {
            return Err(text);
        }
        Ok((counts.into_inner().unwrap(), failure.into_inner().unwrap()))
    }

    /// A line that says how far the run is, until all cases are counted or it stops.
    fn progress(&self, counts: &Mutex<Counts>, stop: &AtomicBool, started: Instant) {
        let live = std::io::stderr().is_terminal();
        let mut turn = 0;
        loop {
            let (done, listed) = {
                let counts = counts.lock().unwrap();
                (counts.cases(), counts.labels.iter().sum::<u64>())
            };
            let seconds = started.elapsed().as_secs_f64();
            let line = format!(
                "{} of {} cases, {} listed differences, {} cases a second",
                grouped(done),
                grouped(self.cases),
                grouped(listed),
                grouped((done as f64 / seconds.max(0.001)) as u64)
            );
            let over = done >= self.cases || stop.load(Ordering::Relaxed);
            if live {
                eprint!("\r{line:100}");
                if over {
                    eprintln!();
                }
            } else if over || turn % 100 == 99 {
                eprintln!("{line}");
            }
            let _ = std::io::stderr().flush();
            if over {
                return;
            }
            turn += 1;
            std::thread::sleep(std::time::Duration::from_millis(100));
        }
    }

    fn part(&self, from: u64, to: u64, library: &mut Option<Box<dyn Subject>>) -> Result<(Counts, Option<Failure>), String> {
        let cases: Vec<Case> = (from..to).map(|number| self.case(number)).collect();
        let mut counts = Counts::new();
        for (k, (case, outcome, asked)) in self.outcomes(cases, library)?.into_iter().enumerate() {
            counts.add(case.kind(), asked, &outcome);
            if let Some(wrong) = outcome.wrong {
                return Ok((counts, Some(Failure { number: from + k as u64, case, wrong })));
            }
        }
        Ok((counts, None))
    }

    /// The outcome of each case, with how many lines the oracle was asked for it.
    fn outcomes(
        &self,
        cases: Vec<Case>,
        library: &mut Option<Box<dyn Subject>>,
    ) -> Result<Vec<(Case, crate::judge::Outcome, usize)>, String> {
        let asked: Vec<Vec<Case>> = match self.oracle {
            Some(_) => cases.iter().map(Case::asked).collect(),
            None => cases.iter().map(|_| vec![]).collect(),
        };
        let lines: Vec<String> = asked.iter().flatten().map(Case::line).collect();
        let answers = match &self.oracle {
            Some(oracle) => oracle.ask(&lines)?,
            None => vec![],
        };
        let mut left = answers.as_slice();
        let mut out = vec![];
        for (case, asked) in cases.into_iter().zip(asked) {
            let (mine, rest) = left.split_at(asked.len());
            left = rest;
            let subject = library.as_mut().map(|library| library.as_mut() as &mut dyn Subject);
            let outcome = judge(&case, &asked, mine, subject);
            out.push((case, outcome, asked.len()));
        }
        Ok(out)
    }

    /// The smallest case that is found by leaving things out and still fails.
    pub fn shrink(&self, failure: Failure) -> Result<Failure, String> {
        let mut library = self.library.map(|make| make());
        let mut found = failure;
        for _ in 0..500 {
            let tries = smaller(&found.case);
            let mut next = None;
            for some in tries.chunks(64) {
                let outcomes = self.outcomes(some.to_vec(), &mut library)?;
                next = outcomes.into_iter().find_map(|(case, outcome, _)| outcome.wrong.map(|wrong| (case, wrong)));
                if next.is_some() {
                    break;
                }
            }
            match next {
                Some((case, wrong)) => found = Failure { number: found.number, case, wrong },
                None => break,
            }
        }
        Ok(found)
    }
}
