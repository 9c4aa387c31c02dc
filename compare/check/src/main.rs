//! Compares the library with the real crate's debug build and with document 01 as it is read in `model`. See ../../README.md.
mod answer;
mod case;
mod expect;
mod judge;
#[cfg(feature = "library")]
mod library;
mod listed;
mod make;
mod model;
mod oracle;
mod replay;
mod report;
mod rng;
mod run;
mod shrink;
mod subject;
mod text;
#[cfg(feature = "library")]
mod typed;

use run::Plan;
use std::path::Path;
use std::process::ExitCode;

const USAGE: &str = "usage: check [--seed S] [--cases N] [--jobs J] [--oracle PROGRAM] [--labels | --replay HEAD]";

fn number(words: &mut impl Iterator<Item = String>, name: &str) -> Result<u64, String> {
    let word = words.next().ok_or(format!("{name} needs a number"))?;
    word.replace('_', "").parse().map_err(|_| format!("{name} {word}: not a number"))
}

/// Prints the list of the program replay.
fn print_replay(plan: &Plan, head: &str) -> Result<(), String> {
    let oracle = plan.oracle.as_ref().ok_or("--replay needs --oracle")?;
    let (text, lines) = replay::list(oracle, plan.seed, head)?;
    print!("{text}");
    eprintln!("{} lines, {} bytes", report::grouped(lines as u64), report::grouped(text.len() as u64));
    Ok(())
}

fn plan() -> Result<Option<Plan>, String> {
    let cores = std::thread::available_parallelism().map_or(1, usize::from).min(4);
    let mut plan = Plan { seed: 1, cases: 1_000_000, jobs: cores, oracle: None, library: None };
    let mut replay = None;
    let mut words = std::env::args().skip(1);
    while let Some(word) = words.next() {
        match word.as_str() {
            "--seed" => plan.seed = number(&mut words, "--seed")?,
            "--cases" => plan.cases = number(&mut words, "--cases")?,
            "--jobs" => plan.jobs = number(&mut words, "--jobs")?.clamp(1, 64) as usize,
            "--oracle" => plan.oracle = words.next().map(|path| oracle::Oracle::new(Path::new(&path))),
            "--labels" => {
                for label in listed::LABELS {
                    println!("{:24} {}", label.name, label.says);
                }
                return Ok(None);
            }
            "--replay" => replay = words.next(),
            _ => return Err(format!("{word}: not known\n{USAGE}")),
        }
    }
    if let Some(head) = replay {
        print_replay(&plan, &head)?;
        return Ok(None);
    }
    #[cfg(feature = "library")]
    {
        plan.library = Some(|| Box::new(library::Library::new()));
    }
    Ok(Some(plan))
}

fn compare() -> Result<bool, String> {
    let Some(plan) = plan()? else {
        return Ok(true);
    };
    println!("seed {}, {} cases, {} at a time", plan.seed, report::grouped(plan.cases), plan.jobs);
    if plan.oracle.is_none() {
        println!("not compared: the Rust (no oracle given)");
    }
    if plan.library.is_none() {
        println!("not compared: the library (not linked); document 01 as read here is held to the Rust alone");
    }
    let started = std::time::Instant::now();
    let (counts, failure) = plan.run()?;
    counts.print(plan.library.is_some());
    println!("\n{:.1} seconds", started.elapsed().as_secs_f64());
    let Some(failure) = failure else {
        println!("no unlisted difference in {} cases", report::grouped(counts.cases()));
        return Ok(true);
    };
    println!("\nDIFFERENT: case {} of seed {}: {}", failure.number, plan.seed, failure.wrong);
    let least = plan.shrink(failure)?;
    println!(
        "\nThe smallest input found that shows a difference: {}\n  case      {}",
        least.wrong,
        text::cut(&format!("{:?}", least.case), 4000)
    );
    for asked in least.case.asked() {
        println!("  line      {}", text::cut(&asked.line(), 4000));
    }
    println!("compare/run --seed {} --cases {} shows it again.", plan.seed, plan.cases);
    Ok(false)
}

fn main() -> ExitCode {
    match compare() {
        Ok(true) => ExitCode::SUCCESS,
        Ok(false) => ExitCode::from(1),
        Err(text) => {
            eprintln!("{text}");
            ExitCode::from(2)
        }
    }
}
