//! Counts by kind and outcome, and how they are printed.
use crate::case::KINDS;
use crate::judge::Outcome;
use crate::listed::LABELS;
use std::collections::BTreeMap;

#[derive(Clone, Default)]
pub struct Row {
    pub cases: u64,
    pub accepted: u64,
    pub refused: u64,
    pub equal: u64,
    pub listed: u64,
    pub unasked: u64,
    pub library: u64,
}

impl Row {
    fn join(&mut self, more: &Row) {
        self.cases += more.cases;
        self.accepted += more.accepted;
        self.refused += more.refused;
        self.equal += more.equal;
        self.listed += more.listed;
        self.unasked += more.unasked;
        self.library += more.library;
    }
}

#[derive(Clone)]
pub struct Counts {
    pub rows: Vec<Row>,
    pub labels: Vec<u64>,
    pub refusals: BTreeMap<u32, u64>,
    pub functions: BTreeMap<&'static str, u64>,
}

impl Counts {
    pub fn new() -> Counts {
        Counts {
            rows: vec![Row::default(); KINDS.len()],
            labels: vec![0; LABELS.len()],
            refusals: BTreeMap::new(),
            functions: BTreeMap::new(),
        }
    }

    pub fn add(&mut self, kind: usize, asked: usize, outcome: &Outcome) {
        let row = &mut self.rows[kind];
        row.cases += 1;
        row.equal += outcome.equal;
        row.listed += outcome.listed.len() as u64;
        row.unasked += u64::from(asked == 0);
        row.library += outcome.library.len() as u64;
        if outcome.refusal == 0 {
            row.accepted += 1;
        } else {
            row.refused += 1;
            *self.refusals.entry(outcome.refusal).or_default() += 1;
        }
        for id in &outcome.listed {
            self.labels[*id as usize] += 1;
        }
        for name in &outcome.library {
            *self.functions.entry(name).or_default() += 1;
        }
    }

    pub fn join(&mut self, other: &Counts) {
        for (row, more) in self.rows.iter_mut().zip(&other.rows) {
            row.join(more);
        }
        for (count, more) in self.labels.iter_mut().zip(&other.labels) {
            *count += more;
        }
        for (number, more) in &other.refusals {
            *self.refusals.entry(*number).or_default() += more;
        }
        for (name, more) in &other.functions {
            *self.functions.entry(name).or_default() += more;
        }
    }

    pub fn cases(&self) -> u64 {
        self.rows.iter().map(|row| row.cases).sum()
    }

    pub fn print(&self, library: bool) {
        println!(
            "\n{:16} {:>10} {:>10} {:>10} | {:>11} {:>11} {:>10} | {:>13}",
            "kind", "cases", "accepted", "refused", "Rust equal", "Rust listed", "not asked", "library equal"
        );
        let mut all = Row::default();
        for (name, row) in KINDS.iter().zip(&self.rows) {
            print_row(name, row);
            all.join(row);
        }
        print_row("all", &all);
        println!("\nrefusals met, by number:");
        let met: Vec<String> = self.refusals.iter().map(|(number, count)| format!("{number}: {}", grouped(*count))).collect();
        println!("  {}", met.join("  "));
        if library {
            println!("\nanswers of the library held to document 01, by function:");
            for (name, count) in &self.functions {
                println!("  raft_log_{name:24} {:>10}", grouped(*count));
            }
        }
        println!("\nlisted differences met (docs/DIFFERENCES.md):");
        for (label, count) in LABELS.iter().zip(&self.labels) {
            if *count > 0 {
                println!("  {:24} {:>10}  {}", label.name, grouped(*count), label.says);
            }
        }
        for (label, _) in LABELS.iter().zip(&self.labels).filter(|(_, count)| **count == 0) {
            println!("  {:24} never met   {}", label.name, label.says);
        }
    }
}

fn print_row(name: &str, row: &Row) {
    println!(
        "{name:16} {:>10} {:>10} {:>10} | {:>11} {:>11} {:>10} | {:>13}",
        grouped(row.cases),
        grouped(row.accepted),
        grouped(row.refused),
        grouped(row.equal),
        grouped(row.listed),
        grouped(row.unasked),
        grouped(row.library)
    );
}

/// A number with a comma after each three digits.
pub fn grouped(n: u64) -> String {
    let digits = n.to_string();
    let mut out = String::new();
    for (k, c) in digits.chars().enumerate() {
        if k > 0 && (digits.len() - k).is_multiple_of(3) {
            out.push(',');
        }
        out.push(c);
    }
    out
}
