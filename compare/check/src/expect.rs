//! What the oracle has to say of a case if the Rust does as document 01 says. Refusals are told apart by the kind of error and by the
//! beginning of log_batch.rs's own text; a refusal that the Rust has no error for is nowhere to be said, so its case has to be listed.
use crate::case::{self, footed, sign, Case, Seal};
use crate::model::reading::{self, Reader, Stop};
use crate::model::{batch, locations, numbers, writing, Limits, Note, Refusal, LIMITS};
use crate::text::hex;

#[derive(Clone, Debug, PartialEq, Eq)]
pub enum Said {
    /// This line.
    Line(String),
    /// A line that begins so, or so.
    Starts(Vec<&'static str>),
    /// Any line.
    Anything,
    /// No line of the Rust's says it.
    Nothing,
}

impl Said {
    pub fn fits(&self, line: &str) -> bool {
        match self {
            Said::Line(text) => text == line,
            Said::Starts(texts) => texts.iter().any(|text| line.starts_with(text)),
            Said::Anything => true,
            Said::Nothing => false,
        }
    }
}

fn starts(text: &'static str) -> Said {
    Said::Starts(vec![text])
}

/// The error that the Rust has for a refusal.
pub fn error(refusal: &Refusal) -> Said {
    match (refusal.number, refusal.note) {
        (1, _) => starts("err corruption Log batch header too short"),
        (2, _) => starts("err corruption Unrecognized compression type"),
        (3, _) => starts("err corruption Log item offset exceeds"),
        (4, _) => starts("err corruption Log item offset is smaller"),
        (5, _) => starts("err corruption Content too short"),
        (6, _) => starts("err corruption Checksum expected"),
        (7, Note::Eof) => starts("err eof"),
        (7, Note::Overflow) => starts("err overflow"),
        (10, _) => starts("err corruption Unrecognized log item type"),
        (11, _) => starts("err corruption Unrecognized command type"),
        (12, Note::None) => starts("err corruption Unrecognized op type"),
        (23, _) => starts("err invalid"),
        _ => Said::Nothing,
    }
}

/// What the oracle says of a case that `Case::asked` gave, by 01 and its ceilings.
pub fn said(case: &Case) -> Said {
    said_within(case, LIMITS)
}

/// The same with other ceilings.
pub fn said_within(case: &Case, limits: Limits) -> Said {
    match case {
        Case::ReadNumber { bytes, at } => number(bytes, *at),
        Case::WriteNumber { number, .. } => {
            let mut out = vec![];
            numbers::write(*number, &mut out);
            Said::Line(format!("ok {}", hex(&out)))
        }
        Case::Checksum { bytes } => Said::Line(format!("ok {:08x}", numbers::crc32(bytes))),
        Case::Header { bytes } => match batch::header(bytes) {
            Ok(h) => Said::Line(format!("ok {} {} {}", h.offset, h.compression, h.len)),
            Err(refusal) => error(&refusal),
        },
        Case::Item { total, bytes } => item(*total, bytes, limits),
        Case::Body { signature, bytes, seal, .. } => body(*signature, bytes, *seal, limits),
        Case::WriteBody { signature, list, .. } => written(writing::body(list, sign(*signature), false, limits, u128::MAX)),
        Case::WriteBatch { signature, list, content, checked, .. } => {
            written(writing::batch(list, content, sign(*signature), *checked, limits, u128::MAX))
        }
        Case::Block { length, bytes } => match batch::view(bytes, *length, 0, 0) {
            Ok(_) => {
                let content = batch::block(bytes).unwrap();
                Said::Line(format!("ok {} {}", content.len(), hex(content)))
            }
            Err(refusal) => error(&refusal),
        },
        Case::Status { item, store } => match batch::status(item, store) {
            Ok(Some((group, status))) => Said::Line(format!("ok {group} {status}")),
            Ok(None) => Said::Line("none".into()),
            Err(refusal) => error(&refusal),
        },
        Case::Rewrite { table, gate, first, incoming } => match locations::rewrite(table, *gate, *first, incoming) {
            Ok((_, after)) => Said::Line(table_line(&after)),
            Err(refusal) => error(&refusal),
        },
        Case::Fetch { table, gate } => match locations::fetch(table, *gate) {
            Ok((at, len)) => Said::Line(run_line(table, at, len)),
            Err(refusal) => error(&refusal),
        },
        Case::Batch { .. } | Case::View { .. } => unreachable!("asked in parts, or not at all"),
    }
}

fn number(bytes: &[u8], at: usize) -> Said {
    let from = at.min(bytes.len());
    match numbers::read(bytes, from) {
        numbers::Number::Done { value, next } => Said::Line(format!("ok {value} {}", next - from)),
        numbers::Number::Eof => starts("err eof"),
        numbers::Number::Overflow => starts("err overflow"),
    }
}

fn item(total: u32, bytes: &[u8], limits: Limits) -> Said {
    let mut reader = Reader::new(bytes, total.into(), limits);
    match reader.item() {
        Ok(item) => {
            let text = case::one_spelled(bytes, &item, &reader.entries, &mut 0);
            Said::Line(format!("ok {} {} {text}", reader.at, reader.total))
        }
        Err(Stop(number, note)) => error(&Refusal { number, item: 0, note }),
    }
}

fn body(signature: Option<u64>, bytes: &[u8], seal: Seal, limits: Limits) -> Said {
    let (whole, signature) = footed(sign(signature), bytes, seal);
    match reading::body(&whole, signature, limits).read {
        Ok(table) if table.items.is_empty() => Said::Line("ok 0".into()),
        Ok(table) => Said::Line(format!("ok {} {}", table.items.len(), case::spelled(&whole, &table))),
        Err(refusal) => error(&refusal),
    }
}

fn written(written: Result<Vec<u8>, Refusal>) -> Said {
    match written {
        Ok(bytes) => Said::Line(format!("ok {} {}", bytes.len(), hex(&bytes))),
        Err(refusal) => error(&refusal),
    }
}

/// A table after a rewriting, with its live rows of both queues.
fn table_line(table: &locations::Locations) -> String {
    let rewrite = table.rows.iter().filter(|row| row.queue == 1).count();
    let append = table.rows.len() - rewrite;
    format!("ok {} {} {} live {append} {rewrite}", table.first, table.count, case::rows_text(&table.rows))
}

fn run_line(table: &locations::Locations, at: u64, len: u64) -> String {
    let rows = &table.rows[at as usize..(at + len) as usize];
    let rows: Vec<String> =
        rows.iter().enumerate().map(|(k, row)| format!("{}@{}", table.first + at + k as u64, case::rows_text(&[*row]))).collect();
    format!("ok {at} {len} {}", if rows.is_empty() { "-".into() } else { rows.join(";") })
}

/// The oracle's line in the form that `said` gives: the counters of a rewriting as live rows, and nothing about dropped items.
pub fn normal(case: &Case, line: &str) -> String {
    match case {
        Case::Rewrite { .. } if line.starts_with("ok ") => {
            let Some((table, stats)) = line.split_once(" stats ") else {
                return line.into();
            };
            let numbers: Vec<i64> = stats.split(' ').filter_map(|word| word.parse().ok()).collect();
            match numbers[..] {
                [append, rewrite, deleted] => format!("{table} live {append} {}", rewrite - deleted),
                _ => line.into(),
            }
        }
        Case::WriteBatch { .. } => line.split(" dropped ").next().unwrap_or(line).into(),
        _ => line.into(),
    }
}
