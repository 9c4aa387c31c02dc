//! Makes the list that the program replay reads: cases on which the Rust's debug build gives an answer that document 01 gives too, with that
//! answer. The form is that of crates/vectors/stdin: words after single spaces, numbers and bytes in hex, `-` for no bytes. The first letter
//! tells the kind. A line is a kind, a name, a question, `=` and the answer; one that begins with `#` is none.
//!
//!     read NAME BYTES = VALUE NEXT                    or eof, or overflow
//!     number NAME N = BYTES                           written
//!     crc NAME BYTES = SUM
//!     header NAME BYTES = OFFSET LENGTH TYPE
//!     one NAME TOTAL BYTES = NEXT TOTAL ITEM          one item, the entry total before it and after it
//!     items NAME SIGNATURE BYTES = COUNT ITEM..       a body without its footer; the signature is 0
//!     footed NAME SIGNATURE BYTES = COUNT ITEM..      a body with its footer
//!     body NAME SIGNATURE BYTES = WRITTEN             what the items of a body without its footer are written as, footer included
//!     write NAME SIGNATURE CONTENT BYTES = WRITTEN    the same as a whole batch; unchecked: with no 23
//!     unchecked NAME SIGNATURE CONTENT BYTES = WRITTEN
//!     view NAME LENGTH BLOCK = CONTENT                the whole content of a block under the length that a row states
//!     status NAME BYTES = GROUP STATUS                of one item; or none
//!     move NAME FIRST COUNT ROWS WITH GATE INFIRST ROWS = COUNT ROWS APPEND REWRITE
//!     take NAME FIRST COUNT ROWS GATE = PLACE LENGTH
//!
//! ITEM is GROUP entries N and N times INDEX OFFSET LENGTH, GROUP clean, GROUP compact INDEX, GROUP put KEY CONTENT, or GROUP del KEY, with
//! key and content as bytes. ROWS is a count and six numbers for each (queue 0 or 1, file, place, block length, entry offset, entry length).
//! WITH is 1 where a gate counts. APPEND and REWRITE are the live rows of the two queues afterwards. Any answer may be `refused N` instead,
//! with 01's number for the error that the Rust gave; which item was refused the Rust does not say.
use crate::case::{footed, sign, Case, Seal};
use crate::expect::{normal, said};
use crate::make;
use crate::model::locations::Row;
use crate::model::numbers::{self, Number};
use crate::model::writing::List;
use crate::model::{reading, Content, Item, LIMITS};
use crate::oracle::Oracle;
use crate::rng::Rng;
use crate::text::hex;
use std::collections::HashSet;

/// Standard input is read in pieces of this size, so each piece ends with a line: it is filled up with a line of `#`.
const PIECE: usize = 65_536;
const LONGEST_LINE: usize = 1_000;
const LONGEST_BYTES: usize = 256;

/// How many lines of each kind there are at most, accepted and refused. The order is that of case::KINDS.
const QUOTAS: [(usize, usize); 14] = [
    (300, 150),
    (200, 0),
    (200, 0),
    (150, 200),
    (350, 250),
    (400, 350),
    (0, 0),
    (220, 0),
    (220, 40),
    (100, 80),
    (0, 0),
    (160, 0),
    (220, 0),
    (120, 0),
];

/// The text of the list with a head, and how many lines it has.
pub fn list(oracle: &Oracle, seed: u64, head: &str) -> Result<(String, usize), String> {
    let mut left = QUOTAS;
    let mut seen = HashSet::new();
    let mut lines = vec![];
    let mut rng = Rng::new(seed, u64::MAX / 3);
    for turn in 0..40u64 {
        let cases = (0..4_000).map(|k| one(&mut rng, seed, turn * 4_000 + k));
        let cases: Vec<Case> = cases.flat_map(|case| case.asked()).filter(small).collect();
        let asked: Vec<String> = cases.iter().map(Case::line).collect();
        for (case, said_by_rust) in cases.iter().zip(oracle.ask(&asked)?) {
            let (accepted, refused) = &mut left[case.kind()];
            let quota = if said_by_rust.starts_with("err") { refused } else { accepted };
            let line = normal(case, &said_by_rust);
            if *quota == 0 || !said(case).fits(&line) || said_by_rust.contains("dropped") {
                continue;
            }
            let Some((question, answer)) = spelled(case, &line, &mut rng) else {
                continue;
            };
            let text = format!("{question} = {answer}");
            if text.len() > LONGEST_LINE || !seen.insert(question) {
                continue;
            }
            *quota -= 1;
            lines.push((case.kind(), text));
        }
    }
    lines.sort_by_key(|(kind, _)| *kind);
    let head = head.lines().map(|line| format!("# {line}\n"));
    let named = lines.iter().enumerate().map(|(k, (_, text))| named(text, k));
    Ok((pieces(head.chain(named)), lines.len()))
}

/// Half of the cases are short, half random.
fn one(rng: &mut Rng, seed: u64, number: u64) -> Case {
    if rng.once_in(2) {
        return make::short::member(rng.below(make::short::len()));
    }
    make::case(&mut Rng::new(seed, number))
}

fn small(case: &Case) -> bool {
    match case {
        Case::ReadNumber { bytes, .. } | Case::Checksum { bytes } | Case::Item { bytes, .. } | Case::Body { bytes, .. } => {
            bytes.len() <= LONGEST_BYTES
        }
        Case::WriteBatch { content, list, .. } => content.len() + list.store.len() <= LONGEST_BYTES / 2,
        Case::WriteBody { list, .. } => list.store.len() <= LONGEST_BYTES / 2,
        Case::Rewrite { table, incoming, .. } => table.rows.len() + incoming.len() <= 16,
        Case::Fetch { table, .. } => table.rows.len() <= 16,
        _ => true,
    }
}

/// The line with a name behind its kind: its number in the list.
fn named(text: &str, number: usize) -> String {
    let (kind, rest) = text.split_once(' ').unwrap();
    format!("{kind} {number} {rest}\n")
}

fn pieces(lines: impl Iterator<Item = String>) -> String {
    let mut out = String::new();
    for line in lines {
        let used = out.len() % PIECE;
        if used + line.len() > PIECE {
            let fill = PIECE - used;
            out.push_str(&"#".repeat(fill - 1));
            out.push('\n');
        }
        out.push_str(&line);
    }
    out
}

/// The number of document 01 that an error's kind and text stand for.
fn refusal(line: &str) -> Option<String> {
    let numbers = [
        ("err eof", 7),
        ("err overflow", 7),
        ("err invalid", 23),
        ("err corruption Log batch header too short", 1),
        ("err corruption Unrecognized compression type", 2),
        ("err corruption Log item offset exceeds", 3),
        ("err corruption Log item offset is smaller", 4),
        ("err corruption Content too short", 5),
        ("err corruption Checksum expected", 6),
        ("err corruption Unrecognized log item type", 10),
        ("err corruption Unrecognized command type", 11),
        ("err corruption Unrecognized op type", 12),
    ];
    let found = numbers.iter().find(|(text, _)| line.starts_with(text))?;
    Some(format!("refused {:x}", found.1))
}

/// Question and answer of a case; none where the list has no such line.
fn spelled(case: &Case, line: &str, rng: &mut Rng) -> Option<(String, String)> {
    let words: Vec<&str> = line.split(' ').collect();
    let number = |k: usize| words[k].parse::<u64>().map(|n| format!("{n:x}")).ok();
    let or_refused = |answer: Option<String>| if line.starts_with("err") { refusal(line) } else { answer };
    Some(match case {
        Case::ReadNumber { bytes, at: 0 } => {
            let answer = match words[..] {
                ["err", why] => why.to_string(),
                _ => format!("{} {}", number(1)?, number(2)?),
            };
            (format!("read {}", hex(bytes)), answer)
        }
        Case::WriteNumber { number, .. } => (format!("number {number:x}"), words[1].into()),
        Case::Checksum { bytes } => (format!("crc {}", hex(bytes)), words[1].into()),
        Case::Header { bytes } => {
            let answer = || Some(format!("{} {} {}", number(1)?, number(3)?, number(2)?));
            (format!("header {}", hex(bytes)), or_refused(answer())?)
        }
        Case::Item { total, bytes } => {
            let answer = || Some(format!("{} {}{}", number(1)?, number(2)?, items(line.splitn(4, ' ').nth(3)?)?));
            (format!("one {total:x} {}", hex(bytes)), or_refused(answer())?)
        }
        Case::Body { signature, bytes, seal, .. } => {
            let answer = || Some(format!("{}{}", number(1)?, items(line.splitn(3, ' ').nth(2).unwrap_or(""))?));
            let question = if *seal == Seal::None {
                format!("items 0 {}", hex(bytes))
            } else {
                let (body, signature) = footed(sign(*signature), bytes, *seal);
                format!("footed {signature:x} {}", hex(&body))
            };
            (question, or_refused(answer())?)
        }
        Case::WriteBody { signature, list, .. } => {
            (format!("body {:x} {}", sign(*signature), hex(&respelled(list, rng)?)), words[2].into())
        }
        Case::WriteBatch { signature, list, content, checked, .. } => {
            let kind = if *checked { "write" } else { "unchecked" };
            let question = format!("{kind} {:x} {} {}", sign(*signature), hex(content), hex(&respelled(list, rng)?));
            (question, or_refused(Some(words.get(2)?.to_string()))?)
        }
        Case::Block { length, bytes } => (format!("view {length:x} {}", hex(bytes)), or_refused(Some(words.get(2)?.to_string()))?),
        Case::Status { item, store } => {
            let list = List { items: vec![item.clone()], lens: vec![0; 8], store: store.clone() };
            let bytes = respelled(&list, rng)?;
            let Number::Done { next, .. } = numbers::read(&bytes, 0) else {
                return None;
            };
            let answer = if words[0] == "none" { "none".into() } else { format!("{} {}", number(1)?, number(2)?) };
            (format!("status {}", hex(&bytes[next..])), answer)
        }
        Case::Rewrite { table, gate, first, incoming } => {
            let gate = gate.map_or("0 0".into(), |gate| format!("1 {gate:x}"));
            let question = format!("move {:x} {:x} {} {gate} {first:x} {}", table.first, table.count, rows(&table.rows), rows(incoming));
            (question, format!("{} {} {} {}", number(2)?, located(words[3])?, number(5)?, number(6)?))
        }
        Case::Fetch { table, gate } => {
            let question = format!("take {:x} {:x} {} {gate:x}", table.first, table.count, rows(&table.rows));
            (question, format!("{} {}", number(1)?, number(2)?))
        }
        _ => return None,
    })
}

/// The oracle's items, word by word: an entries item has its count, then index, offset and length of each.
fn items(text: &str) -> Option<String> {
    let mut out = String::new();
    for item in text.split(" | ").filter(|item| !item.is_empty()) {
        let words: Vec<&str> = item.split(' ').collect();
        let number = |word: &str| word.parse::<u64>().map(|n| format!("{n:x}")).ok();
        out.push_str(&format!(" {} {}", number(words[0])?, words[1]));
        match words[1] {
            "entries" => {
                let entries: Vec<&str> = words[2].split(',').filter(|entry| *entry != "-").collect();
                out.push_str(&format!(" {:x}", entries.len()));
                for n in entries.iter().flat_map(|entry| entry.split(':')) {
                    out.push_str(&format!(" {}", number(n)?));
                }
            }
            "compact" => out.push_str(&format!(" {}", number(words[2])?)),
            _ => {
                for word in &words[2..] {
                    out.push_str(&format!(" {word}"));
                }
            }
        }
    }
    Some(out)
}

/// The bytes of a list as a body without its footer, with numbers padded here and there; none where they would not be read back.
fn respelled(list: &List, rng: &mut Rng) -> Option<Vec<u8>> {
    let padded = rng.once_in(2);
    let mut out = vec![];
    make::spell(rng, list.items.len() as u64, padded, &mut out);
    let (mut used, mut total) = (0, 0);
    for item in &list.items {
        make::spell(rng, item.group, padded, &mut out);
        spell_content(rng, item, list, padded, &mut used, &mut total, &mut out)?;
    }
    reading::Reader::new(&out, 0, LIMITS).items().ok()?;
    Some(out)
}

fn spell_content(
    rng: &mut Rng,
    item: &Item,
    list: &List,
    padded: bool,
    used: &mut usize,
    total: &mut u64,
    out: &mut Vec<u8>,
) -> Option<()> {
    let bytes = |rng: &mut Rng, bytes: &[u8], out: &mut Vec<u8>| {
        make::spell(rng, bytes.len() as u64, padded, out);
        out.extend(bytes);
    };
    match &item.content {
        Content::Entries { count, first } => {
            out.push(1);
            make::spell(rng, *count, padded, out);
            if *count > 0 {
                make::spell(rng, *first, padded, out);
            }
            for len in list.lens.get(*used..*used + *count as usize)? {
                *total += len;
                make::spell(rng, *total, padded, out);
            }
            *used += *count as usize;
        }
        Content::Clean => out.extend([2, 1]),
        Content::Compact { index } => {
            out.extend([2, 2]);
            make::spell(rng, *index, padded, out);
        }
        Content::Put { key, value } => {
            out.extend([3, 1]);
            bytes(rng, key.of(&list.store), out);
            bytes(rng, value.of(&list.store), out);
        }
        Content::Del { key } => {
            out.extend([3, 2]);
            bytes(rng, key.of(&list.store), out);
        }
        _ => return None,
    }
    Some(())
}

/// The number of rows, and six numbers for each.
fn rows(rows: &[Row]) -> String {
    let mut out = format!("{:x}", rows.len());
    for row in rows {
        out.push_str(&format!(" {:x} {:x} {:x} {:x} {:x} {:x}", row.queue, row.file, row.place, row.block, row.offset, row.len));
    }
    out
}

/// The oracle's rows in the same form.
fn located(text: &str) -> Option<String> {
    if text == "-" {
        return Some("0".into());
    }
    let mut all = vec![];
    for row in text.split(';') {
        let (queue, rest) = row.split_once(',')?;
        let n: Vec<u64> = rest.split(',').map(|word| word.parse().ok()).collect::<Option<_>>()?;
        let [file, place, block, offset, len] = n[..] else {
            return None;
        };
        all.push(Row { queue: u64::from(queue == "R"), file, place, block, offset, len });
    }
    Some(rows(&all))
}
