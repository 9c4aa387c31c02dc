//! Log batches in the format of raft-engine, read and written by libraft_log.a, whose functions are proved to answer as document 01 says
//! for all inputs. This crate declares them ([`sys`]), wraps them over lent slices ([`lent`]), and gives them Rust's types here: enums for
//! items and refusals, slices in, vectors out. Nothing is asked of a caller.
//!
//! ```
//! use raft_log::*;
//!
//! let items = [Item { group: 5, content: Content::Command(Command::Compact { index: 300 }) }];
//! let body = write_body(&items, &[], &[], 0)?;
//! assert_eq!(body[..6], [1, 5, 2, 2, 0xac, 2]);
//! assert_eq!(read_body(&body, 0)?.items, items);
//! assert_eq!(read_body(&body, 1).unwrap_err().reason, Reason::ChecksumWrong);
//! # Ok::<(), Refusal>(())
//! ```
pub mod lent;
pub mod sys;
mod types;

use lent::{ENTRIES_MAX, ENTRY_WORDS, ITEMS_MAX, ITEM_WORDS, LOCATION_WORDS};
use std::ops::Range;
pub use types::{Command, Content, Entry, Item, Location, Queue, Reason, Refusal, Span, Status};

/// Where the parts of a batch stand.
#[derive(Clone, Copy, Debug, PartialEq, Eq)]
pub struct Header {
    /// The body's offset.
    pub offset: u64,
    /// The length of the batch.
    pub len: u64,
    pub compressed: bool,
}

/// What a body holds.
#[derive(Clone, Copy, Debug, PartialEq, Eq)]
pub struct Counts {
    pub items: usize,
    pub entries: usize,
    /// The entry total.
    pub total: u32,
    /// The place after the last item, in the body.
    pub next: usize,
}

/// The items of a body and their entries.
#[derive(Clone, Debug, PartialEq, Eq)]
pub struct Table {
    pub items: Vec<Item>,
    pub entries: Vec<Entry>,
    pub total: u32,
    pub next: usize,
}

/// A whole batch: its table, and where body and block stand in the batch. Spans of items are in the body.
#[derive(Clone, Debug, PartialEq, Eq)]
pub struct Batch {
    pub table: Table,
    pub body: Span,
    pub block: Span,
}

fn result(number: u32, item: u64) -> Result<(), Refusal> {
    match number {
        0 => Ok(()),
        _ => {
            Err(Refusal { reason: Reason::from_number(number).expect("the library gives only document 01's numbers"), item: item as usize })
        }
    }
}

/// The CRC-32 of IEEE 802.3.
pub fn crc32(data: &[u8]) -> u32 {
    lent::crc32(data)
}

/// The number at a place, in any permitted spelling, and the place after it.
pub fn read_number(data: &[u8], at: usize) -> Result<(u64, usize), Refusal> {
    let mut answer = [0; 2];
    result(lent::read_number(data, at, &mut answer), 0)?;
    Ok((answer[0], answer[1] as usize))
}

/// Writes the shortest spelling of a number at a place, and answers the place after it.
pub fn write_number(number: u64, out: &mut [u8], at: usize) -> Result<usize, Refusal> {
    let mut answer = [0];
    result(lent::write_number(number, out, at, &mut answer), 0)?;
    Ok(answer[0] as usize)
}

/// The header at the start of a batch.
pub fn read_header(data: &[u8]) -> Result<Header, Refusal> {
    let mut answer = [0; 3];
    result(lent::read_header(data, &mut answer), 0)?;
    Ok(Header { offset: answer[0], len: answer[1], compressed: answer[2] == 1 })
}

fn counts(answer: &[u64]) -> Counts {
    Counts { items: answer[1] as usize, entries: answer[2] as usize, total: answer[3] as u32, next: answer[4] as usize }
}

/// What a body with its footer holds, under a signature (0 where there is none).
pub fn check_body(body: &[u8], signature: u32) -> Result<Counts, Refusal> {
    let mut answer = [0; 5];
    result(lent::check_body(body, signature, &mut answer), answer[0])?;
    Ok(counts(&answer))
}

/// Whether each number of an accepted body has its shortest spelling.
pub fn is_plain(body: &[u8], signature: u32) -> Result<bool, Refusal> {
    let mut answer = [0; 2];
    result(lent::is_plain(body, signature, &mut answer), answer[0])?;
    Ok(answer[1] == 1)
}

/// Rows for the most items and entries that a body has.
fn most_rows() -> (Vec<u64>, Vec<u64>) {
    (vec![0; ITEM_WORDS * ITEMS_MAX], vec![0; ENTRY_WORDS * ENTRIES_MAX])
}

/// The table of an answer and the rows that it was read into.
fn table(answer: &[u64], items: &[u64], entries: &[u64]) -> Table {
    let counts = counts(answer);
    let item = |row: &[u64]| Item::from_row(row.try_into().unwrap()).expect("rows that were read are items");
    let entry = |row: &[u64]| Entry::from_row(row.try_into().unwrap());
    Table {
        items: items[..ITEM_WORDS * counts.items].chunks_exact(ITEM_WORDS).map(item).collect(),
        entries: entries[..ENTRY_WORDS * counts.entries].chunks_exact(ENTRY_WORDS).map(entry).collect(),
        total: counts.total,
        next: counts.next,
    }
}

/// The items of a body with its footer, under a signature (0 where there is none).
pub fn read_body(body: &[u8], signature: u32) -> Result<Table, Refusal> {
    let (mut items, mut entries) = most_rows();
    let mut answer = [0; 5];
    result(lent::read_body(body, signature, &mut items, &mut entries, &mut answer), answer[0])?;
    Ok(table(&answer, &items, &entries))
}

/// A whole batch. Bytes past its length are not looked at.
pub fn read_batch(data: &[u8], signature: u32) -> Result<Batch, Refusal> {
    let (mut items, mut entries) = most_rows();
    let mut answer = [0; 9];
    result(lent::read_batch(data, signature, &mut items, &mut entries, &mut answer), answer[0])?;
    let span = |k: usize| Span { at: answer[k] as usize, len: answer[k + 1] as usize };
    Ok(Batch { table: table(&answer, &items, &entries), body: span(5), block: span(7) })
}

/// The longest body, in bytes.
const BODY_MAX: usize = 4_294_967_295;

/// What is written: rows of items, and of entries, of which only lengths count.
struct Written {
    items: Vec<u64>,
    entries: Vec<u64>,
    /// A length that no body passes which is not refused.
    room: usize,
}

fn written(items: &[Item], entry_lens: &[u32], store: &[u8]) -> Written {
    let span = |span: Span| if span.of(store).is_some() { span.len } else { 0 };
    let spans = |item: &Item| match item.content {
        Content::Put { key, value } => span(key).saturating_add(span(value)),
        Content::Del { key } => span(key),
        _ => 0,
    };
    // Beside its spans and tails an item has at most three numbers of ten bytes, a type and a kind; a body a count and a footer. Above
    // BODY_MAX a body is a 22 whatever is lent.
    let room = items.iter().map(|item| 32usize.saturating_add(spans(item))).fold(14 + 10 * entry_lens.len(), usize::saturating_add);
    Written {
        items: items.iter().flat_map(Item::to_row).collect(),
        entries: entry_lens.iter().flat_map(|len| Entry { index: 0, offset: 0, len: *len }.to_row()).collect(),
        room: room.min(BODY_MAX),
    }
}

fn body(items: &[Item], entry_lens: &[u32], store: &[u8], signature: u32, checked: bool) -> Result<Vec<u8>, Refusal> {
    let rows = written(items, entry_lens, store);
    let mut out = vec![0; rows.room];
    let mut answer = [0; 2];
    let lent = lent::Rows { items: &rows.items, entries: &rows.entries, store };
    result(lent::write_body(lent, signature, checked, &mut out, &mut answer), answer[0])?;
    out.truncate(answer[1] as usize);
    Ok(out)
}

/// A body of these items, with its footer. Each entries item takes the next of the lengths.
pub fn write_body(items: &[Item], entry_lens: &[u32], store: &[u8], signature: u32) -> Result<Vec<u8>, Refusal> {
    body(items, entry_lens, store, signature, true)
}

/// The same, with put keys under the internal prefix permitted.
pub fn write_body_unchecked(items: &[Item], entry_lens: &[u32], store: &[u8], signature: u32) -> Result<Vec<u8>, Refusal> {
    body(items, entry_lens, store, signature, false)
}

fn batch(items: &[Item], lens: &[u32], store: &[u8], content: &[u8], signature: u32, checked: bool) -> Result<Vec<u8>, Refusal> {
    let rows = written(items, lens, store);
    let mut out = vec![0; 20 + rows.room + content.len()];
    let mut answer = [0; 2];
    let lent = lent::Rows { items: &rows.items, entries: &rows.entries, store };
    result(lent::write_batch(lent, content, signature, checked, &mut out, &mut answer), answer[0])?;
    out.truncate(answer[1] as usize);
    Ok(out)
}

/// A whole batch of these items, with the bytes of all entries in its block. No items and no content give no bytes.
pub fn write_batch(items: &[Item], entry_lens: &[u32], store: &[u8], content: &[u8], signature: u32) -> Result<Vec<u8>, Refusal> {
    batch(items, entry_lens, store, content, signature, true)
}

/// The same, with put keys under the internal prefix permitted.
pub fn write_batch_unchecked(items: &[Item], entry_lens: &[u32], store: &[u8], content: &[u8], signature: u32) -> Result<Vec<u8>, Refusal> {
    batch(items, entry_lens, store, content, signature, false)
}

/// The bytes of an entry, in whichever block its queue names.
pub fn entry_view<'a>(location: &Location, append: &'a [u8], rewrite: &'a [u8]) -> Result<&'a [u8], Refusal> {
    let mut answer = [0; 2];
    result(lent::entry_view(&location.to_row(), append, rewrite, &mut answer), 0)?;
    let block = if location.queue == Queue::Append { append } else { rewrite };
    Ok(&block[answer[0] as usize..(answer[0] + answer[1]) as usize])
}

/// The group and the status that an item marks, if it is a mark.
pub fn status(item: &Item, store: &[u8]) -> Result<Option<(u64, Status)>, Refusal> {
    let mut answer = [0; 2];
    result(lent::status(&item.to_row(), store, &mut answer), 0)?;
    Ok(match answer[0] {
        1 => Some((answer[1], Status::Begin)),
        2 => Some((answer[1], Status::Middle)),
        3 => Some((answer[1], Status::End)),
        _ => None,
    })
}

/// A table of locations: consecutive indexes from `first_index` on, of which the first `rewritten` are in the rewrite queue.
#[derive(Clone, Debug, PartialEq, Eq)]
pub struct Locations {
    pub first_index: u64,
    pub rewritten: u64,
    pub rows: Vec<Location>,
}

impl Locations {
    fn words(&self) -> Vec<u64> {
        self.rows.iter().flat_map(Location::to_row).collect()
    }

    fn table(&self) -> lent::Table {
        lent::Table { first_index: self.first_index, rewritten: self.rewritten }
    }

    /// Replaces rows of the overlap by incoming ones until the first stop, and answers how many. A refusal changes nothing.
    pub fn rewrite(&mut self, incoming: &[Location], incoming_first: u64, gate: Option<u64>) -> Result<u64, Refusal> {
        let mut words = self.words();
        let incoming: Vec<u64> = incoming.iter().flat_map(Location::to_row).collect();
        let mut answer = [0; 2];
        result(lent::rewrite(&mut words, self.table(), &incoming, incoming_first, gate, &mut answer), 0)?;
        self.rows = words.chunks_exact(LOCATION_WORDS).map(|row| Location::from_row(row.try_into().unwrap())).collect();
        self.rewritten = answer[1];
        Ok(answer[0])
    }

    /// The longest run of rows from the rewritten count on whose file number is at most the gate.
    pub fn fetch_entry_indexes_before(&self, gate: u64) -> Result<Range<usize>, Refusal> {
        let mut answer = [0; 2];
        result(lent::fetch(&self.words(), self.table(), gate, &mut answer), 0)?;
        Ok(answer[0] as usize..(answer[0] + answer[1]) as usize)
    }
}
