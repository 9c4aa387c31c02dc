//! Whatever answers cases. The model stands here; the library, where it is linked, in library.rs.
use crate::answer::Answer;
use crate::case::{footed, sign, Case, Room, Seal};
use crate::model::{self, batch, locations, numbers, reading, writing, Content, LIMITS};

/// An answer with the name of the function that gives it.
pub type Part = (&'static str, Answer);

pub trait Subject: Send {
    /// The answers to a case, always in the same order. A subject may have some of them alone; what it has not, it leaves out.
    fn answers(&mut self, case: &Case) -> Vec<Part>;
}

/// Document 01 as read here.
pub struct Model;

fn or_refused<T>(result: Result<T, model::Refusal>, answer: impl FnOnce(T) -> Answer) -> Answer {
    result.map_or_else(Answer::refused, answer)
}

/// Rows lent for a reading that has `items` and `entries` of them.
pub fn rows_lent(room: Room, items: usize, entries: usize) -> (usize, usize) {
    match room {
        Room::Plenty | Room::Few => (items + 3, entries + 2),
        Room::Exact => (items, entries),
        Room::Short => (items.saturating_sub(1), entries),
        Room::ShortEntries => (items, entries.saturating_sub(1)),
    }
}

/// Bytes lent for a result of some length.
pub fn bytes_lent(room: Room, len: usize) -> usize {
    match room {
        Room::Plenty => len + 9,
        Room::Exact => len,
        Room::Few => LENT_IF_REFUSED,
        Room::Short | Room::ShortEntries => len.saturating_sub(1),
    }
}

/// What a refused call is lent.
pub const LENT_IF_REFUSED: usize = 64;

pub fn written_room(room: Room, len: &Result<u128, model::Refusal>) -> usize {
    len.as_ref().map_or(LENT_IF_REFUSED, |len| bytes_lent(room, *len as usize))
}

impl Subject for Model {
    fn answers(&mut self, case: &Case) -> Vec<Part> {
        match case {
            Case::ReadNumber { bytes, at } => vec![("read_number", number(bytes, *at))],
            Case::WriteNumber { number, at, room } => vec![("write_number", write_number(*number, *at, *room))],
            Case::Checksum { bytes } => vec![("crc32", Answer::Sum(numbers::crc32(bytes)))],
            Case::Header { bytes } => {
                let answer = |h: batch::Header| Answer::Header { offset: h.offset, len: h.len, compression: h.compression.into() };
                vec![("read_header", or_refused(batch::header(bytes), answer))]
            }
            Case::Item { total, bytes } => vec![("read_body", item(*total, bytes))],
            Case::Body { signature, bytes, seal, room } => body(sign(*signature), bytes, *seal, *room),
            Case::Batch { signature, bytes, room } => vec![("read_batch", whole(bytes, sign(*signature), *room))],
            Case::WriteBody { signature, list, checked, room } => {
                let room = written_room(*room, &writing::body_len(list, *checked, LIMITS)) as u128;
                let written = writing::body(list, sign(*signature), *checked, LIMITS, room);
                vec![("write_body", or_refused(written, Answer::Bytes))]
            }
            Case::WriteBatch { signature, list, content, checked, room } => {
                let room = written_room(*room, &writing::batch_len(list, content.len(), *checked, LIMITS)) as u128;
                let written = writing::batch(list, content, sign(*signature), *checked, LIMITS, room);
                vec![("write_batch", or_refused(written, Answer::Bytes))]
            }
            Case::Block { length, bytes } => {
                let viewed = batch::view(bytes, *length, 0, length.saturating_sub(4));
                vec![("entry_view", or_refused(viewed, |(at, len)| Answer::Part { at, len }))]
            }
            Case::View { row, append, rewrite } => vec![("entry_view", view(row, append, rewrite))],
            Case::Status { item, store } => vec![("status", status(item, store))],
            Case::Rewrite { table, gate, first, incoming } => vec![("rewrite", rewrite(table, *gate, *first, incoming))],
            Case::Fetch { table, gate } => vec![("fetch", fetch(table, *gate))],
        }
    }
}

fn number(bytes: &[u8], at: usize) -> Answer {
    match numbers::read(bytes, at) {
        numbers::Number::Done { value, next } => Answer::Number { value, next: next as u64 },
        _ => Answer::Refused { number: 7, item: 0 },
    }
}

fn write_number(n: u64, at: usize, room: usize) -> Answer {
    let mut out = vec![];
    numbers::write(n, &mut out);
    if at.saturating_add(out.len()) > room {
        return Answer::Refused { number: 21, item: 0 };
    }
    Answer::Bytes(out)
}

fn item(total: u32, bytes: &[u8]) -> Answer {
    let mut reader = reading::Reader::new(bytes, total.into(), LIMITS);
    match reader.item() {
        Ok(item) => Answer::Item { item, entries: reader.entries, next: reader.at as u64, total: reader.total },
        Err(reading::Stop(number, _)) => Answer::Refused { number, item: 0 },
    }
}

/// What a body holds, its rows, and whether it is plain.
fn body(signature: u32, bytes: &[u8], seal: Seal, room: Room) -> Vec<Part> {
    let (whole, signature) = footed(signature, bytes, seal);
    let body = reading::body(&whole, signature, LIMITS);
    let plain = or_refused(body.read.clone(), |_| Answer::Plain(body.plain));
    let counts = or_refused(body.read.clone(), |table| Answer::Counts {
        items: table.items.len() as u64,
        entries: table.entries.len() as u64,
        total: table.total,
        next: table.next as u64,
    });
    let rows = or_refused(body.read, |table| rows(table, room, [0, whole.len() as u64], [0, 0]));
    vec![("check_body", counts), ("read_body", rows), ("is_plain", plain)]
}

/// The table, or 21 where too few rows are lent.
fn rows(table: model::Table, room: Room, body: [u64; 2], block: [u64; 2]) -> Answer {
    let lent = rows_lent(room, table.items.len(), table.entries.len());
    if lent.0 < table.items.len() || lent.1 < table.entries.len() {
        return Answer::Refused { number: 21, item: 0 };
    }
    let (total, next) = (table.total, table.next as u64);
    Answer::Table { items: table.items, entries: table.entries, total, next, body, block }
}

fn whole(bytes: &[u8], signature: u32, room: Room) -> Answer {
    or_refused(batch::whole(bytes, signature), |(table, header)| {
        rows(table, room, [header.offset, header.len - header.offset], [16, header.offset - 16])
    })
}

fn view(row: &locations::Row, append: &[u8], rewrite: &[u8]) -> Answer {
    let block = match row.queue {
        0 => append,
        1 => rewrite,
        _ => return Answer::Refused { number: 26, item: 0 },
    };
    or_refused(batch::view(block, row.block, row.offset, row.len), |(at, len)| Answer::Part { at, len })
}

fn status(item: &model::Item, store: &[u8]) -> Answer {
    let number = match item.content {
        Content::BadType(_) => 10,
        Content::BadCommand(_) => 11,
        Content::BadOp(_) => 12,
        _ => return or_refused(batch::status(item, store), Answer::Status),
    };
    Answer::Refused { number, item: 0 }
}

fn rewrite(table: &locations::Locations, gate: Option<u64>, first: u64, incoming: &[locations::Row]) -> Answer {
    let rewritten = locations::rewrite(table, gate, first, incoming);
    or_refused(rewritten, |(replaced, after)| Answer::Rewritten { replaced, count: after.count, rows: after.rows })
}

fn fetch(table: &locations::Locations, gate: u64) -> Answer {
    or_refused(locations::fetch(table, gate), |(at, len)| Answer::Run { at, len })
}
