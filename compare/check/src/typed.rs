//! The functions of the crate's root, with Rust's types, as a subject beside those over lent slices. What the types cannot say, and cases
//! in which too little is lent, are left out.
use crate::answer::Answer;
use crate::case::{footed, sign, Case, Room};
use crate::model::locations::{Locations, Row};
use crate::model::writing::List;
use crate::model::{self, Content, Span};
use crate::subject::Part;
use raft_log::{Command, Location, Queue, Refusal, Status, Table};

pub fn answers(case: &Case) -> Vec<Part> {
    match case {
        Case::ReadNumber { bytes, at } => {
            let got = raft_log::read_number(bytes, *at);
            vec![("read_number, typed", or_refused(got, |(value, next)| Answer::Number { value, next: next as u64 }))]
        }
        Case::WriteNumber { number, at, room } => {
            let mut out = vec![0; *room];
            let got = raft_log::write_number(*number, &mut out, *at);
            vec![("write_number, typed", or_refused(got, |next| Answer::Bytes(out[*at..next].to_vec())))]
        }
        Case::Checksum { bytes } => vec![("crc32, typed", Answer::Sum(raft_log::crc32(bytes)))],
        Case::Header { bytes } => {
            let answer = |h: raft_log::Header| Answer::Header { offset: h.offset, len: h.len, compression: h.compressed.into() };
            vec![("read_header, typed", or_refused(raft_log::read_header(bytes), answer))]
        }
        Case::Item { .. } => vec![],
        Case::Body { signature, bytes, seal, room } => {
            let (bytes, signature) = footed(sign(*signature), bytes, *seal);
            let counts = |c: raft_log::Counts| Answer::Counts {
                items: c.items as u64,
                entries: c.entries as u64,
                total: c.total.into(),
                next: c.next as u64,
            };
            let mut parts = vec![
                ("check_body, typed", or_refused(raft_log::check_body(&bytes, signature), counts)),
                ("is_plain, typed", or_refused(raft_log::is_plain(&bytes, signature), Answer::Plain)),
            ];
            if enough(*room) {
                let table = |t: Table| table(t, [0, bytes.len() as u64], [0, 0]);
                parts.push(("read_body, typed", or_refused(raft_log::read_body(&bytes, signature), table)));
            }
            parts
        }
        Case::Batch { signature, bytes, room } if enough(*room) => {
            let span = |span: raft_log::Span| [span.at as u64, span.len as u64];
            let got = raft_log::read_batch(bytes, sign(*signature));
            vec![("read_batch, typed", or_refused(got, |batch| table(batch.table, span(batch.body), span(batch.block))))]
        }
        Case::WriteBody { signature, list, checked, room } if enough(*room) => {
            let write = if *checked { raft_log::write_body } else { raft_log::write_body_unchecked };
            let got = given(list).map(|(items, lens)| write(&items, &lens, &list.store, sign(*signature)));
            got.map(|got| ("write_body, typed", or_refused(got, Answer::Bytes))).into_iter().collect()
        }
        Case::WriteBatch { signature, list, content, checked, room } if enough(*room) => {
            let write = if *checked { raft_log::write_batch } else { raft_log::write_batch_unchecked };
            let got = given(list).map(|(items, lens)| write(&items, &lens, &list.store, content, sign(*signature)));
            got.map(|got| ("write_batch, typed", or_refused(got, Answer::Bytes))).into_iter().collect()
        }
        Case::Block { length, bytes } => {
            view(&Row { queue: 0, file: 1, place: 2, block: *length, offset: 0, len: length.saturating_sub(4) }, bytes, &[])
        }
        Case::View { row, append, rewrite } => view(row, append, rewrite),
        Case::Status { item, store } => {
            let mark = |status| match status {
                Status::Begin => 0,
                Status::Middle => 1,
                Status::End => 2,
            };
            let got = given_item(item).map(|item| raft_log::status(&item, store));
            let answer = |got: Option<(u64, Status)>| Answer::Status(got.map(|(group, status)| (group, mark(status))));
            got.map(|got| ("status, typed", or_refused(got, answer))).into_iter().collect()
        }
        Case::Rewrite { table, gate, first, incoming } => rewrite(table, *gate, *first, incoming).into_iter().collect(),
        Case::Fetch { table, gate } => {
            let run = |run: std::ops::Range<usize>| Answer::Run { at: run.start as u64, len: run.len() as u64 };
            let got = locations(table).map(|table| table.fetch_entry_indexes_before(*gate));
            got.map(|got| ("fetch, typed", or_refused(got, run))).into_iter().collect()
        }
        _ => vec![],
    }
}

/// Whether as much is lent as the typed functions lend.
fn enough(room: Room) -> bool {
    matches!(room, Room::Plenty | Room::Exact)
}

fn or_refused<T>(result: Result<T, Refusal>, answer: impl FnOnce(T) -> Answer) -> Answer {
    result.map_or_else(|refusal| Answer::Refused { number: refusal.number(), item: refusal.item as u64 }, answer)
}

fn table(table: Table, body: [u64; 2], block: [u64; 2]) -> Answer {
    let entry = |e: &raft_log::Entry| model::Entry { index: e.index, offset: e.offset.into(), len: e.len.into() };
    Answer::Table {
        items: table.items.iter().map(item).collect(),
        entries: table.entries.iter().map(entry).collect(),
        total: table.total.into(),
        next: table.next as u64,
        body,
        block,
    }
}

fn item(item: &raft_log::Item) -> model::Item {
    let span = |span: raft_log::Span| Span { at: span.at as u64, len: span.len as u64 };
    let content = match item.content {
        raft_log::Content::Entries { count, first_index } => Content::Entries { count, first: first_index },
        raft_log::Content::Command(Command::Clean) => Content::Clean,
        raft_log::Content::Command(Command::Compact { index }) => Content::Compact { index },
        raft_log::Content::Put { key, value } => Content::Put { key: span(key), value: span(value) },
        raft_log::Content::Del { key } => Content::Del { key: span(key) },
    };
    model::Item { group: item.group, content }
}

/// The item in the crate's types; none where the row is no item.
fn given_item(item: &model::Item) -> Option<raft_log::Item> {
    let span = |span: Span| raft_log::Span { at: span.at as usize, len: span.len as usize };
    let content = match item.content {
        Content::Entries { count, first } => raft_log::Content::Entries { count, first_index: first },
        Content::Clean => raft_log::Content::Command(Command::Clean),
        Content::Compact { index } => raft_log::Content::Command(Command::Compact { index }),
        Content::Put { key, value } => raft_log::Content::Put { key: span(key), value: span(value) },
        Content::Del { key } => raft_log::Content::Del { key: span(key) },
        Content::BadType(_) | Content::BadCommand(_) | Content::BadOp(_) => return None,
    };
    Some(raft_log::Item { group: item.group, content })
}

fn given(list: &List) -> Option<(Vec<raft_log::Item>, Vec<u32>)> {
    let items = list.items.iter().map(given_item).collect::<Option<_>>()?;
    let lens = list.lens.iter().map(|len| u32::try_from(*len).ok()).collect::<Option<_>>()?;
    Some((items, lens))
}

fn location(row: &Row) -> Option<Location> {
    let queue = match row.queue {
        0 => Queue::Append,
        1 => Queue::Rewrite,
        _ => return None,
    };
    let (entry_offset, entry_len) = (row.offset.try_into().ok()?, row.len.try_into().ok()?);
    Some(Location { queue, file: row.file, block_at: row.place, block_len: row.block, entry_offset, entry_len })
}

fn row(l: &Location) -> Row {
    let queue = u64::from(l.queue == Queue::Rewrite);
    Row { queue, file: l.file, place: l.block_at, block: l.block_len, offset: l.entry_offset.into(), len: l.entry_len.into() }
}

fn locations(table: &Locations) -> Option<raft_log::Locations> {
    let rows = table.rows.iter().map(location).collect::<Option<_>>()?;
    Some(raft_log::Locations { first_index: table.first, rewritten: table.count, rows })
}

fn view(row: &Row, append: &[u8], rewrite: &[u8]) -> Vec<Part> {
    let Some(location) = location(row) else {
        return vec![];
    };
    let block = if row.queue == 0 { append } else { rewrite };
    let place = |part: &[u8]| Answer::Part { at: part.as_ptr() as u64 - block.as_ptr() as u64, len: part.len() as u64 };
    vec![("entry_view, typed", or_refused(raft_log::entry_view(&location, append, rewrite), place))]
}

fn rewrite(table: &Locations, gate: Option<u64>, first: u64, incoming: &[Row]) -> Option<Part> {
    let incoming: Vec<Location> = incoming.iter().map(location).collect::<Option<_>>()?;
    let before = locations(table)?;
    let mut after = before.clone();
    let got = after.rewrite(&incoming, first, gate);
    let answer = if got.is_err() && after != before {
        Answer::Touched("a refused table changed".into())
    } else {
        or_refused(got, |replaced| Answer::Rewritten { replaced, count: after.rewritten, rows: after.rows.iter().map(row).collect() })
    };
    Some(("rewrite, typed", answer))
}
