//! Smaller cases to try in the place of one that fails.
use crate::case::{Case, Room, Seal};
use crate::model::locations::{Locations, Row};
use crate::model::writing::List;
use crate::model::Content;

/// All cases that are one step smaller, the most promising first.
pub fn smaller(case: &Case) -> Vec<Case> {
    let mut out = match case {
        Case::ReadNumber { bytes, at } => {
            let mut out = vec![Case::ReadNumber { bytes: bytes.clone(), at: 0 }];
            out.extend(shorter(bytes).into_iter().map(|bytes| Case::ReadNumber { bytes, at: *at }));
            out
        }
        Case::WriteNumber { number, at, room } => written_number(*number, *at, *room),
        Case::Checksum { bytes } => shorter(bytes).into_iter().map(|bytes| Case::Checksum { bytes }).collect(),
        Case::Header { bytes } => shorter(bytes).into_iter().map(|bytes| Case::Header { bytes }).collect(),
        Case::Item { total, bytes } => {
            let mut out = vec![Case::Item { total: 0, bytes: bytes.clone() }];
            out.extend(shorter(bytes).into_iter().map(|bytes| Case::Item { total: *total, bytes }));
            out
        }
        Case::Body { .. } | Case::Batch { .. } => read(case),
        Case::WriteBody { .. } | Case::WriteBatch { .. } => written(case),
        Case::Block { length, bytes } => block(*length, bytes),
        Case::View { row, append, rewrite } => view(row, append, rewrite),
        Case::Status { item, store } => {
            let mut plain = item.clone();
            plain.group = 0;
            let mut out = vec![Case::Status { item: plain, store: store.clone() }];
            out.extend(shorter(store).into_iter().map(|store| Case::Status { item: item.clone(), store }));
            out
        }
        Case::Rewrite { .. } => rewrite(case),
        Case::Fetch { table, gate } => fetch(table, *gate),
    };
    out.retain(|other| other != case);
    out
}

fn written_number(number: u64, at: usize, room: usize) -> Vec<Case> {
    let smaller = [0, number / 2, number.saturating_sub(1)];
    let mut out: Vec<Case> = smaller.map(|number| Case::WriteNumber { number, at, room }).into();
    out.push(Case::WriteNumber { number, at: 0, room });
    out.push(Case::WriteNumber { number, at, room: room.saturating_sub(1) });
    out
}

/// A body or a whole batch: no signature, more room, no footer, fewer bytes.
fn read(case: &Case) -> Vec<Case> {
    let mut out = vec![];
    match case {
        Case::Body { signature, bytes, seal, room } => {
            let with = |signature, bytes, seal, room| Case::Body { signature, bytes, seal, room };
            out.push(with(None, bytes.clone(), *seal, *room));
            out.push(with(*signature, bytes.clone(), *seal, Room::Plenty));
            if *seal == Seal::Right {
                out.push(with(None, bytes.clone(), Seal::None, *room));
            }
            out.extend(shorter(bytes).into_iter().map(|bytes| with(*signature, bytes, *seal, *room)));
        }
        Case::Batch { signature, bytes, room } => {
            out.push(Case::Batch { signature: None, bytes: bytes.clone(), room: *room });
            out.push(Case::Batch { signature: *signature, bytes: bytes.clone(), room: Room::Plenty });
            out.extend(shorter(bytes).into_iter().map(|bytes| Case::Batch { signature: *signature, bytes, room: *room }));
        }
        _ => {}
    }
    out
}

/// A list to be written: no signature, more room, fewer items. The content of a batch goes with the lengths.
fn written(case: &Case) -> Vec<Case> {
    let (signature, list, room) = match case {
        Case::WriteBody { signature, list, room, .. } | Case::WriteBatch { signature, list, room, .. } => (*signature, list, *room),
        _ => return vec![],
    };
    let with = |signature, list: List, room| match case {
        Case::WriteBatch { content, checked, .. } => {
            let total: u64 = list.lens.iter().fold(0, |sum, len| sum.saturating_add(*len));
            let content = if total < 100_000 { vec![0; total as usize] } else { content.clone() };
            Case::WriteBatch { signature, list, content, checked: *checked, room }
        }
        Case::WriteBody { checked, .. } => Case::WriteBody { signature, list, checked: *checked, room },
        _ => case.clone(),
    };
    let mut out = vec![with(None, list.clone(), room), with(signature, list.clone(), Room::Plenty)];
    out.extend(shorter_lists(list).into_iter().map(|list| with(signature, list, room)));
    out
}

fn block(length: u64, bytes: &[u8]) -> Vec<Case> {
    let mut out = vec![];
    for (length, bytes) in [(0, bytes.to_vec()), (length / 2, bytes.to_vec()), (length, vec![0; bytes.len()])] {
        out.push(Case::Block { length, bytes });
    }
    for bytes in shorter(bytes) {
        out.push(Case::Block { length: bytes.len() as u64, bytes: bytes.clone() });
        out.push(Case::Block { length, bytes });
    }
    out
}

fn view(row: &Row, append: &[u8], rewrite: &[u8]) -> Vec<Case> {
    let with = |row: &Row, append: &[u8], rewrite: &[u8]| Case::View { row: *row, append: append.to_vec(), rewrite: rewrite.to_vec() };
    let mut out = vec![];
    out.extend(shorter(append).iter().map(|bytes| with(row, bytes, rewrite)));
    out.extend(shorter(rewrite).iter().map(|bytes| with(row, append, bytes)));
    out.extend(smaller_row(row).iter().map(|row| with(row, append, rewrite)));
    out
}

fn rewrite(case: &Case) -> Vec<Case> {
    let Case::Rewrite { table, gate, first, incoming } = case else {
        return vec![];
    };
    let with = |table: Locations, gate, first, incoming: &[Row]| Case::Rewrite { table, gate, first, incoming: incoming.to_vec() };
    let mut out = vec![];
    for rows in shorter_rows(&table.rows) {
        out.push(with(Locations { rows, ..table.clone() }, *gate, *first, incoming));
    }
    for incoming in shorter_rows(incoming) {
        out.push(with(table.clone(), *gate, *first, &incoming));
    }
    for (count, back) in [(table.count.saturating_sub(1), 0), (table.count, table.first / 2), (table.count, 1)] {
        let lower = Locations { count, first: table.first.wrapping_sub(back), rows: table.rows.clone() };
        out.push(with(lower, *gate, first.wrapping_sub(back), incoming));
    }
    for gate in gate.iter().flat_map(|gate| [gate / 2, gate.saturating_sub(1)]) {
        out.push(with(table.clone(), Some(gate), *first, incoming));
    }
    out
}

fn fetch(table: &Locations, gate: u64) -> Vec<Case> {
    let mut out = vec![];
    for rows in shorter_rows(&table.rows) {
        out.push(Case::Fetch { table: Locations { rows, ..table.clone() }, gate });
    }
    out.push(Case::Fetch { table: Locations { count: table.count.saturating_sub(1), ..table.clone() }, gate });
    out.push(Case::Fetch { table: table.clone(), gate: gate / 2 });
    out
}

/// The parts of so many that are left out: all of them, halves, quarters, down to each by itself.
fn parts(len: usize) -> impl Iterator<Item = (usize, usize)> {
    let sizes = std::iter::successors(Some(len), |size| Some(size / 2)).take_while(|size| *size > 0);
    sizes.flat_map(move |size| (0..len / size).map(move |k| (k * size, (k + 1) * size)))
}

/// The bytes with a part left out, then with a byte made smaller.
fn shorter(bytes: &[u8]) -> Vec<Vec<u8>> {
    let mut out: Vec<Vec<u8>> = parts(bytes.len()).map(|(from, to)| [&bytes[..from], &bytes[to..]].concat()).collect();
    for at in 0..bytes.len() {
        for b in [0, 1, bytes[at] / 2] {
            if b < bytes[at] {
                let mut other = bytes.to_vec();
                other[at] = b;
                out.push(other);
            }
        }
    }
    out
}

/// The list with items left out (their entry lengths with them), then with smaller fields.
fn shorter_lists(list: &List) -> Vec<List> {
    let n = list.items.len();
    let mut out: Vec<List> = parts(n).map(|(from, to)| without(list, from, to)).collect();
    for k in 0..n {
        let mut less = list.clone();
        less.items[k].group = 0;
        out.push(less);
        out.push(smaller_item(list, k));
    }
    for k in 0..list.lens.len().min(64) {
        let mut less = list.clone();
        less.lens[k] /= 2;
        out.push(less);
    }
    out
}

/// The list with one item made smaller.
fn smaller_item(list: &List, k: usize) -> List {
    let mut less = list.clone();
    match &mut less.items[k].content {
        Content::Entries { count, first } => {
            let place = entries_before(list, k);
            if *count > 0 && place < less.lens.len() {
                *count -= 1;
                less.lens.remove(place);
            } else {
                *first = 0;
            }
        }
        Content::Compact { index } => *index /= 2,
        Content::Put { value, .. } if value.len > 0 => value.len -= 1,
        Content::Put { key, .. } | Content::Del { key } => key.len = key.len.saturating_sub(1),
        _ => {}
    }
    less
}

fn entries_before(list: &List, item: usize) -> usize {
    let count = |content: &Content| if let Content::Entries { count, .. } = content { *count as usize } else { 0 };
    list.items[..item].iter().map(|item| count(&item.content)).fold(0, usize::saturating_add)
}

fn without(list: &List, from: usize, to: usize) -> List {
    let mut out = list.clone();
    let (start, end) = (entries_before(list, from).min(list.lens.len()), entries_before(list, to).min(list.lens.len()));
    out.lens.drain(start..end);
    out.items.drain(from..to);
    out
}

fn smaller_row(row: &Row) -> Vec<Row> {
    vec![
        Row { file: 0, ..*row },
        Row { place: 0, ..*row },
        Row { offset: row.offset / 2, ..*row },
        Row { len: row.len / 2, ..*row },
        Row { block: row.block / 2, ..*row },
        Row { place: 0, block: 0, offset: 0, len: 0, ..*row },
    ]
}

fn shorter_rows(rows: &[Row]) -> Vec<Vec<Row>> {
    let mut out: Vec<Vec<Row>> = parts(rows.len()).map(|(from, to)| [&rows[..from], &rows[to..]].concat()).collect();
    out.push(rows.iter().map(|row| Row { file: 0, place: 0, block: 0, offset: 0, len: 0, ..*row }).collect());
    out.push(rows.iter().map(|row| Row { place: 0, block: 0, offset: 0, len: 0, ..*row }).collect());
    for k in 0..rows.len().min(64) {
        for row in smaller_row(&rows[k]) {
            let mut less = rows.to_vec();
            less[k] = row;
            out.push(less);
        }
    }
    out
}
