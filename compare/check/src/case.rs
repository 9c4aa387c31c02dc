//! A case: what is asked, and the lines that ask the oracle the same.
use crate::model::locations::{Locations, Row};
use crate::model::numbers;
use crate::model::reading;
use crate::model::writing::List;
use crate::model::{batch, Content, Item, Span};
use crate::text::hex;

/// How much is lent for a result: enough and more, just enough, or one byte or row too few.
#[derive(Clone, Copy, Debug, PartialEq, Eq)]
pub enum Room {
    Plenty,
    Exact,
    Short,
    /// For a body's rows: enough item rows, and one entry row too few.
    ShortEntries,
    /// For what is written: a few bytes, however long the result.
    Few,
}

/// What stands behind the bytes of a body.
#[derive(Clone, Copy, Debug, PartialEq, Eq)]
pub enum Seal {
    /// Nothing: the oracle is asked for the items alone, and the library gets the right footer under no signature.
    None,
    /// The right footer is put behind them.
    Right,
    /// They hold what is to be the footer.
    Given,
}

#[derive(Clone, Debug, PartialEq, Eq)]
pub enum Case {
    ReadNumber {
        bytes: Vec<u8>,
        at: usize,
    },
    WriteNumber {
        number: u64,
        at: usize,
        room: usize,
    },
    Checksum {
        bytes: Vec<u8>,
    },
    Header {
        bytes: Vec<u8>,
    },
    /// One item after an entry total.
    Item {
        total: u32,
        bytes: Vec<u8>,
    },
    Body {
        signature: Option<u64>,
        bytes: Vec<u8>,
        seal: Seal,
        room: Room,
    },
    Batch {
        signature: Option<u64>,
        bytes: Vec<u8>,
        room: Room,
    },
    WriteBody {
        signature: Option<u64>,
        list: List,
        checked: bool,
        room: Room,
    },
    WriteBatch {
        signature: Option<u64>,
        list: List,
        content: Vec<u8>,
        checked: bool,
        room: Room,
    },
    /// A block under the length that a row states.
    Block {
        length: u64,
        bytes: Vec<u8>,
    },
    View {
        row: Row,
        append: Vec<u8>,
        rewrite: Vec<u8>,
    },
    Status {
        item: Item,
        store: Vec<u8>,
    },
    Rewrite {
        table: Locations,
        gate: Option<u64>,
        first: u64,
        incoming: Vec<Row>,
    },
    Fetch {
        table: Locations,
        gate: u64,
    },
}

pub const KINDS: [&str; 14] = [
    "number read",
    "number written",
    "checksum",
    "header",
    "item",
    "body",
    "whole batch",
    "body written",
    "batch written",
    "block",
    "entry view",
    "status",
    "rewrite",
    "fetch",
];

/// The signature that a file number stands for; none is 0.
pub fn sign(signature: Option<u64>) -> u32 {
    signature.map_or(0, |n| n as u32)
}

/// A body with its footer.
pub fn sealed(bytes: &[u8], signature: u32) -> Vec<u8> {
    let footer = numbers::crc32(bytes) ^ signature;
    [bytes, &footer.to_le_bytes()].concat()
}

/// A body with its footer, and the signature under which it is read.
pub fn footed(signature: u32, bytes: &[u8], seal: Seal) -> (Vec<u8>, u32) {
    match seal {
        Seal::None => (sealed(bytes, 0), 0),
        Seal::Right => (sealed(bytes, signature), signature),
        Seal::Given => (bytes.to_vec(), signature),
    }
}

impl Case {
    pub fn kind(&self) -> usize {
        match self {
            Case::ReadNumber { .. } => 0,
            Case::WriteNumber { .. } => 1,
            Case::Checksum { .. } => 2,
            Case::Header { .. } => 3,
            Case::Item { .. } => 4,
            Case::Body { .. } => 5,
            Case::Batch { .. } => 6,
            Case::WriteBody { .. } => 7,
            Case::WriteBatch { .. } => 8,
            Case::Block { .. } => 9,
            Case::View { .. } => 10,
            Case::Status { .. } => 11,
            Case::Rewrite { .. } => 12,
            Case::Fetch { .. } => 13,
        }
    }

    /// The cases that the oracle can be asked in its place: itself, the parts of a whole batch, or none.
    pub fn asked(&self) -> Vec<Case> {
        match self {
            Case::Batch { signature, bytes, .. } => batch_parts(*signature, bytes),
            Case::View { .. } => vec![],
            Case::Status { item, store } if !spans_within(item, store) => vec![],
            Case::WriteBody { list, .. } if !writable(list) => vec![],
            Case::WriteBatch { list, content, .. } if !writable(list) || used_lens(list).iter().sum::<u64>() != content.len() as u64 => {
                vec![]
            }
            Case::Rewrite { table, incoming, .. } if !queues(&table.rows) || !queues(incoming) => vec![],
            Case::Fetch { table, .. } if !queues(&table.rows) => vec![],
            _ => vec![self.clone()],
        }
    }

    /// The oracle's line for a case that `asked` gave.
    pub fn line(&self) -> String {
        match self {
            Case::ReadNumber { bytes, at } => format!("vdec {}", hex(&bytes[(*at).min(bytes.len())..])),
            Case::WriteNumber { number, .. } => format!("venc {number}"),
            Case::Checksum { bytes } => format!("crc {}", hex(bytes)),
            Case::Header { bytes } => format!("header {}", hex(bytes)),
            Case::Item { total, bytes } => format!("item {total} {}", hex(bytes)),
            Case::Body { bytes, seal: Seal::None, .. } => format!("items {}", hex(bytes)),
            Case::Body { signature, bytes, seal, .. } => {
                format!("body {} {}", file(*signature), hex(&footed(sign(*signature), bytes, *seal).0))
            }
            Case::WriteBody { signature, list, .. } => format!("wbody {} {}", file(*signature), items(list, false)),
            Case::WriteBatch { signature, list, content, checked, .. } => {
                format!("write {} {} {}", file(*signature), hex(content), items(list, *checked))
            }
            Case::Block { length, bytes } => format!("block 0 {length} {}", hex(bytes)),
            Case::Status { item, store } => {
                let (list, lens) = (vec![item.clone()], vec![0; entry_count(item)]);
                format!("status {}", items(&List { items: list, lens, store: store.clone() }, false))
            }
            Case::Rewrite { table, gate, first, incoming } => {
                format!("rewrite {} {} {first} {}", table_text(table), file(*gate), rows_text(incoming))
            }
            Case::Fetch { table, gate } => format!("fetch {} {gate}", table_text(table)),
            Case::Batch { .. } | Case::View { .. } => unreachable!("asked in parts, or not at all"),
        }
    }
}

/// Header, block and body of a whole batch, as far as its header lets them be found.
fn batch_parts(signature: Option<u64>, bytes: &[u8]) -> Vec<Case> {
    let mut parts = vec![Case::Header { bytes: bytes[..bytes.len().min(16)].to_vec() }];
    if let Ok(header) = batch::header(bytes) {
        if header.len <= bytes.len() as u64 && header.compression == 0 {
            let (offset, len) = (header.offset as usize, header.len as usize);
            parts.push(Case::Block { length: (offset - 16) as u64, bytes: bytes[16..offset].to_vec() });
            parts.push(Case::Body { signature, bytes: bytes[offset..len].to_vec(), seal: Seal::Given, room: Room::Plenty });
        }
    }
    parts
}

fn entry_count(item: &Item) -> usize {
    match item.content {
        Content::Entries { count, .. } => count.min(3) as usize,
        _ => 0,
    }
}

fn spans(item: &Item) -> Vec<Span> {
    match &item.content {
        Content::Put { key, value } => vec![*key, *value],
        Content::Del { key } => vec![*key],
        _ => vec![],
    }
}

fn spans_within(item: &Item, store: &[u8]) -> bool {
    let known = !matches!(item.content, Content::BadType(_) | Content::BadCommand(_) | Content::BadOp(_));
    known && spans(item).iter().all(|span| span.within(store.len()))
}

fn queues(rows: &[Row]) -> bool {
    rows.iter().all(|row| row.queue <= 1 && row.offset <= u32::MAX.into() && row.len <= u32::MAX.into())
}

/// The most bytes of keys and contents in a line.
const LONGEST: u128 = 1 << 20;

/// Whether the Rust can be given such a list: it has no spans and no rows that are no item, and its entry lengths are 32 bits wide.
fn writable(list: &List) -> bool {
    let bytes: u128 = list.items.iter().flat_map(spans).map(|span| span.len as u128).sum();
    let wanted: u128 = list
        .items
        .iter()
        .map(|item| match item.content {
            Content::Entries { count, .. } => count as u128,
            _ => 0,
        })
        .sum();
    bytes <= LONGEST
        && list.items.iter().all(|item| spans_within(item, &list.store))
        && wanted <= list.lens.len() as u128
        && list.lens.iter().all(|len| *len <= u32::MAX.into())
}

/// The entry lengths that a list uses, where it has enough.
pub fn used_lens(list: &List) -> &[u64] {
    let wanted: u64 = list
        .items
        .iter()
        .map(|item| match item.content {
            Content::Entries { count, .. } => count,
            _ => 0,
        })
        .sum();
    &list.lens[..wanted as usize]
}

fn file(number: Option<u64>) -> String {
    number.map_or("-".into(), |n| n.to_string())
}

/// A list as the oracle's lines have it.
fn items(list: &List, checked: bool) -> String {
    if list.items.is_empty() {
        return "-".into();
    }
    let mut used = 0;
    let mut out = vec![];
    for item in &list.items {
        let g = item.group;
        out.push(match &item.content {
            Content::Entries { count, first } => {
                let count = (*count as usize).min(list.lens.len() - used);
                let lens: Vec<String> = list.lens[used..used + count].iter().map(u64::to_string).collect();
                used += count;
                format!("{g} entries {first} {}", if lens.is_empty() { "-".into() } else { lens.join(",") })
            }
            Content::Clean => format!("{g} clean"),
            Content::Compact { index } => format!("{g} compact {index}"),
            Content::Put { key, value } => {
                let word = if checked { "put" } else { "putu" };
                format!("{g} {word} {} {}", hex(key.of(&list.store)), hex(value.of(&list.store)))
            }
            Content::Del { key } => format!("{g} del {}", hex(key.of(&list.store))),
            Content::BadType(_) | Content::BadCommand(_) | Content::BadOp(_) => unreachable!("not asked"),
        });
    }
    out.join(" | ")
}

pub fn rows_text(rows: &[Row]) -> String {
    if rows.is_empty() {
        return "-".into();
    }
    let row = |row: &Row| {
        let queue = if row.queue == 0 { "A" } else { "R" };
        format!("{queue},{},{},{},{},{}", row.file, row.place, row.block, row.offset, row.len)
    };
    rows.iter().map(row).collect::<Vec<_>>().join(";")
}

fn table_text(table: &Locations) -> String {
    format!("{} {} {}", table.first, table.count, rows_text(&table.rows))
}

/// The item list of a table in the oracle's words, with keys and contents cut from the bytes.
pub fn spelled(bytes: &[u8], table: &crate::model::Table) -> String {
    let mut used = 0;
    let mut out = vec![];
    for item in &table.items {
        out.push(one_spelled(bytes, item, &table.entries, &mut used));
    }
    out.join(" | ")
}

pub fn one_spelled(bytes: &[u8], item: &Item, entries: &[crate::model::Entry], used: &mut usize) -> String {
    let g = item.group;
    match &item.content {
        Content::Entries { count, .. } => {
            let rows = &entries[*used..*used + *count as usize];
            *used += *count as usize;
            let words: Vec<String> = rows.iter().map(|e| format!("{}:{}:{}", e.index, e.offset, e.len)).collect();
            format!("{g} entries {}", if words.is_empty() { "-".into() } else { words.join(",") })
        }
        Content::Clean => format!("{g} clean"),
        Content::Compact { index } => format!("{g} compact {index}"),
        Content::Put { key, value } => format!("{g} put {} {}", hex(key.of(bytes)), hex(value.of(bytes))),
        Content::Del { key } => format!("{g} del {}", hex(key.of(bytes))),
        _ => unreachable!("never read"),
    }
}

/// The bytes of a body that hold its items, where its seal is right.
pub fn item_bytes(signature: Option<u64>, bytes: &[u8], seal: Seal) -> Option<Vec<u8>> {
    match seal {
        Seal::None | Seal::Right => Some(bytes.to_vec()),
        Seal::Given => reading::unsealed(bytes, sign(signature)).ok().map(<[u8]>::to_vec),
    }
}
