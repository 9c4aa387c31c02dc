//! Items, entries, locations and refusals, and the rows they stand in.
use crate::lent::{ENTRY_WORDS, ITEM_WORDS, LOCATION_WORDS};
use std::fmt;

/// A part of some bytes.
#[derive(Clone, Copy, Debug, PartialEq, Eq)]
pub struct Span {
    pub at: usize,
    pub len: usize,
}

impl Span {
    /// Its bytes, if it lies in them.
    pub fn of<'a>(&self, bytes: &'a [u8]) -> Option<&'a [u8]> {
        bytes.get(self.at..self.at.checked_add(self.len)?)
    }
}

/// A group's log is cleaned, or compacted up to an index.
#[derive(Clone, Copy, Debug, PartialEq, Eq)]
pub enum Command {
    Clean,
    Compact { index: u64 },
}

/// What an item holds. Spans of a key and its content are in the body that was read, or in the store that is written from.
#[derive(Clone, Copy, Debug, PartialEq, Eq)]
pub enum Content {
    /// The next `count` of the entries. `first_index` is 0 where `count` is 0.
    Entries {
        count: u64,
        first_index: u64,
    },
    Command(Command),
    Put {
        key: Span,
        value: Span,
    },
    Del {
        key: Span,
    },
}

/// A group and what is stored for it.
#[derive(Clone, Copy, Debug, PartialEq, Eq)]
pub struct Item {
    pub group: u64,
    pub content: Content,
}

/// An entry's index, and its place in the block's content.
#[derive(Clone, Copy, Debug, PartialEq, Eq)]
pub struct Entry {
    pub index: u64,
    pub offset: u32,
    pub len: u32,
}

/// Which of the two logs an entry lies in.
#[derive(Clone, Copy, Debug, PartialEq, Eq)]
pub enum Queue {
    Append,
    Rewrite,
}

/// Where an entry stands: its block in a file of a queue, and its place in the block's content.
#[derive(Clone, Copy, Debug, PartialEq, Eq)]
pub struct Location {
    pub queue: Queue,
    pub file: u64,
    pub block_at: u64,
    pub block_len: u64,
    pub entry_offset: u32,
    pub entry_len: u32,
}

/// The status of an atomic group.
#[derive(Clone, Copy, Debug, PartialEq, Eq)]
pub enum Status {
    Begin,
    Middle,
    End,
}

impl Item {
    /// Its row of raft_log.h.
    pub fn to_row(&self) -> [u64; ITEM_WORDS] {
        let span = |span: Span| (span.at as u64, span.len as u64);
        let mut row = [self.group, 0, 0, 0, 0, 0, 0];
        match self.content {
            Content::Entries { count, first_index } => (row[1], row[3], row[4]) = (1, count, first_index),
            Content::Command(Command::Clean) => (row[1], row[2]) = (2, 1),
            Content::Command(Command::Compact { index }) => (row[1], row[2], row[3]) = (2, 2, index),
            Content::Put { key, value } => {
                (row[1], row[2]) = (3, 1);
                (row[3], row[4]) = span(key);
                (row[5], row[6]) = span(value);
            }
            Content::Del { key } => {
                (row[1], row[2]) = (3, 2);
                (row[3], row[4]) = span(key);
            }
        }
        row
    }

    /// The item of a row; none where the row is no item.
    pub fn from_row(row: &[u64; ITEM_WORDS]) -> Option<Item> {
        let span = |at: u64, len: u64| Span { at: at as usize, len: len as usize };
        let content = match (row[1], row[2]) {
            (1, _) => Content::Entries { count: row[3], first_index: row[4] },
            (2, 1) => Content::Command(Command::Clean),
            (2, 2) => Content::Command(Command::Compact { index: row[3] }),
            (3, 1) => Content::Put { key: span(row[3], row[4]), value: span(row[5], row[6]) },
            (3, 2) => Content::Del { key: span(row[3], row[4]) },
            _ => return None,
        };
        Some(Item { group: row[0], content })
    }
}

impl Entry {
    /// Its row of raft_log.h.
    pub fn to_row(&self) -> [u64; ENTRY_WORDS] {
        [self.index, self.offset.into(), self.len.into()]
    }

    /// The entry of a row.
    pub fn from_row(row: &[u64; ENTRY_WORDS]) -> Entry {
        Entry { index: row[0], offset: row[1] as u32, len: row[2] as u32 }
    }
}

impl Location {
    /// Its row of raft_log.h.
    pub fn to_row(&self) -> [u64; LOCATION_WORDS] {
        let queue = if self.queue == Queue::Append { 0 } else { 1 };
        [queue, self.file, self.block_at, self.block_len, self.entry_offset.into(), self.entry_len.into()]
    }

    /// The location of a row whose queue is 0 or 1.
    pub fn from_row(row: &[u64; LOCATION_WORDS]) -> Location {
        Location {
            queue: if row[0] == 0 { Queue::Append } else { Queue::Rewrite },
            file: row[1],
            block_at: row[2],
            block_len: row[3],
            entry_offset: row[4] as u32,
            entry_len: row[5] as u32,
        }
    }
}

macro_rules! reasons {
    ($($name:ident = $number:literal $says:literal)*) => {
        /// Why a call was refused: the first check of document 01 that failed.
        #[derive(Clone, Copy, Debug, PartialEq, Eq)]
        pub enum Reason {
            $(#[doc = $says] $name = $number,)*
        }

        impl Reason {
            /// The reason of a number of document 01; none for 0 and what 01 does not have.
            pub fn from_number(number: u32) -> Option<Reason> {
                match number {
                    $($number => Some(Reason::$name),)*
                    _ => None,
                }
            }

            /// What went wrong, in a phrase.
            pub fn text(self) -> &'static str {
                match self {
                    $(Reason::$name => $says,)*
                }
            }
        }
    };
}

reasons! {
    HeaderShort = 1 "fewer than 16 header bytes"
    CompressionUnknown = 2 "compression type above 1"
    OffsetAboveLength = 3 "offset above length"
    OffsetBelowHeader = 4 "offset below 16"
    NoContent = 5 "body, or non-empty block, of 4 bytes or fewer"
    ChecksumWrong = 6 "checksum wrong"
    NumberBroken = 7 "bytes end inside or before a number or one-byte field, or a tenth byte is above 1"
    ItemsTooMany = 9 "more than 256 items"
    ItemTypeUnknown = 10 "unknown item type"
    CommandUnknown = 11 "unknown command"
    OpUnknown = 12 "unknown op"
    SpanOutside = 13 "a span runs past the bytes it lies in, or too few entry rows"
    EntriesTooMany = 14 "more than 1,024 entries"
    TailFalls = 15 "a tail below the total before it"
    TailTooLarge = 16 "a tail above 4,294,967,295"
    IndexTooLarge = 17 "an index above 2^64 - 1"
    BatchShort = 18 "fewer bytes than the header's length"
    Compressed = 19 "a compressed batch"
    BlockDiffers = 20 "entry total differs from block content, or block length from a row's"
    OutputShort = 21 "too little room for the result"
    OutputTooLong = 22 "entry total above 2,147,483,647, or body above 4,294,967,295 bytes"
    KeyInternal = 23 "a put key begins with the internal prefix"
    OverlapAfter = 24 "overlap begins after the rewritten count"
    OverlapBefore = 25 "a gate is given and overlap begins before the rewritten count"
    TableBroken = 26 "location table not well formed"
    IncomingBroken = 27 "an incoming row not in the rewrite queue, or incoming indexes past 2^64 - 1"
    StatusUnknown = 28 "atomic status byte above 2"
}

/// A refusal, and the item that it is about (0 outside items).
#[derive(Clone, Copy, Debug, PartialEq, Eq)]
pub struct Refusal {
    pub reason: Reason,
    pub item: usize,
}

impl Refusal {
    /// Document 01's number.
    pub fn number(&self) -> u32 {
        self.reason as u32
    }
}

impl fmt::Display for Refusal {
    fn fmt(&self, f: &mut fmt::Formatter) -> fmt::Result {
        write!(f, "refused {} at item {}: {}", self.number(), self.item, self.reason.text())
    }
}

impl std::error::Error for Refusal {}
