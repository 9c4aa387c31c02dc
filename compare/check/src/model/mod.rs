//! Document 01 read once more, in plain Rust: what each call answers, refusal numbers and items included. It was written from the
//! document and from nothing else, and takes no care of speed. It is what the library is held to where the real crate has no answer.
pub mod batch;
pub mod locations;
pub mod numbers;
pub mod reading;
pub mod writing;

/// A part of some bytes.
#[derive(Clone, Copy, Debug, PartialEq, Eq)]
pub struct Span {
    pub at: u64,
    pub len: u64,
}

impl Span {
    pub fn within(&self, len: usize) -> bool {
        self.at as u128 + self.len as u128 <= len as u128
    }

    /// Its bytes. It has to be within them.
    pub fn of<'a>(&self, bytes: &'a [u8]) -> &'a [u8] {
        &bytes[self.at as usize..(self.at + self.len) as usize]
    }
}

/// What an item holds. The last three are rows that are no item; only a caller that fills rows by hand can make them.
#[derive(Clone, Debug, PartialEq, Eq)]
pub enum Content {
    Entries { count: u64, first: u64 },
    Clean,
    Compact { index: u64 },
    Put { key: Span, value: Span },
    Del { key: Span },
    BadType(u64),
    BadCommand(u64),
    BadOp(u64),
}

#[derive(Clone, Debug, PartialEq, Eq)]
pub struct Item {
    pub group: u64,
    pub content: Content,
}

#[derive(Clone, Copy, Debug, PartialEq, Eq)]
pub struct Entry {
    pub index: u64,
    pub offset: u64,
    pub len: u64,
}

/// What a body spells.
#[derive(Clone, Debug, PartialEq, Eq)]
pub struct Table {
    pub items: Vec<Item>,
    pub entries: Vec<Entry>,
    pub total: u64,
    /// The place after the last item, in the body.
    pub next: usize,
}

/// Why, more closely than 01's number says it: what the real crate tells apart, or does otherwise.
#[derive(Clone, Copy, Debug, PartialEq, Eq)]
pub enum Note {
    None,
    Eof,
    Overflow,
    Key,
    Value,
    OpZero,
}

#[derive(Clone, Copy, Debug, PartialEq, Eq)]
pub struct Refusal {
    pub number: u32,
    pub item: usize,
    pub note: Note,
}

impl Refusal {
    /// A refusal outside items.
    pub fn of(number: u32) -> Refusal {
        Refusal { number, item: 0, note: Note::None }
    }
}

/// The ceilings on a batch.
#[derive(Clone, Copy, Debug)]
pub struct Limits {
    pub items: u64,
    pub entries: u64,
}

pub const LIMITS: Limits = Limits { items: 256, entries: 1024 };

/// No ceilings, as the real crate has none.
pub const LIFTED: Limits = Limits { items: u64::MAX, entries: u64::MAX };

pub const LARGEST_TAIL: u64 = 4_294_967_295;
