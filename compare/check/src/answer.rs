//! What a subject answers, in one form for model and library.
use crate::model::locations::Row;
use crate::model::{Entry, Item, Refusal};

#[derive(Clone, Debug, PartialEq, Eq)]
pub enum Answer {
    Refused {
        number: u32,
        item: u64,
    },
    Number {
        value: u64,
        next: u64,
    },
    Bytes(Vec<u8>),
    Sum(u32),
    Header {
        offset: u64,
        len: u64,
        compression: u64,
    },
    Item {
        item: Item,
        entries: Vec<Entry>,
        next: u64,
        total: u64,
    },
    Counts {
        items: u64,
        entries: u64,
        total: u64,
        next: u64,
    },
    Table {
        items: Vec<Item>,
        entries: Vec<Entry>,
        total: u64,
        next: u64,
        body: [u64; 2],
        block: [u64; 2],
    },
    Plain(bool),
    Part {
        at: u64,
        len: u64,
    },
    Status(Option<(u64, u8)>),
    Rewritten {
        replaced: u64,
        count: u64,
        rows: Vec<Row>,
    },
    Run {
        at: u64,
        len: u64,
    },
    /// Memory that is to stay as it was did not.
    #[cfg_attr(not(feature = "library"), allow(dead_code))]
    Touched(String),
}

impl Answer {
    pub fn refused(refusal: Refusal) -> Answer {
        Answer::Refused { number: refusal.number, item: refusal.item as u64 }
    }
}
