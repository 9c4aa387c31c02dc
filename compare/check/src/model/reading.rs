//! Items and bodies, read in 01's order of checks.
use super::numbers::{self, Number};
use super::{Content, Entry, Item, Limits, Note, Refusal, Span, Table, LARGEST_TAIL};

/// A refusal inside an item, whose number the caller knows.
pub struct Stop(pub u32, pub Note);

/// A reading under way: the place, the entry total and the entries so far.
pub struct Reader<'a> {
    pub bytes: &'a [u8],
    pub at: usize,
    pub total: u64,
    pub entries: Vec<Entry>,
    pub limits: Limits,
    /// Whether each number so far had its shortest spelling.
    pub plain: bool,
    /// Whether an entry at index 2^64 - 1 was read.
    pub largest: bool,
    /// The last count that was read, of items or entries, the largest so far, and the last first index.
    pub count: u64,
    pub largest_count: u64,
    pub first: u64,
    /// Where the last number that was read begins.
    pub last: usize,
}

impl<'a> Reader<'a> {
    pub fn new(bytes: &'a [u8], total: u64, limits: Limits) -> Self {
        Reader { bytes, at: 0, total, entries: vec![], limits, plain: true, largest: false, count: 0, largest_count: 0, first: 0, last: 0 }
    }

    fn number(&mut self) -> Result<u64, Stop> {
        match numbers::read(self.bytes, self.at) {
            Number::Done { value, next } => {
                self.plain &= (next - self.at) as u64 == numbers::length(value);
                (self.last, self.at) = (self.at, next);
                Ok(value)
            }
            Number::Eof => Err(Stop(7, Note::Eof)),
            Number::Overflow => Err(Stop(7, Note::Overflow)),
        }
    }

    fn byte(&mut self) -> Result<u8, Stop> {
        let b = *self.bytes.get(self.at).ok_or(Stop(7, Note::Eof))?;
        self.at += 1;
        Ok(b)
    }

    fn span(&mut self, note: Note) -> Result<Span, Stop> {
        let len = self.number()?;
        let span = Span { at: self.at as u64, len };
        if !span.within(self.bytes.len()) {
            return Err(Stop(13, note));
        }
        self.at += len as usize;
        Ok(span)
    }

    fn counted(&mut self, count: u64) {
        self.count = count;
        self.largest_count = self.largest_count.max(count);
    }

    pub fn item(&mut self) -> Result<Item, Stop> {
        let group = self.number()?;
        let content = match self.byte()? {
            1 => self.entries()?,
            2 => self.command()?,
            3 => self.key()?,
            _ => return Err(Stop(10, Note::None)),
        };
        Ok(Item { group, content })
    }

    fn entries(&mut self) -> Result<Content, Stop> {
        let count = self.number()?;
        self.counted(count);
        if self.entries.len() as u128 + count as u128 > self.limits.entries as u128 {
            return Err(Stop(14, Note::None));
        }
        if count == 0 {
            return Ok(Content::Entries { count, first: 0 });
        }
        let first = self.number()?;
        self.first = first;
        if first as u128 + count as u128 - 1 > u64::MAX as u128 {
            return Err(Stop(17, Note::None));
        }
        for k in 0..count {
            self.tail(first + k)?;
        }
        Ok(Content::Entries { count, first })
    }

    fn tail(&mut self, index: u64) -> Result<(), Stop> {
        let tail = self.number()?;
        if tail > LARGEST_TAIL {
            return Err(Stop(16, Note::None));
        }
        if tail < self.total {
            return Err(Stop(15, Note::None));
        }
        self.entries.push(Entry { index, offset: self.total, len: tail - self.total });
        self.total = tail;
        self.largest |= index == u64::MAX;
        Ok(())
    }

    fn command(&mut self) -> Result<Content, Stop> {
        match self.byte()? {
            1 => Ok(Content::Clean),
            2 => Ok(Content::Compact { index: self.number()? }),
            _ => Err(Stop(11, Note::None)),
        }
    }

    fn key(&mut self) -> Result<Content, Stop> {
        match self.byte()? {
            1 => {
                let key = self.span(Note::Key)?;
                Ok(Content::Put { key, value: self.span(Note::Value)? })
            }
            2 => Ok(Content::Del { key: self.span(Note::Key)? }),
            0 => Err(Stop(12, Note::OpZero)),
            _ => Err(Stop(12, Note::None)),
        }
    }

    /// The item count and the items.
    pub fn items(&mut self) -> Result<Table, Refusal> {
        let outside = |Stop(number, note)| Refusal { number, item: 0, note };
        let count = self.number().map_err(outside)?;
        self.counted(count);
        if count > self.limits.items {
            return Err(Refusal::of(9));
        }
        let mut items = vec![];
        for k in 0..count {
            items.push(self.item().map_err(|Stop(number, note)| Refusal { number, item: k as usize, note })?);
        }
        Ok(Table { items, entries: self.entries.clone(), total: self.total, next: self.at })
    }
}

/// The bytes before the footer, once 5 and 6 are passed.
pub fn unsealed(bytes: &[u8], signature: u32) -> Result<&[u8], Refusal> {
    if bytes.len() <= 4 {
        return Err(Refusal::of(5));
    }
    let (rest, footer) = bytes.split_at(bytes.len() - 4);
    if footer != (numbers::crc32(rest) ^ signature).to_le_bytes() {
        return Err(Refusal::of(6));
    }
    Ok(rest)
}

/// A body's reading, and whether it is plain.
pub struct Body {
    pub read: Result<Table, Refusal>,
    pub plain: bool,
}

pub fn body(bytes: &[u8], signature: u32, limits: Limits) -> Body {
    match unsealed(bytes, signature) {
        Err(refusal) => Body { read: Err(refusal), plain: false },
        Ok(rest) => {
            let mut reader = Reader::new(rest, 0, limits);
            let read = reader.items();
            Body { read, plain: reader.plain }
        }
    }
}

#[cfg(test)]
mod tests {
    use super::*;
    use crate::model::LIMITS;

    /// An item and its entries as index, offset, length; or a refusal's number.
    type Read = Result<(Item, Vec<(u64, u64, u64)>), u32>;

    fn read(bytes: &[u8]) -> Read {
        let mut reader = Reader::new(bytes, 0, LIMITS);
        let item = reader.item().map_err(|stop| stop.0)?;
        Ok((item, reader.entries.iter().map(|e| (e.index, e.offset, e.len)).collect()))
    }

    #[test]
    fn documents_examples() {
        let content = |bytes: &[u8]| read(bytes).map(|(item, _)| (item.group, item.content));
        let span = |at, len| Span { at, len };
        assert_eq!(content(&[5, 2, 2, 0xac, 2]), Ok((5, Content::Compact { index: 300 })));
        assert_eq!(content(&[2, 3, 1, 1, 0x6b, 1, 0x76]), Ok((2, Content::Put { key: span(4, 1), value: span(6, 1) })));
        assert_eq!(content(&[2, 3, 0, 1, 0x6b, 1, 0x76]), Err(12));
        let entries = |bytes: &[u8]| read(bytes).map(|(_, entries)| entries);
        assert_eq!(entries(&[3, 1, 3, 10, 4, 4, 10]), Ok(vec![(10, 0, 4), (11, 4, 0), (12, 4, 6)]));
        assert_eq!(entries(&[3, 1, 2, 10, 4, 3]), Err(15));
        assert_eq!(entries(&[3, 1, 1, 10, 0xff, 0xff, 0xff, 0xff, 0x0f]), Ok(vec![(10, 0, 4_294_967_295)]));
        assert_eq!(entries(&[3, 1, 1, 10, 0x80, 0x80, 0x80, 0x80, 0x10]), Err(16));
        let from_last = |count: u8, tails: &[u8]| [&[3, 1, count], [0xff; 9].as_slice(), &[1], tails].concat();
        assert_eq!(entries(&from_last(1, &[4])), Ok(vec![(u64::MAX, 0, 4)]));
        assert_eq!(entries(&from_last(2, &[4, 4])), Err(17));
    }
}
