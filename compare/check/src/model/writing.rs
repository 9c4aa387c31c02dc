//! Bodies and whole batches, written in 01's order of checks.
use super::numbers;
use super::{Content, Item, Limits, Note, Refusal, Span, LARGEST_TAIL};

/// What a writer is given: items, entry lengths, and the bytes that spans lie in.
#[derive(Clone, Debug, PartialEq, Eq)]
pub struct List {
    pub items: Vec<Item>,
    pub lens: Vec<u64>,
    pub store: Vec<u8>,
}

/// The pieces of a written item: its numbers and bytes, with the span bytes left where they are.
enum Piece {
    Bytes(Vec<u8>),
    Span(Span),
}

pub struct Measured {
    pieces: Vec<Piece>,
    /// The entries and the entry total so far.
    used: u64,
    pub total: u64,
    /// The body's length, footer included.
    pub len: u128,
}

/// Every check up to the last item, and the length of the result.
pub fn measure(list: &List, checked: bool, limits: Limits) -> Result<Measured, Refusal> {
    if list.items.len() as u64 > limits.items {
        return Err(Refusal::of(9));
    }
    let mut count = vec![];
    numbers::write(list.items.len() as u64, &mut count);
    let mut measured = Measured { pieces: vec![Piece::Bytes(count)], used: 0, total: 0, len: 0 };
    for (k, item) in list.items.iter().enumerate() {
        measured.item(list, item, checked, limits).map_err(|number| Refusal { number, item: k, note: Note::None })?;
    }
    let len = measured.pieces.iter().map(|piece| match piece {
        Piece::Bytes(bytes) => bytes.len() as u128,
        Piece::Span(span) => span.len as u128,
    });
    measured.len = len.sum::<u128>() + 4;
    Ok(measured)
}

impl Measured {
    fn item(&mut self, list: &List, item: &Item, checked: bool, limits: Limits) -> Result<(), u32> {
        let mut out = vec![];
        numbers::write(item.group, &mut out);
        let outside = |span: &Span| !span.within(list.store.len());
        match &item.content {
            Content::Entries { count, first } => return self.entries(list, out, *count, *first, limits),
            Content::Clean => out.extend([2, 1]),
            Content::Compact { index } => {
                out.extend([2, 2]);
                numbers::write(*index, &mut out);
            }
            Content::Put { key, value } => {
                if outside(key) || outside(value) {
                    return Err(13);
                }
                if checked && key.of(&list.store).starts_with(&[0x5f, 0x5f]) {
                    return Err(23);
                }
                out.extend([3, 1]);
                self.span(out, key);
                self.span(vec![], value);
                return Ok(());
            }
            Content::Del { key } => {
                if outside(key) {
                    return Err(13);
                }
                out.extend([3, 2]);
                self.span(out, key);
                return Ok(());
            }
            Content::BadType(_) => return Err(10),
            Content::BadCommand(_) => return Err(11),
            Content::BadOp(_) => return Err(12),
        }
        self.pieces.push(Piece::Bytes(out));
        Ok(())
    }

    /// Count, first index and tails, behind what is there.
    fn entries(&mut self, list: &List, mut out: Vec<u8>, count: u64, first: u64, limits: Limits) -> Result<(), u32> {
        if self.used as u128 + count as u128 > limits.entries as u128 {
            return Err(14);
        }
        if list.lens.len() as u64 - self.used < count {
            return Err(13);
        }
        if count > 0 && first as u128 + count as u128 - 1 > u64::MAX as u128 {
            return Err(17);
        }
        out.push(1);
        numbers::write(count, &mut out);
        if count > 0 {
            numbers::write(first, &mut out);
        }
        for len in &list.lens[self.used as usize..(self.used + count) as usize] {
            if self.total as u128 + *len as u128 > LARGEST_TAIL as u128 {
                return Err(16);
            }
            self.total += len;
            numbers::write(self.total, &mut out);
        }
        self.used += count;
        self.pieces.push(Piece::Bytes(out));
        Ok(())
    }

    /// What is there, the span's length, and the span.
    fn span(&mut self, mut out: Vec<u8>, span: &Span) {
        numbers::write(span.len, &mut out);
        self.pieces.extend([Piece::Bytes(out), Piece::Span(*span)]);
    }
}

fn bytes_of(measured: &Measured, store: &[u8], signature: u32) -> Vec<u8> {
    let mut out = vec![];
    for piece in &measured.pieces {
        match piece {
            Piece::Bytes(bytes) => out.extend(bytes),
            Piece::Span(span) => out.extend(span.of(store)),
        }
    }
    let footer = numbers::crc32(&out) ^ signature;
    out.extend(footer.to_le_bytes());
    out
}

const LARGEST_BODY: u128 = 4_294_967_295;
const LARGEST_CONTENT: u64 = 2_147_483_647;

/// The length of the written body; with it a body can be asked for in a buffer that is just too short.
pub fn body_len(list: &List, checked: bool, limits: Limits) -> Result<u128, Refusal> {
    let measured = measure(list, checked, limits)?;
    if measured.len > LARGEST_BODY {
        return Err(Refusal::of(22));
    }
    Ok(measured.len)
}

/// A body, in a buffer of `room` bytes.
pub fn body(list: &List, signature: u32, checked: bool, limits: Limits, room: u128) -> Result<Vec<u8>, Refusal> {
    if body_len(list, checked, limits)? > room {
        return Err(Refusal::of(21));
    }
    Ok(bytes_of(&measure(list, checked, limits)?, &list.store, signature))
}

/// The length of the written batch.
pub fn batch_len(list: &List, content: usize, checked: bool, limits: Limits) -> Result<u128, Refusal> {
    if list.items.is_empty() && content == 0 {
        return Ok(0);
    }
    let measured = measure(list, checked, limits)?;
    if measured.total > LARGEST_CONTENT || measured.len > LARGEST_BODY {
        return Err(Refusal::of(22));
    }
    if list.items.is_empty() || measured.total != content as u64 {
        return Err(Refusal::of(20));
    }
    let block = if content == 0 { 0 } else { content as u128 + 4 };
    Ok(16 + block + measured.len)
}

/// A whole batch, in a buffer of `room` bytes.
pub fn batch(list: &List, content: &[u8], signature: u32, checked: bool, limits: Limits, room: u128) -> Result<Vec<u8>, Refusal> {
    let len = batch_len(list, content.len(), checked, limits)?;
    if len > room {
        return Err(Refusal::of(21));
    }
    if len == 0 {
        return Ok(vec![]);
    }
    let body = bytes_of(&measure(list, checked, limits)?, &list.store, signature);
    let mut out = vec![];
    out.extend((len as u64 * 256).to_be_bytes());
    out.extend((len as u64 - body.len() as u64).to_be_bytes());
    if !content.is_empty() {
        out.extend(content);
        out.extend(numbers::crc32(content).to_le_bytes());
    }
    out.extend(body);
    Ok(out)
}
