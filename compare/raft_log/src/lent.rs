//! The same functions over slices and rows that the caller lends, with no type above them: nothing is allocated. A refusal is its number
//! alone, and the answer's words are as raft_log.h says. The functions of the crate's root stand on these.
use crate::sys;

/// Words of an item row, an entry row and a location row.
pub const ITEM_WORDS: usize = 7;
pub const ENTRY_WORDS: usize = 3;
pub const LOCATION_WORDS: usize = 6;

/// The most items and entries of a body.
pub const ITEMS_MAX: usize = 256;
pub const ENTRIES_MAX: usize = 1024;

#[inline]
pub fn crc32(data: &[u8]) -> u32 {
    // SAFETY: here and below a slice goes as its own pointer and length, and an answer as a reference to words of its own.
    unsafe { sys::raft_log_crc32(data.as_ptr(), data.len()) }
}

/// The number, and the place after it.
#[inline]
pub fn read_number(data: &[u8], at: usize, answer: &mut [u64; 2]) -> u32 {
    unsafe { sys::raft_log_read_number(data.as_ptr(), data.len(), at, answer) }
}

/// The place after it.
#[inline]
pub fn write_number(number: u64, out: &mut [u8], at: usize, answer: &mut [u64; 1]) -> u32 {
    unsafe { sys::raft_log_write_number(number, out.as_mut_ptr(), out.len(), at, answer) }
}

/// Offset of the body, length of the batch, compression type.
#[inline]
pub fn read_header(data: &[u8], answer: &mut [u64; 3]) -> u32 {
    unsafe { sys::raft_log_read_header(data.as_ptr(), data.len(), answer) }
}

/// Item (of a refusal), items, entries, entry total, place after the last item.
#[inline]
pub fn check_body(body: &[u8], signature: u32, answer: &mut [u64; 5]) -> u32 {
    unsafe { sys::raft_log_check_body(body.as_ptr(), body.len(), signature, answer) }
}

/// Item (of a refusal), 1 yes or 0 no.
#[inline]
pub fn is_plain(body: &[u8], signature: u32, answer: &mut [u64; 2]) -> u32 {
    unsafe { sys::raft_log_is_plain(body.as_ptr(), body.len(), signature, answer) }
}

/// As check_body, with the rows.
#[inline]
pub fn read_body(body: &[u8], signature: u32, items: &mut [u64], entries: &mut [u64], answer: &mut [u64; 5]) -> u32 {
    let (i, e) = (items.as_mut_ptr(), entries.as_mut_ptr());
    unsafe { sys::raft_log_read_body(body.as_ptr(), body.len(), signature, i, items.len(), e, entries.len(), answer) }
}

/// As read_body, of a whole batch; then place and length of the body and of the block.
#[inline]
pub fn read_batch(data: &[u8], signature: u32, items: &mut [u64], entries: &mut [u64], answer: &mut [u64; 9]) -> u32 {
    let (i, e) = (items.as_mut_ptr(), entries.as_mut_ptr());
    unsafe { sys::raft_log_read_batch(data.as_ptr(), data.len(), signature, i, items.len(), e, entries.len(), answer) }
}

/// Rows to be written: items, entries, and the bytes that spans lie in.
#[derive(Clone, Copy)]
pub struct Rows<'a> {
    pub items: &'a [u64],
    pub entries: &'a [u64],
    pub store: &'a [u8],
}

/// Item (of a refusal), length. Unless `checked`, there is no 23.
#[inline]
pub fn write_body(rows: Rows, signature: u32, checked: bool, out: &mut [u8], answer: &mut [u64; 2]) -> u32 {
    let Rows { items, entries, store } = rows;
    unsafe {
        sys::raft_log_write_body(
            items.as_ptr(),
            items.len(),
            entries.as_ptr(),
            entries.len(),
            store.as_ptr(),
            store.len(),
            signature,
            checked,
            out.as_mut_ptr(),
            out.len(),
            answer,
        )
    }
}

/// The same for a whole batch, with `content` in its block.
#[inline]
pub fn write_batch(rows: Rows, content: &[u8], signature: u32, checked: bool, out: &mut [u8], answer: &mut [u64; 2]) -> u32 {
    let Rows { items, entries, store } = rows;
    unsafe {
        sys::raft_log_write_batch(
            items.as_ptr(),
            items.len(),
            entries.as_ptr(),
            entries.len(),
            store.as_ptr(),
            store.len(),
            content.as_ptr(),
            content.len(),
            signature,
            checked,
            out.as_mut_ptr(),
            out.len(),
            answer,
        )
    }
}

/// Place and length in the block that the row's queue names.
#[inline]
pub fn entry_view(row: &[u64; 6], append: &[u8], rewrite: &[u8], answer: &mut [u64; 2]) -> u32 {
    unsafe { sys::raft_log_entry_view(row, append.as_ptr(), append.len(), rewrite.as_ptr(), rewrite.len(), answer) }
}

/// 0 no mark, 1 begin, 2 middle, 3 end; the group.
#[inline]
pub fn status(row: &[u64; 7], store: &[u8], answer: &mut [u64; 2]) -> u32 {
    unsafe { sys::raft_log_status(row, store.as_ptr(), store.len(), answer) }
}

/// A location table: its rows' first index, and how many were rewritten.
#[derive(Clone, Copy)]
pub struct Table {
    pub first_index: u64,
    pub rewritten: u64,
}

/// Rows replaced, rewritten count.
#[inline]
pub fn rewrite(rows: &mut [u64], table: Table, incoming: &[u64], incoming_first: u64, gate: Option<u64>, answer: &mut [u64; 2]) -> u32 {
    unsafe {
        sys::raft_log_rewrite(
            rows.as_mut_ptr(),
            rows.len(),
            table.first_index,
            table.rewritten,
            incoming.as_ptr(),
            incoming.len(),
            incoming_first,
            gate.is_some(),
            gate.unwrap_or(0),
            answer,
        )
    }
}

/// Place and length of the run.
#[inline]
pub fn fetch(rows: &[u64], table: Table, gate: u64, answer: &mut [u64; 2]) -> u32 {
    unsafe { sys::raft_log_fetch(rows.as_ptr(), rows.len(), table.first_index, table.rewritten, gate, answer) }
}
