//! The functions of libraft_log.a as raft_log.h declares them. A slice goes as a pointer and a length: of bytes, or of 64-bit words where
//! rows are lent. No pointer may be null, also where the length is 0; that holds for every slice of Rust's.

extern "C" {
    pub fn raft_log_crc32(data: *const u8, data_len: usize) -> u32;
    pub fn raft_log_read_number(data: *const u8, data_len: usize, at: usize, answer: *mut [u64; 2]) -> u32;
    pub fn raft_log_write_number(number: u64, out: *mut u8, out_len: usize, at: usize, answer: *mut [u64; 1]) -> u32;
    pub fn raft_log_read_header(data: *const u8, data_len: usize, answer: *mut [u64; 3]) -> u32;
    pub fn raft_log_check_body(body: *const u8, body_len: usize, signature: u32, answer: *mut [u64; 5]) -> u32;
    pub fn raft_log_is_plain(body: *const u8, body_len: usize, signature: u32, answer: *mut [u64; 2]) -> u32;
    pub fn raft_log_read_body(
        body: *const u8,
        body_len: usize,
        signature: u32,
        items: *mut u64,
        items_words: usize,
        entries: *mut u64,
        entries_words: usize,
        answer: *mut [u64; 5],
    ) -> u32;
    pub fn raft_log_read_batch(
        data: *const u8,
        data_len: usize,
        signature: u32,
        items: *mut u64,
        items_words: usize,
        entries: *mut u64,
        entries_words: usize,
        answer: *mut [u64; 9],
    ) -> u32;
    pub fn raft_log_write_body(
        items: *const u64,
        items_words: usize,
        entries: *const u64,
        entries_words: usize,
        store: *const u8,
        store_len: usize,
        signature: u32,
        checked: bool,
        out: *mut u8,
        out_len: usize,
        answer: *mut [u64; 2],
    ) -> u32;
    pub fn raft_log_write_batch(
        items: *const u64,
        items_words: usize,
        entries: *const u64,
        entries_words: usize,
        store: *const u8,
        store_len: usize,
        content: *const u8,
        content_len: usize,
        signature: u32,
        checked: bool,
        out: *mut u8,
        out_len: usize,
        answer: *mut [u64; 2],
    ) -> u32;
    pub fn raft_log_entry_view(
        row: *const [u64; 6],
        append: *const u8,
        append_len: usize,
        rewrite: *const u8,
        rewrite_len: usize,
        answer: *mut [u64; 2],
    ) -> u32;
    pub fn raft_log_status(row: *const [u64; 7], store: *const u8, store_len: usize, answer: *mut [u64; 2]) -> u32;
    pub fn raft_log_rewrite(
        table: *mut u64,
        table_words: usize,
        first_index: u64,
        rewritten: u64,
        incoming: *const u64,
        incoming_words: usize,
        incoming_first: u64,
        with_gate: bool,
        gate: u64,
        answer: *mut [u64; 2],
    ) -> u32;
    pub fn raft_log_fetch(table: *const u64, table_words: usize, first_index: u64, rewritten: u64, gate: u64, answer: *mut [u64; 2])
        -> u32;
}
