//! The functions of libspeed.a and libspeed_tables.a, over slices: the check without a checksum, the stepping reader, and the table by value.
//! The two libraries are for this program alone.

extern "C" {
    fn speed_check_items(body: *const u8, body_len: usize, answer: *mut [u64; 1]) -> u32;
    fn speed_steps(body: *const u8, body_len: usize, signature: u32, answer: *mut [u64; 2]) -> u32;
    fn speed_table(body: *const u8, body_len: usize, signature: u32, answer: *mut [u64; 4]) -> u32;
    fn speed_write(body: *const u8, body_len: usize, signature: u32, out: *mut u8, out_len: usize, answer: *mut [u64; 1]) -> u32;
}

/// How many items a body without its footer has.
pub fn check_items(body: &[u8], answer: &mut [u64; 1]) -> u32 {
    unsafe { speed_check_items(body.as_ptr(), body.len(), answer) }
}

/// Items and entries, counted by steps through the body and through the rows of each item.
pub fn steps(body: &[u8], signature: u32, answer: &mut [u64; 2]) -> u32 {
    unsafe { speed_steps(body.as_ptr(), body.len(), signature, answer) }
}

/// Items, entries, entry total, place after the last item.
pub fn table(body: &[u8], signature: u32, answer: &mut [u64; 4]) -> u32 {
    unsafe { speed_table(body.as_ptr(), body.len(), signature, answer) }
}

/// The length of the body that is written from the table.
pub fn write(body: &[u8], signature: u32, out: &mut [u8], answer: &mut [u64; 1]) -> u32 {
    unsafe { speed_write(body.as_ptr(), body.len(), signature, out.as_mut_ptr(), out.len(), answer) }
}
