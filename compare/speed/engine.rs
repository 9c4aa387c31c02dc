// Stands in the place of the oracle's src/engine.rs, in a copy of its crate: lib.rs (unchanged) exports `Engine` from here, and through it
// the crate's own functions are called in process, each as one call that is not put in line by the caller.
use crate::codec::{self, NumberEncoder};
use crate::log_batch::{Command, CompressionType, LogBatch, LogItem, LogItemBatch};
use crate::memtable::EntryIndex;
use crate::pipe_log::{FileBlockHandle, FileId, LogFileContext, LogQueue, Version};

pub struct Engine;

/// The file number that bodies are signed with.
pub const SIGNATURE: u64 = 12345;

fn context() -> LogFileContext {
    LogFileContext::new(FileId::new(LogQueue::Append, SIGNATURE), Version::V2)
}

fn entries(n: u64, first: u64, len: u32) -> Vec<EntryIndex> {
    (0..n).map(|i| EntryIndex { index: first + i, entry_len: len, ..Default::default() }).collect()
}

/// A batch of items that is written again and again into the same buffer.
pub struct Writer {
    batch: LogItemBatch,
    context: LogFileContext,
    pub out: Vec<u8>,
}

impl Writer {
    #[inline(never)]
    pub fn write(&mut self) -> usize {
        self.out.clear();
        self.batch.encode(&mut self.out).unwrap();
        self.batch.prepare_write(&mut self.out, &self.context).unwrap();
        self.out.len()
    }
}

impl Engine {
    pub const SIGNATURE: u32 = SIGNATURE as u32;

    /// The number at a place, under the interface of raft_log_read_number.
    #[inline(never)]
    pub extern "C" fn read_number(data: *const u8, len: usize, at: usize, answer: &mut [u64; 2]) -> u32 {
        let data = unsafe { std::slice::from_raw_parts(data, len) };
        let mut rest = &data[at..];
        match codec::decode_var_u64(&mut rest) {
            Ok(n) => {
                *answer = [n, (len - rest.len()) as u64];
                0
            }
            Err(_) => 7,
        }
    }

    /// All numbers of some bytes, read in one loop.
    #[inline(never)]
    pub fn read_numbers(data: &[u8]) -> u64 {
        let mut rest = data;
        let mut sum = 0u64;
        while !rest.is_empty() {
            sum = sum.wrapping_add(codec::decode_var_u64(&mut rest).unwrap());
        }
        sum
    }

    /// One number behind those that are there.
    #[inline(never)]
    pub fn write_number(n: u64, out: &mut Vec<u8>) {
        out.encode_var_u64(n).unwrap();
    }

    /// All numbers, written in one loop.
    #[inline(never)]
    pub fn write_numbers(numbers: &[u64], out: &mut Vec<u8>) {
        for n in numbers {
            out.encode_var_u64(*n).unwrap();
        }
    }

    /// LogBatch::decode_header, under the interface of raft_log_read_header.
    #[inline(never)]
    pub extern "C" fn read_header(data: *const u8, len: usize, answer: &mut [u64; 3]) -> u32 {
        let mut rest = unsafe { std::slice::from_raw_parts(data, len) };
        match LogBatch::decode_header(&mut rest) {
            Ok((offset, compression, len)) => {
                *answer = [offset as u64, len as u64, compression as u64];
                0
            }
            Err(_) => 1,
        }
    }

    /// crc32fast, as the crate calls it.
    #[inline(never)]
    pub fn crc32(data: &[u8]) -> u32 {
        crate::util::crc32(data)
    }

    /// LogItemBatch::decode, and the batch dropped again; answers its items.
    #[inline(never)]
    pub fn decode_body(data: &[u8]) -> usize {
        let mut rest = data;
        let handle = FileBlockHandle { id: FileId::new(LogQueue::Append, 7), offset: 0, len: 0 };
        let batch = LogItemBatch::decode(&mut rest, handle, CompressionType::None, &context()).unwrap();
        std::hint::black_box(&batch).iter().len()
    }

    /// The items of a body without its footer, read as LogItemBatch::decode reads them, and dropped.
    #[inline(never)]
    pub fn decode_items(data: &[u8]) -> usize {
        let mut rest = data;
        let count = codec::decode_var_u64(&mut rest).unwrap();
        let mut items = Vec::with_capacity(count as usize);
        let mut total = 0;
        for _ in 0..count {
            items.push(LogItem::decode(&mut rest, &mut total).unwrap());
        }
        std::hint::black_box(&items).len()
    }

    /// Bodies that are measured, by name.
    pub fn bodies() -> Vec<(&'static str, Writer)> {
        let mut out = vec![];
        let mut add = |name: &'static str, fill: &dyn Fn(&mut LogItemBatch)| {
            let mut batch = LogItemBatch::default();
            fill(&mut batch);
            out.push((name, Writer { batch, context: context(), out: vec![] }));
        };
        add("1 item", &|b| b.add_command(5, Command::Compact { index: 300 }));
        add("2 items", &|b| {
            b.add_entry_indexes(3, entries(3, 10, 100));
            b.put(2, b"key1".to_vec(), vec![0x55; 16]);
        });
        add("256 items of 4 entries", &|b| {
            for i in 0..256 {
                b.add_entry_indexes(1000 + i, entries(4, 100_000 + 4 * i, 200));
            }
        });
        add("1,024 entries in one item", &|b| b.add_entry_indexes(1000, entries(1024, 100_000, 200)));
        add("64 KiB of puts", &|b| {
            for i in 0..256u64 {
                b.put(1000 + i, i.to_be_bytes().to_vec(), vec![(i * 7) as u8; 241]);
            }
        });
        out
    }
}
