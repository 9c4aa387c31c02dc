//! Measures the library against the real crate in one process: both built for release, on the same inputs, in turn. Prints the figures and
//! puts them into docs/SPEED.md and docs/speed.svg. See ../README.md.
mod lent;
mod plot;
mod race;
mod sys;
mod values;

use race::{Figure, Race};
use raft_engine::Engine;
use std::hint::black_box;

fn crc_table() -> [u32; 256] {
    let mut table = [0; 256];
    for (k, slot) in table.iter_mut().enumerate() {
        let mut c = k as u32;
        for _ in 0..8 {
            c = if c & 1 == 1 { (c >> 1) ^ 0xEDB8_8320 } else { c >> 1 };
        }
        *slot = c;
    }
    table
}

/// The plain loop: a byte at a time over a table of 256 entries.
#[inline(never)]
fn crc_bytes(table: &[u32; 256], data: &[u8]) -> u32 {
    let mut c = !0u32;
    for b in data {
        c = table[((c ^ u32::from(*b)) & 255) as usize] ^ (c >> 8);
    }
    !c
}

struct Random(u64);

impl Random {
    fn next(&mut self) -> u64 {
        self.0 ^= self.0 << 13;
        self.0 ^= self.0 >> 7;
        self.0 ^= self.0 << 17;
        self.0
    }
}

/// 1,024 numbers of each length that is measured, and of all lengths.
fn number_cases() -> Vec<(&'static str, Vec<u64>)> {
    let mut r = Random(88_172_645_463_325_252);
    let mut of = |make: &dyn Fn(u64) -> u64| (0..1024).map(|_| make(r.next())).collect::<Vec<u64>>();
    let mut cases = vec![
        ("1 byte", of(&|x| x % 128)),
        ("2 bytes", of(&|x| 128 + x % 16_000)),
        ("5 bytes", of(&|x| (1 << 30) + x % (1 << 30))),
        ("10 bytes", of(&|x| x | 1 << 63)),
    ];
    let mixed = (0..1024).map(|_| r.next() >> (r.next() % 64)).collect();
    cases.push(("mixed", mixed));
    cases
}

fn numbers(race: &mut Race) {
    for (name, numbers) in number_cases() {
        let mut bytes: Vec<u8> = vec![];
        Engine::write_numbers(&numbers, &mut bytes);
        numbers_read(race, name, &numbers, &bytes);
        numbers_written(race, name, &numbers, &bytes);
    }
}

fn numbers_read(race: &mut Race, name: &'static str, numbers: &[u64], data: &[u8]) {
    let total = numbers.iter().fold(0u64, |sum, n| sum.wrapping_add(*n));
    let ours = || {
        let (mut at, mut sum, mut answer) = (0, 0u64, [0; 2]);
        while at < data.len() {
            lent::read_number(black_box(data), at, &mut answer);
            sum = sum.wrapping_add(answer[0]);
            at = answer[1] as usize;
        }
        sum
    };
    let rust = || {
        let (mut at, mut sum, mut answer) = (0, 0u64, [0; 2]);
        while at < data.len() {
            let d = black_box(data);
            Engine::read_number(d.as_ptr(), d.len(), at, &mut answer);
            sum = sum.wrapping_add(answer[0]);
            at = answer[1] as usize;
        }
        sum
    };
    let in_line = || Engine::read_numbers(black_box(data));
    assert_eq!((ours(), rust(), in_line()), (total, total, total));
    race.run("numbers read", name, "decode_var_u64, one call each", Some(1.0), ours, rust);
    race.run("numbers read, Rust's in a loop of its own", name, "decode_var_u64 in line", None, ours, in_line);
}

fn numbers_written(race: &mut Race, name: &'static str, numbers: &[u64], data: &[u8]) {
    let mut out = vec![0u8; 10 * 1024];
    let mut again: Vec<u8> = Vec::with_capacity(10 * 1024);
    let mut in_line: Vec<u8> = Vec::with_capacity(10 * 1024);
    let mut ours = || {
        let (mut at, mut answer) = (0, [0]);
        for n in black_box(numbers) {
            lent::write_number(*n, &mut out, at, &mut answer);
            at = answer[0] as usize;
        }
        at as u64
    };
    let mut rust = || {
        again.clear();
        for n in black_box(numbers) {
            Engine::write_number(*n, &mut again);
        }
        again.len() as u64
    };
    assert_eq!((ours(), rust()), (data.len() as u64, data.len() as u64));
    race.run("numbers written", name, "encode_var_u64, one call each", Some(1.0), &mut ours, rust);
    race.run("numbers written, Rust's in a loop of its own", name, "encode_var_u64 in line", None, &mut ours, || {
        in_line.clear();
        Engine::write_numbers(black_box(numbers), &mut in_line);
        in_line.len() as u64
    });
    assert_eq!((&out[..data.len()], &again[..], &in_line[..]), (data, data, data));
}

/// 1,024 headers of batches of all lengths.
fn headers(race: &mut Race) {
    let mut r = Random(2);
    let mut data: Vec<u8> = vec![];
    for _ in 0..1024 {
        let len = 16 + (r.next() >> 8 >> (r.next() % 48)) / 2;
        let offset = 16 + r.next() % (len - 15);
        data.extend((len * 256 + r.next() % 2).to_be_bytes());
        data.extend(offset.to_be_bytes());
    }
    let ours = || {
        let (mut sum, mut answer) = (0u64, [0; 3]);
        for header in black_box(&data[..]).chunks_exact(16) {
            lent::read_header(header, &mut answer);
            sum = sum.wrapping_mul(3).wrapping_add(answer[0] ^ answer[1] ^ answer[2]);
        }
        sum
    };
    let rust = || {
        let (mut sum, mut answer) = (0u64, [0; 3]);
        for header in black_box(&data[..]).chunks_exact(16) {
            Engine::read_header(header.as_ptr(), header.len(), &mut answer);
            sum = sum.wrapping_mul(3).wrapping_add(answer[0] ^ answer[1] ^ answer[2]);
        }
        sum
    };
    assert_eq!(ours(), rust());
    race.run("header read", "16 bytes", "LogBatch::decode_header, one call each", None, ours, rust);
}

fn checksums(race: &mut Race) {
    let mut r = Random(1);
    let data: Vec<u8> = (0..65_536).map(|_| r.next() as u8).collect();
    let table = crc_table();
    for (name, len) in [("8 B", 8), ("64 B", 64), ("4 KiB", 4096), ("64 KiB", 65_536)] {
        let data = &data[..len];
        assert_eq!((lent::crc32(data), crc_bytes(&table, data)), (Engine::crc32(data), Engine::crc32(data)));
        let ours = || u64::from(lent::crc32(black_box(data)));
        race.run("checksum", name, "plain loop over a table", Some(0.95), ours, || u64::from(crc_bytes(black_box(&table), black_box(data))));
        race.run("checksum against crc32fast", name, "crc32fast (SIMD)", None, ours, || u64::from(Engine::crc32(black_box(data))));
    }
}

fn bodies(race: &mut Race) {
    for (name, mut writer) in Engine::bodies() {
        writer.write();
        let body = writer.out.clone();
        body_checked(race, name, &body);
        body_moved(race, name, &body, || writer.write() as u64);
        body_stepped(race, name, &body);
        body_by_value(race, name, &body, || writer.write() as u64);
        assert_eq!(writer.out, body);
    }
}

/// The checksum decides how long 64 KiB take, so nothing was asked for there.
fn goal(name: &str, ratio: f64) -> Option<f64> {
    if name == "64 KiB of puts" { None } else { Some(ratio) }
}

fn body_checked(race: &mut Race, name: &'static str, data: &[u8]) {
    let check = || {
        let mut answer = [0; 5];
        assert_eq!(lent::check_body(black_box(data), Engine::SIGNATURE, &mut answer), 0);
        answer[1]
    };
    let rust = || Engine::decode_body(black_box(data)) as u64;
    assert_eq!(check(), rust());
    race.run("body checked without a table", name, "LogItemBatch::decode", goal(name, 2.0), check, rust);
    let items = &data[..data.len() - 4];
    let check = || {
        let mut answer = [0];
        assert_eq!(values::check_items(black_box(items), &mut answer), 0);
        answer[0]
    };
    let rust = || Engine::decode_items(black_box(items)) as u64;
    assert_eq!(check(), rust());
    race.run("items alone, without the checksum on either side", name, "LogItem::decode in a loop", None, check, rust);
}

/// Read into lent rows, and written from them.
fn body_moved(race: &mut Race, name: &'static str, data: &[u8], rust_writes: impl FnMut() -> u64) {
    let mut items = vec![0u64; 256 * lent::ITEM_WORDS];
    let mut entries = vec![0u64; 1024 * lent::ENTRY_WORDS];
    let mut answer = [0; 5];
    assert_eq!(lent::read_body(data, Engine::SIGNATURE, &mut items, &mut entries, &mut answer), 0);
    let read = || {
        let mut answer = [0; 5];
        assert_eq!(lent::read_body(black_box(data), Engine::SIGNATURE, &mut items, &mut entries, &mut answer), 0);
        answer[1]
    };
    let rust = || Engine::decode_body(black_box(data)) as u64;
    race.run("body read into lent rows", name, "LogItemBatch::decode", goal(name, 1.0), read, rust);
    let items = &items[..answer[1] as usize * lent::ITEM_WORDS];
    let entries = &entries[..answer[2] as usize * lent::ENTRY_WORDS];
    let rows = lent::Rows { items, entries, store: data };
    let mut out = vec![0u8; data.len()];
    let write = || {
        let mut answer = [0; 2];
        assert_eq!(lent::write_body(black_box(rows), Engine::SIGNATURE, false, &mut out, &mut answer), 0);
        answer[1]
    };
    race.run("body written from lent rows", name, "LogItemBatch::encode and prepare_write", None, write, rust_writes);
    assert_eq!(out, data);
}

/// One cursor stepped through all items to the end, and each item's rows read one by one.
fn body_stepped(race: &mut Race, name: &'static str, data: &[u8]) {
    let step = || {
        let mut answer = [0; 2];
        assert_eq!(values::steps(black_box(data), Engine::SIGNATURE, &mut answer), 0);
        answer[0]
    };
    let rust = || Engine::decode_body(black_box(data)) as u64;
    assert_eq!(step(), rust());
    race.run("body stepped through", name, "LogItemBatch::decode", goal(name, 2.0), step, rust);
}

fn body_by_value(race: &mut Race, name: &'static str, data: &[u8], mut rust_writes: impl FnMut() -> u64) {
    let read = || {
        let mut answer = [0; 4];
        assert_eq!(values::table(black_box(data), Engine::SIGNATURE, &mut answer), 0);
        answer[0]
    };
    let rust = || Engine::decode_body(black_box(data)) as u64;
    assert_eq!(read(), rust());
    let asked = if name == "256 items of 4 entries" { Some(1.0) } else { None };
    race.run("body read into a table by value", name, "LogItemBatch::decode", asked, read, rust);
    let mut out = vec![0u8; data.len()];
    let write = || {
        let mut answer = [0];
        assert_eq!(values::write(black_box(data), Engine::SIGNATURE, &mut out, &mut answer), 0);
        answer[0]
    };
    let both = || {
        black_box(rust());
        rust_writes()
    };
    let against = "LogItemBatch::decode, then encode and prepare_write of an equal batch";
    race.run("body read into a table by value and written from it", name, against, None, write, both);
    assert_eq!(out, data);
}

fn main() {
    let words: Vec<String> = std::env::args().skip(1).collect();
    let quick = words.iter().any(|word| word == "--quick");
    let docs = words.iter().position(|word| word == "--docs").map(|k| words[k + 1].clone());
    let mut race = Race::new(quick);
    numbers(&mut race);
    headers(&mut race);
    checksums(&mut race);
    bodies(&mut race);
    let figures: &[Figure] = &race.figures;
    println!("{}", plot::table(figures));
    if let Some(docs) = docs {
        plot::put(&docs, figures, &race.machine());
        println!("written: docs/SPEED.md, docs/speed.svg");
    }
}
