//! Each function once on what it accepts and once on what it refuses. Whether answers are right for many inputs is ../check's business.
use raft_log::*;

fn item(group: u64, content: Content) -> Item {
    Item { group, content }
}

fn number(result: Result<impl std::fmt::Debug, Refusal>) -> (u32, usize) {
    let refusal = result.unwrap_err();
    (refusal.number(), refusal.item)
}

/// Clean, three entries, and a put of "k" with "v", with what they are written from.
fn sample() -> (Vec<Item>, Vec<u32>, Vec<u8>, Vec<u8>) {
    let items = vec![
        item(1, Content::Command(Command::Clean)),
        item(3, Content::Entries { count: 3, first_index: 10 }),
        item(2, Content::Put { key: Span { at: 0, len: 1 }, value: Span { at: 1, len: 1 } }),
    ];
    (items, vec![4, 0, 6], b"kv".to_vec(), b"abcdefghij".to_vec())
}

#[test]
fn checksum_and_numbers() {
    assert_eq!(crc32(b"123456789"), 0xCBF4_3926);
    assert_eq!(crc32(b""), 0);
    assert_eq!(read_number(&[0, 0xac, 2], 1), Ok((300, 3)));
    assert_eq!(number(read_number(&[0x80], 0)), (7, 0));
    assert_eq!(number(read_number(&[], 5)), (7, 0));
    let mut out = [9; 4];
    assert_eq!(write_number(300, &mut out, 1), Ok(3));
    assert_eq!(out, [9, 0xac, 2, 9]);
    assert_eq!(number(write_number(300, &mut out, 3)), (21, 0));
    assert_eq!(out, [9, 0xac, 2, 9]);
}

#[test]
fn headers() {
    let header = |first: u64, second: u64| [first.to_be_bytes(), second.to_be_bytes()].concat();
    assert_eq!(read_header(&header(21 * 256, 16)), Ok(Header { offset: 16, len: 21, compressed: false }));
    assert_eq!(number(read_header(&header(10 * 256, 12))), (3, 0));
    assert_eq!(number(read_header(&header(20 * 256, 15))), (4, 0));
    assert_eq!(number(read_header(&[0; 15])), (1, 0));
}

/// Items with the footer that makes them a body.
fn sealed(items: &[u8], signature: u32) -> Vec<u8> {
    [items, &(crc32(items) ^ signature).to_le_bytes()].concat()
}

#[test]
fn bodies() {
    let body = sealed(&[2, 1, 2, 1, 3, 1, 3, 10, 4, 4, 10], 7);
    let counts = Counts { items: 2, entries: 3, total: 10, next: 11 };
    assert_eq!(check_body(&body, 7), Ok(counts));
    let table = read_body(&body, 7).unwrap();
    assert_eq!(table.items, [item(1, Content::Command(Command::Clean)), item(3, Content::Entries { count: 3, first_index: 10 })]);
    let rows: Vec<_> = table.entries.iter().map(|e| (e.index, e.offset, e.len)).collect();
    assert_eq!(rows, [(10, 0, 4), (11, 4, 0), (12, 4, 6)]);
    assert_eq!((table.total, table.next), (10, 11));
    assert_eq!(number(read_body(&sealed(&[2, 1, 2, 1, 3, 1, 2, 10, 4, 3], 0), 0)), (15, 1));
    assert_eq!(number(check_body(&sealed(&[0x80], 0), 0)), (7, 0));
    assert_eq!(number(check_body(&sealed(&[], 0), 0)), (5, 0));
    assert_eq!(is_plain(&body, 7), Ok(true));
    assert_eq!(number(check_body(&body, 8)), (6, 0));
    assert_eq!(number(is_plain(&body[..4], 7)), (5, 0));
    assert_eq!(is_plain(&sealed(&[1, 0x80, 0, 2, 1], 0), 0), Ok(false));
}

#[test]
fn batches() {
    let (items, lens, store, content) = sample();
    let bytes = write_batch(&items, &lens, &store, &content, 5).unwrap();
    let read = read_batch(&bytes, 5).unwrap();
    assert_eq!(read.block, Span { at: 16, len: 14 });
    assert_eq!(read.body, Span { at: 30, len: bytes.len() - 30 });
    assert_eq!(read.table.total, 10);
    let body = read.body.of(&bytes).unwrap();
    let Content::Put { key, value } = read.table.items[2].content else {
        panic!("a put");
    };
    assert_eq!((key.of(body).unwrap(), value.of(body).unwrap()), (b"k".as_slice(), b"v".as_slice()));
    assert_eq!(number(read_batch(&bytes[..bytes.len() - 1], 5)), (18, 0));
    assert_eq!(number(write_batch(&items, &lens, &store, &content[1..], 5)), (20, 0));
    assert_eq!(write_batch(&[], &[], &[], &[], 5), Ok(vec![]));
    assert_eq!(body, write_body(&items, &lens, &store, 5).unwrap());
}

#[test]
fn internal_keys() {
    let put = [item(1, Content::Put { key: Span { at: 0, len: 3 }, value: Span { at: 3, len: 1 } })];
    let store = [0x5f, 0x5f, 1, 2];
    assert_eq!(number(write_body(&put, &[], &store, 0)), (23, 0));
    assert_eq!(number(write_batch(&put, &[], &store, &[], 0)), (23, 0));
    let body = write_body_unchecked(&put, &[], &store, 0).unwrap();
    assert_eq!(read_body(&body, 0).unwrap().items.len(), 1);
    assert!(write_batch_unchecked(&put, &[], &store, &[], 0).is_ok());
    assert_eq!(status(&put[0], &store), Ok(Some((1, Status::End))));
    assert_eq!(status(&item(1, Content::Command(Command::Clean)), &store), Ok(None));
    assert_eq!(number(status(&put[0], &[0x5f, 0x5f, 1, 3])), (28, 0));
    assert_eq!(number(status(&put[0], &store[..3])), (13, 0));
}

#[test]
fn views() {
    let content = b"abcdef";
    let block = [content.as_slice(), &crc32(content).to_le_bytes()].concat();
    let mut row = Location { queue: Queue::Rewrite, file: 1, block_at: 0, block_len: 10, entry_offset: 2, entry_len: 3 };
    assert_eq!(entry_view(&row, &[], &block), Ok(b"cde".as_slice()));
    assert_eq!(number(entry_view(&row, &block, &[])), (20, 0));
    row.entry_len = 5;
    assert_eq!(number(entry_view(&row, &[], &block)), (13, 0));
}

fn row(queue: Queue, file: u64) -> Location {
    Location { queue, file, block_at: 0, block_len: 10, entry_offset: 0, entry_len: 4 }
}

#[test]
fn locations() {
    let old = vec![row(Queue::Append, 1), row(Queue::Append, 2)];
    let mut table = Locations { first_index: 1, rewritten: 0, rows: old.clone() };
    assert_eq!(table.fetch_entry_indexes_before(1), Ok(0..1));
    let incoming = [row(Queue::Rewrite, 9), row(Queue::Rewrite, 9)];
    assert_eq!(number(table.rewrite(&incoming[..1], 2, Some(5))), (24, 0));
    assert_eq!(table.rows, old);
    assert_eq!(table.rewrite(&incoming, 1, Some(1)), Ok(1));
    assert_eq!((table.rewritten, table.rows.clone()), (1, vec![incoming[0], old[1]]));
    assert_eq!(table.fetch_entry_indexes_before(1), Ok(1..1));
    table.rewritten = 2;
    assert_eq!(number(table.fetch_entry_indexes_before(1)), (26, 0));
}

#[test]
fn a_thousand_locations() {
    let mut table = Locations { first_index: 1, rewritten: 0, rows: vec![row(Queue::Append, 1); 1000] };
    assert_eq!(table.fetch_entry_indexes_before(1), Ok(0..1000));
    let incoming = vec![row(Queue::Rewrite, 9); 1000];
    assert_eq!(table.rewrite(&incoming, 1, Some(1)), Ok(1000));
    assert_eq!((table.rewritten, table.rows), (1000, incoming));
}
