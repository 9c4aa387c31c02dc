//! The library as a subject. Everything it is lent is filled with a pattern first, and looked at afterwards: answers have to be set at each
//! call, and what is not the result has to be as it was. Row words that are not named are filled with noise where the library is to
//! ignore them.
use crate::answer::Answer;
use crate::case::{footed, sealed, sign, Case, Room, Seal};
use crate::model::locations::{Locations, Row};
use crate::model::reading::{self, Reader};
use crate::model::writing::{self, List};
use crate::model::{batch, numbers, Content, Entry, Item, Span, Table, LIMITS};
use crate::subject::{rows_lent, written_room, Part, Subject};
use raft_log::lent::{self, ENTRY_WORDS, ITEM_WORDS, LOCATION_WORDS};

const NOISE: u64 = 0x5A5A_0123_4567_89AB;
const FILL: u8 = 0xA5;

pub struct Library;

impl Library {
    pub fn new() -> Library {
        Library
    }
}

impl Subject for Library {
    fn answers(&mut self, case: &Case) -> Vec<Part> {
        let mut parts = lent_answers(case);
        parts.extend(crate::typed::answers(case));
        parts
    }
}

fn lent_answers(case: &Case) -> Vec<Part> {
    match case {
        Case::ReadNumber { bytes, at } => {
            let mut answer = [NOISE; 2];
            let number = lent::read_number(bytes, *at, &mut answer);
            vec![("read_number", replied(number, 0, &answer, || Answer::Number { value: answer[0], next: answer[1] }))]
        }
        Case::WriteNumber { number, at, room } => vec![("write_number", write_number(*number, *at, *room))],
        Case::Checksum { bytes } => vec![("crc32", Answer::Sum(lent::crc32(bytes)))],
        Case::Header { bytes } => {
            let mut answer = [NOISE; 3];
            let number = lent::read_header(bytes, &mut answer);
            let header = || Answer::Header { offset: answer[0], len: answer[1], compression: answer[2] };
            vec![("read_header", replied(number, 0, &answer, header))]
        }
        Case::Item { total, bytes } => item(*total, bytes),
        Case::Body { signature, bytes, seal, room } => body(sign(*signature), bytes, *seal, *room),
        Case::Batch { signature, bytes, room } => vec![("read_batch", whole(bytes, sign(*signature), *room))],
        Case::WriteBody { signature, list, checked, room } => {
            let room = written_room(*room, &writing::body_len(list, *checked, LIMITS));
            let call =
                |rows: lent::Rows, out: &mut [u8], answer: &mut [u64; 2]| lent::write_body(rows, sign(*signature), *checked, out, answer);
            vec![("write_body", written(list, room, call))]
        }
        Case::WriteBatch { signature, list, content, checked, room } => {
            let room = written_room(*room, &writing::batch_len(list, content.len(), *checked, LIMITS));
            let call = |rows: lent::Rows, out: &mut [u8], answer: &mut [u64; 2]| {
                lent::write_batch(rows, content, sign(*signature), *checked, out, answer)
            };
            vec![("write_batch", written(list, room, call))]
        }
        Case::Block { length, bytes } => {
            let row = Row { queue: 0, file: NOISE, place: NOISE, block: *length, offset: 0, len: length.saturating_sub(4) };
            vec![("entry_view", view(&row, bytes, &[]))]
        }
        Case::View { row, append, rewrite } => vec![("entry_view", view(row, append, rewrite))],
        Case::Status { item, store } => vec![("status", status(item, store))],
        Case::Rewrite { table, gate, first, incoming } => vec![("rewrite", rewrite(table, *gate, *first, incoming))],
        Case::Fetch { table, gate } => {
            let mut answer = [NOISE; 2];
            let words = [location_words(&table.rows), vec![1; 5]].concat();
            let number = lent::fetch(&words, at(table), *gate, &mut answer);
            vec![("fetch", replied(number, 0, &answer, || Answer::Run { at: answer[0], len: answer[1] }))]
        }
    }
}

/// The answer, or the refusal, after which all words but those of the item are 0.
fn replied(number: u32, item_words: usize, answer: &[u64], done: impl FnOnce() -> Answer) -> Answer {
    if number == 0 {
        if answer[..item_words].iter().any(|word| *word != 0) {
            return Answer::Touched(format!("accepted, and the answer's words are {answer:?}"));
        }
        return done();
    }
    if answer[item_words..].iter().any(|word| *word != 0) {
        return Answer::Touched(format!("refused {number}, and the answer's words are {answer:?}"));
    }
    Answer::Refused { number, item: if item_words == 0 { 0 } else { answer[0] } }
}

fn touched(what: &str) -> Answer {
    Answer::Touched(format!("{what} changed outside the result"))
}

fn write_number(n: u64, at: usize, room: usize) -> Answer {
    let mut out = vec![FILL; room];
    let mut answer = [NOISE; 1];
    let number = lent::write_number(n, &mut out, at, &mut answer);
    let reply = replied(number, 0, &answer, || Answer::Bytes(vec![]));
    let (from, to) = if number == 0 { (at, (answer[0] as usize).min(room)) } else { (0, 0) };
    if out[..from].iter().chain(&out[to..]).any(|b| *b != FILL) {
        return touched("the buffer");
    }
    if number == 0 {
        Answer::Bytes(out[from..to].to_vec())
    } else {
        reply
    }
}

/// Rows lent for a reading, with words at the end that make up no row.
struct Lent {
    items: Vec<u64>,
    entries: Vec<u64>,
}

impl Lent {
    fn new(room: Room, table: Option<&Table>) -> Lent {
        let (items, entries) = table.map_or((3, 3), |table| rows_lent(room, table.items.len(), table.entries.len()));
        Lent { items: vec![NOISE; ITEM_WORDS * items + 5], entries: vec![NOISE; ENTRY_WORDS * entries + 1] }
    }

    /// The table that was read into the rows: so many items and entries, and nothing past them changed.
    fn table(&self, items: u64, entries: u64, total: u64, next: u64, body: [u64; 2], block: [u64; 2]) -> Answer {
        let (i, e) = (ITEM_WORDS * items as usize, ENTRY_WORDS * entries as usize);
        if i > self.items.len() || e > self.entries.len() {
            return Answer::Touched("more rows are stated than were lent".into());
        }
        if !untouched(&self.items[i..]) || !untouched(&self.entries[e..]) {
            return touched("a row");
        }
        let items: Option<Vec<Item>> = self.items[..i].chunks(ITEM_WORDS).map(item_of).collect();
        let Some(items) = items else {
            return Answer::Touched(format!("rows that are no items: {:?}", &self.items[..i]));
        };
        let entries = self.entries[..e].chunks(ENTRY_WORDS).map(|row| Entry { index: row[0], offset: row[1], len: row[2] }).collect();
        Answer::Table { items, entries, total, next, body, block }
    }
}

fn untouched(words: &[u64]) -> bool {
    words.iter().all(|word| *word == NOISE)
}

/// The item of a row that was read; words that are not named are 0.
fn item_of(row: &[u64]) -> Option<Item> {
    let span = |k: usize| Span { at: row[k], len: row[k + 1] };
    let content = match (row[1], row[2], &row[3..]) {
        (1, 0, [count, first, 0, 0]) => Content::Entries { count: *count, first: *first },
        (2, 1, [0, 0, 0, 0]) => Content::Clean,
        (2, 2, [index, 0, 0, 0]) => Content::Compact { index: *index },
        (3, 1, _) => Content::Put { key: span(3), value: span(5) },
        (3, 2, [_, _, 0, 0]) => Content::Del { key: span(3) },
        _ => return None,
    };
    Some(Item { group: row[0], content })
}

/// The row of an item to be written, with noise in the words that are not named.
fn row_of(item: &Item) -> [u64; ITEM_WORDS] {
    let mut row = [NOISE; ITEM_WORDS];
    row[0] = item.group;
    match item.content {
        Content::Entries { count, first } => (row[1], row[3], row[4]) = (1, count, first),
        Content::Clean => (row[1], row[2]) = (2, 1),
        Content::Compact { index } => (row[1], row[2], row[3]) = (2, 2, index),
        Content::Put { key, value } => row[1..].copy_from_slice(&[3, 1, key.at, key.len, value.at, value.len]),
        Content::Del { key } => row[1..5].copy_from_slice(&[3, 2, key.at, key.len]),
        Content::BadType(kind) => row[1] = kind,
        Content::BadCommand(command) => (row[1], row[2]) = (2, command),
        Content::BadOp(op) => (row[1], row[2]) = (3, op),
    }
    row
}

fn read_body(bytes: &[u8], signature: u32, lent: &mut Lent) -> Answer {
    let mut answer = [NOISE; 5];
    let number = lent::read_body(bytes, signature, &mut lent.items, &mut lent.entries, &mut answer);
    if number != 0 && !(untouched(&lent.items) && untouched(&lent.entries)) {
        return touched("a row of a refused reading");
    }
    replied(number, 1, &answer, || lent.table(answer[1], answer[2], answer[3], answer[4], [0, bytes.len() as u64], [0, 0]))
}

/// One item after a total: the only one of a body, or the second after an entry that makes up the total.
fn item(total: u32, bytes: &[u8]) -> Vec<Part> {
    let mut reader = Reader::new(bytes, total.into(), LIMITS);
    let _ = reader.item();
    if total > 0 && reader.largest_count >= LIMITS.entries {
        return vec![];
    }
    let mut before = vec![1];
    if total > 0 {
        before = vec![2, 0, 1, 1, 0];
        numbers::write(total.into(), &mut before);
    }
    let whole = [before.as_slice(), bytes].concat();
    let table = Reader::new(&whole, 0, LIMITS).items().ok();
    let mut lent = Lent::new(Room::Plenty, table.as_ref());
    let answer = match read_body(&sealed(&whole, 0), 0, &mut lent) {
        Answer::Refused { number, item } if item == u64::from(total > 0) => Answer::Refused { number, item: 0 },
        Answer::Table { mut items, entries, total: after, next, .. } if items.len() == 1 + usize::from(total > 0) => {
            let mut item = items.pop().unwrap();
            shift(&mut item, before.len() as u64);
            let entries = entries[usize::from(total > 0)..].to_vec();
            Answer::Item { item, entries, next: next - before.len() as u64, total: after }
        }
        other => other,
    };
    vec![("read_body", answer)]
}

fn shift(item: &mut Item, by: u64) {
    match &mut item.content {
        Content::Put { key, value } => {
            key.at = key.at.wrapping_sub(by);
            value.at = value.at.wrapping_sub(by);
        }
        Content::Del { key } => key.at = key.at.wrapping_sub(by),
        _ => {}
    }
}

fn body(signature: u32, bytes: &[u8], seal: Seal, room: Room) -> Vec<Part> {
    let (bytes, signature) = footed(signature, bytes, seal);
    let mut answer = [NOISE; 5];
    let number = lent::check_body(&bytes, signature, &mut answer);
    let [_, items, entries, total, next] = answer;
    let check = replied(number, 1, &answer, || Answer::Counts { items, entries, total, next });
    let table = reading::body(&bytes, signature, LIMITS).read.ok();
    let read = read_body(&bytes, signature, &mut Lent::new(room, table.as_ref()));
    vec![("check_body", check), ("read_body", read), ("is_plain", plain(&bytes, signature))]
}

fn plain(bytes: &[u8], signature: u32) -> Answer {
    let mut answer = [NOISE; 2];
    let number = lent::is_plain(bytes, signature, &mut answer);
    replied(number, 1, &answer, || match answer {
        [0, yes @ (0 | 1)] => Answer::Plain(yes == 1),
        _ => Answer::Touched(format!("neither yes nor no: {answer:?}")),
    })
}

fn whole(bytes: &[u8], signature: u32, room: Room) -> Answer {
    let table = batch::whole(bytes, signature).ok().map(|(table, _)| table);
    let mut lent = Lent::new(room, table.as_ref());
    let mut answer = [NOISE; 9];
    let number = lent::read_batch(bytes, signature, &mut lent.items, &mut lent.entries, &mut answer);
    if number != 0 && !(untouched(&lent.items) && untouched(&lent.entries)) {
        return touched("a row of a refused reading");
    }
    let [_, items, entries, total, next, ..] = answer;
    replied(number, 1, &answer, || lent.table(items, entries, total, next, [answer[5], answer[6]], [answer[7], answer[8]]))
}

fn written(list: &List, room: usize, call: impl Fn(lent::Rows, &mut [u8], &mut [u64; 2]) -> u32) -> Answer {
    let mut items: Vec<u64> = list.items.iter().flat_map(row_of).collect();
    let mut entries: Vec<u64> = list.lens.iter().flat_map(|len| [NOISE, NOISE, *len]).collect();
    // words that make up no row
    items.extend([1; 6]);
    entries.extend([1; 2]);
    let mut out = vec![FILL; room];
    let mut answer = [NOISE; 2];
    let number = call(lent::Rows { items: &items, entries: &entries, store: &list.store }, &mut out, &mut answer);
    let len = if number == 0 { (answer[1] as usize).min(room) } else { 0 };
    if out[len..].iter().any(|b| *b != FILL) {
        return touched("the buffer");
    }
    replied(number, 1, &answer, || {
        if answer[0] != 0 || answer[1] > room as u64 {
            return Answer::Touched(format!("item and length {answer:?} in {room} bytes"));
        }
        out.truncate(len);
        Answer::Bytes(out)
    })
}

fn view(row: &Row, append: &[u8], rewrite: &[u8]) -> Answer {
    let mut answer = [NOISE; 2];
    let row: [u64; LOCATION_WORDS] = location_words(&[*row]).try_into().unwrap();
    let number = lent::entry_view(&row, append, rewrite, &mut answer);
    replied(number, 0, &answer, || Answer::Part { at: answer[0], len: answer[1] })
}

fn status(item: &Item, store: &[u8]) -> Answer {
    let mut answer = [NOISE; 2];
    let number = lent::status(&row_of(item), store, &mut answer);
    replied(number, 0, &answer, || match answer {
        [0, 0] => Answer::Status(None),
        [mark @ 1..=3, group] => Answer::Status(Some((group, mark as u8 - 1))),
        _ => Answer::Touched(format!("no such status: {answer:?}")),
    })
}

fn location_words(rows: &[Row]) -> Vec<u64> {
    rows.iter().flat_map(|row| [row.queue, row.file, row.place, row.block, row.offset, row.len]).collect()
}

fn at(table: &Locations) -> lent::Table {
    lent::Table { first_index: table.first, rewritten: table.count }
}

fn rewrite(table: &Locations, gate: Option<u64>, first: u64, incoming: &[Row]) -> Answer {
    let before = location_words(&table.rows);
    let mut words = [before.as_slice(), &[NOISE; 4]].concat();
    let mut answer = [NOISE; 2];
    let incoming = [location_words(incoming), vec![1; 5]].concat();
    let number = lent::rewrite(&mut words, at(table), &incoming, first, gate, &mut answer);
    if words[before.len()..] != [NOISE; 4] || (number != 0 && words[..before.len()] != before) {
        return touched("a location row");
    }
    if number != 0 {
        if answer != [0, table.count] {
            return Answer::Touched(format!("refused {number}, and the answer's words are {answer:?}"));
        }
        return Answer::Refused { number, item: 0 };
    }
    let row = |row: &[u64]| Row { queue: row[0], file: row[1], place: row[2], block: row[3], offset: row[4], len: row[5] };
    let rows = words[..before.len()].chunks(LOCATION_WORDS).map(row).collect();
    Answer::Rewritten { replaced: answer[0], count: answer[1], rows }
}
