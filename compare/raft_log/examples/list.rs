//! Lists the items of a batch: `list FILE [SIGNATURE]`. The same as ../../examples/list.c.
use raft_log::{Command, Content};

fn main() {
    let mut words = std::env::args().skip(1);
    let Some(path) = words.next() else {
        eprintln!("usage: list FILE [SIGNATURE]");
        std::process::exit(2);
    };
    let signature = words.next().map_or(0, |word| word.parse().expect("a signature is a number"));
    let data = std::fs::read(&path).expect("the file can be read");
    let batch = match raft_log::read_batch(&data, signature) {
        Ok(batch) => batch,
        Err(refusal) => {
            println!("refused {} {}", refusal.number(), refusal.item);
            std::process::exit(1);
        }
    };
    println!("items {} entries {} bytes {}", batch.table.items.len(), batch.table.entries.len(), batch.table.total);
    let mut entries = batch.table.entries.iter();
    for item in &batch.table.items {
        let group = item.group;
        match item.content {
            Content::Entries { count, .. } => {
                for entry in entries.by_ref().take(count as usize) {
                    println!("{group} entry {} {} {}", entry.index, entry.offset, entry.len);
                }
            }
            Content::Command(Command::Clean) => println!("{group} clean"),
            Content::Command(Command::Compact { index }) => println!("{group} compact {index}"),
            Content::Put { key, value } => println!("{group} put {} {}", key.len, value.len),
            Content::Del { key } => println!("{group} del {}", key.len),
        }
    }
}
