//! Rewriting locations, and the fetch before a gate.
use super::Refusal;

#[derive(Clone, Copy, Debug, PartialEq, Eq)]
pub struct Row {
    /// 0 append, 1 rewrite; above 1 it is no queue.
    pub queue: u64,
    pub file: u64,
    pub place: u64,
    pub block: u64,
    pub offset: u64,
    pub len: u64,
}

#[derive(Clone, Debug, PartialEq, Eq)]
pub struct Locations {
    pub first: u64,
    pub count: u64,
    pub rows: Vec<Row>,
}

fn past_the_end(first: u64, rows: usize) -> bool {
    rows > 0 && first as u128 + rows as u128 - 1 > u64::MAX as u128
}

fn well_formed(table: &Locations) -> bool {
    table.count <= table.rows.len() as u64
        && !past_the_end(table.first, table.rows.len())
        && table.rows.iter().enumerate().all(|(k, row)| row.queue == u64::from((k as u64) < table.count))
}

/// How many rows were replaced, and the table after it.
pub fn rewrite(table: &Locations, gate: Option<u64>, in_first: u64, incoming: &[Row]) -> Result<(u64, Locations), Refusal> {
    if !well_formed(table) {
        return Err(Refusal::of(26));
    }
    if past_the_end(in_first, incoming.len()) || incoming.iter().any(|row| row.queue != 1) {
        return Err(Refusal::of(27));
    }
    let mut after = table.clone();
    // The overlap, as indexes from start on and before end.
    let start = table.first.max(in_first) as u128;
    let end = (table.first as u128 + table.rows.len() as u128).min(in_first as u128 + incoming.len() as u128);
    if end <= start {
        return Ok((0, after));
    }
    let place = (start - table.first as u128) as u64;
    if place > table.count {
        return Err(Refusal::of(24));
    }
    if gate.is_some() && place < table.count {
        return Err(Refusal::of(25));
    }
    let mut replaced = 0;
    for index in start..end {
        let row = &mut after.rows[(index - table.first as u128) as usize];
        let stop = match gate {
            Some(gate) => row.file > gate,
            None => row.queue == 0,
        };
        if stop {
            break;
        }
        *row = incoming[(index - in_first as u128) as usize];
        replaced += 1;
    }
    after.count = match gate {
        Some(_) => place + replaced,
        None => table.count.max(place + replaced),
    };
    Ok((replaced, after))
}

/// The place and length of the longest run from the rewritten count on with file numbers up to the gate.
pub fn fetch(table: &Locations, gate: u64) -> Result<(u64, u64), Refusal> {
    if !well_formed(table) {
        return Err(Refusal::of(26));
    }
    let run = table.rows[table.count as usize..].iter().take_while(|row| row.file <= gate).count();
    Ok((table.count, run as u64))
}
