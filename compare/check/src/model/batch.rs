//! Header, block, whole batch, entry view, atomic status.
use super::reading;
use super::{Content, Item, Refusal, Table, LIMITS};

#[derive(Clone, Copy, Debug, PartialEq, Eq)]
pub struct Header {
    pub offset: u64,
    pub len: u64,
    pub compression: u8,
}

pub fn header(bytes: &[u8]) -> Result<Header, Refusal> {
    if bytes.len() < 16 {
        return Err(Refusal::of(1));
    }
    let first = u64::from_be_bytes(bytes[..8].try_into().unwrap());
    let offset = u64::from_be_bytes(bytes[8..16].try_into().unwrap());
    let (len, compression) = (first / 256, (first % 256) as u8);
    if compression > 1 {
        return Err(Refusal::of(2));
    }
    if offset > len {
        return Err(Refusal::of(3));
    }
    if offset < 16 {
        return Err(Refusal::of(4));
    }
    Ok(Header { offset, len, compression })
}

/// The content of a block: empty, or the bytes before its unsigned checksum.
pub fn block(bytes: &[u8]) -> Result<&[u8], Refusal> {
    if bytes.is_empty() {
        return Ok(bytes);
    }
    reading::unsealed(bytes, 0)
}

/// A whole batch's table, with the body's offset and the length, where it is read.
pub fn whole(bytes: &[u8], signature: u32) -> Result<(Table, Header), Refusal> {
    let header = header(bytes)?;
    if (bytes.len() as u64) < header.len {
        return Err(Refusal::of(18));
    }
    if header.compression == 1 {
        return Err(Refusal::of(19));
    }
    let content = block(&bytes[16..header.offset as usize])?;
    let body = &bytes[header.offset as usize..header.len as usize];
    let table = reading::body(body, signature, LIMITS).read?;
    if table.total != content.len() as u64 {
        return Err(Refusal::of(20));
    }
    Ok((table, header))
}

/// The place and length of an entry in its block.
pub fn view(block_bytes: &[u8], block_len: u64, offset: u64, len: u64) -> Result<(u64, u64), Refusal> {
    if block_bytes.len() as u64 != block_len {
        return Err(Refusal::of(20));
    }
    let content = block(block_bytes)?;
    if offset as u128 + len as u128 > content.len() as u128 {
        return Err(Refusal::of(13));
    }
    Ok((offset, len))
}

/// Group and status of a mark, or none.
pub fn status(item: &Item, bytes: &[u8]) -> Result<Option<(u64, u8)>, Refusal> {
    let spans = match &item.content {
        Content::Put { key, value } => vec![*key, *value],
        Content::Del { key } => vec![*key],
        _ => vec![],
    };
    if spans.iter().any(|span| !span.within(bytes.len())) {
        return Err(Refusal::of(13));
    }
    let Content::Put { key, value } = &item.content else {
        return Ok(None);
    };
    let (key, value) = (key.of(bytes), value.of(bytes));
    if key != [0x5f, 0x5f, 0x01] || value.len() != 1 {
        return Ok(None);
    }
    if value[0] > 2 {
        return Err(Refusal::of(28));
    }
    Ok(Some((item.group, value[0])))
}

#[cfg(test)]
mod tests {
    use super::*;

    #[test]
    fn documents_headers() {
        let read = |len: u64, offset: u64| {
            let bytes = [(len * 256).to_be_bytes(), offset.to_be_bytes()].concat();
            header(&bytes).map(|h| (h.offset, h.len)).map_err(|refusal| refusal.number)
        };
        assert_eq!(read(21, 16), Ok((16, 21)));
        assert_eq!(read(16, 16), Ok((16, 16)));
        assert_eq!(read(10, 12), Err(3));
        assert_eq!(read(20, 15), Err(4));
        assert_eq!(reading::unsealed(&[], 0).map_err(|refusal| refusal.number), Err(5));
    }
}
