//! Numbers and the checksum.

#[derive(Clone, Copy, Debug, PartialEq, Eq)]
pub enum Number {
    Done { value: u64, next: usize },
    Eof,
    Overflow,
}

/// The number at a place: seven bits a byte, lowest first, at most ten bytes, a tenth of 0 or 1.
pub fn read(bytes: &[u8], at: usize) -> Number {
    let mut value = 0;
    for k in 0..10 {
        let Some(&b) = bytes.get(at.saturating_add(k)) else {
            return Number::Eof;
        };
        if k == 9 && b > 1 {
            return Number::Overflow;
        }
        value |= u64::from(b % 128) << (7 * k);
        if b < 128 {
            return Number::Done { value, next: at + k + 1 };
        }
    }
    unreachable!("a tenth byte of 0 or 1 is the last")
}

/// The shortest form, put behind what is there.
pub fn write(n: u64, out: &mut Vec<u8>) {
    let mut left = n;
    while left >= 128 {
        out.push(128 + (left % 128) as u8);
        left /= 128;
    }
    out.push(left as u8);
}

/// The length of the shortest form.
pub fn length(n: u64) -> u64 {
    u64::from((70 - (n | 1).leading_zeros()) / 7)
}

/// The same number in `len` bytes, if it has such a form.
pub fn padded(n: u64, len: usize) -> Option<Vec<u8>> {
    let mut out = vec![];
    write(n, &mut out);
    if len < out.len() || len > 10 {
        return None;
    }
    while out.len() < len {
        let last = out.len() - 1;
        out[last] += 128;
        out.push(0);
    }
    Some(out)
}

/// CRC-32 as in IEEE 802.3, reflected.
pub fn crc32(bytes: &[u8]) -> u32 {
    let mut register = u32::MAX;
    for &b in bytes {
        register ^= u32::from(b);
        for _ in 0..8 {
            register = if register % 2 == 1 { (register >> 1) ^ 0xEDB8_8320 } else { register >> 1 };
        }
    }
    !register
}

#[cfg(test)]
mod tests {
    use super::*;

    #[test]
    fn documents_examples() {
        let spelled = |n| {
            let mut out = vec![];
            write(n, &mut out);
            out
        };
        assert_eq!(spelled(127), [0x7f]);
        assert_eq!(spelled(128), [0x80, 1]);
        assert_eq!(spelled(300), [0xac, 2]);
        assert_eq!(spelled(u64::MAX), [[0xff; 9].as_slice(), &[1]].concat());
        assert_eq!(read(&[0x80, 0], 0), Number::Done { value: 0, next: 2 });
        assert_eq!(read(&[[0xff; 9].as_slice(), &[2]].concat(), 0), Number::Overflow);
        assert_eq!(read(&[0x80], 0), Number::Eof);
        assert_eq!(crc32(b"123456789"), 0xCBF4_3926);
    }

    #[test]
    fn lengths() {
        for k in 0..64 {
            for n in [1u64 << k, (1u64 << k) - 1, u64::MAX >> k] {
                let mut out = vec![];
                write(n, &mut out);
                assert_eq!(length(n), out.len() as u64);
            }
        }
    }
}
