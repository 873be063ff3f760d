//! The fields of a case line, read and written.

use independent::reading::Tag;

/// A bytes field that would spread to more than this is not understood.
const MOST_CASE_BYTES: usize = 1 << 30;

/// A run of one byte from this length on is written as a group.
const GROUPED_RUN: usize = 16;

/// Decimal digits; a number too large for `usize` counts as the largest.
pub fn read_decimal(field: &[u8]) -> Option<usize> {
    if field.is_empty() || !field.iter().all(u8::is_ascii_digit) {
        return None;
    }
    Some(field.iter().fold(0usize, |number, digit| {
        number.saturating_mul(10).saturating_add(usize::from(digit - b'0'))
    }))
}

/// LEFT: a decimal number up to 4,294,967,295.
pub fn read_left(field: &[u8]) -> Option<u32> {
    read_decimal(field)?.try_into().ok()
}

/// WHICH: a decimal number or `none`.
pub fn read_which(field: &[u8]) -> Option<Option<usize>> {
    if field == b"none" {
        return Some(None);
    }
    read_decimal(field).map(Some)
}

pub fn write_which(which: Option<usize>) -> String {
    which.map_or("none".to_string(), |number| number.to_string())
}

/// TAG: eight hex digits, group first.
pub fn read_tag(field: &[u8]) -> Option<Tag> {
    if field.len() != 8 {
        return None;
    }
    let bytes = read_hex(field)?;
    Some(Tag(u32::from_be_bytes([bytes[0], bytes[1], bytes[2], bytes[3]])))
}

pub fn write_tag(tag: Tag) -> String {
    format!("{:08x}", tag.0)
}

/// Hex pairs of either case.
pub fn read_hex(field: &[u8]) -> Option<Vec<u8>> {
    if field.len() % 2 != 0 {
        return None;
    }
    field.chunks_exact(2).map(|pair| Some(digit(pair[0])? * 16 + digit(pair[1])?)).collect()
}

fn digit(character: u8) -> Option<u8> {
    char::from(character).to_digit(16).map(|value| value as u8)
}

/// Hex pairs in lower case.
pub fn write_hex(bytes: &[u8]) -> String {
    const DIGITS: &[u8; 16] = b"0123456789abcdef";
    let mut hex = String::with_capacity(2 * bytes.len());
    for byte in bytes {
        hex.push(char::from(DIGITS[usize::from(byte / 16)]));
        hex.push(char::from(DIGITS[usize::from(byte % 16)]));
    }
    hex
}

/// A bytes field: hex pairs and groups `[HEX*N]`, or `-` for no bytes.
pub fn read_bytes(field: &[u8]) -> Option<Vec<u8>> {
    if field == b"-" {
        return Some(Vec::new());
    }
    if field.is_empty() {
        return None;
    }
    let mut out = Vec::new();
    let mut rest = field;
    while let Some(&first) = rest.first() {
        if first == b'[' {
            let end = rest.iter().position(|&byte| byte == b']')?;
            let group = &rest[1..end];
            let star = group.iter().position(|&byte| byte == b'*')?;
            let (repeated, times) = (read_hex(&group[..star])?, read_decimal(&group[star + 1..])?);
            if repeated.is_empty() {
                return None;
            }
            let length = repeated.len().checked_mul(times)?.checked_add(out.len())?;
            if length > MOST_CASE_BYTES {
                return None;
            }
            for _ in 0..times {
                out.extend_from_slice(&repeated);
            }
            rest = &rest[end + 1..];
        } else {
            let end = rest.iter().position(|&byte| byte == b'[').unwrap_or(rest.len());
            out.extend_from_slice(&read_hex(&rest[..end])?);
            rest = &rest[end..];
        }
    }
    Some(out)
}

/// A bytes field; long runs of one byte become groups.
pub fn write_bytes(bytes: &[u8]) -> String {
    if bytes.is_empty() {
        return "-".to_string();
    }
    let mut field = String::new();
    for run in bytes.chunk_by(|one, next| one == next) {
        if run.len() >= GROUPED_RUN {
            field.push_str(&format!("[{:02x}*{}]", run[0], run.len()));
        } else {
            field.push_str(&write_hex(run));
        }
    }
    field
}

#[cfg(test)]
mod tests {
    use super::*;

    #[test]
    fn what_is_written_reads_back() {
        let mixed = [vec![1, 2], vec![3; 99]].concat();
        for bytes in [vec![], vec![0], vec![0; 15], vec![0xAB; 16], mixed] {
            assert_eq!(read_bytes(write_bytes(&bytes).as_bytes()), Some(bytes));
        }
        assert_eq!(write_bytes(&[7; 16]), "[07*16]");
        let tag = Tag::new(0x7FE0, 0x0010);
        assert_eq!(read_tag(write_tag(tag).as_bytes()), Some(tag));
        for which in [None, Some(0), Some(usize::MAX)] {
            assert_eq!(read_which(write_which(which).as_bytes()), Some(which));
        }
    }
}
