//! Numbers, LUNs and hex digits in bytes.

/// The number that big-endian bytes stand for (at most eight of them).
pub fn number(bytes: &[u8]) -> u64 {
    bytes.iter().fold(0, |n, b| n << 8 | u64::from(*b))
}

/// nn of a LUN of the house form 00h, nn, six 00h; nothing for any other bytes.
pub fn lun_number(bytes: &[u8]) -> Option<u8> {
    match bytes {
        [0, nn, 0, 0, 0, 0, 0, 0] => Some(*nn),
        _ => None,
    }
}

pub fn lun_bytes(nn: u8) -> [u8; 8] {
    [0, nn, 0, 0, 0, 0, 0, 0]
}

/// Hex digits in lower case; `-` for no bytes at all.
pub fn hex(bytes: &[u8]) -> String {
    if bytes.is_empty() {
        return "-".to_string();
    }
    let mut text = String::with_capacity(bytes.len() * 2);
    for byte in bytes {
        for nibble in [byte >> 4, byte & 15] {
            text.push(char::from_digit(u32::from(nibble), 16).unwrap_or('?'));
        }
    }
    text
}

/// The bytes that a word of hex digits stands for; `-` stands for none.
pub fn unhex(word: &[u8]) -> Option<Vec<u8>> {
    if word == b"-" {
        return Some(Vec::new());
    }
    if word.is_empty() || !word.len().is_multiple_of(2) {
        return None;
    }
    word.chunks(2)
        .map(|pair| Some(digit(pair[0])? << 4 | digit(pair[1])?))
        .collect()
}

fn digit(byte: u8) -> Option<u8> {
    let value = char::from(byte).to_digit(16)?;
    u8::try_from(value).ok()
}
