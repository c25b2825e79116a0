//! Lower-case hex without spaces, `-` for empty: the form of bytes and words in requests and answers.

const DIGITS: &[u8; 16] = b"0123456789abcdef";

/// Bytes as hex.
pub fn of_bytes(bytes: &[u8]) -> String {
    if bytes.is_empty() {
        return "-".to_string();
    }
    let mut out = String::with_capacity(2 * bytes.len());
    for byte in bytes {
        out.push(DIGITS[usize::from(byte >> 4)] as char);
        out.push(DIGITS[usize::from(byte & 15)] as char);
    }
    out
}

/// Words as hex, 16 digits each, most significant first.
pub fn of_words(words: &[u64]) -> String {
    let bytes: Vec<u8> = words.iter().flat_map(|word| word.to_be_bytes()).collect();
    of_bytes(&bytes)
}

/// The bytes that a field of hex stands for.
pub fn to_bytes(field: &[u8]) -> Result<Vec<u8>, &'static str> {
    if field == b"-" {
        return Ok(Vec::new());
    }
    if field.is_empty() {
        return Err("empty field");
    }
    if field.len() % 2 != 0 {
        return Err("odd number of hex digits");
    }
    field.chunks_exact(2).map(|pair| Ok(digit(pair[0])? << 4 | digit(pair[1])?)).collect()
}

/// The words that a field of hex stands for.
pub fn to_words(field: &[u8]) -> Result<Vec<u64>, &'static str> {
    let bytes = to_bytes(field)?;
    if bytes.len() % 8 != 0 {
        return Err("a word has 16 hex digits");
    }
    Ok(bytes.chunks_exact(8).map(|word| word.iter().fold(0, |sum, &byte| sum << 8 | u64::from(byte))).collect())
}

fn digit(byte: u8) -> Result<u8, &'static str> {
    match byte {
        b'0'..=b'9' => Ok(byte - b'0'),
        b'a'..=b'f' => Ok(byte - b'a' + 10),
        _ => Err("not a lower-case hex digit"),
    }
}
