//! Job words as hexadecimal text and as bytes.

use std::fmt::Write;

/// Words as bytes, each little-endian.
pub fn bytes_of(words: &[u32]) -> Vec<u8> {
    words.iter().flat_map(|word| word.to_le_bytes()).collect()
}

/// Words as hexadecimal text: mask and arrival on the first line, then a line
/// for each axis, last the end word.
pub fn hexadecimal_of(words: &[u32]) -> String {
    const START_POSITION: u32 = 3;
    const HIGH_POSITION: u32 = 14;
    const END: u32 = 15;
    let kind_at = |index: usize| words.get(index).map(|word| word >> 28);
    let mut text = String::new();
    for (index, word) in words.iter().enumerate() {
        let separator = match word >> 28 {
            _ if index == 0 => "",
            START_POSITION if kind_at(index - 1) != Some(HIGH_POSITION) => "\n",
            HIGH_POSITION if kind_at(index + 1) == Some(START_POSITION) => "\n",
            END => "\n",
            _ => " ",
        };
        let _ = write!(text, "{separator}{word:08X}");
    }
    text + "\n"
}

/// The words of little-endian bytes.
pub fn from_bytes(content: &[u8]) -> Result<Vec<u32>, String> {
    let words = content.chunks_exact(4);
    match words.remainder() {
        [] => Ok(words.map(|word| u32::from_le_bytes([word[0], word[1], word[2], word[3]])).collect()),
        left => Err(format!("word {}: expected four bytes, found {}", content.len() / 4, left.len())),
    }
}

/// The words of hexadecimal text; `#` begins a comment.
pub fn from_hexadecimal(text: &str) -> Result<Vec<u32>, String> {
    let mut words = Vec::new();
    for (index, line) in text.lines().enumerate() {
        for word in line.split('#').next().unwrap_or_default().split_whitespace() {
            let digits = word.strip_prefix("0x").unwrap_or(word);
            match u32::from_str_radix(digits, 16) {
                Ok(number) if !digits.starts_with('+') => words.push(number),
                _ => {
                    let line = index + 1;
                    return Err(format!("line {line}: expected a word of 1 to 8 hexadecimal digits, found `{word}`"));
                }
            }
        }
    }
    Ok(words)
}
