//! What the table program reads and prints.

use super::{plan_words, Answer};

/// The words that the table program makes of its bytes: at most 512 of them, little-endian, one to
/// three left over as a word of kind 0, which is allowed nowhere.
pub fn words_of(bytes: &[u8]) -> Vec<u32> {
    let read = &bytes[..bytes.len().min(512)];
    read.chunks(4).map(|four| four.try_into().map_or(0, u32::from_le_bytes)).collect()
}

/// What the table program prints for its input.
pub fn printed(bytes: &[u8]) -> String {
    let mut table = vec![0; 8192];
    let answer = plan_words(&words_of(bytes), &mut table);
    if answer.number != 0 {
        let Answer { number, place, mask, arrival } = answer;
        return format!("refused {number} place {place} axes {mask} arrival {arrival}\n");
    }
    let width = 3 * answer.mask.count_ones() as usize;
    let mut text = format!("arrival {}\n", answer.arrival);
    for tick in 0..=answer.arrival as usize {
        text += &tick.to_string();
        for cell in &table[width * tick..width * (tick + 1)] {
            text += &format!(" {cell}");
        }
        text += "\n";
    }
    text
}
