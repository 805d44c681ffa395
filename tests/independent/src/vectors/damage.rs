//! Texts that are damaged in one place or a few.

use crate::prng::Random;

/// Bytes that are likely to matter: what may stand somewhere in a text, and the neighbours of such bytes.
pub const TELLING: [u8; 24] = *b" 0123456789TSMEZz\n\r\t/:\x00\xff";

/// Numbers that are likely to matter.
pub const NUMBERS: [u64; 14] = [0, 1, 2, 3, 6, 7, 16, 17, 255, 256, 65536, 65537, 999_999_999, 9_999_999_999];

/// A byte other than the one given.
pub fn another_byte(random: &mut Random, byte: u8) -> u8 {
    loop {
        let other = if random.chance(80) { random.pick(&TELLING) } else { random.below(256) as u8 };
        if other != byte {
            return other;
        }
    }
}

/// The text with one byte changed.
pub fn changed_at(random: &mut Random, text: &[u8], at: usize) -> Vec<u8> {
    let mut made = text.to_vec();
    made[at] = another_byte(random, made[at]);
    made
}

/// The text with one number put in another's place, where it has numbers.
fn renumbered(random: &mut Random, text: &[u8]) -> Vec<u8> {
    let starts: Vec<usize> = (0..text.len().saturating_sub(10)).filter(|&at| is_number(&text[at..at + 11])).collect();
    let mut made = text.to_vec();
    if !starts.is_empty() {
        let at = random.pick(&starts);
        made[at..at + 11].copy_from_slice(format!("{:>11}", random.pick(&NUMBERS)).as_bytes());
    }
    made
}

/// Whether bytes are spaces and then digits, as a number's columns are.
fn is_number(columns: &[u8]) -> bool {
    let digits = columns.trim_ascii_start();
    columns.starts_with(b" ") && !digits.is_empty() && digits.iter().all(u8::is_ascii_digit)
}

/// The text with one line left out, given twice, or moved to the end.
fn relined(random: &mut Random, text: &[u8]) -> Vec<u8> {
    let mut lines: Vec<&[u8]> = text.split_inclusive(|&byte| byte == b'\n').collect();
    let at = random.below(lines.len());
    match random.below(4) {
        0 => drop(lines.remove(at)),
        1 => lines.insert(at, lines[at]),
        2 => {
            let line = lines.remove(at);
            lines.push(line);
        }
        _ => {
            let other = random.below(lines.len());
            lines.swap(at, other);
        }
    }
    lines.concat()
}

/// The text with one thing wrong, as a rule; some damage leaves a text that can be read.
pub fn damaged(random: &mut Random, text: &[u8]) -> Vec<u8> {
    if text.is_empty() {
        return b"\n".to_vec();
    }
    let at = random.below(text.len());
    let mut made = text.to_vec();
    match random.below(16) {
        0..=4 => return changed_at(random, text, at),
        5..=6 => drop(made.remove(at)),
        7..=8 => made.insert(at, random.pick(&TELLING)),
        9..=10 => made.truncate(at),
        11 => made.push(random.pick(&TELLING)),
        12 => made.extend_from_slice(text),
        13..=14 => return renumbered(random, text),
        _ => return relined(random, text),
    }
    made
}
