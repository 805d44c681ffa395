//! Every one-byte change of a text, as pairs to report on and as a script of loads.

use super::pairs::Pair;
use crate::field::{Bits, Bytes, Fermat, Field};
use crate::making::random_table;
use crate::prng::Random;
use crate::text::{read, write};

/// Numbers of states and letters of which the text is short.
const SIZES: [(usize, usize); 7] = [(0, 1), (0, 6), (1, 1), (1, 2), (1, 3), (2, 1), (2, 2)];

/// A short text of a table.
fn short_text<F: Field>(random: &mut Random) -> Vec<u8> {
    let (n, k) = random.pick(&SIZES);
    write(&random_table::<F>(random, n, k))
}

/// Every text that differs from this one in one byte: each position with each of 255 other bytes.
fn one_byte_changes(text: &[u8]) -> impl Iterator<Item = Vec<u8>> {
    (0..text.len()).flat_map(move |at| {
        (0..=u8::MAX).filter(move |&byte| byte != text[at]).map(move |byte| {
            let mut made = text.to_vec();
            made[at] = byte;
            made
        })
    })
}

/// Every one-byte change of so many texts over a field, beside the text itself: of every other text as the first of the
/// pair, of the rest as the second.
pub fn changes<F: Field>(seed: u64, count: usize) -> Vec<Pair> {
    let mut random = Random::new(seed);
    let mut made = Vec::new();
    for turn in 0..count {
        let text = short_text::<F>(&mut random);
        let beside = |changed| if turn % 2 == 0 { (changed, text.clone()) } else { (text.clone(), changed) };
        made.extend(one_byte_changes(&text).map(beside));
    }
    made
}

/// So many one-byte changes, each of a text of its own, beside that text.
pub fn sample<F: Field>(seed: u64, count: usize) -> Vec<Pair> {
    let mut random = Random::new(seed);
    let changed = |turn: usize| {
        let text = short_text::<F>(&mut random);
        let mut made = text.clone();
        made[random.below(text.len())] ^= random.between(1, 255) as u8;
        if turn % 2 == 0 { (made, text) } else { (text, made) }
    };
    (0..count).map(changed).collect()
}

fn load(script: &mut Vec<u8>, text: &[u8], to: u64) {
    script.extend_from_slice(format!("text t {}\n", text.len()).as_bytes());
    script.extend_from_slice(text);
    script.extend_from_slice(format!("\nload t {to}\n").as_bytes());
}

fn loads_over<F: Field>(script: &mut Vec<u8>, random: &mut Random) {
    let text = short_text::<F>(random);
    script.extend_from_slice(format!("field {}\n", F::ORDER).as_bytes());
    load(script, &text, 1);
    for changed in one_byte_changes(&text) {
        load(script, &changed, 2);
        if read::<F>(&changed).is_ok() {
            script.extend_from_slice(b"compare 1 2\n");
        }
    }
}

/// A script that loads every one-byte change of so many texts of each field, and compares those that can be read with
/// the text itself.
pub fn loads(seed: u64, count: usize) -> Vec<u8> {
    let mut random = Random::new(seed);
    let mut script = Vec::new();
    for _ in 0..count {
        loads_over::<Bits>(&mut script, &mut random);
        loads_over::<Bytes>(&mut script, &mut random);
        loads_over::<Fermat>(&mut script, &mut random);
    }
    script
}

#[cfg(test)]
mod tests {
    use super::*;
    use crate::report::report_line;
    use crate::script::Script;
    use std::collections::HashSet;

    #[test]
    fn each_change_once() {
        let text = short_text::<Fermat>(&mut Random::new(3));
        let made: HashSet<Vec<u8>> = one_byte_changes(&text).collect();
        assert_eq!(made.len(), 255 * text.len());
        let distance = |other: &[u8]| text.iter().zip(other).filter(|(a, b)| a != b).count();
        assert!(made.iter().all(|other| other.len() == text.len() && distance(other) == 1));
    }

    #[test]
    fn changes_meet_every_refusal_that_they_can() {
        let pairs = changes::<Fermat>(1, 4);
        let lines = pairs.iter().map(|(first, second)| report_line::<Fermat>(first, second));
        let kinds: HashSet<String> = lines
            .map(|line| if line.starts_with('R') { line[..23].to_string() } else { line[..1].to_string() })
            .collect();
        for refusal in 11..=14 {
            for text in 1..=2 {
                assert!(kinds.contains(&format!("R{text:>11}{refusal:>11}")), "{text} {refusal}");
            }
        }
        assert!(kinds.contains("Q") && kinds.contains("D"));
    }

    #[test]
    fn loads_are_a_script() {
        let script = loads(1, 1);
        let told = Script::parse(&script, |_| None).expect("no mistakes").perform();
        let told = String::from_utf8(told).unwrap();
        assert!(told.lines().count() > 3 * 255 * 41 && told.contains("compare: differs at"));
    }
}
