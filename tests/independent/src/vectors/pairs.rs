//! Pairs of texts to report on.

use super::damage::{changed_at, damaged};
use crate::field::{Bits, Bytes, Field};
use crate::making::{
    alternating, any_factor, chain, dressed, in_another_basis, parted_sequences, random_table, there_and_back,
};
use crate::prng::Random;
use crate::table::{Table, Word};
use crate::text::write;

/// Two texts.
pub type Pair = (Vec<u8>, Vec<u8>);

/// Pairs of texts over a field, so many of them, by a seed.
pub fn pairs<F: Field>(seed: u64, count: usize) -> Vec<Pair> {
    let mut random = Random::new(seed);
    let mut made = Vec::new();
    while made.len() < count {
        match random.below(400) {
            0 => made.extend(every_change::<F>(&mut random)),
            1..=3 => made.push(texts(large::<F>(&mut random))),
            4..=100 => made.push(texts(alike::<F>(&mut random))),
            101..=180 => made.push(texts(late::<F>(&mut random))),
            181..=230 => made.push(texts(unrelated::<F>(&mut random))),
            231..=250 => made.push(odd::<F>(&mut random)),
            _ => made.push(with_damage::<F>(&mut random)),
        }
    }
    made.truncate(count);
    made
}

/// Pairs of texts of 16 states that differ first at a word of 31 letters, any word over 2 to 6 letters, so many of them.
pub fn parted<F: Field>(seed: u64, count: usize) -> Vec<Pair> {
    let mut random = Random::new(seed);
    (0..count).map(|_| texts(longest::<F>(&mut random))).collect()
}

/// Two tables of 16 states, over 2 to 6 letters, that differ first at some word of 31 letters.
pub fn longest<F: Field>(random: &mut Random) -> (Table<F>, Table<F>) {
    let k = random.between(2, 6);
    let word: Word = (0..31).map(|_| random.between(1, k) as u8).collect();
    let (first, second) = there_and_back(random, &word, k);
    (in_another_basis(random, &first), in_another_basis(random, &second))
}

fn texts<F: Field>((first, second): (Table<F>, Table<F>)) -> Pair {
    (write(&first), write(&second))
}

/// Few states and letters, as a rule.
fn small(random: &mut Random) -> (usize, usize) {
    (random.pick(&[0, 1, 1, 1, 1, 2, 2, 2, 3]), random.pick(&[1, 1, 1, 1, 1, 2, 2, 3, 6]))
}

/// Two tables that weigh alike.
fn alike<F: Field>(random: &mut Random) -> (Table<F>, Table<F>) {
    let (n, k) = small(random);
    let mut table = random_table(random, n, k);
    if n <= 2 && random.chance(30) {
        let states = random.between(1, 2);
        let other = random_table(random, states, k);
        table = if random.chance(50) { table.sum(&other) } else { table.product(&other) };
    }
    let most = table.states() + 2;
    let other = dressed(random, &table, most);
    if random.chance(50) { (table, other) } else { (other, table) }
}

/// Two tables that differ at a long word first, for their size.
fn late<F: Field>(random: &mut Random) -> (Table<F>, Table<F>) {
    let k = random.pick(&[1, 1, 1, 2, 3]);
    match random.below(3) {
        0 => {
            let (n1, n2) = (random.between(1, 5), random.between(1, 5));
            let (f, g) = parted_sequences(random, n1, n2, k);
            (dressed(random, &f, n1), dressed(random, &g, n2))
        }
        1 => {
            let word: Word = (0..random.below(5)).map(|_| random.between(1, k) as u8).collect();
            let added = chain(&word, k, any_factor(random));
            let states = random.below(3);
            let base = random_table(random, states, k);
            let other = dressed(random, &base.sum(&added), word.len() + 4);
            if random.chance(50) { (base, other) } else { (other, base) }
        }
        _ => {
            let turns = alternating(2, random.between(1, 2) as u8, random.between(1, 2) as u8);
            let states = random.between(1, 3);
            let (f, g) = parted_sequences(random, states, 2, 2);
            (f.product(&turns), turns.product(&g))
        }
    }
}

fn unrelated<F: Field>(random: &mut Random) -> (Table<F>, Table<F>) {
    let ((n1, k), (n2, other_k)) = (small(random), small(random));
    let k2 = if random.chance(70) { k } else { other_k };
    (random_table(random, n1, k), random_table(random, n2, k2))
}

/// Tables of up to 16 states.
fn large<F: Field>(random: &mut Random) -> (Table<F>, Table<F>) {
    match random.below(4) {
        0 => parted_sequences(random, 16, 16, 1),
        1 => {
            let (n1, n2) = (random.between(9, 16), random.between(9, 15));
            parted_sequences(random, n1, n2, 1)
        }
        2 => {
            let table = random_table(random, 16, 1);
            let other = dressed(random, &table, 16);
            (table, other)
        }
        _ => {
            let table = random_table(random, 7, 2);
            let other = dressed(random, &table, 11);
            (table, other)
        }
    }
}

/// Texts of another field, and texts that are hardly texts.
fn odd<F: Field>(random: &mut Random) -> Pair {
    let (n, k) = small(random);
    let good = write(&random_table::<F>(random, n, k));
    let bad = match random.below(5) {
        0 => write(&random_table::<Bits>(random, n, k)),
        1 => write(&random_table::<Bytes>(random, n, k)),
        2 => Vec::new(),
        3 => (0..random.below(20)).map(|_| random.below(256) as u8).collect(),
        _ => [&good[..], &vec![b'\n'; if random.chance(5) { 19_999 } else { 2 }]].concat(),
    };
    if random.chance(50) { (good, bad) } else { (bad, good) }
}

/// Two texts of which one is damaged, or both are.
fn with_damage<F: Field>(random: &mut Random) -> Pair {
    let (n, k) = (random.below(3), random.pick(&[1, 1, 1, 2]));
    let good = write(&random_table::<F>(random, n, k));
    let mut bad = damaged(random, &good);
    if random.chance(20) {
        bad = damaged(random, &bad);
    }
    let other = write(&Table::<F>::nothing(k));
    match random.below(5) {
        0 => (bad, damaged(random, &other)),
        1..=2 => (other, bad),
        _ => (bad, other),
    }
}

/// Every byte of a small text changed, one after another.
fn every_change<F: Field>(random: &mut Random) -> Vec<Pair> {
    let states = random.below(2);
    let text = write(&random_table::<F>(random, states, 1));
    let other = write(&Table::<F>::nothing(1));
    let first = random.chance(50);
    (0..text.len())
        .map(|at| {
            let bad = changed_at(random, &text, at);
            if first { (bad, other.clone()) } else { (other.clone(), bad) }
        })
        .collect()
}

/// The pairs as one stream of blocks: a line with the number of bytes, the bytes, and a newline.
pub fn framed(pairs: &[Pair]) -> Vec<u8> {
    let texts = pairs.iter().flat_map(|(first, second)| [first, second]);
    texts.flat_map(|text| [format!("{}\n", text.len()).as_bytes(), text, b"\n"].concat()).collect()
}

/// The pairs of a stream of blocks, or nothing where it is none.
pub fn unframed(mut stream: &[u8]) -> Option<Vec<Pair>> {
    let mut texts = Vec::new();
    while !stream.is_empty() {
        let digits = stream.iter().position(|&byte| byte == b'\n')?;
        let length: usize = std::str::from_utf8(&stream[..digits]).ok()?.parse().ok()?;
        let (text, rest) = stream[digits + 1..].split_at_checked(length)?;
        texts.push(text.to_vec());
        stream = rest.strip_prefix(b"\n")?;
    }
    let (pairs, odd) = texts.as_chunks::<2>();
    odd.is_empty().then(|| pairs.iter().map(|[first, second]| (first.clone(), second.clone())).collect())
}

#[cfg(test)]
mod tests {
    use super::*;
    use crate::field::Fermat;
    use crate::report::report_line;
    use std::collections::HashSet;

    #[test]
    fn streams_come_back() {
        let made = pairs::<Bytes>(9, 300);
        assert_eq!(made.len(), 300);
        assert_eq!(unframed(&framed(&made)), Some(made));
        assert_eq!(unframed(b"1\nx"), None);
        assert_eq!(unframed(b"1\nx\n"), None);
    }

    /// The letters of the word in a line that has 31 of them.
    fn letters(line: &str) -> HashSet<String> {
        assert_eq!(line.len(), 387, "{line}");
        line.split_ascii_whitespace().skip(5).map(String::from).collect()
    }

    #[test]
    fn words_of_31_letters() {
        let mut most = 0;
        for (first, second) in parted::<Fermat>(1, 20) {
            let found = letters(&report_line::<Fermat>(&first, &second));
            assert!(found.len() > 1);
            most = most.max(found.len());
        }
        assert_eq!(most, 6);
        parted::<Bits>(1, 3).iter().for_each(|(first, second)| drop(letters(&report_line::<Bits>(first, second))));
        parted::<Bytes>(1, 3).iter().for_each(|(first, second)| drop(letters(&report_line::<Bytes>(first, second))));
    }

    #[test]
    fn every_kind_of_line_occurs() {
        let lines: Vec<String> =
            pairs::<Fermat>(1, 1500).iter().map(|(first, second)| report_line::<Fermat>(first, second)).collect();
        let kinds: HashSet<String> = lines
            .iter()
            .map(|line| if line.starts_with('R') { line[..23].to_string() } else { line[..1].to_string() })
            .collect();
        for due in ["Q".to_string(), "D".to_string(), format!("R{:>11}{:>11}", 0, 5)] {
            assert!(kinds.contains(&due), "{due}");
        }
        for refusal in 10..=15 {
            for text in 1..=2 {
                assert!(kinds.contains(&format!("R{text:>11}{refusal:>11}")), "{text} {refusal}");
            }
        }
        assert!(lines.iter().any(|line| line.len() == 387), "no word of 31 letters");
    }
}
