//! Texts made at random: bytes of any kind, lines with numbers of any kind, and good beginnings that go on anyhow.

use super::damage::{NUMBERS, TELLING};
use super::pairs::Pair;
use crate::field::Field;
use crate::making::random_table;
use crate::prng::Random;
use crate::text::{line, write};

/// A good text, of few states and letters.
fn good<F: Field>(random: &mut Random) -> Vec<u8> {
    let (n, k) = (random.below(4), random.between(1, 3));
    write(&random_table::<F>(random, n, k))
}

/// Bytes that are likely to matter, or any.
fn noise(random: &mut Random, most: usize) -> Vec<u8> {
    let any = random.chance(30);
    let byte = |random: &mut Random| if any { random.below(256) as u8 } else { random.pick(&TELLING) };
    (0..random.between(0, most)).map(|_| byte(random)).collect()
}

/// The beginning of a good text, and then anything; now and then more of the good text after that.
fn gone_astray<F: Field>(random: &mut Random) -> Vec<u8> {
    let text = good::<F>(random);
    let at = random.below(text.len() + 1);
    let mut made = [&text[..at], &noise(random, 30)].concat();
    if random.chance(40) {
        made.extend_from_slice(&text[random.between(at, text.len())..]);
    }
    made
}

/// The lines of a table in which some number, kind or count of numbers is another than is due.
fn misnumbered<F: Field>(random: &mut Random) -> Vec<u8> {
    let (n, k, q) = (random.below(4) as u64, random.between(1, 3) as u64, u64::from(F::ORDER));
    let matrices = (1..=k).flat_map(|letter| (1..=n).map(move |row| ('M', vec![letter, row], n)));
    let heads = [('T', vec![n, k, q], 0), ('S', vec![], n)].into_iter().chain(matrices);
    let lines: Vec<_> = heads.chain([('E', vec![], n), ('Z', vec![], 0)]).collect();
    let astray = 1 + random.below(4) * random.below(10);
    let mut made = String::new();
    for (mut kind, mut numbers, codes) in lines {
        numbers.extend((0..codes).map(|_| random.bits() % q));
        for number in &mut numbers {
            if random.chance(astray) {
                *number = random.pick(&NUMBERS);
            }
        }
        if random.chance(astray) {
            numbers.push(random.pick(&NUMBERS));
        }
        if random.chance(astray) {
            numbers.pop();
        }
        if random.chance(astray) {
            kind = random.pick(&['T', 'S', 'M', 'E', 'Z', 'm', ' ']);
        }
        made += &line(kind, numbers);
    }
    made.into_bytes()
}

fn any_text<F: Field>(random: &mut Random) -> Vec<u8> {
    match random.below(10) {
        0 => noise(random, 300),
        1..=5 => gone_astray::<F>(random),
        _ => misnumbered::<F>(random),
    }
}

/// Pairs of such texts over a field, so many of them, by a seed. In some the other text is good.
pub fn texts<F: Field>(seed: u64, count: usize) -> Vec<Pair> {
    let mut random = Random::new(seed);
    let mut one = || if random.chance(40) { good::<F>(&mut random) } else { any_text::<F>(&mut random) };
    (0..count).map(|_| (one(), one())).collect()
}

#[cfg(test)]
mod tests {
    use super::*;
    use crate::field::Fermat;
    use crate::text::read;
    use std::collections::HashSet;

    #[test]
    fn every_refusal_occurs_late_and_early() {
        let pairs = texts::<Fermat>(1, 1000);
        let found = pairs.iter().flat_map(|(first, second)| [read::<Fermat>(first), read::<Fermat>(second)]);
        let faults: HashSet<(u8, bool)> = found.filter_map(Result::err).map(|f| (f.number, f.line > 2)).collect();
        for number in 10..=14 {
            assert!(faults.contains(&(number, false)) && faults.contains(&(number, true)), "{number}");
        }
        assert!(faults.contains(&(15, true)));
    }
}
