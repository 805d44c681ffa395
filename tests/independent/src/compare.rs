//! Whether two tables weigh every word alike, and which word is the first that they do not.

use crate::field::{Element, Field};
use crate::linear::{Echelon, Vector, dot};
use crate::table::{Table, Word, extended};

/// What a comparison says.
#[derive(Clone, PartialEq, Eq, Debug)]
pub enum Verdict {
    /// Every word weighs alike.
    Alike {
        /// The number of tried words.
        tried: usize,
        /// The number of kept words.
        kept: usize,
    },
    /// Some word weighs differently.
    Differs {
        /// The least such word.
        word: Word,
        /// The codes of its weights under the first and the second table.
        weights: [u32; 2],
        /// The number of tried words up to it.
        tried: usize,
    },
}

/// A word with its rows under both tables.
struct Candidate<F: Field> {
    word: Word,
    rows: [Vector<F>; 2],
}

impl<F: Field> Candidate<F> {
    fn followed_by(&self, letter: u8, tables: [&Table<F>; 2]) -> Self {
        let row = |side: usize| tables[side].matrix(letter).after_row(&self.rows[side]);
        Self { word: extended(&self.word, letter), rows: [row(0), row(1)] }
    }

    fn weights(&self, tables: [&Table<F>; 2]) -> [Element<F>; 2] {
        [dot(&self.rows[0], &tables[0].end), dot(&self.rows[1], &tables[1].end)]
    }
}

/// Compares two tables with the same letters.
///
/// The tried words are gone through one length after another: those of the next length are the kept words of this
/// length, in order, each followed by every letter.
pub fn compare<F: Field>(first: &Table<F>, second: &Table<F>) -> Verdict {
    assert_eq!(first.letters(), second.letters());
    let tables = [first, second];
    let (mut tried, mut kept) = (0, 0);
    let mut echelon = Echelon::default();
    let mut level = vec![Candidate { word: Word::new(), rows: [first.start.clone(), second.start.clone()] }];
    while !level.is_empty() {
        let mut kept_here = Vec::new();
        for candidate in level {
            tried += 1;
            let [left, right] = candidate.weights(tables);
            if left != right {
                return Verdict::Differs { word: candidate.word, weights: [left.code(), right.code()], tried };
            }
            if echelon.admit(&candidate.rows.concat()) {
                kept_here.push(candidate);
            }
        }
        kept += kept_here.len();
        level = kept_here
            .iter()
            .flat_map(|candidate| first.alphabet().map(|letter| candidate.followed_by(letter, tables)))
            .collect();
    }
    Verdict::Alike { tried, kept }
}

#[cfg(test)]
mod tests {
    use super::*;
    use crate::field::{Bits, Bytes, Fermat};
    use crate::linear::combination;
    use crate::making::{dressed, parted_sequences, random_table};
    use crate::prng::Random;
    use crate::table::tests::fibonacci;
    use crate::table::words;

    /// The verdict by the definitions alone, for tables so small that all words with as many letters as both have
    /// states together can be gone through.
    fn by_definition<F: Field>(first: &Table<F>, second: &Table<F>) -> Verdict {
        let pair_row = |word: &Word| -> Vector<F> {
            let row = |t: &Table<F>| word.iter().fold(t.start.clone(), |row, &a| t.matrix(a).after_row(&row));
            [row(first), row(second)].concat()
        };
        let mut spanning: Vec<Vector<F>> = Vec::new();
        let mut kept: Vec<Word> = Vec::new();
        let mut tried = 0;
        for word in words(first.letters() as u8, first.states() + second.states()) {
            if word.is_empty() || kept.contains(&word[..word.len() - 1].to_vec()) {
                tried += 1;
            }
            let weights = [first.weight(&word).code(), second.weight(&word).code()];
            if weights[0] != weights[1] {
                return Verdict::Differs { word, weights, tried };
            }
            let row = pair_row(&word);
            if combination(&spanning, &row).is_none() {
                spanning.push(row);
                kept.push(word);
            }
        }
        Verdict::Alike { tried, kept: kept.len() }
    }

    fn agrees_with_the_definition<F: Field>(random: &mut Random) {
        let letters = random.between(1, 2);
        let (n1, n2) = (random.below(4), random.below(4));
        let first = random_table::<F>(random, n1, letters);
        let second = random_table::<F>(random, n2, letters);
        assert_eq!(compare(&first, &second), by_definition(&first, &second));
        let other = dressed(random, &first, 4);
        assert_eq!(compare(&first, &other), by_definition(&first, &other));
    }

    #[test]
    fn small_tables_by_definition() {
        let mut random = Random::new(11);
        for _ in 0..60 {
            agrees_with_the_definition::<Bits>(&mut random);
            agrees_with_the_definition::<Bytes>(&mut random);
            agrees_with_the_definition::<Fermat>(&mut random);
        }
    }

    #[test]
    fn fibonacci_with_itself() {
        let table = fibonacci([0, 1]);
        assert_eq!(compare(&table, &table), Verdict::Alike { tried: 3, kept: 2 });
    }

    #[test]
    fn tables_without_states() {
        let nothing = Table::<Fermat>::nothing(6);
        assert_eq!(compare(&nothing, &nothing), Verdict::Alike { tried: 1, kept: 0 });
    }

    #[test]
    fn the_longest_word() {
        let mut random = Random::new(3);
        let (first, second) = parted_sequences::<Fermat>(&mut random, 16, 16, 1);
        let Verdict::Differs { word, tried, .. } = compare(&first, &second) else { panic!("they differ") };
        assert_eq!((word, tried), (vec![1; 31], 32));
    }
}
