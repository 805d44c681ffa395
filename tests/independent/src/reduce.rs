//! The reduced form of a table.

use crate::field::{Element, Field};
use crate::linear::{Echelon, Matrix, Vector, combination, unit};
use crate::table::{Table, Word, extended};

/// Words such that a residual which is zero at all of them is zero: the columns of these words span those of all words.
///
/// A column that is a combination of others stays one when a letter is put before it, so only the words found are
/// followed up, by each letter put before them.
fn test_words<F: Field>(table: &Table<F>) -> Vec<Word> {
    let mut echelon = Echelon::default();
    let mut found: Vec<(Word, Vector<F>)> = Vec::new();
    if echelon.admit(&table.end) {
        found.push((Word::new(), table.end.clone()));
    }
    let mut next = 0;
    while next < found.len() {
        for letter in table.alphabet() {
            let column = table.matrix(letter).before_column(&found[next].1);
            if echelon.admit(&column) {
                let word = [&[letter], &found[next].0[..]].concat();
                found.push((word, column));
            }
        }
        next += 1;
    }
    found.into_iter().map(|(word, _)| word).collect()
}

/// What a word's residual says of each test word.
fn sample<F: Field>(table: &Table<F>, word: &[u8], tests: &[Word]) -> Vector<F> {
    tests.iter().map(|test| table.weight(&[word, test].concat())).collect()
}

/// The leading words of a table in order, with their samples.
///
/// What is said of kept words holds of leading ones: only a leading word followed by a letter can be leading.
fn leading_words<F: Field>(table: &Table<F>, tests: &[Word]) -> (Vec<Word>, Vec<Vector<F>>) {
    let (mut words, mut samples) = (Vec::new(), Vec::new());
    let mut level = vec![Word::new()];
    while !level.is_empty() {
        let mut next = Vec::new();
        for word in level {
            let seen = sample(table, &word, tests);
            if combination(&samples, &seen).is_none() {
                next.extend(table.alphabet().map(|letter| extended(&word, letter)));
                words.push(word);
                samples.push(seen);
            }
        }
        level = next;
    }
    (words, samples)
}

/// The reduced form of a table.
pub fn reduced<F: Field>(table: &Table<F>) -> Table<F> {
    let tests = test_words(table);
    let (words, samples) = leading_words(table, &tests);
    let states = words.len();
    let coefficients = |word: &Word, letter: u8| -> Vector<F> {
        combination(&samples, &sample(table, &extended(word, letter), &tests)).expect("leading words span")
    };
    let matrix = |letter: u8| {
        let entries: Vec<Element<F>> = words.iter().flat_map(|word| coefficients(word, letter)).collect();
        Matrix::from_entries(states, entries)
    };
    Table {
        start: if states == 0 { Vec::new() } else { unit(states, 0) },
        matrices: table.alphabet().map(matrix).collect(),
        end: words.iter().map(|word| table.weight(word)).collect(),
    }
}

#[cfg(test)]
mod tests {
    use super::*;
    use crate::compare::{Verdict, compare};
    use crate::field::{Bits, Bytes, Fermat};
    use crate::making::{dressed, random_table};
    use crate::prng::Random;
    use crate::table::tests::fibonacci;
    use crate::table::words;

    #[test]
    fn fibonacci_forms() {
        let table = fibonacci([0, 1]);
        assert_eq!(reduced(&table), table);
        assert_eq!(reduced(&fibonacci([0, 0])), Table::nothing(1));
        let square = reduced(&table.product(&table));
        let codes: Vec<u32> = square.elements().map(Element::code).collect();
        assert_eq!(codes, [1, 0, 0, 0, 1, 0, 0, 0, 1, 65536, 2, 2, 0, 1, 1]);
    }

    /// The leading words by the definition, where residuals are sampled at all words up to a length that is enough.
    fn leading_by_definition<F: Field>(table: &Table<F>) -> Vec<Word> {
        let all = words(table.letters() as u8, table.states());
        let (mut leading, mut smaller) = (Vec::new(), Vec::new());
        for word in &all {
            let seen = sample(table, word, &all);
            if combination(&smaller, &seen).is_none() {
                leading.push(word.clone());
                smaller.push(seen);
            }
        }
        leading
    }

    fn holds_of_reduced_forms<F: Field>(random: &mut Random) {
        let (states, letters) = (random.below(4), random.between(1, 2));
        let table = random_table::<F>(random, states, letters);
        let form = reduced(&table);
        assert!(matches!(compare(&table, &form), Verdict::Alike { .. }));
        assert_eq!(leading_words(&table, &test_words(&table)).0, leading_by_definition(&table));
        assert_eq!(reduced(&dressed(random, &table, 9)), form);
        assert_eq!(reduced(&form), form);
    }

    #[test]
    fn reduced_forms() {
        let mut random = Random::new(17);
        for _ in 0..60 {
            holds_of_reduced_forms::<Bits>(&mut random);
            holds_of_reduced_forms::<Bytes>(&mut random);
            holds_of_reduced_forms::<Fermat>(&mut random);
        }
    }
}
