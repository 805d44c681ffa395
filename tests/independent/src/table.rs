//! Tables, words and weights, and the tables made of tables.

use crate::field::{Element, Field};
use crate::linear::{Matrix, Vector, dot, zeros};

/// The most states that a table has.
pub const MOST_STATES: usize = 16;

/// The most letters that a table has.
pub const MOST_LETTERS: usize = 6;

/// A word: letters, counted from 1.
pub type Word = Vec<u8>;

/// A table: a start row, a matrix for each letter, and an end column.
#[derive(Clone, PartialEq, Eq, Debug)]
pub struct Table<F: Field> {
    /// The start row.
    pub start: Vector<F>,
    /// The matrices, that of letter 1 first.
    pub matrices: Vec<Matrix<F>>,
    /// The end column.
    pub end: Vector<F>,
}

impl<F: Field> Table<F> {
    /// The number of states.
    pub fn states(&self) -> usize {
        self.start.len()
    }

    /// The number of letters.
    pub fn letters(&self) -> usize {
        self.matrices.len()
    }

    /// The letters in order.
    pub fn alphabet(&self) -> impl Iterator<Item = u8> + use<F> {
        1..=self.letters() as u8
    }

    /// The matrix of a letter of this table.
    pub fn matrix(&self, letter: u8) -> &Matrix<F> {
        &self.matrices[usize::from(letter) - 1]
    }

    /// The weight of a word over this table's letters.
    ///
    /// The columns are taken from the word's end on: (start (M1 (M2 .. end))).
    pub fn weight(&self, word: &[u8]) -> Element<F> {
        let column = word.iter().rev().fold(self.end.clone(), |column, &a| self.matrix(a).before_column(&column));
        dot(&self.start, &column)
    }

    /// The table that weighs f + g.
    pub fn sum(&self, other: &Self) -> Self {
        let first = self.states();
        let block = |(a, b): (&Matrix<F>, &Matrix<F>)| {
            Matrix::new(first + other.states(), |i, j| match (i < first, j < first) {
                (true, true) => a.at(i, j),
                (false, false) => b.at(i - first, j - first),
                _ => Element::ZERO,
            })
        };
        Self {
            start: [&self.start[..], &other.start].concat(),
            matrices: self.matrices.iter().zip(&other.matrices).map(block).collect(),
            end: [&self.end[..], &other.end].concat(),
        }
    }

    /// The table that weighs c f.
    pub fn scaled(&self, c: Element<F>) -> Self {
        Self { end: self.end.iter().map(|&e| e * c).collect(), ..self.clone() }
    }

    /// The table that weighs f g; state (i, j), counted from 0, is number i n2 + j.
    pub fn product(&self, other: &Self) -> Self {
        let n2 = other.states();
        let pairs =
            |a: &[Element<F>], b: &[Element<F>]| a.iter().flat_map(|&x| b.iter().map(move |&y| x * y)).collect();
        let matrix = |(a, b): (&Matrix<F>, &Matrix<F>)| {
            Matrix::new(self.states() * n2, |i, j| a.at(i / n2, j / n2) * b.at(i % n2, j % n2))
        };
        Self {
            start: pairs(&self.start, &other.start),
            matrices: self.matrices.iter().zip(&other.matrices).map(matrix).collect(),
            end: pairs(&self.end, &other.end),
        }
    }

    /// The table that weighs f(a w).
    pub fn after(&self, letter: u8) -> Self {
        Self { start: self.matrix(letter).after_row(&self.start), ..self.clone() }
    }

    /// The table that weighs f(w backwards).
    pub fn turned(&self) -> Self {
        Self {
            start: self.end.clone(),
            matrices: self.matrices.iter().map(Matrix::mirrored).collect(),
            end: self.start.clone(),
        }
    }

    /// The table without states, which weighs every word zero.
    pub fn nothing(letters: usize) -> Self {
        Self { start: zeros(0), matrices: vec![Matrix::from_entries(0, zeros(0)); letters], end: zeros(0) }
    }

    /// The table with these numbers, which stand as they lie in memory: start row, matrices, end column.
    pub fn from_elements(states: usize, letters: usize, elements: &[Element<F>]) -> Self {
        let (start, rest) = elements.split_at(states);
        let (matrices, end) = rest.split_at(letters * states * states);
        let matrix = |letter: usize| {
            let size = states * states;
            Matrix::from_entries(states, matrices[letter * size..(letter + 1) * size].to_vec())
        };
        assert_eq!(end.len(), states);
        Self { start: start.to_vec(), matrices: (0..letters).map(matrix).collect(), end: end.to_vec() }
    }

    /// All numbers of the table, as they lie in memory.
    pub fn elements(&self) -> impl Iterator<Item = Element<F>> {
        let matrices = self.matrices.iter().flat_map(Matrix::entries);
        self.start.iter().chain(matrices).chain(&self.end).copied()
    }
}

/// Every word over `letters` letters with at most `length` letters, in shortlex order.
pub fn words(letters: u8, length: usize) -> Vec<Word> {
    let mut all = vec![Word::new()];
    let mut level = all.clone();
    for _ in 0..length {
        level = level.iter().flat_map(|w| (1..=letters).map(move |a| extended(w, a))).collect();
        all.extend_from_slice(&level);
    }
    all
}

/// A word followed by one more letter.
pub fn extended(word: &[u8], letter: u8) -> Word {
    let mut longer = word.to_vec();
    longer.push(letter);
    longer
}

#[cfg(test)]
pub(crate) mod tests {
    use super::*;
    use crate::field::{Bits, Bytes, Fermat};
    use crate::making::random_table;
    use crate::prng::Random;

    /// The Fibonacci table with a given end column.
    pub(crate) fn fibonacci(end: [u64; 2]) -> Table<Fermat> {
        let of = |codes: &[u64]| -> Vector<Fermat> { codes.iter().map(|&c| Element::from_code(c).unwrap()).collect() };
        Table { start: of(&[1, 0]), matrices: vec![Matrix::from_entries(2, of(&[0, 1, 1, 1]))], end: of(&end) }
    }

    #[test]
    fn fibonacci_numbers() {
        let table = fibonacci([0, 1]);
        let weights: Vec<u32> = (0..5).map(|n| table.weight(&vec![1; n]).code()).collect();
        assert_eq!(weights, [0, 1, 1, 2, 3]);
    }

    fn made_tables_weigh_as_they_should<F: Field>(random: &mut Random) {
        let (f, g) = (random_table::<F>(random, 3, 2), random_table::<F>(random, 2, 2));
        let c = Element::from_code(u64::from(F::ORDER - 1)).unwrap();
        let (sum, product, scaled, turned) = (f.sum(&g), f.product(&g), f.scaled(c), f.turned());
        for word in words(2, 4) {
            let (x, y) = (f.weight(&word), g.weight(&word));
            assert_eq!(sum.weight(&word), x + y);
            assert_eq!(product.weight(&word), x * y);
            assert_eq!(scaled.weight(&word), c * x);
            let backwards: Word = word.iter().rev().copied().collect();
            assert_eq!(turned.weight(&backwards), x);
            for letter in f.alphabet() {
                let longer = [&[letter], &word[..]].concat();
                assert_eq!(f.after(letter).weight(&word), f.weight(&longer));
            }
        }
    }

    #[test]
    fn made_tables() {
        let mut random = Random::new(5);
        for _ in 0..20 {
            made_tables_weigh_as_they_should::<Bits>(&mut random);
            made_tables_weigh_as_they_should::<Bytes>(&mut random);
            made_tables_weigh_as_they_should::<Fermat>(&mut random);
        }
    }

    #[test]
    fn words_are_listed_in_order() {
        assert_eq!(words(2, 2), [&[][..], &[1], &[2], &[1, 1], &[1, 2], &[2, 1], &[2, 2]]);
    }
}
