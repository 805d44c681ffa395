//! Tables made at random, and tables that are known to weigh alike or to differ late.

use crate::field::{Element, Field};
use crate::linear::{Matrix, Vector, combination, unit, zeros};
use crate::prng::Random;
use crate::table::Table;

/// Any element, zero and one more often than others.
pub fn any_element<F: Field>(random: &mut Random) -> Element<F> {
    match random.below(10) {
        0..=3 => Element::ZERO,
        4..=5 => Element::ONE,
        6 => -Element::<F>::ONE,
        _ => Element::from_code(random.bits() % u64::from(F::ORDER)).expect("below the order"),
    }
}

/// Any element but zero.
pub fn any_factor<F: Field>(random: &mut Random) -> Element<F> {
    let code = 1 + random.bits() % u64::from(F::ORDER - 1);
    Element::from_code(code).expect("below the order")
}

/// Any vector of n entries.
pub fn any_vector<F: Field>(random: &mut Random, n: usize) -> Vector<F> {
    (0..n).map(|_| any_element(random)).collect()
}

/// Any table of a size.
pub fn random_table<F: Field>(random: &mut Random, states: usize, letters: usize) -> Table<F> {
    let start = any_vector(random, states);
    let matrices = (0..letters).map(|_| Matrix::new(states, |_, _| any_element(random))).collect();
    Table { start, matrices, end: any_vector(random, states) }
}

/// A table that has the same weights and `more` states which no word reaches.
fn with_unreachable<F: Field>(random: &mut Random, table: &Table<F>, more: usize) -> Table<F> {
    let old = table.states();
    let mut grown = |matrix: &Matrix<F>| {
        Matrix::new(old + more, |i, j| match (i < old, j < old) {
            (true, true) => matrix.at(i, j),
            (true, false) => Element::ZERO,
            _ => any_element(random),
        })
    };
    let matrices = table.matrices.iter().map(&mut grown).collect();
    Table {
        start: [&table.start[..], &zeros(more)].concat(),
        matrices,
        end: [&table.end[..], &any_vector(random, more)].concat(),
    }
}

/// A table that has the same weights and `more` states which never show in a weight.
pub fn with_unobservable<F: Field>(random: &mut Random, table: &Table<F>, more: usize) -> Table<F> {
    with_unreachable(random, &table.turned(), more).turned()
}

/// The table seen in another basis: it has the same weights.
///
/// One step takes c times state j into state i: row i gets c times row j, column j loses c times column i.
pub fn in_another_basis<F: Field>(random: &mut Random, table: &Table<F>) -> Table<F> {
    let (mut made, n) = (table.clone(), table.states());
    if n < 2 {
        return made;
    }
    for _ in 0..2 * n {
        let i = random.below(n);
        let j = (i + random.between(1, n - 1)) % n;
        let c = any_element::<F>(random);
        for matrix in &mut made.matrices {
            for column in 0..n {
                *matrix.at_mut(i, column) = matrix.at(i, column) + c * matrix.at(j, column);
            }
            for row in 0..n {
                *matrix.at_mut(row, j) = matrix.at(row, j) - c * matrix.at(row, i);
            }
        }
        made.start[j] = made.start[j] - c * made.start[i];
        made.end[i] = made.end[i] + c * made.end[j];
    }
    made
}

/// A table with the same weights in another form, of at most `most` states (or as many as it has).
pub fn dressed<F: Field>(random: &mut Random, table: &Table<F>, most: usize) -> Table<F> {
    let mut made = table.clone();
    for _ in 0..random.between(1, 2) {
        let room = most.saturating_sub(made.states()).min(3);
        let more = random.between(0, room);
        made = match random.below(3) {
            0 => with_unreachable(random, &made, more),
            1 => with_unobservable(random, &made, more),
            _ => made,
        };
        if random.chance(70) {
            made = in_another_basis(random, &made);
        }
    }
    made
}

/// The table that weighs one word `weight` and all others zero.
pub fn chain<F: Field>(word: &[u8], letters: usize, weight: Element<F>) -> Table<F> {
    let n = word.len() + 1;
    let step = |letter: usize| {
        Matrix::new(n, |i, j| {
            let on = j == i + 1 && usize::from(word[i]) == letter;
            if on { Element::ONE } else { Element::ZERO }
        })
    };
    Table {
        start: unit(n, 0),
        matrices: (1..=letters).map(step).collect(),
        end: unit(n, n - 1).iter().map(|&e| e * weight).collect(),
    }
}

/// The table of n states that weighs a word by its length alone, times a factor for each letter in it: the sequence
/// whose first terms are the coefficients of a power series numerator / denominator.
fn sequence<F: Field>(numerator: &[Element<F>], denominator: &[Element<F>], factors: &[Element<F>]) -> Table<F> {
    let n = numerator.len();
    let mut terms: Vector<F> = Vec::new();
    for t in 0..n {
        let past = (1..=t).fold(Element::ZERO, |sum, i| sum + denominator[i] * terms[t - i]);
        terms.push(numerator[t] - past);
    }
    let shift = |i: usize, j: usize| match (i + 1 == n, j == i + 1) {
        (true, _) => -denominator[n - j],
        (_, true) => Element::ONE,
        _ => Element::ZERO,
    };
    let matrices = factors.iter().map(|&c| Matrix::new(n, |i, j| c * shift(i, j))).collect();
    Table { start: unit(n, 0), matrices, end: terms }
}

/// Two tables of n1 and n2 states, not 0, that weigh all words of fewer than n1 + n2 - 1 letters alike, and some word
/// of n1 + n2 - 1 letters differently.
///
/// With denominators P and Q the difference A/P - B/Q = (A Q - B P)/(P Q) begins where A Q - B P does; this is made a
/// multiple of x^(n1 + n2 - 1), by a system of n1 + n2 equations for the coefficients of A and B.
pub fn parted_sequences<F: Field>(random: &mut Random, n1: usize, n2: usize, letters: usize) -> (Table<F>, Table<F>) {
    let d = n1 + n2;
    loop {
        let p: Vector<F> = [vec![Element::ONE], any_vector(random, n1)].concat();
        let q: Vector<F> = [vec![Element::ONE], any_vector(random, n2)].concat();
        let moved = |poly: &Vector<F>, by: usize| {
            let mut made = zeros(d);
            made[by..by + poly.len()].copy_from_slice(poly);
            made
        };
        let multiples: Vec<Vector<F>> = (0..n1).map(|i| moved(&q, i)).chain((0..n2).map(|i| moved(&p, i))).collect();
        let mut target = zeros(d);
        target[d - 1] = any_factor(random);
        let mut factors = any_vector(random, letters);
        if factors.iter().all(|c| c.is_zero()) {
            factors[random.below(letters)] = Element::ONE;
        }
        if let Some(solution) = combination(&multiples, &target) {
            let (a, minus_b) = solution.split_at(n1);
            let b: Vector<F> = minus_b.iter().map(|&c| -c).collect();
            return (sequence(a, &p, &factors), sequence(&b, &q, &factors));
        }
    }
}

/// Two tables of n states that weigh all words before `word` in order alike, and `word`, of 2 n - 1 letters, differently.
///
/// Both go along a line of states and back, each step by the next letter of the word; only in the second the middle
/// letter leads from the last state to itself, so that the way back begins where the way there ended. A letter may also
/// stay in any state, alike in both.
pub fn there_and_back<F: Field>(random: &mut Random, word: &[u8], letters: usize) -> (Table<F>, Table<F>) {
    let n = word.len().div_ceil(2);
    let mut first = Table { start: unit(n, 0), matrices: Vec::new(), end: zeros(n) };
    first.end[0] = any_factor(random);
    for letter in 1..=letters as u8 {
        let mut by = |step: usize| if word[step] == letter { any_factor(random) } else { Element::ZERO };
        let mut matrix = Matrix::new(n, |i, j| match (j == i + 1, i == j + 1) {
            (true, _) => by(i),
            (_, true) => by(2 * n - 1 - i),
            _ => Element::ZERO,
        });
        for state in 0..n {
            *matrix.at_mut(state, state) = any_element(random);
        }
        first.matrices.push(matrix);
    }
    let mut second = first.clone();
    let middle = &mut second.matrices[usize::from(word[n - 1]) - 1];
    *middle.at_mut(n - 1, n - 1) += any_factor(random);
    (first, second)
}

/// The table of two states that weighs words of letters `a` and `b` in turn (first `a`) one, and all others zero.
pub fn alternating<F: Field>(letters: usize, a: u8, b: u8) -> Table<F> {
    let step = |letter: usize| {
        let by = |wanted: u8| if usize::from(wanted) == letter { Element::ONE } else { Element::ZERO };
        Matrix::from_entries(2, vec![Element::ZERO, by(a), by(b), Element::ZERO])
    };
    Table { start: unit(2, 0), matrices: (1..=letters).map(step).collect(), end: vec![Element::ONE; 2] }
}

#[cfg(test)]
mod tests {
    use super::*;
    use crate::field::{Bits, Bytes, Fermat};
    use crate::table::words;

    fn parts_late<F: Field>(random: &mut Random) {
        let (n1, n2, letters) = (random.between(1, 4), random.between(1, 4), random.between(1, 2));
        let (f, g) = parted_sequences::<F>(random, n1, n2, letters);
        let all = words(letters as u8, n1 + n2 - 1);
        let first = all.iter().find(|word| f.weight(word) != g.weight(word)).expect("they differ");
        assert_eq!(first.len(), n1 + n2 - 1);
    }

    fn parts_at_a_word<F: Field>(random: &mut Random) {
        let (n, letters) = (random.between(1, 3), random.between(1, 3));
        let word: Vec<u8> = (1..2 * n).map(|_| random.between(1, letters) as u8).collect();
        let (f, g) = there_and_back::<F>(random, &word, letters);
        let (f, g) = (in_another_basis(random, &f), in_another_basis(random, &g));
        let all = words(letters as u8, word.len());
        assert_eq!(all.iter().find(|word| f.weight(word) != g.weight(word)), Some(&word));
    }

    fn weighs_alike<F: Field>(random: &mut Random) {
        let (states, letters) = (random.between(0, 4), random.between(1, 3));
        let table = random_table::<F>(random, states, letters);
        let other = dressed(random, &table, 8);
        assert!(words(letters as u8, 4).iter().all(|word| table.weight(word) == other.weight(word)));
    }

    #[test]
    fn constructions() {
        let mut random = Random::new(23);
        for _ in 0..50 {
            parts_late::<Bits>(&mut random);
            parts_late::<Bytes>(&mut random);
            parts_late::<Fermat>(&mut random);
            parts_at_a_word::<Bits>(&mut random);
            parts_at_a_word::<Bytes>(&mut random);
            parts_at_a_word::<Fermat>(&mut random);
            weighs_alike::<Bits>(&mut random);
            weighs_alike::<Bytes>(&mut random);
            weighs_alike::<Fermat>(&mut random);
        }
    }

    #[test]
    fn words_singled_out() {
        let word = [2, 1, 2];
        let table = chain::<Fermat>(&word, 2, any_factor(&mut Random::new(1)));
        assert!(words(2, 5).iter().all(|other| table.weight(other).is_zero() != (other[..] == word)));
        let taking_turns = alternating::<Fermat>(2, 1, 2);
        let weight = |word: &[u8]| taking_turns.weight(word).code();
        assert_eq!((weight(&[]), weight(&[1, 2, 1]), weight(&[2, 1]), weight(&[1, 1])), (1, 1, 0, 0));
    }
}
