//! Vectors, square matrices, and Gaussian elimination.

use crate::field::{Element, Field};

/// A row or a column.
pub type Vector<F> = Vec<Element<F>>;

/// The vector of n zeros.
pub fn zeros<F: Field>(n: usize) -> Vector<F> {
    vec![Element::ZERO; n]
}

/// The vector of n entries that is one at `place` and zero elsewhere.
pub fn unit<F: Field>(n: usize, place: usize) -> Vector<F> {
    let mut made = zeros(n);
    made[place] = Element::ONE;
    made
}

/// A row times a column.
pub fn dot<F: Field>(row: &[Element<F>], column: &[Element<F>]) -> Element<F> {
    row.iter().zip(column).fold(Element::ZERO, |sum, (&a, &b)| sum + a * b)
}

/// `row` less `factor` times `other`.
fn subtract<F: Field>(row: &mut [Element<F>], factor: Element<F>, other: &[Element<F>]) {
    for (entry, &o) in row.iter_mut().zip(other) {
        *entry = *entry - factor * o;
    }
}

/// A square matrix, held row by row.
#[derive(Clone, PartialEq, Eq, Debug)]
pub struct Matrix<F: Field> {
    size: usize,
    entries: Vector<F>,
}

impl<F: Field> Matrix<F> {
    /// The matrix whose entry at (row, column), counted from 0, is what `entry` says.
    pub fn new(size: usize, mut entry: impl FnMut(usize, usize) -> Element<F>) -> Self {
        let entries = (0..size * size).map(|i| entry(i / size, i % size)).collect();
        Self { size, entries }
    }

    /// The matrix with these entries, row by row.
    pub fn from_entries(size: usize, entries: Vector<F>) -> Self {
        assert_eq!(entries.len(), size * size);
        Self { size, entries }
    }

    /// All entries, row by row.
    pub fn entries(&self) -> &[Element<F>] {
        &self.entries
    }

    /// The rows, from the first on.
    pub fn rows(&self) -> impl Iterator<Item = &[Element<F>]> {
        (0..self.size).map(|i| self.row(i))
    }

    fn row(&self, i: usize) -> &[Element<F>] {
        &self.entries[i * self.size..(i + 1) * self.size]
    }

    /// The entry at a row and a column, counted from 0.
    pub fn at(&self, row: usize, column: usize) -> Element<F> {
        self.row(row)[column]
    }

    /// The entry at a row and a column, to be changed.
    pub fn at_mut(&mut self, row: usize, column: usize) -> &mut Element<F> {
        assert!(column < self.size);
        &mut self.entries[row * self.size + column]
    }

    /// The matrix mirrored in its diagonal.
    pub fn mirrored(&self) -> Self {
        Self::new(self.size, |i, j| self.at(j, i))
    }

    /// A row times this matrix.
    pub fn after_row(&self, row: &[Element<F>]) -> Vector<F> {
        let mut product = zeros(self.size);
        for (&factor, own) in row.iter().zip(self.rows()) {
            for (sum, &entry) in product.iter_mut().zip(own) {
                *sum += factor * entry;
            }
        }
        product
    }

    /// This matrix times a column.
    pub fn before_column(&self, column: &[Element<F>]) -> Vector<F> {
        self.rows().map(|row| dot(row, column)).collect()
    }
}

/// Independent vectors in echelon form: each is one at its pivot, and those after it are zero there.
#[derive(Clone, Debug)]
pub struct Echelon<F: Field> {
    rows: Vec<(usize, Vector<F>)>,
}

impl<F: Field> Default for Echelon<F> {
    fn default() -> Self {
        Self { rows: Vec::new() }
    }
}

impl<F: Field> Echelon<F> {
    /// Takes a vector in, and says so, exactly where it is no combination of those taken in before.
    pub fn admit(&mut self, vector: &[Element<F>]) -> bool {
        let mut rest = vector.to_vec();
        for (pivot, row) in &self.rows {
            let factor = rest[*pivot];
            if !factor.is_zero() {
                subtract(&mut rest, factor, row);
            }
        }
        let Some(pivot) = rest.iter().position(|e| !e.is_zero()) else {
            return false;
        };
        let scale = rest[pivot].inverse().expect("a pivot is not zero");
        rest.iter_mut().for_each(|e| *e = *e * scale);
        self.rows.push((pivot, rest));
        true
    }
}

/// The coefficients by which `target` is a combination of independent `vectors`, or nothing where it is none.
///
/// The vectors stand as the columns of a system of equations, the target as its right side; Gauss and Jordan solve it.
pub fn combination<F: Field>(vectors: &[Vector<F>], target: &[Element<F>]) -> Option<Vector<F>> {
    let unknowns = vectors.len();
    let mut equations: Vec<Vector<F>> =
        target.iter().enumerate().map(|(i, &t)| vectors.iter().map(|v| v[i]).chain([t]).collect()).collect();
    for unknown in 0..unknowns {
        let found = (unknown..equations.len()).find(|&i| !equations[i][unknown].is_zero())?;
        equations.swap(unknown, found);
        let scale = equations[unknown][unknown].inverse().expect("a pivot is not zero");
        equations[unknown].iter_mut().for_each(|e| *e = *e * scale);
        let solved = equations[unknown].clone();
        for (i, equation) in equations.iter_mut().enumerate() {
            if i != unknown {
                let factor = equation[unknown];
                subtract(equation, factor, &solved);
            }
        }
    }
    let solvable = equations[unknowns..].iter().all(|equation| equation[unknowns].is_zero());
    solvable.then(|| equations[..unknowns].iter().map(|equation| equation[unknowns]).collect())
}

#[cfg(test)]
mod tests {
    use super::*;
    use crate::field::{Bits, Fermat};

    fn vector<F: Field>(codes: &[u64]) -> Vector<F> {
        codes.iter().map(|&c| Element::from_code(c).unwrap()).collect()
    }

    #[test]
    fn combinations_are_found_or_denied() {
        let vectors = [vector::<Fermat>(&[1, 2, 3]), vector(&[0, 1, 1])];
        assert_eq!(combination(&vectors, &vector(&[2, 7, 9])), Some(vector(&[2, 3])));
        assert_eq!(combination(&vectors, &vector(&[2, 7, 10])), None);
        assert_eq!(combination::<Fermat>(&[], &vector(&[0, 0])), Some(vec![]));
        assert_eq!(combination::<Fermat>(&[], &vector(&[0, 1])), None);
        assert_eq!(combination::<Fermat>(&[], &[]), Some(vec![]));
    }

    #[test]
    fn echelon_admits_independent_vectors_only() {
        let mut echelon = Echelon::<Bits>::default();
        assert!(!echelon.admit(&vector(&[0, 0, 0])));
        assert!(echelon.admit(&vector(&[0, 1, 1])));
        assert!(echelon.admit(&vector(&[1, 1, 0])));
        assert!(!echelon.admit(&vector(&[1, 0, 1])));
        assert!(echelon.admit(&vector(&[1, 1, 1])));
    }
}
