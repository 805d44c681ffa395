//! The inputs.

use independent::compare::{Verdict, compare};
use independent::field::Field;
use independent::making::{any_factor, in_another_basis, random_table, with_unobservable};
use independent::prng::Random;
use independent::table::Table;
use independent::text::write;

/// The sizes: states, each with letters.
pub fn sizes() -> impl Iterator<Item = (usize, usize)> {
    [4, 8, 16].into_iter().flat_map(|n| [1, 3, 6].map(|k| (n, k)))
}

/// Two texts to report on.
pub struct Case {
    pub first: Vec<u8>,
    pub second: Vec<u8>,
}

/// A kind of case, which can be made in every size.
pub type Kind = fn(&mut Random, usize, usize) -> Case;

/// Seen in bases so unlike the first that hardly a number is zero.
fn mixed<F: Field>(random: &mut Random, table: &Table<F>) -> Table<F> {
    (0..4).fold(table.clone(), |table, _| in_another_basis(random, &table))
}

/// The text of a table of n states and k letters.
pub fn text<F: Field>(random: &mut Random, n: usize, k: usize) -> Vec<u8> {
    let table = random_table::<F>(random, n, k);
    write(&mixed(random, &table))
}

/// The first text alone is read, since the second is empty.
pub fn reading<F: Field>(random: &mut Random, n: usize, k: usize) -> Case {
    Case { first: text::<F>(random, n, k), second: Vec::new() }
}

/// A table of which n words are kept beside itself.
fn full<F: Field>(random: &mut Random, n: usize, k: usize) -> Table<F> {
    loop {
        let table = random_table::<F>(random, n, k);
        if matches!(compare(&table, &table), Verdict::Alike { kept, .. } if kept == n) {
            return table;
        }
    }
}

/// A table of n states in two forms: n words are kept.
pub fn two_forms<F: Field>(random: &mut Random, n: usize, k: usize) -> Case {
    let table = full::<F>(random, n, k);
    let [first, second] = [0; 2].map(|_| write(&mixed(random, &table)));
    Case { first, second }
}

/// One state that shows, the same in both tables, and n - 1 that do not, different in each: 2n - 1 words are kept, so
/// the walk is the longest that two tables which weigh alike can ask for, but for one word.
pub fn long_walk<F: Field>(random: &mut Random, n: usize, k: usize) -> Case {
    let mut shown = random_table::<F>(random, 1, k);
    (shown.start[0], shown.end[0]) = (any_factor(random), any_factor(random));
    let [first, second] = [0; 2].map(|_| {
        let mut hidden = with_unobservable(random, &shown, n - 1);
        hidden.start.iter_mut().skip(1).for_each(|e| *e = any_factor(random));
        write(&mixed(random, &hidden))
    });
    Case { first, second }
}

/// The same texts, of which the second is refused for a byte behind it: both are read, and nothing is compared.
pub fn only_read(case: &Case) -> Case {
    Case { first: case.first.clone(), second: [&case.second[..], b"\n"].concat() }
}
