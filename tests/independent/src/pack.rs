//! What packing a text leaves.

use crate::compare::{Verdict, compare};
use crate::field::{Bits, Bytes, Fermat, Field};
use crate::reduce::reduced;
use crate::text::{Fault, read, write};

/// A packed text, and what is reported of it.
#[derive(Clone, PartialEq, Eq, Debug)]
pub struct Packed {
    /// The text of the reduced form.
    pub text: Vec<u8>,
    /// The number of states before and after.
    pub states: [usize; 2],
    /// The number of elements of the field.
    pub order: u32,
    /// The words tried and kept when both were compared.
    pub words: [usize; 2],
}

fn packed<F: Field>(text: &[u8]) -> Result<Packed, Fault> {
    let table = read::<F>(text)?;
    let form = reduced(&table);
    let Verdict::Alike { tried, kept } = compare(&table, &form) else {
        unreachable!("a reduced form has the same weights")
    };
    let states = [table.states(), form.states()];
    Ok(Packed { text: write(&form), states, order: F::ORDER, words: [tried, kept] })
}

/// Packs a text over the field that it names, if that is offered, and else over GF(65537).
///
/// The field shows at one place only: a text of another field is refused where its first line names the field.
pub fn pack(text: &[u8]) -> Result<Packed, Fault> {
    let other_field = Fault { number: 13, line: 1, column: 24 };
    let attempts = [packed::<Bits>, packed::<Bytes>, packed::<Fermat>].map(|pack| pack(text));
    attempts.into_iter().find(|attempt| *attempt != Err(other_field)).unwrap_or(Err(other_field))
}

#[cfg(test)]
mod tests {
    use super::*;
    use crate::making::random_table;
    use crate::prng::Random;
    use crate::table::tests::fibonacci;

    #[test]
    fn the_square_of_fibonacci() {
        let table = fibonacci([0, 1]);
        let done = pack(&write(&table.product(&table))).unwrap();
        assert_eq!((done.states, done.order, done.words), ([4, 3], 65537, [4, 3]));
    }

    #[test]
    fn fields_are_found() {
        let random = &mut Random::new(8);
        assert_eq!(pack(&write(&random_table::<Bits>(random, 2, 2))).unwrap().order, 2);
        assert_eq!(pack(&write(&random_table::<Bytes>(random, 2, 2))).unwrap().order, 256);
        let other = b"T          0          1      65536\nS\nE\nZ\n";
        assert_eq!(pack(other), Err(Fault { number: 13, line: 1, column: 24 }));
        assert_eq!(pack(b"T"), Err(Fault { number: 10, line: 1, column: 2 }));
    }
}
