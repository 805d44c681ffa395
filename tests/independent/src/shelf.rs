//! The shelf: eight places, eleven calls, and when each is refused.

use std::borrow::Cow;

use crate::compare::{Verdict, compare};
use crate::field::{Element, Field};
use crate::reduce::reduced;
use crate::table::{MOST_STATES, Table};
use crate::text::{self, Fault};

/// The number of places.
pub const PLACES: u64 = 8;

/// The elements of shelf memory that belong to a place.
pub const PLACE_SIZE: usize = 1568;

/// The elements that shelf memory must have.
pub const SHELF_SIZE: usize = PLACES as usize * PLACE_SIZE;

/// The elements that work memory must have.
pub const WORK_SIZE: usize = 8192;

/// The bytes of the longest text.
pub const LONGEST_TEXT: usize = 19593;

/// A call with its arguments.
#[derive(Clone, PartialEq, Eq, Debug)]
#[allow(missing_docs)]
pub enum Call<'a> {
    Load { text: Cow<'a, [u8]>, to: u64 },
    Sum { first: u64, second: u64, to: u64 },
    Scale { place: u64, code: u64, to: u64 },
    Multiply { first: u64, second: u64, to: u64 },
    After { place: u64, letter: u8, to: u64 },
    Turn { place: u64, to: u64 },
    Reduce { place: u64, to: u64 },
    Weigh { place: u64, word: Vec<u8> },
    Compare { first: u64, second: u64 },
    Write { place: u64 },
    Clear { place: u64 },
}

impl Call<'_> {
    /// The call's word.
    pub fn name(&self) -> &'static str {
        match self {
            Call::Load { .. } => "load",
            Call::Sum { .. } => "sum",
            Call::Scale { .. } => "scale",
            Call::Multiply { .. } => "multiply",
            Call::After { .. } => "after",
            Call::Turn { .. } => "turn",
            Call::Reduce { .. } => "reduce",
            Call::Weigh { .. } => "weigh",
            Call::Compare { .. } => "compare",
            Call::Write { .. } => "write",
            Call::Clear { .. } => "clear",
        }
    }

    /// The places that must hold a table.
    fn places_read(&self) -> Vec<u64> {
        match *self {
            Call::Load { .. } => vec![],
            Call::Sum { first, second, .. }
            | Call::Multiply { first, second, .. }
            | Call::Compare { first, second } => {
                vec![first, second]
            }
            Call::Scale { place, .. }
            | Call::After { place, .. }
            | Call::Turn { place, .. }
            | Call::Reduce { place, .. }
            | Call::Weigh { place, .. }
            | Call::Write { place }
            | Call::Clear { place } => vec![place],
        }
    }

    /// The place where a table is made.
    fn place_made(&self) -> Option<u64> {
        match *self {
            Call::Load { to, .. }
            | Call::Sum { to, .. }
            | Call::Scale { to, .. }
            | Call::Multiply { to, .. }
            | Call::After { to, .. }
            | Call::Turn { to, .. }
            | Call::Reduce { to, .. } => Some(to),
            Call::Weigh { .. } | Call::Compare { .. } | Call::Write { .. } | Call::Clear { .. } => None,
        }
    }
}

/// What a call is lent beside the shelf: elements of work memory and bytes of output.
#[derive(Clone, Copy, PartialEq, Eq, Debug)]
pub struct Lent {
    /// Elements of work memory.
    pub work: u64,
    /// Bytes of output.
    pub output: u64,
}

impl Lent {
    /// All that a call can need.
    pub const ALL: Self = Self { work: WORK_SIZE as u64, output: LONGEST_TEXT as u64 };
}

/// What an accepted call returns.
#[derive(Clone, PartialEq, Eq, Debug)]
pub enum Answer {
    /// Nothing.
    Done,
    /// The code of a weight.
    Weight(u32),
    /// A verdict.
    Verdict(Verdict),
    /// The text that now stands at the front of the output.
    Text(Vec<u8>),
}

/// Why a call is refused.
#[derive(Clone, Copy, PartialEq, Eq, Debug)]
pub enum Refusal {
    /// 1 to 6, 8 and 9.
    Plain(u8),
    /// 7, with the letter's position in the word.
    Letter(usize),
    /// 10 to 15.
    Unreadable(Fault),
}

impl Refusal {
    /// The refusal's number.
    pub fn number(self) -> u8 {
        match self {
            Refusal::Plain(number) => number,
            Refusal::Letter(_) => 7,
            Refusal::Unreadable(fault) => fault.number,
        }
    }
}

/// An entry of the directory that is not empty.
#[derive(Clone, Copy, PartialEq, Eq, Debug)]
struct Entry {
    states: usize,
    letters: usize,
}

/// A shelf over a field, with memory of its own.
#[derive(Clone, PartialEq, Eq, Debug)]
pub struct Shelf<F: Field> {
    directory: [Option<Entry>; PLACES as usize],
    memory: Vec<Element<F>>,
}

/// A place as an index, or nothing where it is outside 1 to 8.
fn index(place: u64) -> Option<usize> {
    (1..=PLACES).contains(&place).then(|| place as usize - 1)
}

fn refused_if(condition: bool, number: u8) -> Result<(), Refusal> {
    if condition { Err(Refusal::Plain(number)) } else { Ok(()) }
}

impl<F: Field> Shelf<F> {
    /// An empty shelf with so many elements of memory, all zero.
    pub fn open(elements: usize) -> Self {
        Self { directory: [None; PLACES as usize], memory: vec![Element::ZERO; elements] }
    }

    fn entry(&self, place: u64) -> Option<Entry> {
        self.directory[index(place)?]
    }

    /// The table at a place, if there is one.
    pub fn table(&self, place: u64) -> Option<Table<F>> {
        let Entry { states, letters } = self.entry(place)?;
        let from = index(place)? * PLACE_SIZE;
        let size = 2 * states + letters * states * states;
        Some(Table::from_elements(states, letters, &self.memory[from..from + size]))
    }

    fn put(&mut self, place: u64, table: &Table<F>) {
        let at = index(place).expect("places are checked before");
        for (element, own) in table.elements().zip(&mut self.memory[at * PLACE_SIZE..]) {
            *own = element;
        }
        self.directory[at] = Some(Entry { states: table.states(), letters: table.letters() });
    }

    /// Refusals 1 to 9, each under its own condition, in rising number.
    fn check(&self, call: &Call, lent: Lent) -> Result<(), Refusal> {
        let read = call.places_read();
        let mut named = read.iter().copied().chain(call.place_made());
        refused_if(named.any(|place| index(place).is_none()), 1)?;
        let clears = matches!(call, Call::Clear { .. });
        let writes = matches!(call, Call::Write { .. });
        refused_if(!clears && self.memory.len() < SHELF_SIZE, 2)?;
        refused_if(!clears && !writes && lent.work < WORK_SIZE as u64, 3)?;
        refused_if(read.iter().any(|&place| self.entry(place).is_none()), 4)?;
        let entries: Vec<Entry> = read.iter().filter_map(|&place| self.entry(place)).collect();
        if let [first, second] = entries[..] {
            refused_if(first.letters != second.letters, 5)?;
            let states = match call {
                Call::Sum { .. } => first.states + second.states,
                Call::Multiply { .. } => first.states * second.states,
                _ => 0,
            };
            refused_if(states > MOST_STATES, 6)?;
        }
        match call {
            Call::Weigh { word, .. } => check_letters(word, entries[0].letters)?,
            Call::After { letter, .. } => check_letters(&[*letter], entries[0].letters)?,
            Call::Scale { code, .. } => refused_if(*code >= u64::from(F::ORDER), 8)?,
            Call::Write { .. } => {
                let Entry { states, letters } = entries[0];
                refused_if(lent.output < text::length(states, letters) as u64, 9)?;
            }
            _ => {}
        }
        Ok(())
    }

    fn read(&self, place: u64) -> Table<F> {
        self.table(place).expect("places are checked before")
    }

    fn make(&mut self, to: u64, table: Table<F>) -> Answer {
        self.put(to, &table);
        Answer::Done
    }

    fn carry_out(&mut self, call: &Call) -> Result<Answer, Refusal> {
        Ok(match *call {
            Call::Load { ref text, to } => self.make(to, text::read(text).map_err(Refusal::Unreadable)?),
            Call::Sum { first, second, to } => self.make(to, self.read(first).sum(&self.read(second))),
            Call::Scale { place, code, to } => {
                let factor = Element::from_code(code).expect("codes are checked before");
                self.make(to, self.read(place).scaled(factor))
            }
            Call::Multiply { first, second, to } => self.make(to, self.read(first).product(&self.read(second))),
            Call::After { place, letter, to } => self.make(to, self.read(place).after(letter)),
            Call::Turn { place, to } => self.make(to, self.read(place).turned()),
            Call::Reduce { place, to } => self.make(to, reduced(&self.read(place))),
            Call::Weigh { place, ref word } => Answer::Weight(self.read(place).weight(word).code()),
            Call::Compare { first, second } => Answer::Verdict(compare(&self.read(first), &self.read(second))),
            Call::Write { place } => Answer::Text(text::write(&self.read(place))),
            Call::Clear { place } => {
                self.directory[index(place).expect("places are checked before")] = None;
                Answer::Done
            }
        })
    }
}

/// Refusal 7: the first letter outside 1 to `letters`.
fn check_letters(word: &[u8], letters: usize) -> Result<(), Refusal> {
    match word.iter().position(|&letter| !(1..=letters).contains(&usize::from(letter))) {
        Some(position) => Err(Refusal::Letter(position + 1)),
        None => Ok(()),
    }
}

/// A shelf over some field.
pub trait Perform {
    /// Makes a call with what it is lent.
    fn perform(&mut self, call: &Call, lent: Lent) -> Result<Answer, Refusal>;
}

impl<F: Field> Perform for Shelf<F> {
    fn perform(&mut self, call: &Call, lent: Lent) -> Result<Answer, Refusal> {
        self.check(call, lent)?;
        self.carry_out(call)
    }
}

#[cfg(test)]
mod tests {
    use super::*;
    use crate::field::Fermat;
    use crate::making::random_table;
    use crate::prng::Random;
    use crate::table::tests::fibonacci;

    fn with(tables: &[(u64, Table<Fermat>)]) -> Shelf<Fermat> {
        let mut shelf = Shelf::open(SHELF_SIZE);
        for (place, table) in tables {
            let text = text::write(table);
            assert_eq!(shelf.perform(&Call::Load { text: text.into(), to: *place }, Lent::ALL), Ok(Answer::Done));
        }
        shelf
    }

    /// The refusal of a call, which must leave the shelf as it was.
    fn refused(shelf: &mut Shelf<Fermat>, call: Call, lent: Lent) -> u8 {
        let before = shelf.clone();
        let number = shelf.perform(&call, lent).unwrap_err().number();
        assert!(*shelf == before);
        number
    }

    #[test]
    fn state_counts() {
        let mut random = Random::new(1);
        let mut of = |n: usize| random_table::<Fermat>(&mut random, n, 2);
        let sizes = [8, 9, 4, 3, 6, 16, 0];
        let tables: Vec<_> = sizes.iter().zip(1..).map(|(&n, place)| (place, of(n))).collect();
        let mut shelf = with(&tables);
        let sum = |first, second| Call::Sum { first, second, to: 8 };
        let multiply = |first, second| Call::Multiply { first, second, to: 8 };
        assert_eq!(refused(&mut shelf, sum(1, 2), Lent::ALL), 6);
        assert_eq!(refused(&mut shelf, multiply(4, 5), Lent::ALL), 6);
        for call in [sum(1, 1), multiply(3, 3), multiply(6, 7), sum(6, 7)] {
            assert_eq!(shelf.perform(&call, Lent::ALL), Ok(Answer::Done));
        }
        assert_eq!(shelf.table(8).unwrap().states(), 16);
    }

    #[test]
    fn checks_run_in_rising_number() {
        let short = Lent { work: 8191, output: 0 };
        let mut small = Shelf::<Fermat>::open(SHELF_SIZE - 1);
        assert_eq!(refused(&mut small, Call::Sum { first: 1, second: 0, to: 9 }, short), 1);
        assert_eq!(refused(&mut small, Call::Weigh { place: 1, word: vec![0] }, short), 2);
        assert_eq!(refused(&mut small, Call::Clear { place: 1 }, short), 4);
        let mut shelf = with(&[(1, fibonacci([0, 1])), (2, Table::nothing(2))]);
        assert_eq!(refused(&mut shelf, Call::Turn { place: 3, to: u64::MAX }, short), 1);
        assert_eq!(refused(&mut shelf, Call::Turn { place: 3, to: 3 }, short), 3);
        assert_eq!(refused(&mut shelf, Call::Turn { place: 3, to: 3 }, Lent::ALL), 4);
        assert_eq!(refused(&mut shelf, Call::Write { place: 3 }, short), 4);
        assert_eq!(refused(&mut shelf, Call::Write { place: 1 }, Lent { work: 0, output: 176 }), 9);
        assert_eq!(refused(&mut shelf, Call::Compare { first: 1, second: 2 }, Lent::ALL), 5);
        assert_eq!(refused(&mut shelf, Call::Scale { place: 1, code: 65537, to: 1 }, Lent::ALL), 8);
        assert_eq!(refused(&mut shelf, Call::Load { text: b"".into(), to: 1 }, short), 3);
        assert_eq!(refused(&mut shelf, Call::Load { text: b"".into(), to: 1 }, Lent::ALL), 10);
        let weigh = Call::Weigh { place: 2, word: vec![2, 3, 0] };
        assert_eq!(shelf.perform(&weigh, Lent::ALL), Err(Refusal::Letter(2)));
        let write = shelf.perform(&Call::Write { place: 1 }, Lent { work: 0, output: 177 });
        assert!(matches!(write, Ok(Answer::Text(_))));
    }

    #[test]
    fn only_the_elements_of_the_result_are_written() {
        let mut shelf = with(&[(1, fibonacci([0, 1])), (2, fibonacci([0, 0]))]);
        let before = shelf.memory.clone();
        shelf.perform(&Call::Reduce { place: 2, to: 1 }, Lent::ALL).unwrap();
        assert!(shelf.memory == before);
        assert_eq!(shelf.table(1), Some(Table::nothing(1)));
        shelf.perform(&Call::Sum { first: 2, second: 2, to: 2 }, Lent::ALL).unwrap();
        assert_eq!(shelf.table(2), Some(fibonacci([0, 0]).sum(&fibonacci([0, 0]))));
        assert!(shelf.memory[2 * PLACE_SIZE..].iter().all(|e| e.is_zero()));
    }
}
