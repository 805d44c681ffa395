//! Scripts of calls on a shelf, over all fields, with every refusal.

use super::damage::{changed_at, damaged};
use super::pairs::longest;
use crate::compare::Verdict;
use crate::field::{Bits, Bytes, Fermat, Field};
use crate::making::{alternating, any_element, any_factor, chain, dressed, parted_sequences, random_table};
use crate::prng::Random;
use crate::shelf::{Answer, Call, Lent, Perform, Refusal, SHELF_SIZE, Shelf};
use crate::table::{Table, Word};
use crate::text::{length, write};

/// Places that no shelf has.
const OUTSIDE: [u64; 6] = [0, 9, 255, 256, 1 << 32, u64::MAX];

/// A script with so many calls, by a seed.
pub fn script(seed: u64, calls: usize) -> Vec<u8> {
    let mut made = Writing { bytes: Vec::new(), texts: 0, left: calls };
    let mut random = Random::new(seed);
    let first = random.below(3);
    for turn in 0.. {
        if made.left == 0 {
            break;
        }
        match (first + turn) % 3 {
            0 => Session::<Bits>::run(&mut made, &mut random, turn),
            1 => Session::<Bytes>::run(&mut made, &mut random, turn),
            _ => Session::<Fermat>::run(&mut made, &mut random, turn),
        }
    }
    made.bytes
}

/// A script of calls on so many pairs of tables that differ first at a word of 31 letters, over each field in turn.
pub fn parts(seed: u64, count: usize) -> Vec<u8> {
    let mut made = Writing { bytes: Vec::new(), texts: 0, left: usize::MAX };
    let mut random = Random::new(seed);
    for turn in 0..count {
        match turn % 3 {
            0 => Session::<Bits>::part_longest(&mut made, &mut random),
            1 => Session::<Bytes>::part_longest(&mut made, &mut random),
            _ => Session::<Fermat>::part_longest(&mut made, &mut random),
        }
    }
    made.bytes
}

/// A script as far as it is written.
struct Writing {
    bytes: Vec<u8>,
    texts: usize,
    /// The number of calls still to be written.
    left: usize,
}

impl Writing {
    fn line(&mut self, line: &str) {
        self.bytes.extend_from_slice(line.as_bytes());
        self.bytes.push(b'\n');
    }

    /// Gives a text, and returns its name.
    fn text(&mut self, text: &[u8]) -> String {
        self.texts += 1;
        let name = format!("t{}", self.texts);
        self.line(&format!("text {name} {}", text.len()));
        self.bytes.extend_from_slice(text);
        self.bytes.push(b'\n');
        name
    }
}

/// The calls over one field, with a shelf on which they are made as they are written, so that what comes next can go by
/// what lies there.
struct Session<'s, F: Field> {
    written: &'s mut Writing,
    random: &'s mut Random,
    shelf: Shelf<F>,
    lent: Lent,
    letters: usize,
}

impl<'s, F: Field> Session<'s, F> {
    /// A new shelf.
    fn begin(written: &'s mut Writing, random: &'s mut Random, letters: usize) -> Self {
        written.line(&format!("field {}", F::ORDER));
        Self { written, random, shelf: Shelf::open(SHELF_SIZE), lent: Lent::ALL, letters }
    }

    /// The calls on two tables of 16 states that differ first at a word of 31 letters.
    fn part_longest(written: &'s mut Writing, random: &'s mut Random) {
        let (first, second) = longest(random);
        let letters = first.letters();
        Self::begin(written, random, letters).part(first, second);
    }

    /// Some 120 calls. What takes many bytes comes in some turns only.
    fn run(written: &'s mut Writing, random: &'s mut Random, turn: usize) {
        let letters = random.pick(&[1, 1, 1, 2, 2, 2, 3, 3, 4, 5, 6]);
        let until = written.left.saturating_sub(120);
        let mut session = Self::begin(written, random, letters);
        match turn % 10 {
            3 => session.longest_word(),
            7 => session.largest(),
            _ => {}
        }
        while session.written.left > until {
            session.episode();
        }
        session.lend(Lent::ALL);
    }

    fn episode(&mut self) {
        match self.random.below(300) {
            0..=7 => self.every_change(),
            8..=67 => self.wander(),
            68..=117 => self.same_weights(),
            118..=147 => self.algebra(),
            148..=187 => self.late_difference(),
            188..=227 => self.damage(),
            228..=247 => self.short_loans(),
            248..=262 => self.short_shelf(),
            263..=282 => self.refusals(),
            283..=297 => self.limits(),
            _ => self.aside(),
        }
    }

    // Writing lines.

    /// A number as it may stand in a script: now and then with zeros before it.
    fn spelt(&mut self, number: u64) -> String {
        if self.random.chance(2) { format!("0{number}") } else { number.to_string() }
    }

    /// Writes a call and makes it; with no calls left, nothing.
    fn call(&mut self, call: Call) -> Option<Result<Answer, Refusal>> {
        if self.written.left == 0 {
            return None;
        }
        self.written.left -= 1;
        let mut words = vec![call.name().to_string()];
        if let Call::Load { text, .. } = &call {
            words.push(self.written.text(text));
        }
        for number in arguments(&call) {
            words.push(self.spelt(number));
        }
        let gap = if self.random.chance(2) { "  " } else { " " };
        self.written.line(&words.join(gap));
        Some(self.shelf.perform(&call, self.lent))
    }

    fn load(&mut self, table: &Table<F>, to: u64) {
        self.call(Call::Load { text: write(table).into(), to });
    }

    fn lend(&mut self, lent: Lent) {
        if lent != self.lent {
            self.lent = lent;
            self.written.line(&format!("lend {} {}", lent.work, lent.output));
        }
    }

    // Choosing arguments.

    fn place(&mut self) -> u64 {
        self.random.between(1, 8) as u64
    }

    /// Two different places.
    fn places(&mut self) -> [u64; 2] {
        let first = self.place();
        [first, (first + self.random.between(0, 6) as u64) % 8 + 1]
    }

    /// A place that holds a table, if there is one, as a rule.
    fn held(&mut self) -> u64 {
        let from = self.place();
        let found = (0..8).map(|i| (from + i) % 8 + 1).find(|&place| self.shelf.table(place).is_some());
        match found {
            Some(place) if self.random.chance(94) => place,
            _ => self.anywhere(),
        }
    }

    /// A place, now and then outside the shelf.
    fn anywhere(&mut self) -> u64 {
        if self.random.chance(4) { self.random.pick(&OUTSIDE) } else { self.place() }
    }

    /// A letter of this session's tables, as a rule.
    fn letter(&mut self) -> u8 {
        if self.random.chance(5) {
            self.random.pick(&[0, 7, 255, self.letters as u8 + 1])
        } else {
            self.random.between(1, self.letters) as u8
        }
    }

    fn word(&mut self, most: usize) -> Word {
        (0..self.random.between(0, most)).map(|_| self.letter()).collect()
    }

    /// A code, now and then one that the field does not have.
    fn code(&mut self) -> u64 {
        let q = u64::from(F::ORDER);
        match self.random.below(10) {
            0 => self.random.pick(&[q, q + 1, 1 << 32, u64::MAX]),
            1 => q - 1,
            2 => self.random.pick(&[0, 1]),
            _ => self.random.bits() % q,
        }
    }

    /// A table of few states with this session's letters, as a rule.
    fn small_table(&mut self) -> Table<F> {
        let states = self.random.pick(&[0, 1, 1, 2, 2, 2, 3, 3, 4]);
        let letters = if self.random.chance(6) { self.random.between(1, 6) } else { self.letters };
        random_table(self.random, states, letters)
    }

    // Episodes.

    /// Calls on whatever lies on the shelf.
    fn wander(&mut self) {
        for _ in 0..self.random.between(4, 12) {
            let call = self.any_call();
            self.call(call);
        }
    }

    fn any_call(&mut self) -> Call<'static> {
        let (first, second, to) = (self.held(), self.held(), self.anywhere());
        match self.random.below(20) {
            0..=2 => Call::Load { text: write(&self.small_table()).into(), to },
            3..=5 => Call::Sum { first, second, to },
            6..=7 => Call::Multiply { first, second, to },
            8..=9 => Call::Scale { place: first, code: self.code(), to },
            10..=11 => Call::After { place: first, letter: self.letter(), to },
            12 => Call::Turn { place: first, to },
            13..=14 => Call::Reduce { place: first, to },
            15..=16 => Call::Weigh { place: first, word: self.word(6) },
            17 => Call::Compare { first, second },
            18 if self.random.chance(60) => Call::Write { place: first },
            _ => Call::Clear { place: first },
        }
    }

    /// Two forms of the same weights: they compare as alike, and reduce to one table.
    fn same_weights(&mut self) {
        let table = self.small_table();
        let most = table.states() + 3;
        let other = dressed(self.random, &table, most);
        let [p, q] = self.places();
        self.load(&table, p);
        self.load(&other, q);
        self.call(Call::Compare { first: p, second: q });
        let [r, s] = self.places();
        self.call(Call::Reduce { place: q, to: s });
        self.call(Call::Write { place: s });
        if self.random.chance(50) {
            self.call(Call::Reduce { place: p, to: r });
            self.call(Call::Compare { first: r, second: s });
            self.call(Call::Write { place: r });
        }
        let word = self.word(9);
        self.call(Call::Weigh { place: p, word });
    }

    /// Laws of the operations: two ways to one function.
    fn algebra(&mut self) {
        let mut tables = [1, 2, 2].map(|n| random_table::<F>(self.random, n, self.letters));
        if self.random.chance(20) {
            tables[0] = Table::nothing(self.letters);
        }
        for (table, place) in tables.iter().zip(1..) {
            self.load(table, place);
        }
        let sum = |first, second, to| Call::Sum { first, second, to };
        let multiply = |first, second, to| Call::Multiply { first, second, to };
        let turn = |place, to| Call::Turn { place, to };
        let (letter, code) =
            (self.random.between(1, self.letters) as u8, u64::from((-any_factor::<F>(self.random)).code()));
        let after = |place, to| Call::After { place, letter, to };
        let scale = |place, to| Call::Scale { place, code, to };
        let (left, right) = match self.random.below(5) {
            0 => (vec![sum(1, 2, 4), multiply(4, 3, 4)], vec![multiply(1, 3, 5), multiply(2, 3, 6), sum(5, 6, 5)]),
            1 => (vec![multiply(1, 2, 4), turn(4, 4)], vec![turn(2, 5), turn(1, 6), multiply(5, 6, 5)]),
            2 => (vec![sum(2, 3, 4), after(4, 4)], vec![after(2, 5), after(3, 6), sum(6, 5, 5)]),
            3 => (vec![scale(3, 4), multiply(4, 2, 4)], vec![multiply(3, 2, 5), scale(5, 5)]),
            _ => (vec![turn(3, 4), turn(4, 4), after(4, 4)], vec![multiply(3, 3, 5), after(3, 5), sum(1, 5, 5)]),
        };
        for call in left.into_iter().chain(right) {
            self.call(call);
        }
        self.call(Call::Compare { first: 4, second: 5 });
        self.call(Call::Reduce { place: 4, to: 4 });
        self.call(Call::Reduce { place: 5, to: 7 });
        self.call(Call::Compare { first: 7, second: 4 });
        let shown = self.random.pick(&[4, 7]);
        self.call(Call::Write { place: shown });
    }

    /// Two tables that differ at a long word first.
    fn late_difference(&mut self) {
        let (first, second) = self.late_pair();
        self.part(first, second);
    }

    /// Two tables that weigh all words of up to 30 letters alike, and no more.
    fn longest_word(&mut self) {
        let (first, second) = parted_sequences(self.random, 16, 16, 1);
        self.part(first, second);
    }

    fn part(&mut self, first: Table<F>, second: Table<F>) {
        let [p, q] = self.places();
        self.load(&first, p);
        self.load(&second, q);
        let verdict = self.call(Call::Compare { first: p, second: q });
        self.call(Call::Compare { first: q, second: p });
        if let Some(Ok(Answer::Verdict(Verdict::Differs { word, .. }))) = verdict {
            self.call(Call::Weigh { place: p, word: word.clone() });
            self.call(Call::Weigh { place: q, word });
        }
        let code = u64::from((-crate::field::Element::<F>::ONE).code());
        self.call(Call::Scale { place: q, code, to: q });
        self.call(Call::Sum { first: p, second: q, to: p });
        self.call(Call::Reduce { place: p, to: q });
        self.call(Call::Compare { first: p, second: q });
    }

    fn late_pair(&mut self) -> (Table<F>, Table<F>) {
        let random = &mut *self.random;
        let mut size = || if random.chance(92) { random.between(1, 4) } else { random.between(5, 12) };
        let (n1, n2) = (size(), size());
        let letters = if n1 + n2 > 10 { 1 } else { self.letters };
        match self.random.below(4) {
            0..=1 => {
                let (f, g) = parted_sequences(self.random, n1, n2, letters);
                (dressed(self.random, &f, n1), dressed(self.random, &g, n2))
            }
            2 => {
                let word: Word = (0..n1).map(|_| self.random.between(1, letters) as u8).take(15).collect();
                let (c, d) = (any_element(self.random), any_factor(self.random));
                (chain(&word, letters, c), chain(&word, letters, c + d))
            }
            _ => {
                let [a, b] = [0; 2].map(|_| self.random.between(1, letters) as u8);
                let turns = alternating(letters, a, b);
                let (f, g) = parted_sequences(self.random, n1.min(8), n2.min(3), letters);
                (f.product(&turns), turns.product(&g))
            }
        }
    }

    /// Texts with faults.
    fn damage(&mut self) {
        let states = self.random.below(3);
        let table = random_table::<F>(self.random, states, self.letters.min(2));
        let text = write(&table);
        let to = self.place();
        for _ in 0..self.random.between(2, 6) {
            let mut bad = damaged(self.random, &text);
            if self.random.chance(20) {
                bad = damaged(self.random, &bad);
            }
            self.call(Call::Load { text: bad.into(), to });
        }
        self.call(Call::Weigh { place: to, word: vec![1] });
    }

    /// Every byte of a small text changed, one after another.
    fn every_change(&mut self) {
        let states = self.random.below(2);
        let text = write(&random_table::<F>(self.random, states, 1));
        let to = self.place();
        for at in 0..text.len() {
            let bad = changed_at(self.random, &text, at);
            self.call(Call::Load { text: bad.into(), to });
        }
        self.call(Call::Weigh { place: to, word: vec![] });
    }

    /// Calls that are lent little.
    fn short_loans(&mut self) {
        let place = self.held();
        if let Some(table) = self.shelf.table(place) {
            let bytes = length(table.states(), table.letters()) as u64;
            for output in [bytes - 1, bytes] {
                let work = self.random.pick(&[0, 8191, 8192]);
                self.lend(Lent { work, output });
                self.call(Call::Write { place });
            }
        }
        let work = self.random.pick(&[0, 1, 8191, 8191, 8192, 8193, u64::MAX]);
        let output = self.random.pick(&[0, 40, 41, 19592, 19593, u64::MAX]);
        self.lend(Lent { work, output });
        self.one_of_each();
        self.lend(Lent::ALL);
    }

    /// Every call, with arguments of which most are in order.
    fn one_of_each(&mut self) {
        let (first, second, to) = (self.held(), self.held(), self.anywhere());
        let (code, letter, word) = (self.code(), self.letter(), self.word(3));
        let text = write(&random_table::<F>(self.random, 1, 1)).into();
        let calls = [
            Call::Load { text, to },
            Call::Sum { first, second, to },
            Call::Scale { place: first, code, to },
            Call::Multiply { first, second, to },
            Call::After { place: first, letter, to },
            Call::Turn { place: first, to },
            Call::Reduce { place: first, to },
            Call::Weigh { place: first, word },
            Call::Compare { first, second },
            Call::Write { place: first },
            Call::Clear { place: second },
        ];
        for call in calls {
            if self.random.chance(60) {
                self.call(call);
            }
        }
    }

    /// Calls on a shelf whose memory is short.
    fn short_shelf(&mut self) {
        let elements = self.random.pick(&[0, 1, 1568, 12543, 12543]);
        self.written.line(&format!("open {elements}"));
        self.shelf = Shelf::open(elements);
        if self.random.chance(50) {
            self.lend(Lent { work: 8191, output: 0 });
        }
        self.one_of_each();
        let again = self.random.pick(&["open", "open 12544"]);
        self.written.line(again);
        self.shelf = Shelf::open(SHELF_SIZE);
        self.lend(Lent::ALL);
    }

    /// Each call with an argument that it refuses.
    fn refusals(&mut self) {
        let [p, q] = self.places();
        let table = random_table(self.random, 2, self.letters);
        let states = self.random.below(3);
        let other = random_table(self.random, states, self.letters % 6 + 1);
        self.load(&table, p);
        self.load(&other, q);
        let bad = Bad {
            place: self.random.pick(&OUTSIDE),
            letter: self.random.pick(&[0, 7, 255]),
            code: u64::from(F::ORDER) + self.random.below(2) as u64,
        };
        let mut word = vec![1; 4];
        word[self.random.below(4)] = bad.letter;
        let calls = bad.mismatches(p, q, word).into_iter().chain(bad.places(p)).chain(bad.empty_places(p, q));
        for call in calls.chain([Call::Load { text: write(&table).into(), to: bad.place }]) {
            if self.random.chance(50) {
                self.call(call);
            }
        }
    }

    /// State counts about the limit.
    fn limits(&mut self) {
        let (first, second) = self.random.pick(&[(8, 8), (8, 9), (4, 4), (3, 6), (5, 3), (16, 0), (0, 16), (1, 16)]);
        let [p, q] = self.places();
        let table = random_table(self.random, first, 1);
        self.load(&table, p);
        let table = random_table(self.random, second, 1);
        self.load(&table, q);
        let [r, s] = self.places();
        self.call(Call::Multiply { first: p, second: q, to: r });
        self.call(Call::Sum { first: p, second: q, to: s });
        self.call(Call::Reduce { place: s, to: s });
        self.call(Call::Compare { first: r, second: s });
        self.call(Call::Turn { place: s, to: r });
        self.call(Call::Weigh { place: r, word: vec![1; 40] });
    }

    /// A table of the largest size.
    fn largest(&mut self) {
        let [p, q] = self.places();
        let table = random_table(self.random, 16, self.letters);
        self.load(&table, p);
        self.call(Call::Turn { place: p, to: q });
        self.call(Call::Reduce { place: p, to: q });
        self.call(Call::Compare { first: p, second: q });
        self.call(Call::After { place: p, letter: 1, to: p });
        self.call(Call::Compare { first: q, second: p });
        self.call(Call::Write { place: q });
    }

    /// What a script may hold beside calls.
    fn aside(&mut self) {
        self.written.line("");
        self.written.line("# tables of up to 16 states");
        self.written.line("#");
    }
}

/// Arguments that calls refuse.
struct Bad {
    place: u64,
    letter: u8,
    code: u64,
}

impl Bad {
    /// Calls on tables with different letter counts, with a letter or a code that is none.
    fn mismatches(&self, p: u64, q: u64, word: Word) -> [Call<'static>; 6] {
        [
            Call::Sum { first: p, second: q, to: p },
            Call::Multiply { first: q, second: p, to: p },
            Call::Compare { first: p, second: q },
            Call::After { place: p, letter: self.letter, to: q },
            Call::Weigh { place: p, word },
            Call::Scale { place: q, code: self.code, to: q },
        ]
    }

    /// Calls with a place outside the shelf, some of them with another argument that is refused.
    fn places(&self, p: u64) -> [Call<'static>; 11] {
        let outside = self.place;
        [
            Call::Sum { first: outside, second: p, to: p },
            Call::Sum { first: p, second: outside, to: p },
            Call::Multiply { first: p, second: p, to: outside },
            Call::Scale { place: p, code: self.code, to: outside },
            Call::After { place: outside, letter: self.letter, to: p },
            Call::Turn { place: outside, to: p },
            Call::Reduce { place: p, to: outside },
            Call::Weigh { place: outside, word: vec![self.letter] },
            Call::Compare { first: p, second: outside },
            Call::Write { place: outside },
            Call::Clear { place: outside },
        ]
    }

    /// Place q is cleared, and then read.
    fn empty_places(&self, p: u64, q: u64) -> [Call<'static>; 11] {
        [
            Call::Clear { place: q },
            Call::Clear { place: q },
            Call::Sum { first: p, second: q, to: p },
            Call::Multiply { first: q, second: p, to: p },
            Call::Scale { place: q, code: self.code, to: p },
            Call::After { place: q, letter: self.letter, to: p },
            Call::Turn { place: q, to: p },
            Call::Reduce { place: q, to: q },
            Call::Weigh { place: q, word: vec![self.letter] },
            Call::Compare { first: q, second: p },
            Call::Write { place: q },
        ]
    }
}

/// The numbers of a call, as a script gives them.
fn arguments(call: &Call) -> Vec<u64> {
    match *call {
        Call::Load { to, .. } => vec![to],
        Call::Sum { first, second, to } | Call::Multiply { first, second, to } => vec![first, second, to],
        Call::Scale { place, code, to } => vec![place, code, to],
        Call::After { place, letter, to } => vec![place, u64::from(letter), to],
        Call::Turn { place, to } | Call::Reduce { place, to } => vec![place, to],
        Call::Weigh { place, ref word } => [place].into_iter().chain(word.iter().map(|&a| u64::from(a))).collect(),
        Call::Compare { first, second } => vec![first, second],
        Call::Write { place } | Call::Clear { place } => vec![place],
    }
}

#[cfg(test)]
mod tests {
    use super::*;
    use crate::script::Script;
    use std::collections::HashSet;

    /// Which refusals each call can give.
    const REFUSALS: [(&str, &[u8]); 11] = [
        ("load", &[1, 2, 3, 10, 11, 12, 13, 14, 15]),
        ("sum", &[1, 2, 3, 4, 5, 6]),
        ("multiply", &[1, 2, 3, 4, 5, 6]),
        ("scale", &[1, 2, 3, 4, 8]),
        ("after", &[1, 2, 3, 4, 7]),
        ("turn", &[1, 2, 3, 4]),
        ("reduce", &[1, 2, 3, 4]),
        ("weigh", &[1, 2, 3, 4, 7]),
        ("compare", &[1, 2, 3, 4, 5]),
        ("write", &[1, 2, 4, 9]),
        ("clear", &[1, 4]),
    ];

    /// The lines that tell of calls: those that begin with a digit, which no line of a text does.
    fn told(script: &[u8]) -> Vec<String> {
        let script = Script::parse(script, |_| None).expect("no mistakes");
        let told = String::from_utf8(script.perform()).unwrap();
        told.lines().filter(|line| line.starts_with(|c: char| c.is_ascii_digit())).map(String::from).collect()
    }

    #[test]
    fn scripts_have_so_many_calls() {
        for calls in [0, 1, 50, 333] {
            assert_eq!(told(&script(7, calls)).len(), calls);
        }
        assert_eq!(script(7, 200), script(7, 200));
        assert_ne!(script(7, 200), script(8, 200));
    }

    #[test]
    fn words_of_31_letters_are_told_and_weighed() {
        let lines = told(&parts(1, 6));
        let compared = lines.iter().filter(|line| line.contains("compare: differs at"));
        let lengths: Vec<usize> = compared.map(|line| line.split_once(',').unwrap().0.split(' ').count() - 4).collect();
        assert_eq!(lengths.iter().filter(|&&length| length == 31).count(), 12);
    }

    #[test]
    fn every_call_meets_every_outcome() {
        let lines = told(&script(1, 3000));
        let seen: HashSet<(String, Option<u8>)> = lines
            .iter()
            .map(|line| {
                let words: Vec<&str> = line.split([' ', ':', ',']).collect();
                let refused = (words[3] == "refused").then(|| words[4].parse().unwrap());
                (words[1].to_string(), refused)
            })
            .collect();
        for (call, refusals) in REFUSALS {
            assert!(seen.contains(&(call.to_string(), None)), "{call} is never accepted");
            for &number in refusals {
                assert!(seen.contains(&(call.to_string(), Some(number))), "{call} is never refused with {number}");
            }
            let known = seen.iter().filter(|(name, refused)| name == call && refused.is_some()).count();
            assert_eq!(known, refusals.len(), "{call} is refused otherwise");
        }
        let longest = format!(" {}, weighs", ["1"; 31].join(" "));
        assert!(lines.iter().any(|line| line.contains(&longest)), "no word of 31 letters");
    }
}
