//! The column text of a table: its reader and its writer.

use crate::field::{Element, Field};
use crate::table::{MOST_LETTERS, MOST_STATES, Table};

/// The columns of a number.
const WIDTH: usize = 11;

/// Why a text is refused, and where.
#[derive(Clone, Copy, PartialEq, Eq, Debug)]
pub struct Fault {
    /// The number of the refusal, 10 to 15.
    pub number: u8,
    /// The line, from 1.
    pub line: usize,
    /// The column, from 1.
    pub column: usize,
}

/// A line that is due: its kind, the numbers that it must begin with, and how many codes follow.
struct Line {
    kind: u8,
    heads: Vec<u64>,
    codes: usize,
}

/// The lines after the first, of a table with n states and k letters.
fn lines(n: usize, k: usize) -> Vec<Line> {
    let matrix_lines = (1..=k as u64).flat_map(|letter| (1..=n as u64).map(move |row| vec![letter, row]));
    let mut due = vec![Line { kind: b'S', heads: vec![], codes: n }];
    due.extend(matrix_lines.map(|heads| Line { kind: b'M', heads, codes: n }));
    due.push(Line { kind: b'E', heads: vec![], codes: n });
    due.push(Line { kind: b'Z', heads: vec![], codes: 0 });
    due
}

/// The number of bytes in the text of a table with n states and k letters.
pub fn length(n: usize, k: usize) -> usize {
    41 + 22 * n + k * n * (24 + WIDTH * n)
}

/// A place in a text.
struct Reader<'a> {
    rest: &'a [u8],
    line: usize,
    column: usize,
}

impl<'a> Reader<'a> {
    fn new(text: &'a [u8]) -> Self {
        Self { rest: text, line: 1, column: 1 }
    }

    fn fault_at(&self, number: u8, column: usize) -> Fault {
        Fault { number, line: self.line, column }
    }

    fn fault(&self, number: u8) -> Fault {
        self.fault_at(number, self.column)
    }

    /// Goes past the next byte, if it may stand here; otherwise it is refused by the number given.
    fn byte(&mut self, number: u8, may_stand: impl Fn(u8) -> bool) -> Result<u8, Fault> {
        let (&byte, rest) = self.rest.split_first().ok_or(self.fault(10))?;
        if !may_stand(byte) {
            return Err(self.fault(number));
        }
        self.rest = rest;
        self.column += 1;
        Ok(byte)
    }

    fn kind(&mut self, due: u8) -> Result<(), Fault> {
        self.byte(11, |byte| byte == due).map(drop)
    }

    fn newline(&mut self) -> Result<(), Fault> {
        self.byte(14, |byte| byte == b'\n')?;
        self.line += 1;
        self.column = 1;
        Ok(())
    }

    /// A number, judged after its columns.
    fn number(&mut self, allowed: impl Fn(u64) -> bool) -> Result<u64, Fault> {
        let first = self.column;
        let mut value = None;
        for column in 1..=WIDTH {
            let byte = self.byte(12, |byte| match (column, value) {
                (1, _) => byte == b' ',
                (WIDTH, None) => byte.is_ascii_digit(),
                (_, None) => byte == b' ' || (b'1'..=b'9').contains(&byte),
                (_, Some(_)) => byte.is_ascii_digit(),
            })?;
            if byte != b' ' {
                value = Some(value.unwrap_or(0) * 10 + u64::from(byte - b'0'));
            }
        }
        value.filter(|&v| allowed(v)).ok_or(self.fault_at(13, first))
    }

    fn end(&self) -> Result<(), Fault> {
        if self.rest.is_empty() { Ok(()) } else { Err(self.fault(15)) }
    }
}

/// The table of a text, or the first fault in it.
pub fn read<F: Field>(text: &[u8]) -> Result<Table<F>, Fault> {
    let mut reader = Reader::new(text);
    reader.kind(b'T')?;
    let n = reader.number(|n| n <= MOST_STATES as u64)? as usize;
    let k = reader.number(|k| (1..=MOST_LETTERS as u64).contains(&k))? as usize;
    reader.number(|q| q == u64::from(F::ORDER))?;
    reader.newline()?;
    let mut elements = Vec::new();
    for line in lines(n, k) {
        reader.kind(line.kind)?;
        for head in line.heads {
            reader.number(|value| value == head)?;
        }
        for _ in 0..line.codes {
            let code = reader.number(|code| code < u64::from(F::ORDER))?;
            elements.extend(Element::from_code(code));
        }
        reader.newline()?;
    }
    reader.end()?;
    Ok(Table::from_elements(n, k, &elements))
}

/// The bytes of a line: its kind, and its numbers.
pub fn line(kind: char, numbers: impl IntoIterator<Item = u64>) -> String {
    let mut made = String::from(kind);
    for number in numbers {
        made += &format!("{number:>WIDTH$}");
    }
    made + "\n"
}

/// The text of a table.
pub fn write<F: Field>(table: &Table<F>) -> Vec<u8> {
    let (n, k) = (table.states(), table.letters());
    let mut codes = table.elements().map(|element| u64::from(element.code()));
    let mut text = line('T', [n as u64, k as u64, u64::from(F::ORDER)]);
    for due in lines(n, k) {
        let numbers = due.heads.into_iter().chain(codes.by_ref().take(due.codes));
        text += &line(char::from(due.kind), numbers);
    }
    text.into_bytes()
}

#[cfg(test)]
mod tests {
    use super::*;
    use crate::field::{Bits, Bytes, Fermat};
    use crate::making::random_table;
    use crate::prng::Random;
    use crate::table::tests::fibonacci;

    const FIBONACCI: &str = "\
T          2          1      65537
S          1          0
M          1          1          0          1
M          1          2          1          1
E          0          1
Z
";

    fn refused(text: &[u8]) -> (u8, usize, usize) {
        let fault = read::<Fermat>(text).unwrap_err();
        (fault.number, fault.line, fault.column)
    }

    fn replaced(old: &str, new: &str) -> String {
        assert!(FIBONACCI.contains(old));
        FIBONACCI.replacen(old, new, 1)
    }

    #[test]
    fn the_example() {
        assert_eq!(read(FIBONACCI.as_bytes()), Ok(fibonacci([0, 1])));
        assert_eq!(write(&fibonacci([0, 1])), FIBONACCI.as_bytes());
        assert_eq!(length(2, 1), 177);
        assert_eq!(length(16, 6), 19593);
    }

    #[test]
    fn examples_of_refusals() {
        assert_eq!(refused(b""), (10, 1, 1));
        assert_eq!(refused(replaced("E          0          1\n", "").as_bytes()), (11, 5, 1));
        assert_eq!(refused(replaced("S          1", "S         01").as_bytes()), (12, 2, 11));
        assert_eq!(refused(replaced("S          1", "S      65537").as_bytes()), (13, 2, 2));
        let lines: Vec<&str> = FIBONACCI.split_inclusive('\n').collect();
        let exchanged = [lines[0], lines[1], lines[3], lines[2], lines[4], lines[5]].concat();
        assert_eq!(refused(exchanged.as_bytes()), (13, 3, 13));
        assert_eq!(refused(replaced("1          0\n", "1          0 \n").as_bytes()), (14, 2, 24));
        assert_eq!(refused(format!("{FIBONACCI}\n").as_bytes()), (15, 7, 1));
        assert!(read::<Fermat>(replaced("S          1", "S      65536").as_bytes()).is_ok());
    }

    #[test]
    fn a_number_is_judged_before_the_next_byte() {
        assert_eq!(refused(b"T         17"), (13, 1, 2));
        assert_eq!(refused(b"T         16"), (10, 1, 13));
        assert_eq!(refused(b"T          0          0"), (13, 1, 13));
        assert_eq!(refused(b"T          0          7"), (13, 1, 13));
        assert_eq!(refused(b"T          0          6          2"), (13, 1, 24));
        assert_eq!(refused(b"T          0          6      65537"), (10, 1, 35));
        assert_eq!(refused(b"T          0          6      65537\nS\nM"), (11, 3, 1));
    }

    #[test]
    fn bytes_in_their_columns() {
        assert_eq!(refused(b"T 1 "), (12, 1, 4));
        assert_eq!(refused(b"T12345678901"), (12, 1, 2));
        assert_eq!(refused(b"T           "), (12, 1, 12));
        assert_eq!(refused(b"T\n"), (12, 1, 2));
        assert_eq!(refused(b"T 9999999999"), (13, 1, 2));
        assert_eq!(refused(b"\n"), (11, 1, 1));
        assert_eq!(refused(b"T  "), (10, 1, 4));
    }

    fn comes_back<F: Field>(random: &mut Random) {
        for n in [0, 1, 5, 16] {
            let k = random.between(1, 6);
            let table = random_table::<F>(random, n, k);
            let text = write(&table);
            assert_eq!(text.len(), length(n, k));
            assert_eq!(read(&text), Ok(table));
            for cut in 0..text.len() {
                assert_eq!(read::<F>(&text[..cut]).unwrap_err().number, 10);
            }
        }
    }

    #[test]
    fn what_is_written_is_read() {
        let mut random = Random::new(2);
        comes_back::<Bits>(&mut random);
        comes_back::<Bytes>(&mut random);
        comes_back::<Fermat>(&mut random);
    }
}
