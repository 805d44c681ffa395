//! Scripts: lists of calls as lines, and the outcomes as lines.

use std::borrow::Cow;
use std::collections::HashMap;

use crate::compare::Verdict;
use crate::field::{Bits, Bytes, Fermat, Field};
use crate::shelf::{Answer, Call, Lent, Perform, Refusal, SHELF_SIZE, Shelf};

/// The fields that a script can name.
#[derive(Clone, Copy, PartialEq, Eq, Debug)]
#[allow(missing_docs)]
pub enum Offered {
    Bits,
    Bytes,
    Fermat,
}

impl Offered {
    /// The field of so many elements, if it is offered.
    pub fn of_order(order: u64) -> Option<Self> {
        let known = [(Bits::ORDER, Self::Bits), (Bytes::ORDER, Self::Bytes), (Fermat::ORDER, Self::Fermat)];
        known.into_iter().find(|&(q, _)| u64::from(q) == order).map(|(_, field)| field)
    }

    fn open(self, elements: usize) -> Box<dyn Perform> {
        match self {
            Self::Bits => Box::new(Shelf::<Bits>::open(elements)),
            Self::Bytes => Box::new(Shelf::<Bytes>::open(elements)),
            Self::Fermat => Box::new(Shelf::<Fermat>::open(elements)),
        }
    }
}

/// What a line says.
#[derive(Clone, PartialEq, Eq, Debug)]
enum Step<'a> {
    Field(Offered),
    Open(usize),
    Lend(Lent),
    Call(Call<'a>),
}

/// A script that has no mistakes: its steps with their lines.
#[derive(Clone, PartialEq, Eq, Debug)]
pub struct Script<'a> {
    steps: Vec<(usize, Step<'a>)>,
}

/// A mistake in a script.
#[derive(Clone, PartialEq, Eq, Debug)]
pub struct Mistake {
    /// The line, from 1.
    pub line: usize,
    /// What is wrong with it.
    pub reason: String,
}

/// A number below 2^64 in decimal digits.
fn number(word: &[u8]) -> Result<u64, String> {
    let digits = std::str::from_utf8(word).ok().filter(|w| w.bytes().all(|b| b.is_ascii_digit()) && !w.is_empty());
    let digits = digits.ok_or_else(|| format!("{} is no number", String::from_utf8_lossy(word)))?;
    digits.parse().map_err(|_| format!("{digits} is too large"))
}

fn numbers<const N: usize>(words: &[&[u8]]) -> Result<[u64; N], String> {
    let words: [&[u8]; N] = words.try_into().map_err(|_| format!("{N} words are due after the first"))?;
    let mut found = [0; N];
    for (value, word) in found.iter_mut().zip(words) {
        *value = number(word)?;
    }
    Ok(found)
}

fn letter(value: u64) -> Result<u8, String> {
    u8::try_from(value).map_err(|_| format!("{value} is too large for a letter"))
}

/// The place in a script up to which it is read, and the texts given so far.
struct Parser<'a, Files> {
    rest: &'a [u8],
    line: usize,
    texts: HashMap<&'a [u8], &'a [u8]>,
    files: Files,
}

impl<'a, Files: Fn(&str) -> Option<Vec<u8>>> Parser<'a, Files> {
    /// The first `count` bytes of the rest, which are gone past.
    fn take(&mut self, count: usize) -> &'a [u8] {
        let (taken, rest) = self.rest.split_at(count);
        self.line += taken.iter().filter(|&&byte| byte == b'\n').count();
        self.rest = rest;
        taken
    }

    /// The next line without its newline.
    fn next_line(&mut self) -> &'a [u8] {
        let length = self.rest.iter().position(|&byte| byte == b'\n').unwrap_or(self.rest.len());
        let line = self.take(length);
        self.take(self.rest.len().min(1));
        line
    }

    /// What a line says, if it says anything.
    fn step(&mut self, line: &'a [u8]) -> Result<Option<Step<'a>>, String> {
        let words: Vec<&'a [u8]> = line.split(|&byte| byte == b' ').filter(|word| !word.is_empty()).collect();
        let Some((&first, rest)) = words.split_first() else { return Ok(None) };
        if first.starts_with(b"#") {
            return Ok(None);
        }
        let step = match first {
            b"field" => {
                let [q] = numbers(rest)?;
                Step::Field(Offered::of_order(q).ok_or(format!("a field of {q} elements is not offered"))?)
            }
            b"open" if rest.is_empty() => Step::Open(SHELF_SIZE),
            b"open" => {
                let [elements] = numbers(rest)?;
                let fits = usize::try_from(elements).ok().filter(|&e| e <= SHELF_SIZE);
                Step::Open(fits.ok_or(format!("{elements} is too large"))?)
            }
            b"lend" => {
                let [work, output] = numbers(rest)?;
                Step::Lend(Lent { work, output })
            }
            b"text" => {
                self.text(rest)?;
                return Ok(None);
            }
            _ => Step::Call(self.call(first, rest)?),
        };
        Ok(Some(step))
    }

    /// The text that stands after its line.
    fn text(&mut self, words: &[&'a [u8]]) -> Result<(), String> {
        let [name, length] = words else { return Err("a name and a length are due".into()) };
        let length = usize::try_from(number(length)?).ok().filter(|&length| length <= self.rest.len());
        let Some(length) = length else {
            self.take(self.rest.len());
            return Err("the text is cut short".into());
        };
        let text = self.take(length);
        self.texts.insert(name, text);
        let after = self.next_line();
        if after.is_empty() { Ok(()) } else { Err("a newline is due after the text".into()) }
    }

    fn named(&self, name: &'a [u8]) -> Result<Cow<'a, [u8]>, String> {
        if let Some(&text) = self.texts.get(name) {
            return Ok(text.into());
        }
        let name = String::from_utf8_lossy(name);
        (self.files)(&name).map(Cow::Owned).ok_or_else(|| format!("{name} cannot be read"))
    }

    fn call(&self, name: &[u8], words: &[&'a [u8]]) -> Result<Call<'a>, String> {
        Ok(match name {
            b"load" => {
                let [name, to] = words else { return Err("a name and a place are due".into()) };
                Call::Load { text: self.named(name)?, to: number(to)? }
            }
            b"sum" => numbers(words).map(|[first, second, to]| Call::Sum { first, second, to })?,
            b"multiply" => numbers(words).map(|[first, second, to]| Call::Multiply { first, second, to })?,
            b"scale" => numbers(words).map(|[place, code, to]| Call::Scale { place, code, to })?,
            b"after" => {
                let [place, a, to] = numbers(words)?;
                Call::After { place, letter: letter(a)?, to }
            }
            b"turn" => numbers(words).map(|[place, to]| Call::Turn { place, to })?,
            b"reduce" => numbers(words).map(|[place, to]| Call::Reduce { place, to })?,
            b"weigh" => {
                let (place, word) = words.split_first().ok_or("a place is due")?;
                let word = word.iter().map(|w| letter(number(w)?)).collect::<Result<_, _>>()?;
                Call::Weigh { place: number(place)?, word }
            }
            b"compare" => numbers(words).map(|[first, second]| Call::Compare { first, second })?,
            b"write" => numbers(words).map(|[place]| Call::Write { place })?,
            b"clear" => numbers(words).map(|[place]| Call::Clear { place })?,
            _ => return Err(format!("{} is no call", String::from_utf8_lossy(name))),
        })
    }
}

impl<'a> Script<'a> {
    /// Reads a script. A name that no text before it has is that of a file, which `files` returns.
    pub fn parse(script: &'a [u8], files: impl Fn(&str) -> Option<Vec<u8>>) -> Result<Self, Vec<Mistake>> {
        let mut parser = Parser { rest: script, line: 1, texts: HashMap::new(), files };
        let (mut steps, mut mistakes) = (Vec::new(), Vec::new());
        while !parser.rest.is_empty() {
            let number = parser.line;
            let line = parser.next_line();
            match parser.step(line) {
                Ok(step) => steps.extend(step.map(|step| (number, step))),
                Err(reason) => mistakes.push(Mistake { line: number, reason }),
            }
        }
        if mistakes.is_empty() { Ok(Self { steps }) } else { Err(mistakes) }
    }

    /// Performs the script, and returns what is printed of it.
    pub fn perform(&self) -> Vec<u8> {
        let mut field = Offered::Fermat;
        let mut shelf = field.open(SHELF_SIZE);
        let mut lent = Lent::ALL;
        let mut told = Vec::new();
        for (line, step) in &self.steps {
            match step {
                Step::Field(named) => {
                    field = *named;
                    shelf = field.open(SHELF_SIZE);
                }
                Step::Open(elements) => shelf = field.open(*elements),
                Step::Lend(given) => lent = *given,
                Step::Call(call) => {
                    let outcome = shelf.perform(call, lent);
                    told.extend_from_slice(format!("{line} {}: {}\n", call.name(), told_of(&outcome)).as_bytes());
                    if let Ok(Answer::Text(text)) = outcome {
                        told.extend(text);
                    }
                }
            }
        }
        told
    }
}

/// A word's letters with spaces between them.
fn spelt(word: &[u8]) -> String {
    let letters: Vec<String> = word.iter().map(u8::to_string).collect();
    if letters.is_empty() { "the empty word".into() } else { letters.join(" ") }
}

fn told_of(outcome: &Result<Answer, Refusal>) -> String {
    match outcome {
        Ok(Answer::Done) => "done".into(),
        Ok(Answer::Weight(code)) => code.to_string(),
        Ok(Answer::Verdict(Verdict::Alike { tried, kept })) => format!("alike, {tried} tried, {kept} kept"),
        Ok(Answer::Verdict(Verdict::Differs { word, weights: [left, right], tried })) => {
            format!("differs at {}, weighs {left} and {right}, {tried} tried", spelt(word))
        }
        Ok(Answer::Text(text)) => format!("{} bytes", text.len()),
        Err(refusal) => {
            let position = match refusal {
                Refusal::Plain(_) => String::new(),
                Refusal::Letter(position) => format!(" at position {position}"),
                Refusal::Unreadable(fault) => format!(" at line {}, column {}", fault.line, fault.column),
            };
            format!("refused {}{position}, {}", refusal.number(), reason(refusal.number()))
        }
    }
}

fn reason(number: u8) -> &'static str {
    match number {
        1 => "a place is outside 1 to 8",
        2 => "shelf memory is too short",
        3 => "work memory is too short",
        4 => "a place is empty",
        5 => "the letter counts differ",
        6 => "the result has over 16 states",
        7 => "a letter is outside the table's letters",
        8 => "the code is not one of the field's",
        9 => "the output is too short",
        10 => "the text ends where a byte is due",
        11 => "another kind of line is due",
        12 => "a byte cannot stand in its column",
        13 => "a number is not the one due or not within its limits",
        14 => "the line should end here",
        15 => "nothing may follow the last line",
        _ => unreachable!("refusals have numbers 1 to 15"),
    }
}

#[cfg(test)]
mod tests {
    use super::*;

    const FIBONACCI: &str = "\
T          2          1      65537
S          1          0
M          1          1          0          1
M          1          2          1          1
E          0          1
Z
";

    fn no_files(_: &str) -> Option<Vec<u8>> {
        None
    }

    fn told(script: &str) -> String {
        let script = Script::parse(script.as_bytes(), no_files).expect("no mistakes");
        String::from_utf8(script.perform()).unwrap()
    }

    fn lines_with_mistakes(script: &str) -> Vec<usize> {
        Script::parse(script.as_bytes(), no_files).unwrap_err().iter().map(|mistake| mistake.line).collect()
    }

    #[test]
    fn a_script_and_what_is_told_of_it() {
        let script = format!(
            "# Fibonacci\n\ntext fib 177\n{FIBONACCI}\nload fib 1\nmultiply 1  1 02\nreduce 2 2\nweigh 2 1 1 1\n\
             compare 1 2\nweigh 1 1 0\nweigh 1\nopen 12543\nturn 1 1\nclear 1\nfield 2\nload fib 1\nlend 8191 0\n\
             turn 1 0\nturn 1 1"
        );
        let expected = "\
11 load: done
12 multiply: done
13 reduce: done
14 weigh: 4
15 compare: differs at 1 1 1, weighs 2 and 4, 4 tried
16 weigh: refused 7 at position 2, a letter is outside the table's letters
17 weigh: 0
19 turn: refused 2, shelf memory is too short
20 clear: refused 4, a place is empty
22 load: refused 13 at line 1, column 24, a number is not the one due or not within its limits
24 turn: refused 1, a place is outside 1 to 8
25 turn: refused 3, work memory is too short
";
        assert_eq!(told(&script), expected);
        let written = told(&format!("text fib 177\n{FIBONACCI}\nload fib 1\nwrite 1\nlend 8192 176\nwrite 1"));
        assert_eq!(
            written,
            format!("9 load: done\n10 write: 177 bytes\n{FIBONACCI}12 write: refused 9, the output is too short\n")
        );
    }

    #[test]
    fn mistakes() {
        assert_eq!(lines_with_mistakes("fly 1\nsum 1 2\nsum 1 2 3 4\n\nturn 1 x\nclear -1\nwrite 1"), [1, 2, 3, 5, 6]);
        assert_eq!(lines_with_mistakes("write 18446744073709551615\nwrite 18446744073709551616"), [2]);
        assert_eq!(lines_with_mistakes("weigh 1 255\nweigh 1 256\nafter 1 256 1\nfield 3\nopen 12545"), [2, 3, 4, 5]);
        assert_eq!(lines_with_mistakes("text a 5\nabcd"), [1]);
        assert_eq!(lines_with_mistakes("text a 3\nab\n\nload b 1\nload a 1"), [4]);
    }
}
