//! The line that reports how two texts compare.

use crate::compare::{Verdict, compare};
use crate::field::{Fermat, Field};
use crate::text::{Fault, line, read};

/// The bytes of the longest line, which every output must have room for.
pub const LONGEST_LINE: usize = 387;

/// The line for two texts over a field.
pub fn report_line<F: Field>(first: &[u8], second: &[u8]) -> String {
    let refused = |text: u64| {
        move |fault: Fault| line('R', [text, u64::from(fault.number), fault.line as u64, fault.column as u64])
    };
    read::<F>(first)
        .map_err(refused(1))
        .and_then(|first| Ok((first, read::<F>(second).map_err(refused(2))?)))
        .map(|(first, second)| {
            if first.letters() == second.letters() {
                verdict_line(&compare(&first, &second))
            } else {
                line('R', [0, 5, 0, 0])
            }
        })
        .unwrap_or_else(|refusal| refusal)
}

fn verdict_line(verdict: &Verdict) -> String {
    match verdict {
        Verdict::Alike { tried, kept } => line('Q', [*tried as u64, *kept as u64]),
        Verdict::Differs { word, weights: [left, right], tried } => {
            let heads = [*tried as u64, word.len() as u64, u64::from(*left), u64::from(*right)];
            line('D', heads.into_iter().chain(word.iter().map(|&letter| u64::from(letter))))
        }
    }
}

/// Writes the line over GF(65537) at the front of the output and returns how many bytes it has, or 0 where the output has
/// too few.
pub fn report(first: &[u8], second: &[u8], output: &mut [u8]) -> usize {
    if output.len() < LONGEST_LINE {
        return 0;
    }
    let made = report_line::<Fermat>(first, second);
    output[..made.len()].copy_from_slice(made.as_bytes());
    made.len()
}

#[cfg(test)]
mod tests {
    use super::*;
    use crate::making::parted_sequences;
    use crate::prng::Random;
    use crate::table::Table;
    use crate::text::write;

    const ONES: &str = "\
T          1          1      65537
S          1
M          1          1          1
E          1
Z
";

    fn of(first: &str, second: &str) -> String {
        report_line::<Fermat>(first.as_bytes(), second.as_bytes())
    }

    #[test]
    fn the_example() {
        let other = ONES.replace("M          1          1          1", "M          1          1          0");
        assert_eq!(of(ONES, &other), "D          2          1          1          0          1\n");
        assert_eq!(of(&other, ONES), "D          2          1          0          1          1\n");
        assert_eq!(of(ONES, ONES), "Q          2          1\n");
    }

    #[test]
    fn refusals() {
        assert_eq!(of("", "x"), "R          1         10          1          1\n");
        assert_eq!(of(ONES, "x"), "R          2         11          1          1\n");
        let two_letters = String::from_utf8(write(&Table::<Fermat>::nothing(2))).unwrap();
        assert_eq!(of(ONES, &two_letters), "R          0          5          0          0\n");
    }

    #[test]
    fn outputs() {
        let (ones, mut output) = (ONES.as_bytes(), [7; LONGEST_LINE]);
        assert_eq!(report(ones, ones, &mut output[1..]), 0);
        assert_eq!(output, [7; LONGEST_LINE]);
        assert_eq!(report(ones, ones, &mut output), 24);
        assert_eq!(&output[..24], b"Q          2          1\n");
        assert!(output[24..].iter().all(|&byte| byte == 7));
    }

    #[test]
    fn the_longest_line() {
        let (first, second) = parted_sequences::<Fermat>(&mut Random::new(4), 16, 16, 1);
        assert_eq!(report_line::<Fermat>(&write(&first), &write(&second)).len(), LONGEST_LINE);
    }
}
