//! Scripts with mistakes, which are reported and not performed.

use crate::prng::Random;

/// Lines that are in order.
const GOOD: [&str; 14] = [
    "",
    "# a note",
    "field 256",
    "open",
    "open 0",
    "lend 8191 18446744073709551615",
    "sum 1 2 3",
    "scale 1 18446744073709551615 0001",
    "after 1 255 1",
    "weigh 1",
    "weigh 1 0 255 7",
    "compare  1   1",
    "write 18446744073709551615",
    "clear 0",
];

/// Lines with one mistake each.
const BAD: [&str; 40] = [
    "divide 1 2 3",
    "Sum 1 2 3",
    "sum1 2 3",
    "1",
    "field",
    "field 3",
    "field 0",
    "field 2 2",
    "field two",
    "open x",
    "open 12545",
    "open 1 2",
    "lend 8192",
    "lend 1 2 3",
    "lend 1 18446744073709551616",
    "text",
    "text a",
    "text a b",
    "load",
    "load missing 1",
    "load missing",
    "sum 1 2",
    "sum 1 2 3 4",
    "multiply 1 2 -3",
    "multiply 1 2 +3",
    "scale 1 18446744073709551616 1",
    "scale 1 2.0 1",
    "scale 1 2 1x",
    "after 1 256 1",
    "after 1 1",
    "turn 1",
    "turn 1 2 3",
    "reduce 1 99999999999999999999999",
    "weigh",
    "weigh 1 1 256 1",
    "weigh 1 a",
    "compare 1",
    "write",
    "write 0x1",
    "clear 1 1",
];

/// A script of so many lines, at least one of them with a mistake, by a seed. The last may begin a text that is cut short.
pub fn mistakes(seed: u64, lines: usize) -> Vec<u8> {
    let mut random = Random::new(seed);
    let surely = random.below(lines.max(1));
    let mut script: String = (0..lines)
        .map(|at| if at == surely || random.chance(25) { random.pick(&BAD) } else { random.pick(&GOOD) })
        .map(|line| format!("{line}\n"))
        .collect();
    if random.chance(30) {
        script += "text last 50\nT          1\n";
    }
    script.into_bytes()
}

#[cfg(test)]
mod tests {
    use super::*;
    use crate::script::Script;

    #[test]
    fn each_line_is_in_order_or_not() {
        for line in GOOD {
            assert!(Script::parse(line.as_bytes(), |_| None).is_ok(), "{line}");
        }
        for line in BAD {
            let told = Script::parse(line.as_bytes(), |_| None).unwrap_err();
            assert_eq!(told.len(), 1, "{line}");
        }
    }

    #[test]
    fn some_line_is_told() {
        for seed in 0..50 {
            assert!(Script::parse(&mistakes(seed, 20), |_| None).is_err());
        }
    }
}
