//! Times the verified library beside plain C++, the independent Rust program and C++ with late remainders, on the same
//! inputs in one run, and prints the times, their ratios, whether the aims are met and how the times grow. With a
//! program's name, a job, states and letters it does the job once, for a count of its instructions.

mod cases;
mod counting;
mod programs;
mod timing;

use std::env;

use cases::{Case, Kind, long_walk, only_read, reading, sizes, text, two_forms};
use independent::field::{Bytes, Fermat};
use independent::prng::Random;
use independent::vectors;
use programs::{LATE, NAMES, REWRITES, RUST, Reported, agree_on_rewriting, agreed_line};
use timing::{Times, report_times, rewrite_times, without};

/// A row of a table.
struct Row {
    name: &'static str,
    states: usize,
    letters: usize,
    note: String,
    times: Times,
}

impl Row {
    /// The verified library's time as a multiple of a program's.
    fn beside(&self, program: usize) -> f64 {
        self.times[0] / self.times[program]
    }

    fn print(&self) {
        let times = self.times.iter().map(|time| format!("{time:.1}"));
        let ratios = (1..self.times.len()).map(|program| format!("{:.2}", self.beside(program)));
        let cells = times.chain(ratios).collect::<Vec<_>>().join(" | ");
        println!("| {} | {} | {} | {} | {cells} |", self.name, self.states, self.letters, self.note);
    }
}

/// Prints the head of a table for so many programs.
fn head(title: &str, note: &str, programs: usize) {
    let names = &NAMES[..programs];
    let times = names.iter().map(|name| format!("{name}, µs"));
    let ratios = names[1..].iter().map(|name| format!("verified / {name}"));
    let columns = times.chain(ratios).collect::<Vec<_>>();
    println!("\n### {title}\n");
    println!("| case | states | letters | {note} | {} |", columns.join(" | "));
    println!("|---|---:|---:|---|{}", "---:|".repeat(columns.len()));
}

/// The line of a report, without the spaces of its columns.
fn short_line<F: Reported>(case: &Case) -> String {
    agreed_line::<F>(&case.first, &case.second).split_whitespace().collect::<Vec<_>>().join(" ")
}

/// Reports of a kind, in all sizes; with them, for two tables, what comparing alone takes.
fn reports<F: Reported>(random: &mut Random, name: &'static str, kind: Kind) -> Vec<(Row, Row)> {
    let one = |(states, letters): (usize, usize)| {
        let case = kind(random, states, letters);
        let note = short_line::<F>(&case);
        let read = only_read(&case);
        short_line::<F>(&read);
        let [times, reading] = report_times::<F, 2>([&case, &read]);
        let alone = without(&times, &reading);
        let row = |times, note| Row { name, states, letters, note, times };
        (row(times, note.clone()), row(alone, note))
    };
    sizes().map(one).collect()
}

/// Prints reports, and comparing alone; returns the rows of both.
fn comparisons<F: Reported>(random: &mut Random, order: &str) -> (Vec<Row>, Vec<Row>) {
    let kinds: [(_, Kind); 2] = [("two forms", two_forms::<F>), ("long walk", long_walk::<F>)];
    let rows = kinds.into_iter().flat_map(|(name, kind)| reports::<F>(random, name, kind));
    let (whole, alone): (Vec<Row>, Vec<Row>) = rows.unzip();
    head(&format!("report on two tables over {order}"), "line", F::REPORTS.len());
    whole.iter().for_each(Row::print);
    head(&format!("comparing alone over {order}: report, less the same without comparing"), "line", F::REPORTS.len());
    alone.iter().for_each(Row::print);
    grow(&alone[sizes().count()..]);
    (whole, alone)
}

/// Reports on one text, the second being empty, and on none.
fn one_text(random: &mut Random) -> Vec<Row> {
    head("report on one text over GF(65537)", "line", Fermat::REPORTS.len());
    let row = |name, states, letters, case: Case| {
        let note = short_line::<Fermat>(&case);
        let [times] = report_times::<Fermat, 1>([&case]);
        Row { name, states, letters, note, times }
    };
    row("nothing read", 0, 0, Case { first: Vec::new(), second: Vec::new() }).print();
    let one = |(n, k)| row("reading", n, k, reading::<Fermat>(random, n, k));
    let rows: Vec<Row> = sizes().map(one).collect();
    rows.iter().for_each(Row::print);
    grow(&rows);
    rows
}

/// Reading and writing a text.
fn rewriting(random: &mut Random) -> Vec<Row> {
    let one = |(states, letters)| {
        let text = text::<Fermat>(random, states, letters);
        agree_on_rewriting(&text);
        Row { name: "reading and writing", states, letters, note: text.len().to_string(), times: rewrite_times(&text) }
    };
    let rows: Vec<Row> = sizes().map(one).collect();
    head("reading and writing a text over GF(65537)", "bytes", REWRITES.len());
    rows.iter().for_each(Row::print);
    grow(&rows);
    rows
}

/// Prints how times grow from size to size, of rows in all sizes.
fn grow(rows: &[Row]) {
    let at = |n: usize, k: usize| rows.iter().find(|row| (row.states, row.letters) == (n, k)).expect("a size").times[0];
    let by = |to: f64, from: f64| format!("{:.1}", to / from);
    let states = [1, 3, 6].map(|k| format!("{} and {}", by(at(8, k), at(4, k)), by(at(16, k), at(8, k))));
    let letters = [4, 8, 16].map(|n| format!("{} and {}", by(at(n, 3), at(n, 1)), by(at(n, 6), at(n, 3))));
    println!(
        "\nThe verified library's time grows, from 4 to 8 and from 8 to 16 states, by {} with",
        states.join("; by ")
    );
    println!(
        "1, 3 and 6 letters; from 1 to 3 and from 3 to 6 letters, by {} with 4, 8 and 16 states.",
        letters.join("; by ")
    );
}

/// Prints in how many rows the verified library takes at most so many times what a program takes.
fn aim<'a>(what: &str, most: f64, program: usize, rows: impl IntoIterator<Item = &'a Row>) {
    let rows: Vec<&Row> = rows.into_iter().collect();
    let beside = |row: &Row| row.beside(program);
    let met = rows.iter().filter(|row| beside(row) <= most).count();
    let worst = rows.iter().max_by(|a, b| beside(a).total_cmp(&beside(b))).expect("some row");
    println!(
        "- {what}, at most {most:.1} times {}: in {met} of {} rows; {:.2} at the most, {} at {} states and {} letters",
        NAMES[program],
        rows.len(),
        beside(worst),
        worst.name,
        worst.states,
        worst.letters
    );
}

fn time_all() {
    let pairs = vectors::pairs::<Fermat>(7, 400);
    pairs.iter().for_each(|(first, second)| drop(agreed_line::<Fermat>(first, second)));
    pairs.iter().for_each(|(first, _)| agree_on_rewriting(first));
    let bytes = vectors::pairs::<Bytes>(7, 400);
    bytes.iter().for_each(|(first, second)| drop(agreed_line::<Bytes>(first, second)));
    println!("2 times 400 pairs of texts: all programs give the same lines, and write 400 texts alike");
    let random = &mut Random::new(1);
    let one = one_text(random);
    let (two, alone) = comparisons::<Fermat>(random, "GF(65537)");
    let rewritten = rewriting(random);
    let (over_bytes, _) = comparisons::<Bytes>(random, "GF(256)");
    println!("\n### Aims\n");
    aim("report on one text over GF(65537)", 1.0, RUST, &one);
    aim("report on two tables over GF(65537)", 1.0, RUST, &two);
    aim("report on two tables over GF(256)", 1.0, RUST, &over_bytes);
    aim("reading and writing a text", 1.2, RUST, &rewritten);
    for (states, most) in [(16, 0.7), (4, 1.3)] {
        let rows = alone.iter().filter(|row| row.states == states);
        aim(&format!("comparing alone over GF(65537) at {states} states"), most, LATE, rows);
    }
}

fn main() {
    let arguments: Vec<String> = env::args().skip(1).collect();
    match &arguments[..] {
        [] => time_all(),
        [program, job, states, letters] => {
            counting::once(program, job, states.parse().expect("states"), letters.parse().expect("letters"));
        }
        _ => panic!("either no arguments, or a program, a job, states and letters"),
    }
}
