//! The programs that are timed: the verified library, plain C++, the independent Rust program and C++ with late
//! remainders.

use std::fmt::Debug;

use independent::field::{Bytes, Fermat, Field};
use independent::report::{LONGEST_LINE, report_line};
use independent::text::{read, write};

type ForeignReport = unsafe extern "C" fn(*const u8, usize, *const u8, usize, *mut u8, usize) -> usize;
type ForeignRewrite = unsafe extern "C" fn(*const u8, usize, *mut u8, usize) -> usize;

unsafe extern "C" {
    fn report(a: *const u8, a_len: usize, b: *const u8, b_len: usize, out: *mut u8, out_len: usize) -> usize;
    fn report_bytes(a: *const u8, a_len: usize, b: *const u8, b_len: usize, out: *mut u8, out_len: usize) -> usize;
    fn plain_report(a: *const u8, a_len: usize, b: *const u8, b_len: usize, out: *mut u8, out_len: usize) -> usize;
    fn plain_report_bytes(
        a: *const u8,
        a_len: usize,
        b: *const u8,
        b_len: usize,
        out: *mut u8,
        out_len: usize,
    ) -> usize;
    fn late_report(a: *const u8, a_len: usize, b: *const u8, b_len: usize, out: *mut u8, out_len: usize) -> usize;
    fn rewrite(text: *const u8, length: usize, out: *mut u8, out_len: usize) -> usize;
    fn plain_rewrite(text: *const u8, length: usize, out: *mut u8, out_len: usize) -> usize;
}

/// The programs' names. Late C++ reports over GF(65537), and has no other job.
pub const NAMES: [&str; 4] = ["verified", "C++", "Rust", "late C++"];

/// The numbers of programs that aims name.
pub const RUST: usize = 2;
pub const LATE: usize = 3;

/// Writes the line on two texts to the output, and returns its length.
pub type Report = fn(&[u8], &[u8], &mut [u8]) -> usize;

/// Reads a text, writes it to the output, and returns its length.
pub type Rewrite = fn(&[u8], &mut [u8]) -> usize;

/// One job as the programs do it, in the order of their names.
pub type Jobs<Job> = &'static [Job];

fn foreign(function: ForeignReport, first: &[u8], second: &[u8], out: &mut [u8]) -> usize {
    // SAFETY: each pointer comes from a slice and goes with its length, and the output is borrowed for writing.
    unsafe { function(first.as_ptr(), first.len(), second.as_ptr(), second.len(), out.as_mut_ptr(), out.len()) }
}

fn foreign_rewrite(function: ForeignRewrite, text: &[u8], out: &mut [u8]) -> usize {
    // SAFETY: as above.
    unsafe { function(text.as_ptr(), text.len(), out.as_mut_ptr(), out.len()) }
}

fn rust_report<F: Field>(first: &[u8], second: &[u8], out: &mut [u8]) -> usize {
    if out.len() < LONGEST_LINE {
        return 0;
    }
    let line = report_line::<F>(first, second);
    out[..line.len()].copy_from_slice(line.as_bytes());
    line.len()
}

fn rust_rewrite(text: &[u8], out: &mut [u8]) -> usize {
    let Ok(table) = read::<Fermat>(text) else { return 0 };
    let made = write(&table);
    let Some(front) = out.get_mut(..made.len()) else { return 0 };
    front.copy_from_slice(&made);
    made.len()
}

/// A field whose tables programs report on.
pub trait Reported: Field {
    /// Their reports.
    const REPORTS: Jobs<Report>;
}

impl Reported for Fermat {
    const REPORTS: Jobs<Report> = &[
        |a, b, out| foreign(report, a, b, out),
        |a, b, out| foreign(plain_report, a, b, out),
        rust_report::<Fermat>,
        |a, b, out| foreign(late_report, a, b, out),
    ];
}

impl Reported for Bytes {
    const REPORTS: Jobs<Report> = &[
        |a, b, out| foreign(report_bytes, a, b, out),
        |a, b, out| foreign(plain_report_bytes, a, b, out),
        rust_report::<Bytes>,
    ];
}

/// Reading and writing over GF(65537).
pub const REWRITES: Jobs<Rewrite> = &[
    |text, out| foreign_rewrite(rewrite, text, out),
    |text, out| foreign_rewrite(plain_rewrite, text, out),
    rust_rewrite,
];

/// The line of a report.
pub fn line_of(report: Report, first: &[u8], second: &[u8]) -> String {
    let mut out = [0; LONGEST_LINE];
    let length = report(first, second, &mut out);
    String::from_utf8_lossy(&out[..length]).into_owned()
}

/// The line that all programs give: were they different, their times would mean nothing.
pub fn agreed_line<F: Reported>(first: &[u8], second: &[u8]) -> String {
    agreed(F::REPORTS.iter().map(|report| line_of(*report, first, second)))
}

/// Requires that all programs write a text as it is, or that all refuse it.
pub fn agree_on_rewriting(text: &[u8]) {
    let written = agreed(REWRITES.iter().map(|rewrite| {
        let mut out = vec![0; text.len()];
        let length = rewrite(text, &mut out);
        out.truncate(length);
        out
    }));
    assert!(written.is_empty() || written == text);
}

/// What all programs made.
fn agreed<T: PartialEq + Debug>(made: impl Iterator<Item = T>) -> T {
    made.zip(NAMES)
        .reduce(|one, other| {
            assert_eq!(one.0, other.0, "{} and {}", one.1, other.1);
            one
        })
        .expect("some program")
        .0
}
