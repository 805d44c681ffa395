//! `generate SEED KIND COUNT` writes test vectors to standard output. The same arguments give the same bytes.
//!
//! Scripts, over all three fields: `script` with COUNT calls, `parts` on COUNT pairs of tables that differ first at 31
//! letters, `loads` of every one-byte change of COUNT texts of each field, `mistakes` of COUNT lines.
//!
//! Pairs of texts, over GF(65537) or the field of a fourth argument: COUNT `pairs` of all kinds, COUNT `parted` pairs,
//! which differ first at 31 letters, COUNT pairs of `texts` made at random, all `changes` of a byte of COUNT texts, or a
//! `sample` of COUNT such changes.

use std::io::{self, Write};
use std::process::ExitCode;

use independent::field::{Bits, Bytes, Fermat, Field};
use independent::script::Offered;
use independent::vectors::{changes, framed, loads, mistakes, pairs, parted, parts, sample, script, texts};

fn pairs_of<F: Field>(kind: &str, seed: u64, count: usize) -> Option<Vec<u8>> {
    let made = match kind {
        "pairs" => pairs::<F>(seed, count),
        "parted" => parted::<F>(seed, count),
        "texts" => texts::<F>(seed, count),
        "changes" => changes::<F>(seed, count),
        "sample" => sample::<F>(seed, count),
        _ => return None,
    };
    Some(framed(&made))
}

fn made(arguments: &[String]) -> Option<Vec<u8>> {
    let [seed, kind, count, field @ ..] = arguments else { return None };
    let (seed, count) = (seed.parse().ok()?, count.parse().ok()?);
    match (kind.as_str(), field) {
        ("script", []) => Some(script(seed, count)),
        ("parts", []) => Some(parts(seed, count)),
        ("loads", []) => Some(loads(seed, count)),
        ("mistakes", []) => Some(mistakes(seed, count)),
        (kind, []) => pairs_of::<Fermat>(kind, seed, count),
        (kind, [order]) => match Offered::of_order(order.parse().ok()?)? {
            Offered::Bits => pairs_of::<Bits>(kind, seed, count),
            Offered::Bytes => pairs_of::<Bytes>(kind, seed, count),
            Offered::Fermat => pairs_of::<Fermat>(kind, seed, count),
        },
        _ => None,
    }
}

fn main() -> io::Result<ExitCode> {
    let arguments: Vec<String> = std::env::args().skip(1).collect();
    let Some(bytes) = made(&arguments) else {
        eprintln!("usage: generate SEED script|parts|loads|mistakes COUNT");
        eprintln!("       generate SEED pairs|parted|texts|changes|sample COUNT [Q]");
        return Ok(ExitCode::from(2));
    };
    io::stdout().write_all(&bytes)?;
    Ok(ExitCode::SUCCESS)
}
