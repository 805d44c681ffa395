//! What the verified programs should write, for what is on standard input: `answer script` performs a script, `answer
//! pairs [Q]` reports on pairs of texts (over GF(65537), or the field named), `answer pack` packs a text.

use std::fs;
use std::io::{self, Read, Write};
use std::process::ExitCode;

use independent::field::{Bits, Bytes, Fermat};
use independent::pack::pack;
use independent::report::report_line;
use independent::script::{Offered, Script};
use independent::vectors::unframed;

fn main() -> io::Result<ExitCode> {
    let arguments: Vec<String> = std::env::args().skip(1).collect();
    let mut input = Vec::new();
    io::stdin().read_to_end(&mut input)?;
    match arguments.iter().map(String::as_str).collect::<Vec<_>>()[..] {
        ["script"] => answer_script(&input),
        ["pairs"] => answer_pairs(&input, report_line::<Fermat>),
        ["pairs", order] => match order.parse().ok().and_then(Offered::of_order) {
            Some(Offered::Bits) => answer_pairs(&input, report_line::<Bits>),
            Some(Offered::Bytes) => answer_pairs(&input, report_line::<Bytes>),
            Some(Offered::Fermat) => answer_pairs(&input, report_line::<Fermat>),
            None => usage(),
        },
        ["pack"] => answer_pack(&input),
        _ => usage(),
    }
}

fn usage() -> io::Result<ExitCode> {
    eprintln!("usage: answer script, answer pairs [Q], or answer pack");
    Ok(ExitCode::from(2))
}

fn answer_script(input: &[u8]) -> io::Result<ExitCode> {
    match Script::parse(input, |name| fs::read(name).ok()) {
        Ok(script) => {
            io::stdout().write_all(&script.perform())?;
            Ok(ExitCode::SUCCESS)
        }
        Err(mistakes) => {
            for mistake in mistakes {
                eprintln!("script: line {}: {}", mistake.line, mistake.reason);
            }
            Ok(ExitCode::FAILURE)
        }
    }
}

fn answer_pairs(input: &[u8], line: fn(&[u8], &[u8]) -> String) -> io::Result<ExitCode> {
    let Some(pairs) = unframed(input) else {
        eprintln!("answer: the input is no stream of pairs");
        return Ok(ExitCode::FAILURE);
    };
    let lines: String = pairs.iter().map(|(first, second)| line(first, second)).collect();
    io::stdout().write_all(lines.as_bytes())?;
    Ok(ExitCode::SUCCESS)
}

fn answer_pack(input: &[u8]) -> io::Result<ExitCode> {
    match pack(input) {
        Ok(done) => {
            let ([before, after], [tried, kept]) = (done.states, done.words);
            io::stdout().write_all(&done.text)?;
            let bytes = done.text.len();
            eprintln!("table: {before} states packed to {after} over GF({}), {bytes} bytes", done.order);
            eprintln!("all words weigh alike: {tried} tried, {kept} kept");
            Ok(ExitCode::SUCCESS)
        }
        Err(fault) => {
            eprintln!("table: line {}, column {}: refused {}", fault.line, fault.column, fault.number);
            Ok(ExitCode::FAILURE)
        }
    }
}
