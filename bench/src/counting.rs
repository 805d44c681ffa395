//! One report by one program, whose instructions are counted from outside.

use std::hint::black_box;

use independent::field::Fermat;
use independent::prng::Random;
use independent::report::LONGEST_LINE;

use crate::cases::{Case, long_walk, only_read};
use crate::programs::{NAMES, Report, Reported, agreed_line};

/// Reports on a long walk once; the job is `whole`, or `read` where nothing is compared.
pub fn once(program: &str, job: &str, states: usize, letters: usize) {
    let program = NAMES.iter().position(|name| *name == program).expect("a program's name");
    let case = long_walk::<Fermat>(&mut Random::new(1), states, letters);
    let case = match job {
        "whole" => case,
        "read" => only_read(&case),
        _ => panic!("{job} is neither whole nor read"),
    };
    agreed_line::<Fermat>(&case.first, &case.second);
    counted(Fermat::REPORTS[program], &case, &mut [0; LONGEST_LINE]);
}

/// The count is of what this function does; callgrind finds it by its name.
#[unsafe(no_mangle)]
#[inline(never)]
fn counted(report: Report, case: &Case, out: &mut [u8]) {
    black_box(report(&case.first, &case.second, out));
}
