//! Compiles the C++ programs, and links them and the verified library's archives.

use std::env;
use std::path::Path;
use std::process::Command;

fn run(program: &str, arguments: &[&str]) {
    let status = Command::new(program).args(arguments).status().expect(program);
    assert!(status.success(), "{program} failed");
}

fn main() {
    let out = env::var("OUT_DIR").expect("cargo sets OUT_DIR");
    println!("cargo::rustc-link-search=native={out}");
    println!("cargo::rerun-if-changed=reporting.h");
    for name in ["plain", "late"] {
        let source = format!("{name}.cpp");
        let (object, archive) = (format!("{out}/{name}.o"), format!("{out}/lib{name}.a"));
        run("g++", &["-std=c++17", "-O3", "-Wall", "-Wextra", "-c", &source, "-o", &object]);
        run("ar", &["rcs", &archive, &object]);
        println!("cargo::rustc-link-lib=static={name}");
        println!("cargo::rerun-if-changed={source}");
    }
    let verified = env::var("REPORT_LIB").unwrap_or_else(|_| "../target/staticlib".into());
    println!("cargo::rustc-link-search=native={verified}");
    for name in ["report", "bench_c"] {
        let library = Path::new(&verified).join(format!("lib{name}.a"));
        assert!(library.is_file(), "{} is missing; run bench/run, which makes it", library.display());
        println!("cargo::rustc-link-lib=static={name}");
        println!("cargo::rerun-if-changed={}", library.display());
    }
    println!("cargo::rerun-if-env-changed=REPORT_LIB");
}
