//! Compares the static library `libbend_c.a` with the model and ends with the
//! line `N passed, M failed`.
//!
//! An argument keeps only the tests whose names contain it; `--names` prints
//! each name before its test runs.

mod compare;
mod library;

use std::process::ExitCode;

fn main() -> ExitCode {
    let mut tests = compare::Tests::default();
    for argument in std::env::args().skip(1) {
        match argument.as_str() {
            "--names" => tests.show_names(),
            part_of_name => tests.keep_only(part_of_name),
        }
    }
    compare::run(&mut tests);
    tests.report()
}
