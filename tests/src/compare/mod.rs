//! The tests, one module per operation, and the running of them by name.

#[cfg(feature = "read_chart")]
mod chart_faults;
#[cfg(all(feature = "draw", feature = "read_chart"))]
mod closing;
#[cfg(feature = "cut")]
mod cut;
#[cfg(feature = "cut")]
mod cut_calls;
#[cfg(all(feature = "cut", feature = "edits"))]
mod cut_edits;
#[cfg(feature = "cut")]
mod cut_faults;
#[cfg(all(feature = "cut", feature = "join"))]
mod cut_joins;
#[cfg(feature = "cut")]
mod cut_known;
#[cfg(feature = "cut")]
mod cut_limits;
#[cfg(feature = "cut")]
mod cut_results;
#[cfg(feature = "plan")]
mod depth;
#[cfg(feature = "draw")]
mod draw;
#[cfg(feature = "edits")]
mod edit_lists;
#[cfg(feature = "edits")]
mod edits;
#[cfg(feature = "join")]
mod join;
#[cfg(all(feature = "join", feature = "edits"))]
mod join_adding;
#[cfg(feature = "join")]
mod join_calls;
#[cfg(feature = "join")]
mod join_faults;
#[cfg(feature = "join")]
mod join_limits;
#[cfg(feature = "join")]
mod join_results;
#[cfg(feature = "draw")]
mod label;
#[cfg(feature = "run_edits")]
mod list_faults;
#[cfg(feature = "read_chart")]
mod nearest;
#[cfg(feature = "read_chart")]
mod nearest_faults;
#[cfg(feature = "read_chart")]
mod nearest_known;
#[cfg(feature = "normalize")]
mod normalize;
#[cfg(feature = "plan")]
mod plan;
#[cfg(feature = "read_chart")]
mod read_chart;
#[cfg(feature = "run_edits")]
mod run_edits;
#[cfg(feature = "normalize")]
mod sheet_faults;

// What the groups share; which of it is used depends on the features.
#[allow(dead_code)]
mod angle_lists;
#[allow(dead_code)]
mod angle_results;
#[allow(dead_code)]
mod angles;
#[allow(dead_code)]
mod any_edits;
#[allow(dead_code)]
mod bit_2;
#[allow(dead_code)]
mod bit_2_lists;
#[allow(dead_code)]
mod calls;
#[allow(dead_code)]
mod checks;
#[allow(dead_code)]
mod faults;
#[allow(dead_code)]
mod groups;
#[allow(dead_code)]
mod lists;
#[allow(dead_code)]
mod sheets;
#[allow(dead_code)]
mod written;

use checks::Outcome;
use std::process::ExitCode;

/// Runs every group of tests whose operation is switched on.
pub fn run(tests: &mut Tests) {
    #[cfg(feature = "normalize")]
    normalize::run(tests);
    #[cfg(feature = "edits")]
    edits::run(tests);
    #[cfg(feature = "edits")]
    edit_lists::run(tests);
    #[cfg(feature = "join")]
    join::run(tests);
    #[cfg(feature = "join")]
    join_limits::run(tests);
    #[cfg(feature = "join")]
    join_faults::run(tests);
    #[cfg(feature = "join")]
    join_results::run(tests);
    #[cfg(all(feature = "join", feature = "edits"))]
    join_adding::run(tests);
    #[cfg(feature = "cut")]
    cut_known::run(tests);
    #[cfg(feature = "cut")]
    cut::run(tests);
    #[cfg(feature = "cut")]
    cut_limits::run(tests);
    #[cfg(feature = "cut")]
    cut_faults::run(tests);
    #[cfg(feature = "cut")]
    cut_results::run(tests);
    #[cfg(all(feature = "cut", feature = "join"))]
    cut_joins::run(tests);
    #[cfg(all(feature = "cut", feature = "edits"))]
    cut_edits::run(tests);
    #[cfg(feature = "run_edits")]
    run_edits::run(tests);
    #[cfg(feature = "run_edits")]
    list_faults::run(tests);
    #[cfg(feature = "plan")]
    plan::run(tests);
    #[cfg(feature = "plan")]
    depth::run(tests);
    #[cfg(feature = "draw")]
    draw::run(tests);
    #[cfg(feature = "read_chart")]
    read_chart::run(tests);
    #[cfg(feature = "read_chart")]
    chart_faults::run(tests);
    #[cfg(feature = "read_chart")]
    nearest_known::run(tests);
    #[cfg(feature = "read_chart")]
    nearest::run(tests);
    #[cfg(feature = "read_chart")]
    nearest_faults::run(tests);
    #[cfg(all(feature = "draw", feature = "read_chart"))]
    closing::run(tests);
    #[cfg(feature = "draw")]
    label::run(tests);
}

/// Runs tests by name and counts them.
#[derive(Default)]
pub struct Tests {
    only: Option<String>,
    names: bool,
    passed: usize,
    failed: usize,
}

impl Tests {
    pub fn keep_only(&mut self, part_of_name: &str) {
        self.only = Some(part_of_name.to_string());
    }

    pub fn show_names(&mut self) {
        self.names = true;
    }

    /// Runs one test, which counts as one whatever the number of its inputs.
    pub fn test(&mut self, name: &str, run: impl FnOnce() -> Outcome) {
        if self.only.as_ref().is_some_and(|only| !name.contains(only)) {
            return;
        }
        if self.names {
            println!("{name}");
        }
        match run() {
            Ok(()) => self.passed += 1,
            Err(failure) => {
                self.failed += 1;
                println!("FAILED {name}");
                println!("  input   {}", failure.input);
                println!("  library {}", failure.library);
                println!("  model   {}", failure.model);
            }
        }
    }

    /// Prints the last line and gives the exit status.
    pub fn report(&self) -> ExitCode {
        println!("{} passed, {} failed", self.passed, self.failed);
        if self.failed == 0 {
            ExitCode::SUCCESS
        } else {
            ExitCode::FAILURE
        }
    }
}
