//! Times each operation of the static library beside the Rust model, at 128 and
//! at 1,024 corners, in one run: the two take turns on the same inputs, and the
//! best of several rounds counts. Prints nanoseconds per call, their ratio, and
//! how each grows from 128 to 1,024 corners.

mod cases;
#[cfg(feature = "read_chart")]
mod charts;
#[cfg(feature = "cut")]
mod cuts;
#[cfg(feature = "draw")]
mod drawings;
#[cfg(feature = "join")]
mod joins;
#[path = "../../tests/src/library.rs"]
mod library;

use cases::{Case, Pass};
use std::time::{Duration, Instant};

/// Rounds in which every operation is timed once, on either side.
const ROUNDS: usize = 15;

/// How long one side of one operation runs in a round, at least.
const STRETCH: Duration = Duration::from_millis(4);

/// The best times of one case so far, in nanoseconds per call.
struct Best {
    case: Case,
    passes: usize,
    ours: f64,
    model: f64,
}

/// Nanoseconds per call, over the given number of passes through all inputs.
fn time(pass: &Pass, passes: usize, inputs: usize, out: &mut [u8]) -> f64 {
    let start = Instant::now();
    for _ in 0..passes {
        pass(out);
    }
    start.elapsed().as_nanos() as f64 / (passes * inputs) as f64
}

/// The number of passes that fill a stretch of time.
fn passes_in_a_stretch(pass: &Pass, out: &mut [u8]) -> usize {
    let start = Instant::now();
    let mut passes = 0;
    while start.elapsed() < STRETCH {
        pass(out);
        passes += 1;
    }
    passes
}

fn main() {
    let out = &mut vec![0; cases::ROOM];
    let mut table: Vec<Best> = cases::all()
        .into_iter()
        .map(|case| Best {
            passes: passes_in_a_stretch(&case.model, out),
            case,
            ours: f64::INFINITY,
            model: f64::INFINITY,
        })
        .collect();
    for _ in 0..ROUNDS {
        for Best {
            case,
            passes,
            ours,
            model,
        } in &mut table
        {
            *ours = ours.min(time(&case.ours, *passes, case.inputs, out));
            *model = model.min(time(&case.model, *passes, case.inputs, out));
        }
    }
    print_table(&table);
}

/// The cases come in twos: 128 corners, then 1,024 corners.
fn print_table(table: &[Best]) {
    println!(
        "{:<28}{:>8}{:>12}{:>12}{:>8}",
        "operation", "corners", "ours ns", "model ns", "ratio"
    );
    for two in table.chunks(2) {
        for best in two {
            println!(
                "{:<28}{:>8}{:>12.0}{:>12.0}{:>8.2}",
                best.case.operation,
                best.case.corners,
                best.ours,
                best.model,
                best.ours / best.model
            );
        }
        println!(
            "{:<28}{:>8}{:>12.1}{:>12.1}",
            "",
            "growth",
            two[1].ours / two[0].ours,
            two[1].model / two[0].model
        );
    }
}
