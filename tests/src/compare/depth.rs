//! Request (iv), depth in the thesis's order: "No figure printed moves". The library
//! gives no value of an edge, but its plan of another part tells each of the six
//! (`depth_parts`); here beside those of `depth`.

use super::checks::{hex, Failure, Outcome};
use super::Tests;
use crate::library;
use bend_tests::depth::{Depth, KNOWN};
use bend_tests::depth_parts::{every_edge, telling, Telling};
use bend_tests::part::{Corner, Pair, Part};
use bend_tests::random::Random;
use bend_tests::search::third_corner;
use bend_tests::shapes::{all_parts, part, SHAPES};
use bend_tests::sheet::normal;

pub fn run(tests: &mut Tests) {
    known_parts(tests);
    tests.test("plan: request (iv), all parts of up to 9 corners", || {
        (3..=9).flat_map(all_parts).try_for_each(|part| same(&part))
    });
    shaped_parts(tests);
    large_parts(tests);
}

/// The library's plan of the part that tells a value of the edge has the levels.
fn has_levels(part: &Part, edge: Pair, told: &Telling) -> Outcome {
    let sheet = normal(&told.part);
    let answer = library::plan(&sheet);
    let (number, levels) = (answer & 0xffff, answer >> 16 & 0xffff);
    if (number, levels) == (0, told.levels.into()) {
        return Ok(());
    }
    let (value, part) = (told.value, hex(&normal(part)));
    Err(Failure {
        input: format!("{value} of {edge:?} of {part}, told by {}", hex(&sheet)),
        library: format!("number {number}, levels {levels}"),
        model: format!("number 0, levels {}", told.levels),
    })
}

/// Both sides on every edge of the part.
fn same(part: &Part) -> Outcome {
    every_edge(part).try_for_each(|(edge, told)| has_levels(part, edge, &told))
}

/// The values worked out by hand.
fn known_parts(tests: &mut Tests) {
    for (n, pairs, values) in KNOWN {
        let name = format!("plan: request (iv), known part n = {n}, {pairs:?}");
        tests.test(&name, || {
            let part = Part::new(n, pairs);
            for &(edge, six) in values {
                let c = third_corner(&part, edge);
                for told in telling(&part, edge, c, Depth::from(six)) {
                    has_levels(&part, edge, &told)?;
                }
            }
            Ok(())
        });
    }
}

fn shaped_parts(tests: &mut Tests) {
    for shape in SHAPES {
        let name = format!("plan: request (iv), {shape:?}, of up to 300 corners");
        tests.test(&name, || {
            let mut random = Random::new(121);
            for round in 0..160 {
                let most = if round % 8 == 0 { 300 } else { 60 };
                let n = random.between(10, most) as Corner;
                same(&part(shape, n, &mut random))?;
            }
            Ok(())
        });
    }
}

/// Of a part with 1,022 corners, the one that tells the root's handle is the largest
/// that there is; of one with 1,024, the one that tells its levels is.
fn large_parts(tests: &mut Tests) {
    for n in [1022, 1024] {
        let name = format!("plan: request (iv), every shape of {n} corners");
        tests.test(&name, || {
            let mut random = Random::new(122);
            let shapes = SHAPES.iter().flat_map(|&shape| [shape; 3]);
            let mut parts = shapes.map(|shape| part(shape, n, &mut random));
            parts.try_for_each(|part| same(&part))
        });
    }
}
