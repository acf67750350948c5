//! Cut (request (iii)): the library's `bend_cut` beside the model, on valid sheets.

use super::any_edits::HUGE;
use super::checks::{on_a_small_stack, Outcome};
use super::cut_calls::{any_ends, any_order, either_way, ends, Ends};
use super::sheets::{any_part, both_kinds, length_of, maybe_angled, ENOUGH};
use super::Tests;
use bend_tests::part::{Corner, Pair, Part};
use bend_tests::random::Random;
use bend_tests::shapes::{all_parts, part, SHAPES};

pub fn run(tests: &mut Tests) {
    small_parts(tests);
    any_parts(tests);
    every_diagonal(tests);
    every_two_numbers(tests);
}

/// All small parts, with angles and without, at every two numbers, in either order, that
/// are corners, next to them, or huge.
fn small_parts(tests: &mut Tests) {
    for n in 3..=8 {
        let name = format!("cut: all parts of {n} corners, every two numbers");
        tests.test(&name, || {
            let mut random = Random::new(741);
            let lent = [length_of(n, true) + 1, length_of(n, true) + 2];
            for part in all_parts(n) {
                for part in both_kinds(&part, &mut random) {
                    for a in (0..u64::from(n) + 2).chain(HUGE) {
                        for b in (0..u64::from(n) + 2).chain(HUGE) {
                            any_order(&part, (a, b), lent, &mut random)?;
                        }
                    }
                }
            }
            Ok(())
        });
    }
}

/// All parts with `n` corners, with angles and without, along every diagonal.
pub fn every_cut(
    n: Corner,
    random: &mut Random,
    check: impl Fn(&Part, Pair, &mut Random) -> Outcome,
) -> Outcome {
    for part in all_parts(n) {
        for part in both_kinds(&part, random) {
            for &diagonal in &part.diagonals {
                check(&part, either_way(diagonal, random), random)?;
            }
        }
    }
    Ok(())
}

/// Parts of every shape with `n` corners, with angles and without, along some diagonals.
pub fn some_cuts(
    n: Corner,
    random: &mut Random,
    check: impl Fn(&Part, Pair, &mut Random) -> Outcome,
) -> Outcome {
    for shape in SHAPES.iter().flat_map(|&shape| [shape; 3]) {
        for part in both_kinds(&part(shape, n, random), random) {
            for _ in 0..5 {
                let diagonal = *random.pick(&part.diagonals);
                check(&part, either_way(diagonal, random), random)?;
            }
        }
    }
    Ok(())
}

/// Parts of every shape with the corners, and with any fewer, at several numbers each.
pub fn every_shape(
    corners: usize,
    random: &mut Random,
    check: impl Fn(&Part, Ends, &mut Random) -> Outcome,
) -> Outcome {
    for shape in SHAPES {
        for n in [corners, random.between(4, corners)] {
            let part = part(shape, n as Corner, random);
            let part = maybe_angled(part, random);
            for _ in 0..8 {
                check(&part, any_ends(&part, random), random)?;
            }
        }
    }
    Ok(())
}

fn any_parts(tests: &mut Tests) {
    let enough =
        |part: &Part, ends: Ends, random: &mut Random| any_order(part, ends, [ENOUGH; 2], random);
    for corners in [12, 40, 300, 1024] {
        let name = format!("cut: every shape, {corners} corners and fewer");
        tests.test(&name, || {
            let mut random = Random::new(742);
            (0..8).try_for_each(|_| every_shape(corners, &mut random, enough))
        });
    }
    tests.test("cut: every shape on a small stack", || {
        on_a_small_stack(move || every_shape(1024, &mut Random::new(743), enough))
    });
}

/// Along every diagonal, whose corners are named in either order.
fn every_diagonal(tests: &mut Tests) {
    for shape in SHAPES {
        let name = format!("cut: along every diagonal, {shape:?}");
        tests.test(&name, || {
            let mut random = Random::new(744);
            for n in [1024, 257] {
                let part = part(shape, n, &mut random);
                let part = maybe_angled(part, &mut random);
                for &diagonal in &part.diagonals {
                    let pair = either_way(diagonal, &mut random);
                    any_order(&part, ends(pair), [ENOUGH; 2], &mut random)?;
                }
            }
            Ok(())
        });
    }
}

/// At every two numbers up to n + 1.
fn every_two_numbers(tests: &mut Tests) {
    tests.test("cut: 60 corners, every two numbers", || {
        let mut random = Random::new(745);
        let part = any_part(60, &mut random);
        for (a, b) in (0..62).flat_map(|a| (0..62).map(move |b| (a, b))) {
            any_order(&part, (a, b), [400; 2], &mut random)?;
        }
        Ok(())
    });
}
