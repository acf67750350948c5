//! Groups of tests that several operations have: the same sheets, each with
//! the operation's own check. `operation` begins the tests' names.

use super::checks::{on_a_small_stack, Outcome};
use super::sheets::{any_angled, any_four, any_order, any_part, any_sheet, both_kinds};
use super::sheets::{maybe_angled, DAMAGES};
use super::Tests;
use bend_tests::part::{Corner, Part};
use bend_tests::random::Random;
use bend_tests::shapes::{all_parts, part, SHAPES};

/// All parts of up to 9 corners, beside what a slow search finds.
pub fn small_parts(
    tests: &mut Tests,
    operation: &str,
    beside: &str,
    seed: u64,
    check: impl Fn(&Part, &[u8]) -> Outcome,
) {
    for n in 3..=9 {
        let name = format!("{operation}: all parts of {n} corners, {beside}");
        tests.test(&name, || {
            let mut random = Random::new(seed);
            for part in all_parts(n) {
                for skipped in [None, Some(any_four(&mut random))] {
                    check(&part, &any_order(&part, skipped, &mut random))?;
                }
                let part = any_angled(part, &mut random);
                check(&part, &any_sheet(&part, &mut random))?;
            }
            Ok(())
        });
    }
}

/// Parts of every shape and 10 to 60 corners, beside what a search finds.
pub fn shaped_parts(
    tests: &mut Tests,
    operation: &str,
    beside: &str,
    seed: u64,
    check: impl Fn(&Part, &[u8]) -> Outcome,
) {
    for shape in SHAPES {
        tests.test(&format!("{operation}: {shape:?}, {beside}"), || {
            let mut random = Random::new(seed);
            for _ in 0..200 {
                let n = random.between(10, 60) as Corner;
                let part = part(shape, n, &mut random);
                let part = maybe_angled(part, &mut random);
                check(&part, &any_sheet(&part, &mut random))?;
            }
            Ok(())
        });
    }
}

/// Parts of every shape and up to 1,024 corners; the largest on a small stack.
pub fn large_parts(
    tests: &mut Tests,
    operation: &str,
    seeds: [u64; 2],
    same: fn(&[u8]) -> Outcome,
) {
    for shape in SHAPES {
        let name = format!("{operation}: {shape:?}, of up to 1,024 corners");
        tests.test(&name, || {
            let mut random = Random::new(seeds[0]);
            for round in 0..600 {
                let n = match round {
                    0..=9 => 1024,
                    10..=19 => 1023,
                    _ => random.between(10, 1024) as Corner,
                };
                let part = part(shape, n, &mut random);
                let part = maybe_angled(part, &mut random);
                same(&any_sheet(&part, &mut random))?;
            }
            Ok(())
        });
    }
    let name = format!("{operation}: every shape of 1,024 corners on a small stack");
    tests.test(&name, || {
        on_a_small_stack(move || {
            let mut random = Random::new(seeds[1]);
            for shape in SHAPES.iter().flat_map(|&shape| [shape; 4]) {
                for part in both_kinds(&part(shape, 1024, &mut random), &mut random) {
                    same(&any_sheet(&part, &mut random))?;
                }
            }
            Ok(())
        })
    });
}

/// Sheets of one part with and without bit 2, with and without angles, in any
/// order.
pub fn bit_2_angles_and_order(
    tests: &mut Tests,
    operation: &str,
    seed: u64,
    check: impl Fn(&Part, &[u8]) -> Outcome,
) {
    let name = format!("{operation}: bit 2, angles and the order change nothing");
    tests.test(&name, || {
        let mut random = Random::new(seed);
        for _ in 0..200 {
            let n = random.between(3, 300) as Corner;
            let part = any_part(n, &mut random);
            for kind in both_kinds(&Part::new(n, &part.diagonals), &mut random) {
                for _ in 0..4 {
                    check(&part, &any_sheet(&kind, &mut random))?;
                }
            }
        }
        Ok(())
    });
}

/// How many sheets are damaged in each way, how many there are to one of 1,024
/// corners, and the most corners of the others.
pub struct Damaged {
    pub rounds: usize,
    pub to_a_large_one: usize,
    pub most: usize,
}

/// Damaged sheets, with the parts that they were of.
pub fn damaged_sheets(
    tests: &mut Tests,
    operation: &str,
    seed: u64,
    how_many: Damaged,
    check: impl Fn(&Part, &[u8], &mut Random) -> Outcome,
) {
    for (name, damage) in DAMAGES {
        tests.test(&format!("{operation}: damaged, {name}"), || {
            let mut random = Random::new(seed);
            for round in 0..how_many.rounds {
                let n = if round % how_many.to_a_large_one == 0 {
                    1024
                } else {
                    random.between(3, how_many.most)
                };
                let part = any_part(n as Corner, &mut random);
                let mut sheet = any_sheet(&part, &mut random);
                damage(&mut sheet, &mut random);
                check(&part, &sheet, &mut random)?;
            }
            Ok(())
        });
    }
}

/// Sheets cut off at every length.
pub fn truncated_sheets(
    tests: &mut Tests,
    operation: &str,
    seed: u64,
    same: impl Fn(&[u8]) -> Outcome,
) {
    tests.test(&format!("{operation}: every truncation"), || {
        let mut random = Random::new(seed);
        for n in [3, 4, 5, 9, 40, 1024] {
            let part = any_part(n, &mut random);
            for part in both_kinds(&Part::new(n, &part.diagonals), &mut random) {
                for skipped in [None, Some(any_four(&mut random))] {
                    let sheet = any_order(&part, skipped, &mut random);
                    (0..=sheet.len()).try_for_each(|length| same(&sheet[..length]))?;
                }
            }
        }
        Ok(())
    });
}

/// Every single byte, and random bytes.
pub fn random_bytes(
    tests: &mut Tests,
    operation: &str,
    seed: u64,
    same: impl Fn(&[u8]) -> Outcome,
) {
    tests.test(&format!("{operation}: short and random bytes"), || {
        let mut random = Random::new(seed);
        (0..=255).try_for_each(|byte| same(&[byte]))?;
        for _ in 0..20_000 {
            let length = random.below(40);
            same(&random.bytes(length))?;
        }
        Ok(())
    });
}
