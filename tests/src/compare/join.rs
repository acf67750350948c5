//! Join (request (i)): the library's `bend_join` beside the model, on two valid sheets.

use super::any_edits::HUGE;
use super::checks::{on_a_small_stack, Outcome};
use super::join_calls::{any_sheets, same, writes};
use super::sheets::{any_part, any_sheet, both_kinds, length_of, maybe_angled, ENOUGH};
use super::Tests;
use bend_tests::part::{Corner, Part};
use bend_tests::random::Random;
use bend_tests::shapes::{all_parts, part, SHAPES};

pub fn run(tests: &mut Tests) {
    known_joins(tests);
    small_parts(tests);
    any_parts(tests);
    every_side(tests);
    overlapping(tests);
}

const TRIANGLE: &[u8] = &[1, 0, 3];
/// (3,1), and the same at 180 degrees.
const SQUARE: &[u8] = &[3, 0, 4, 0, 3, 0, 1];
const BENT_SQUARE: &[u8] = &[11, 0, 4, 0, 3, 0, 1, 7, 8];
/// (3,0) and (0,2), and the same at -2 degrees and at 1.
const PENTAGON: &[u8] = &[3, 0, 5, 0, 3, 0, 0, 0, 0, 0, 2];
const BENT_PENTAGON: &[u8] = &[11, 0, 5, 0, 3, 0, 0, 0, 0, 0, 2, 255, 236, 0, 10];
/// The square on side 1 of the pentagon.
const HEPTAGON: &[u8] = &[0, 7, 0, 0, 0, 4, 0, 0, 0, 5, 0, 1, 0, 4, 0, 2, 0, 4];

/// A first sheet, a second, a side, and of the result the corners, pairs and angles.
type Known = (
    &'static [u8],
    &'static [u8],
    u64,
    &'static [u8],
    &'static [u8],
);

const KNOWN: [Known; 12] = [
    (TRIANGLE, TRIANGLE, 0, &[0, 4, 0, 0, 0, 2], &[]),
    (TRIANGLE, TRIANGLE, 1, &[0, 4, 0, 1, 0, 3], &[]),
    (PENTAGON, SQUARE, 1, HEPTAGON, &[]),
    (
        BENT_PENTAGON,
        SQUARE,
        1,
        HEPTAGON,
        &[0, 10, 255, 236, 0, 0, 0, 0],
    ),
    (
        PENTAGON,
        BENT_SQUARE,
        1,
        HEPTAGON,
        &[0, 0, 0, 0, 0, 0, 7, 8],
    ),
    (
        BENT_PENTAGON,
        BENT_SQUARE,
        1,
        HEPTAGON,
        &[0, 10, 255, 236, 0, 0, 7, 8],
    ),
    (
        BENT_PENTAGON,
        BENT_SQUARE,
        0,
        &[0, 7, 0, 0, 0, 3, 0, 0, 0, 4, 0, 0, 0, 5, 0, 1, 0, 3],
        &[0, 0, 0, 10, 255, 236, 7, 8],
    ),
    (
        BENT_PENTAGON,
        SQUARE,
        3,
        &[0, 7, 0, 0, 0, 2, 0, 0, 0, 3, 0, 3, 0, 6, 0, 4, 0, 6],
        &[0, 10, 255, 236, 0, 0, 0, 0],
    ),
    (
        BENT_SQUARE,
        BENT_PENTAGON,
        2,
        &[0, 7, 0, 1, 0, 6, 0, 2, 0, 4, 0, 2, 0, 5, 0, 2, 0, 6],
        &[7, 8, 0, 10, 255, 236, 0, 0],
    ),
    (
        SQUARE,
        PENTAGON,
        0,
        &[0, 7, 0, 0, 0, 2, 0, 0, 0, 3, 0, 0, 0, 4, 0, 4, 0, 6],
        &[],
    ),
    (
        BENT_SQUARE,
        TRIANGLE,
        0,
        &[0, 5, 0, 0, 0, 2, 0, 2, 0, 4],
        &[0, 0, 7, 8],
    ),
    (
        TRIANGLE,
        BENT_SQUARE,
        1,
        &[0, 5, 0, 1, 0, 4, 0, 2, 0, 4],
        &[0, 0, 7, 8],
    ),
];

/// By hand, byte for byte, with every length of output.
fn known_joins(tests: &mut Tests) {
    for (first, second, side, pairs, angles) in KNOWN {
        let name = format!("join: {second:?} on side {side} of {first:?}, every room");
        tests.test(&name, || {
            let map = if angles.is_empty() { 3 } else { 11 };
            let result = [&[map], pairs, angles].concat();
            (0..=result.len() + 2).try_for_each(|room| writes(first, second, side, room, &result))
        });
    }
}

/// All pairs of small parts, with angles in neither, in either and in both, on every
/// side and on what is none.
fn small_parts(tests: &mut Tests) {
    let all: Vec<Part> = (3..=6).flat_map(all_parts).collect();
    for n in 3..=6 {
        let name = format!("join: all parts of up to 6 corners on all of {n}, every side");
        tests.test(&name, || {
            let mut random = Random::new(701);
            for first in all_parts(n) {
                for first in both_kinds(&first, &mut random) {
                    let kinds = |part| both_kinds(part, &mut random);
                    let seconds: Vec<Part> = all.iter().flat_map(kinds).collect();
                    for second in seconds {
                        let lent = length_of(n + second.n - 2, true) + 2;
                        for side in (0..u64::from(n) + 3).chain(HUGE) {
                            any_sheets(&first, &second, side, lent, &mut random)?;
                        }
                    }
                }
            }
            Ok(())
        });
    }
}

/// A part of each shape on a part of each: joined they have `corners`, or any fewer.
pub fn every_two_shapes(
    corners: usize,
    random: &mut Random,
    check: impl Fn(&Part, &Part, u64, &mut Random) -> Outcome,
) -> Outcome {
    for (one, other) in SHAPES.iter().flat_map(|&a| SHAPES.map(|b| (a, b))) {
        for corners in [corners, random.between(4, corners)] {
            let n = random.between(3, corners - 1);
            let first = part(one, n as Corner, random);
            let second = part(other, (corners + 2 - n) as Corner, random);
            let (first, second) = (maybe_angled(first, random), maybe_angled(second, random));
            let side = random.below(n - 1) as u64;
            check(&first, &second, side, random)?;
        }
    }
    Ok(())
}

fn any_parts(tests: &mut Tests) {
    let enough = |first: &Part, second: &Part, side: u64, random: &mut Random| {
        any_sheets(first, second, side, ENOUGH, random)
    };
    for corners in [12, 40, 300, 1024] {
        let name = format!("join: every shape on every shape, {corners} corners and fewer");
        tests.test(&name, || {
            let mut random = Random::new(702);
            (0..4).try_for_each(|_| every_two_shapes(corners, &mut random, enough))
        });
    }
    let name = "join: every shape on every shape on a small stack";
    tests.test(name, || {
        on_a_small_stack(move || every_two_shapes(1024, &mut Random::new(703), enough))
    });
}

fn every_side(tests: &mut Tests) {
    for (n, m) in [(513, 513), (1023, 3), (30, 996), (200, 70)] {
        tests.test(&format!("join: {m} corners on every side of {n}"), || {
            let mut random = Random::new(704);
            let (first, second) = (any_part(n, &mut random), any_part(m, &mut random));
            (0..u64::from(n) + 3)
                .chain(HUGE)
                .try_for_each(|side| any_sheets(&first, &second, side, ENOUGH, &mut random))
        });
    }
}

/// The same bytes lent for both sheets, and sheets that lie within each other.
fn overlapping(tests: &mut Tests) {
    tests.test("join: a sheet and itself", || {
        let mut random = Random::new(705);
        let small = (3..=6).flat_map(all_parts);
        let sizes = [40, 300, 513, 514, 1024];
        let large = sizes.map(|n| part(SHAPES[usize::from(n) % 8], n, &mut random));
        let parts: Vec<Part> = small.chain(large).collect();
        for part in parts {
            for part in both_kinds(&part, &mut random) {
                let sheet = any_sheet(&part, &mut random);
                let n = u64::from(part.n);
                for side in [0, 1, n / 2, n - 2, n - 1, n, u64::MAX] {
                    same(&sheet, &sheet, side, ENOUGH)?;
                    same(&sheet, &sheet, side, random.below(40))?;
                }
            }
        }
        Ok(())
    });
    tests.test("join: sheets that overlap", || {
        // the triangle's four bytes of bit 2 begin another sheet
        let bytes = [5, 0, 3, 3, 0, 4, 0, 0, 0, 2];
        let (first, second) = (&bytes[..7], &bytes[3..]);
        let results: [&[u8]; 2] = [
            &[3, 0, 5, 0, 0, 0, 2, 0, 0, 0, 3],
            &[3, 0, 5, 0, 1, 0, 3, 0, 1, 0, 4],
        ];
        for (side, result) in (0..).zip(results) {
            (0..13).try_for_each(|room| writes(first, second, side, room, result))?;
        }
        // (0,2) moves to (0,3) on side 0 or 1, and stays on side 2
        let results: [&[u8]; 3] = [
            &[3, 0, 5, 0, 0, 0, 2, 0, 0, 0, 3],
            &[3, 0, 5, 0, 0, 0, 3, 0, 1, 0, 3],
            &[3, 0, 5, 0, 0, 0, 2, 0, 2, 0, 4],
        ];
        for (side, result) in (0..).zip(results) {
            (0..13).try_for_each(|room| writes(second, first, side, room, result))?;
        }
        Ok(())
    });
}
