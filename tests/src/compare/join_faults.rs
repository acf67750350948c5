//! Join (request (i)): faulty sheets. "The first sheet's refusals come before the
//! second's; then 9 .., 10 .., then 8."

use super::angle_results;
use super::angles;
use super::bit_2;
use super::faults::{refusals, spoiled_sheets};
use super::groups::{self, Damaged};
use super::join_calls::{gives, same, Half, Place};
use super::sheets::{any_order, any_part, any_sheet, without_and_with, DAMAGES, ENOUGH};
use super::Tests;
use bend_tests::edit_list::Lending;
use bend_tests::part::{Corner, Part};
use bend_tests::random::Random;
use bend_tests::sheet::normal;

pub fn run(tests: &mut Tests) {
    each_fault(tests);
    two_faulty_sheets(tests);
    before_9_and_10(tests);
    damaged_sheets(tests);
    for place in [Place::First, Place::Second] {
        bit_2_and_angles(tests, place);
    }
}

const TRIANGLE: &[u8] = &[1, 0, 3];

/// Each fault of either sheet, by itself and before each later one of its own. The
/// second is as it should be, or is no sheet at all and the side is none.
fn each_fault(tests: &mut Tests) {
    refusals(tests, "join, the first", |number, sheet, lent| {
        gives(number, sheet, TRIANGLE, 1, lent)?;
        gives(number, sheet, &[], u64::MAX, lent)
    });
    refusals(tests, "join, the second", |number, sheet, lent| {
        gives(number, TRIANGLE, sheet, 1, lent)
    });
}

/// Every fault of the first with every fault of the second: the first's number.
fn two_faulty_sheets(tests: &mut Tests) {
    tests.test(
        "join: a fault of the first before any of the second",
        || {
            let mut random = Random::new(731);
            for (n, m) in [(11, 12), (40, 11), (17, 60), (1024, 30)] {
                let (first, second) = (any_part(n, &mut random), any_part(m, &mut random));
                let seconds = spoiled_sheets(&second, &mut random);
                for (number, first) in spoiled_sheets(&first, &mut random) {
                    for (_, second) in &seconds {
                        let side = *random.pick(&[0, 1, u64::from(n) - 1, u64::MAX]);
                        let lent = *random.pick(&[0, ENOUGH]);
                        gives(number, &first, second, side, lent)?;
                    }
                }
            }
            Ok(())
        },
    );
    // the only fault that a triangle can have behind its length
    tests.test(
        "join: bit 3 of a triangle, in either sheet and both",
        || {
            for bent in [&[9, 0, 3][..], &[13, 0, 3, 0, 0, 0, 9]] {
                for (side, lent) in [(0, 7), (1, 0), (2, 7), (u64::MAX, 0)] {
                    gives(23, bent, TRIANGLE, side, lent)?;
                    gives(23, TRIANGLE, bent, side, lent)?;
                    gives(23, bent, bent, side, lent)?;
                    gives(23, bent, &[8, 0, 3], side, lent)?;
                    gives(1, &[8, 0, 3], bent, side, lent)?;
                    gives(2, &[1, 0], bent, side, lent)?;
                    gives(23, bent, &[], side, lent)?;
                }
            }
            Ok(())
        },
    );
}

/// Every fault of the second beside a side that is the root or none, beside too many
/// corners, and beside both: the second's number, whatever the output.
fn before_9_and_10(tests: &mut Tests) {
    for (n, side) in [
        (3, 2),
        (3, u64::MAX),
        (40, 39),
        (1024, 0),
        (1024, 1022),
        (1024, 1023),
        (1024, u64::MAX),
    ] {
        let name = format!("join: a fault of the second before 9 and 10, side {side} of {n}");
        tests.test(&name, || {
            let mut random = Random::new(732);
            for first in without_and_with(&any_part(n, &mut random)) {
                for m in [11, 40, 1024] {
                    let second = any_part(m, &mut random);
                    for (number, second) in spoiled_sheets(&second, &mut random) {
                        gives(number, &first, &second, side, ENOUGH)?;
                        gives(number, &first, &second, side, 0)?;
                    }
                }
            }
            Ok(())
        });
    }
}

/// Either sheet damaged, cut off, or no sheet at all, and the other valid.
fn damaged_sheets(tests: &mut Tests) {
    let mut random = Random::new(733);
    let other = any_sheet(&any_part(9, &mut random), &mut random);
    for place in [Place::First, Place::Second] {
        let operation = name(place);
        let on_side = |sheet: &[u8], side: u64, lent: usize| match place {
            Place::First => same(sheet, &other, side, lent),
            Place::Second => same(&other, sheet, side, lent),
        };
        let how_many = Damaged {
            rounds: 1000,
            to_a_large_one: 40,
            most: 16,
        };
        groups::damaged_sheets(tests, operation, 734, how_many, |_, sheet, random| {
            let side = *random.pick(&[0, 0, 1, 1, 7, 8, u64::MAX]);
            let lent = *random.pick(&[ENOUGH, ENOUGH, 30]);
            on_side(sheet, side, lent)
        });
        groups::truncated_sheets(tests, operation, 735, |sheet| on_side(sheet, 1, 100));
        groups::random_bytes(tests, operation, 736, |bytes| on_side(bytes, 1, 100));
    }
    tests.test("join: both sheets damaged", || {
        let mut random = Random::new(737);
        for (_, damage) in DAMAGES.iter().flat_map(|damage| [damage; 500]) {
            let mut any = || {
                let n = random.between(3, 12) as Corner;
                let mut sheet = any_sheet(&any_part(n, &mut random), &mut random);
                if random.coin() {
                    damage(&mut sheet, &mut random);
                }
                sheet
            };
            let (first, second) = (any(), any());
            same(&first, &second, random.below(5) as u64, 150)?;
        }
        Ok(())
    });
}

/// How the tests of the sheet at the place begin.
fn name(place: Place) -> &'static str {
    match place {
        Place::First => "join, the first",
        Place::Second => "join, the second",
    }
}

/// What every operation that reads a sheet is tested for, of the sheet at the place. The
/// other is a hexagon's with bit 2 and angles, or has neither, so that bit 3 of the
/// result tells this one's.
fn bit_2_and_angles(tests: &mut Tests, place: Place) {
    let triangle = Part::new(3, &[]);
    let hexagon = Part::new(6, &[(0, 2), (0, 4), (2, 4)]);
    let bent = hexagon.clone().angled(&[-1800, 7, 1800]);
    let plain_sheet = normal(&hexagon);
    let bent_sheet = any_order(&bent, Some([9, 8, 7, 6]), &mut Random::new(738));
    let beside_bent = |part: &Part, _: &[Lending]| vec![Half::of(part, place, &bent, &bent_sheet)];
    let beside_plain = |part: &Part, _: &[Lending]| {
        let beside_triangle = Half::of(part, place, &triangle, TRIANGLE);
        vec![
            beside_triangle,
            Half::of(part, place, &hexagon, &plain_sheet),
        ]
    };
    let operation = name(place);
    bit_2::run(tests, operation, beside_bent);
    bit_2::output_lengths(tests, operation, beside_plain);
    angles::run(tests, operation, beside_bent);
    angles::output_lengths(tests, operation, beside_plain);
    angle_results::same_pairs(tests, operation, beside_plain);
}
