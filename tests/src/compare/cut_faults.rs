//! Cut (request (iii)): faulty sheets and numbers. "Refusals are those of turning a
//! diagonal, with 8 if either output is too short."

use super::angle_results;
use super::angles;
use super::bit_2;
use super::cut_calls::{any_ends, gives, same, Ends, Watched};
use super::faults::refusals;
use super::groups::{self, Damaged};
use super::sheets::{without_and_with, ENOUGH};
use super::Tests;
use bend_tests::part::{Corner, Pair, Part};

pub fn run(tests: &mut Tests) {
    each_fault(tests);
    orders_of_refusal(tests);
    damaged_sheets(tests);
    bit_2::run(tests, "cut", Watched::calls);
    bit_2::output_lengths(tests, "cut", Watched::calls);
    angles::run(tests, "cut", Watched::calls);
    angles::output_lengths(tests, "cut", Watched::calls);
    angle_results::same_pairs(tests, "cut", Watched::calls);
}

/// Each fault of the sheet, by itself and before each later one, whatever the numbers: a
/// diagonal of many parts, and such as 13 or 9 is due for.
fn each_fault(tests: &mut Tests) {
    for (besides, pair) in [
        ("", (1, 3)),
        (" with 13 besides", (2, 2)),
        (" with 9 besides", (u64::MAX, 0)),
    ] {
        refusals(tests, &format!("cut{besides}"), |number, sheet, lent| {
            gives(number, sheet, pair, [lent, lent])?;
            gives(number, sheet, pair, [0, ENOUGH])
        });
    }
}

fn fan(n: Corner) -> Part {
    let diagonals: Vec<Pair> = (2..n - 1).map(|b| (0, b)).collect();
    Part::new(n, &diagonals)
}

/// 9 before 13, and both before 8, with any lengths of the outputs.
fn orders_of_refusal(tests: &mut Tests) {
    let cases: [(&str, u16, Corner, Ends); 14] = [
        ("9 before 13, first", 9, 6, (6, 1)),
        ("9 before 13, second", 9, 6, (1, 6)),
        ("9 for an end of a diagonal and n", 9, 6, (0, 6)),
        ("9 for n twice", 9, 6, (6, 6)),
        ("9 if high bits are lost", 9, 6, (1 << 32, (1 << 32) + 2)),
        ("9 at 1,024 corners", 9, 1024, (0, 1024)),
        ("9 in a triangle", 9, 3, (0, 3)),
        ("13 a side", 13, 6, (2, 3)),
        ("13 a side, higher first", 13, 6, (1, 0)),
        ("13 the root", 13, 6, (0, 5)),
        ("13 the root, higher first", 13, 6, (5, 0)),
        ("13 equal corners", 13, 6, (3, 3)),
        ("13 another diagonal", 13, 6, (1, 3)),
        ("13 in a triangle", 13, 3, (0, 2)),
    ];
    for (name, number, n, pair) in cases {
        tests.test(&format!("cut: {name}"), || {
            for sheet in without_and_with(&fan(n)) {
                let longest = sheet.len().min(40);
                for one in (0..longest).chain([ENOUGH]) {
                    for other in (0..longest).chain([ENOUGH]) {
                        gives(number, &sheet, pair, [one, other])?;
                    }
                }
            }
            Ok(())
        });
    }
    // a triangle cut off: two bytes are too few for it, three are enough
    tests.test("cut: 8 last", || {
        for sheet in without_and_with(&fan(6)) {
            for (number, rooms) in [(8, [2, ENOUGH]), (8, [ENOUGH, 2]), (0, [3, ENOUGH])] {
                gives(number, &sheet, (0, 2), rooms)?;
                gives(number, &sheet, (4, 0), [rooms[1], rooms[0]])?;
            }
        }
        Ok(())
    });
}

/// Damaged sheets, sheets cut off, and no sheets at all.
fn damaged_sheets(tests: &mut Tests) {
    let how_many = Damaged {
        rounds: 1500,
        to_a_large_one: 30,
        most: 16,
    };
    groups::damaged_sheets(tests, "cut", 761, how_many, |part, sheet, random| {
        let lent = *random.pick(&[[ENOUGH; 2], [ENOUGH; 2], [30, 300], [300, 30]]);
        same(sheet, any_ends(part, random), lent)
    });
    tests.test("cut: a sheet that is much too long", || {
        for sheet in without_and_with(&fan(6)) {
            let longer = [&sheet[..], &[0; 1 << 16]].concat();
            gives(2, &longer, (0, 3), [ENOUGH; 2])?;
        }
        Ok(())
    });
    groups::truncated_sheets(tests, "cut", 762, |sheet| same(sheet, (0, 2), [100; 2]));
    groups::random_bytes(tests, "cut", 763, |bytes| same(bytes, (0, 2), [100; 2]));
}
