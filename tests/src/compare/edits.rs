//! The three edits: the library's `bend_add_ear`, `bend_remove_ear` and
//! `bend_flip` beside the model, one by one.

use super::angle_results;
use super::angles;
use super::any_edits::{all_edits, any_edit};
use super::bit_2;
use super::calls::Call;
use super::checks::{must_be, same_bytes, same_writing, Outcome};
use super::faults::refusals;
use super::groups::{self, Damaged};
use super::sheets::{any_angled, any_order, any_part, any_sheet, has_angles, length_of};
use super::sheets::{without_and_with, ENOUGH};
use super::Tests;
use crate::library;
use bend_tests::edit::{edit_sheet, Edit};
use bend_tests::edit_list::Lending;
use bend_tests::part::{Corner, Pair, Part};
use bend_tests::random::Random;
use bend_tests::shapes::all_parts;
use bend_tests::sheet;

pub fn run(tests: &mut Tests) {
    known_parts(tests);
    small_parts(tests);
    orders_of_refusal(tests);
    large_parts(tests);
    output_lengths(tests);
    let calls = |_: &Part, edits: &[Lending]| {
        let call = |&(edit, room): &Lending| (edit, room as usize);
        edits.iter().map(call).collect()
    };
    bit_2::run(tests, "edits", calls);
    bit_2::output_lengths(tests, "edits", calls);
    angles::run(tests, "edits", calls);
    angles::output_lengths(tests, "edits", calls);
    angle_results::same_pairs(tests, "edits", calls);
    angle_results::edited(tests, |edit| edit);
}

impl Call for Edit {
    fn by_library(self, sheet: &[u8], out: &mut [u8]) -> u64 {
        by_library(sheet, self, out)
    }

    fn same(self, sheet: &[u8], lent: usize) -> Outcome {
        same(sheet, self, lent)
    }
}

/// The library's function for the edit.
pub fn by_library(sheet: &[u8], edit: Edit, out: &mut [u8]) -> u64 {
    match edit {
        Edit::Add { side } => library::add_ear(sheet, side as usize, out),
        Edit::TakeOff { corner } => library::remove_ear(sheet, corner as usize, out),
        Edit::Turn { a, b } => library::flip(sheet, a as usize, b as usize, out),
    }
}

/// Both sides on one edit with `lent` bytes of output.
pub fn same(sheet: &[u8], edit: Edit, lent: usize) -> Outcome {
    let outcome = same_writing(
        sheet,
        lent,
        |sheet, out| by_library(sheet, edit, out),
        |sheet, out| edit_sheet(sheet, edit, out),
    );
    outcome.map_err(|failure| failure.after(&format!("{edit:?} on")))
}

/// Both sides, and the number that the test was made to get.
fn gives(number: u16, sheet: &[u8], edit: Edit, lent: usize) -> Outcome {
    must_be(number, by_library(sheet, edit, &mut vec![0; lent]), sheet)
        .map_err(|failure| failure.after(&format!("{edit:?} on")))?;
    same(sheet, edit, lent)
}

fn fan(n: Corner) -> Part {
    let diagonals: Vec<Pair> = (2..n - 1).map(|b| (0, b)).collect();
    Part::new(n, &diagonals)
}

fn known_parts(tests: &mut Tests) {
    tests.test(
        "edits: known part n = 4, (0,2) turned and turned again",
        || {
            let written = |diagonal| sheet::with_pairs(4, &[diagonal], None);
            for (sheet, a, b, expected) in [
                (written((0, 2)), 0, 2, written((1, 3))),
                (written((1, 3)), 3, 1, written((0, 2))),
            ] {
                let edit = Edit::Turn { a, b };
                gives(0, &sheet, edit, 7)?;
                let mut out = [0; 7];
                by_library(&sheet, edit, &mut out);
                same_bytes(&sheet, &out, &expected)?;
            }
            Ok(())
        },
    );
    tests.test("edits: known part, adding at 1,023 works", || {
        without_and_with(&fan(1023)).iter().try_for_each(|sheet| {
            let room = if has_angles(sheet) { 6129 } else { 4087 };
            (0..1023).try_for_each(|side| gives(0, sheet, Edit::Add { side }, room))
        })
    });
    tests.test("edits: known part, adding at 1,024 gives 10", || {
        without_and_with(&fan(1024)).iter().try_for_each(|sheet| {
            (0..1024).try_for_each(|side| gives(10, sheet, Edit::Add { side }, ENOUGH))
        })
    });
}

fn small_parts(tests: &mut Tests) {
    for n in 3..=8 {
        for skipped in [None, Some([0xfe, 0xdc, 0xba, 0x98])] {
            let name = format!("edits: all edits of all parts of {n} corners, bit 2 {skipped:?}");
            tests.test(&name, || {
                let mut random = Random::new(61);
                for part in all_parts(n) {
                    for edit in all_edits(n) {
                        let sheet = any_order(&part, skipped, &mut random);
                        same(&sheet, edit, sheet::length(&part) + 4)?;
                    }
                }
                Ok(())
            });
            tests.test(&format!("{name}, with angles"), || {
                let mut random = Random::new(62);
                for part in all_parts(n) {
                    for edit in all_edits(n) {
                        let part = any_angled(part.clone(), &mut random);
                        let sheet = any_order(&part, skipped, &mut random);
                        same(&sheet, edit, length_of(n + 1, true))?;
                    }
                }
                Ok(())
            });
        }
    }
}

fn orders_of_refusal(tests: &mut Tests) {
    for (numbers, (a, b)) in [("", (1, 3)), (" with 9 besides", (u64::MAX, 0))] {
        refusals(tests, &format!("edits{numbers}"), |number, sheet, lent| {
            gives(number, sheet, Edit::Add { side: a }, lent)?;
            gives(number, sheet, Edit::TakeOff { corner: a }, lent)?;
            gives(number, sheet, Edit::Turn { a, b }, lent)
        });
    }
    let small = fan(6);
    let ends = Edit::TakeOff { corner: 2 };
    let cases = [
        ("9 before 10", 9, fan(1024), Edit::Add { side: 1024 }),
        ("9 before 11", 9, fan(3), Edit::TakeOff { corner: 3 }),
        (
            "9 before 13, first",
            9,
            small.clone(),
            Edit::Turn { a: 6, b: 1 },
        ),
        (
            "9 before 13, second",
            9,
            small.clone(),
            Edit::Turn { a: 1, b: 6 },
        ),
        (
            "9 for an end of a diagonal and n",
            9,
            small.clone(),
            Edit::Turn { a: 0, b: 6 },
        ),
        ("10", 10, fan(1024), Edit::Add { side: 1023 }),
        ("11", 11, fan(3), Edit::TakeOff { corner: 0 }),
        ("12", 12, small.clone(), ends),
        ("13 a side", 13, small.clone(), Edit::Turn { a: 2, b: 3 }),
        ("13 the root", 13, small.clone(), Edit::Turn { a: 5, b: 0 }),
        (
            "13 equal corners",
            13,
            small.clone(),
            Edit::Turn { a: 3, b: 3 },
        ),
        (
            "13 another diagonal",
            13,
            small.clone(),
            Edit::Turn { a: 1, b: 3 },
        ),
        ("13 in a triangle", 13, fan(3), Edit::Turn { a: 0, b: 2 }),
        ("9 before 8, add", 9, small.clone(), Edit::Add { side: 6 }),
        (
            "9 before 8, take off",
            9,
            small.clone(),
            Edit::TakeOff { corner: 6 },
        ),
    ];
    for (name, number, part, edit) in cases {
        tests.test(&format!("edits: {name}"), || {
            without_and_with(&part).iter().try_for_each(|sheet| {
                (0..=sheet.len() + 6).try_for_each(|lent| gives(number, sheet, edit, lent))
            })
        });
    }
}

fn large_parts(tests: &mut Tests) {
    for n in [3, 4, 300, 1022, 1023, 1024] {
        tests.test(&format!("edits: random edits at {n} corners"), || {
            let mut random = Random::new(u64::from(n));
            for _ in 0..800 {
                let part = any_part(n, &mut random);
                let sheet = any_sheet(&part, &mut random);
                for _ in 0..4 {
                    same(&sheet, any_edit(&part, &mut random), 6 * usize::from(n) + 6)?;
                }
            }
            Ok(())
        });
    }
    tests.test(
        "edits: every edit that a part of 1,023 corners takes",
        || {
            let mut random = Random::new(71);
            let part = any_part(1023, &mut random);
            for sheet in without_and_with(&part) {
                for number in 0..1023 {
                    same(&sheet, Edit::Add { side: number }, ENOUGH)?;
                    same(&sheet, Edit::TakeOff { corner: number }, ENOUGH)?;
                }
                for &(a, b) in &part.diagonals {
                    let (a, b) = (u64::from(a), u64::from(b));
                    gives(0, &sheet, Edit::Turn { a, b }, ENOUGH)?;
                    gives(0, &sheet, Edit::Turn { a: b, b: a }, ENOUGH)?;
                }
            }
            Ok(())
        },
    );
    let how_many = Damaged {
        rounds: 3000,
        to_a_large_one: 20,
        most: 16,
    };
    groups::damaged_sheets(tests, "edits", 72, how_many, |part, sheet, random| {
        same(sheet, any_edit(part, random), sheet.len() + 5)
    });
}

fn output_lengths(tests: &mut Tests) {
    tests.test("edits: every length of output, small parts", || {
        let mut random = Random::new(81);
        for n in (3..=16).flat_map(|n| [n; 6]) {
            let part = any_part(n, &mut random);
            let sheet = any_sheet(&part, &mut random);
            let edit = any_edit(&part, &mut random);
            (0..=sheet.len() + 6).try_for_each(|lent| same(&sheet, edit, lent))?;
        }
        Ok(())
    });
    tests.test(
        "edits: the edges of the output's length, large parts",
        || {
            let mut random = Random::new(82);
            for n in (17..=1024).step_by(53).chain([1022, 1023, 1024]) {
                let part = any_part(n, &mut random);
                let sheet = any_sheet(&part, &mut random);
                for _ in 0..8 {
                    let edit = any_edit(&part, &mut random);
                    let length = sheet::length(&part);
                    let near = length - 7..=length + 7;
                    (0..4)
                        .chain(near)
                        .try_for_each(|lent| same(&sheet, edit, lent))?;
                }
            }
            Ok(())
        },
    );
}
