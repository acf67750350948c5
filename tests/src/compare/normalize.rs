//! Set in order: the library's `bend_normalize` beside the model.

use super::angle_results;
use super::angles;
use super::bit_2;
use super::calls::Call;
use super::checks::{must_be, same_writing, Outcome};
use super::faults::refusals_in_twos;
use super::sheet_faults;
use super::sheets::{any_angled, any_four, any_part, any_sheet, both_kinds, ordered};
use super::sheets::{without_and_with, Order, ORDERS};
use super::Tests;
use crate::library;
use bend_tests::edit_list::Lending;
use bend_tests::fields::Fields;
use bend_tests::part::{Pair, Part};
use bend_tests::random::Random;
use bend_tests::shapes::{all_parts, part, SHAPES};
use bend_tests::sheet::{self, Skipped};

pub fn run(tests: &mut Tests) {
    known_parts(tests);
    valid_sheets(tests);
    refusals_in_twos(tests, "normalize", gives);
    sheet_faults::run(tests);
    output_lengths(tests);
    let call = |part: &Part, _: &[Lending]| vec![(Normalize, sheet::length(part))];
    bit_2::run(tests, "normalize", call);
    bit_2::output_lengths(tests, "normalize", call);
    bit_2::results(tests, Normalize);
    angles::run(tests, "normalize", call);
    angles::output_lengths(tests, "normalize", call);
    angle_results::same_pairs(tests, "normalize", call);
    angle_results::set_in_order(tests, Normalize);
}

#[derive(Clone, Copy, Debug)]
struct Normalize;

impl Call for Normalize {
    fn by_library(self, sheet: &[u8], out: &mut [u8]) -> u64 {
        library::normalize(sheet, out)
    }

    fn same(self, sheet: &[u8], lent: usize) -> Outcome {
        same(sheet, lent)
    }
}

/// Both sides on one sheet with `lent` bytes of output.
pub fn same(sheet: &[u8], lent: usize) -> Outcome {
    same_writing(sheet, lent, library::normalize, sheet::set_in_order)
}

/// Both sides, and the number that the test was made to get.
pub fn gives(number: u16, sheet: &[u8], lent: usize) -> Outcome {
    must_be(number, library::normalize(sheet, &mut vec![0; lent]), sheet)?;
    same(sheet, lent)
}

fn known_parts(tests: &mut Tests) {
    let pairs = |n, pairs: &[Pair]| sheet::with_pairs(n, pairs, None);
    let known = [
        ("n = 5, (0,2) (1,3): 7", 7, pairs(5, &[(0, 2), (1, 3)])),
        ("n = 5, (0,2) (2,0): 6", 6, pairs(5, &[(0, 2), (2, 0)])),
        ("n = 5, (0,4) (1,3): 5", 5, pairs(5, &[(0, 4), (1, 3)])),
        ("n = 2: 3", 3, vec![1, 0, 2]),
        ("n = 1,025: 3", 3, vec![3, 4, 1]),
        ("n = 3", 0, vec![1, 0, 3]),
        ("n = 4, (0,2)", 0, pairs(4, &[(0, 2)])),
    ];
    for (name, number, sheet) in known {
        tests.test(&format!("normalize: known part {name}"), || {
            gives(number, &sheet, 64)
        });
    }
}

fn valid_sheets(tests: &mut Tests) {
    for order in ORDERS {
        for skipped in [None, Some([0; 4]), Some([1, 2, 3, 4]), Some([255; 4])] {
            for angled in [false, true] {
                let name =
                    format!("normalize: every size, {order:?}, bit 2 {skipped:?}, angles {angled}");
                tests.test(&name, || every_size(order, skipped, angled));
            }
        }
    }
    for shape in SHAPES {
        tests.test(&format!("normalize: {shape:?} at 1,023 and 1,024"), || {
            let mut random = Random::new(12);
            for n in [1023, 1024] {
                for order in ORDERS {
                    in_order(&part(shape, n, &mut random), order, &mut random)?;
                }
            }
            Ok(())
        });
    }
    tests.test("normalize: all parts of up to 9 corners", || {
        let mut random = Random::new(13);
        for part in (3..=9).flat_map(all_parts) {
            for order in ORDERS {
                in_order(&part, order, &mut random)?;
            }
        }
        Ok(())
    });
}

/// A part of every size in the given order.
fn every_size(order: Order, skipped: Option<Skipped>, angled: bool) -> Outcome {
    let mut random = Random::new(11);
    for n in 3..=1024 {
        let shape = *random.pick(&SHAPES);
        let mut part = part(shape, n, &mut random);
        if angled {
            part = any_angled(part, &mut random);
        }
        let fields = ordered(&part, order, &mut random);
        let sheet = Fields { skipped, ..fields }.bytes();
        gives(0, &sheet, sheet::length(&part) + random.below(3))?;
    }
    Ok(())
}

/// The part in the given order, with and without angles and bit 2.
fn in_order(part: &Part, order: Order, random: &mut Random) -> Outcome {
    for part in both_kinds(part, random) {
        let mut fields = ordered(&part, order, random);
        for skipped in [None, Some(any_four(random))] {
            fields.skipped = skipped;
            gives(0, &fields.bytes(), sheet::length(&part))?;
        }
    }
    Ok(())
}

fn output_lengths(tests: &mut Tests) {
    tests.test("normalize: every length of output, small parts", || {
        let mut random = Random::new(51);
        for n in (3..=24).flat_map(|n| [n; 4]) {
            let part = any_part(n, &mut random);
            let sheet = any_sheet(&part, &mut random);
            for lent in 0..=sheet.len() + 2 {
                let number = if lent < sheet::length(&part) { 8 } else { 0 };
                gives(number, &sheet, lent)?;
            }
        }
        Ok(())
    });
    tests.test(
        "normalize: the edges of the output's length, large parts",
        || {
            let mut random = Random::new(52);
            for n in (25..=1024).step_by(37).chain([1023, 1024]) {
                let part = any_part(n, &mut random);
                let sheet = any_sheet(&part, &mut random);
                let length = sheet::length(&part);
                for lent in (0..8).chain([length / 2]).chain(length - 5..=length + 2) {
                    let number = if lent < length { 8 } else { 0 };
                    gives(number, &sheet, lent)?;
                }
            }
            Ok(())
        },
    );
    tests.test("normalize: every length of output at 1,024 corners", || {
        let mut random = Random::new(53);
        without_and_with(&any_part(1024, &mut random))
            .iter()
            .try_for_each(|sheet| (0..=sheet.len() + 2).try_for_each(|lent| same(sheet, lent)))
    });
    tests.test("normalize: an output much longer than the result", || {
        let mut random = Random::new(54);
        for n in [3, 4, 100, 1024] {
            for sheet in without_and_with(&any_part(n, &mut random)) {
                same(&sheet, 200_000)?;
            }
        }
        Ok(())
    });
}
