//! Cut (request (iii)): the library's `bend_cut` beside its own edits. "Refusals are those
//! of turning a diagonal": unless an output is too short, it gives the number that
//! `bend_flip` gives. A corner that can be taken off is cut off as a triangle, and the other
//! half is what `bend_remove_ear` writes.

use super::any_edits::HUGE;
use super::checks::{must_be, same_bytes, Outcome};
use super::cut_calls::{any_ends, Ends};
use super::groups::{self, Damaged};
use super::sheets::{any_part, any_sheet, both_kinds, length_of, ENOUGH};
use super::Tests;
use crate::library;
use bend_tests::part::Corner;
use bend_tests::random::Random;
use bend_tests::shapes::all_parts;

pub fn run(tests: &mut Tests) {
    refused_as_turning(tests);
    taken_off(tests);
}

/// Both on any sheet, with any numbers.
fn same_number(sheet: &[u8], (a, b): Ends) -> Outcome {
    let (a, b) = (a as usize, b as usize);
    let [mut inner, mut rest, mut turned] = [(); 3].map(|()| vec![0x5a; ENOUGH]);
    let due = library::flip(sheet, a, b, &mut turned) as u16;
    let answer = library::cut(sheet, a, b, [&mut inner, &mut rest]);
    must_be(due, answer, sheet)
        .map_err(|failure| failure.after(&format!("cut at ({a},{b}), or turned,")))
}

fn refused_as_turning(tests: &mut Tests) {
    tests.test("cut: refused as turning is, small parts", || {
        let mut random = Random::new(781);
        for part in (3..=6).flat_map(all_parts) {
            let n = u64::from(part.n);
            for a in (0..n + 2).chain(HUGE) {
                for b in (0..n + 2).chain(HUGE) {
                    same_number(&any_sheet(&part, &mut random), (a, b))?;
                }
            }
        }
        Ok(())
    });
    let how_many = Damaged {
        rounds: 400,
        to_a_large_one: 40,
        most: 16,
    };
    let operation = "cut: refused as turning is";
    groups::damaged_sheets(tests, operation, 782, how_many, |part, sheet, random| {
        same_number(sheet, any_ends(part, random))
    });
}

/// The neighbours of corner k, between which a diagonal cuts it off.
fn neighbours(n: Corner, k: Corner) -> Ends {
    (((k + n - 1) % n).into(), ((k + 1) % n).into())
}

/// Corner k of a sheet of `n` corners is taken off, and cut off, with `lent` bytes for what
/// is left. The other half is a triangle; it is the inner part unless k is an end of the
/// root.
fn alike(sheet: &[u8], n: Corner, k: Corner, lent: usize) -> Outcome {
    let mut taken_off = vec![0x5a; lent];
    let due = library::remove_ear(sheet, k.into(), &mut taken_off);
    let (mut left, mut triangle) = (vec![0x5a; lent], vec![0x5a; 3]);
    let at_root = k == 0 || k == n - 1;
    let (a, b) = neighbours(n, k);
    let outputs = if at_root {
        [&mut left[..], &mut triangle[..]]
    } else {
        [&mut triangle[..], &mut left[..]]
    };
    let answer = library::cut(sheet, a as usize, b as usize, outputs);
    let (expected, cut_off) = match (due as u16, at_root) {
        (0, true) => (due | 3 << 32, [1, 0, 3]),
        (0, false) => (due << 16 | 3 << 16, [1, 0, 3]),
        // a diagonal ends there, or the part is a triangle: it lacks the diagonal
        (11 | 12, _) => (13, [0x5a; 3]),
        _ => (due, [0x5a; 3]),
    };
    same_bytes(sheet, &answer.to_be_bytes(), &expected.to_be_bytes())
        .and_then(|()| same_bytes(sheet, &left, &taken_off))
        .and_then(|()| same_bytes(sheet, &triangle, &cut_off))
        .map_err(|failure| failure.after(&format!("corner {k} cut off, or taken off,")))
}

fn taken_off(tests: &mut Tests) {
    tests.test("cut: a corner cut off is taken off, small parts", || {
        let mut random = Random::new(783);
        for part in (3..=7).flat_map(all_parts) {
            for part in both_kinds(&part, &mut random) {
                let room = match part.n {
                    3 => 3,
                    n => length_of(n - 1, part.angles.is_some()),
                };
                for k in 0..part.n {
                    let sheet = any_sheet(&part, &mut random);
                    for lent in [0, room - 1, room, room + 2] {
                        alike(&sheet, part.n, k, lent)?;
                    }
                }
            }
        }
        Ok(())
    });
    tests.test("cut: a corner cut off is taken off, large parts", || {
        let mut random = Random::new(784);
        for n in [40, 300, 1022, 1023, 1024].into_iter().flat_map(|n| [n; 4]) {
            let sheet = any_sheet(&any_part(n, &mut random), &mut random);
            let some = (0..20).map(|_| random.below(n.into()) as Corner);
            let corners: Vec<Corner> = some.chain([0, n - 1]).collect();
            corners
                .into_iter()
                .try_for_each(|k| alike(&sheet, n, k, ENOUGH))?;
        }
        Ok(())
    });
    let how_many = Damaged {
        rounds: 400,
        to_a_large_one: 40,
        most: 16,
    };
    let operation = "cut: a corner cut off is taken off";
    groups::damaged_sheets(tests, operation, 785, how_many, |_, sheet, _| {
        alike(sheet, 16, 1, ENOUGH)
    });
}
