//! Join (request (i)) of a triangle: the library's `bend_join` beside its own
//! `bend_add_ear`. On every side but the root both give and write the same, whatever the
//! sheet and the output.

use super::any_edits::HUGE;
use super::checks::{same_bytes, Outcome};
use super::groups::{self, Damaged};
use super::sheets::{any_part, any_sheet, both_kinds, length_of, ENOUGH};
use super::Tests;
use crate::library;
use bend_tests::random::Random;
use bend_tests::shapes::all_parts;

/// Both on a side of any sheet but the root, with a triangle without and with bit 2.
fn alike(sheet: &[u8], side: u64, lent: usize) -> Outcome {
    for triangle in [&[1, 0, 3][..], &[5, 0, 3, 1, 2, 3, 4]] {
        let (mut by_join, mut by_adding) = (vec![0x5a; lent], vec![0x5a; lent]);
        let joined = library::join(sheet, triangle, side as usize, &mut by_join);
        let added = library::add_ear(sheet, side as usize, &mut by_adding);
        same_bytes(sheet, &joined.to_be_bytes(), &added.to_be_bytes())
            .and_then(|()| same_bytes(sheet, &by_join, &by_adding))
            .map_err(|failure| failure.after(&format!("a triangle on side {side} of")))?;
    }
    Ok(())
}

pub fn run(tests: &mut Tests) {
    tests.test("join: a triangle is a corner added, small parts", || {
        let mut random = Random::new(725);
        for part in (3..=7).flat_map(all_parts) {
            for part in both_kinds(&part, &mut random) {
                let n = u64::from(part.n);
                let room = length_of(part.n + 1, part.angles.is_some());
                for side in (0..n - 1).chain([n, n + 1]).chain(HUGE) {
                    let sheet = any_sheet(&part, &mut random);
                    for lent in [0, room - 1, room, room + 2] {
                        alike(&sheet, side, lent)?;
                    }
                }
            }
        }
        Ok(())
    });
    tests.test("join: a triangle is a corner added, large parts", || {
        let mut random = Random::new(726);
        for n in [40, 300, 1022, 1023, 1024].into_iter().flat_map(|n| [n; 6]) {
            let sheet = any_sheet(&any_part(n, &mut random), &mut random);
            for _ in 0..30 {
                let side = random.below(usize::from(n) - 1) as u64;
                alike(&sheet, side, ENOUGH)?;
            }
        }
        Ok(())
    });
    let how_many = Damaged {
        rounds: 400,
        to_a_large_one: 40,
        most: 16,
    };
    let operation = "join: a triangle is a corner added";
    groups::damaged_sheets(tests, operation, 727, how_many, |_, sheet, _| {
        alike(sheet, 1, ENOUGH)
    });
}
