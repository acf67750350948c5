//! Request (xi) in lists of edits: angles are kept, dropped and started at 0 edit by
//! edit, and "not remembered through a triangle". `operation` begins the tests'
//! names.

use super::any_edits::{any_edit, one_of_each_kind, taken_edits};
use super::checks::{same_bytes, Outcome};
use super::lists::{leaves, same_numbers, size, Growing, Run};
use super::sheets::{any_angled, any_part, any_sheet, pairs_end, ENOUGH};
use super::Tests;
use bend_tests::edit::Edit;
use bend_tests::edit_list::Lending;
use bend_tests::fields::Fields;
use bend_tests::part::{Corner, Part};
use bend_tests::plain_part::PlainPart;
use bend_tests::random::Random;
use bend_tests::shapes::all_parts;
use bend_tests::sheet;

/// All tests of one way to run a list.
pub fn run(tests: &mut Tests, operation: &str, run: Run) {
    known_lists(tests, operation, run);
    none_taken(tests, operation, run);
    through_triangles(tests, operation, run);
    every_room(tests, operation, run);
    lists_alike(tests, operation, run);
}

/// An edit, its room, its number and the sheet that it leaves.
type Step = (Edit, u32, u16, &'static [u8]);

/// Lists by hand: the sheet left after each edit, from n = 4 with (2,0) at 45 degrees
/// and from the same without angles.
const ANGLED: [Step; 13] = [
    (
        Edit::Add { side: 3 },
        14,
        8,
        &[11, 0, 4, 0, 2, 0, 0, 1, 194],
    ),
    (
        Edit::Add { side: 4 },
        99,
        9,
        &[11, 0, 4, 0, 2, 0, 0, 1, 194],
    ),
    (
        Edit::Add { side: 3 },
        15,
        0,
        &[11, 0, 5, 0, 0, 0, 2, 0, 0, 0, 3, 1, 194, 0, 0],
    ),
    (
        Edit::Turn { a: 0, b: 3 },
        15,
        0,
        &[11, 0, 5, 0, 0, 0, 2, 0, 2, 0, 4, 1, 194, 0, 0],
    ),
    (
        Edit::Turn { a: 0, b: 2 },
        15,
        0,
        &[11, 0, 5, 0, 1, 0, 4, 0, 2, 0, 4, 0, 0, 0, 0],
    ),
    (
        Edit::Turn { a: 4, b: 1 },
        16,
        0,
        &[11, 0, 5, 0, 0, 0, 2, 0, 2, 0, 4, 0, 0, 0, 0],
    ),
    (
        Edit::TakeOff { corner: 3 },
        8,
        8,
        &[11, 0, 5, 0, 0, 0, 2, 0, 2, 0, 4, 0, 0, 0, 0],
    ),
    (
        Edit::TakeOff { corner: 3 },
        9,
        0,
        &[11, 0, 4, 0, 0, 0, 2, 0, 0],
    ),
    (
        Edit::TakeOff { corner: 1 },
        2,
        8,
        &[11, 0, 4, 0, 0, 0, 2, 0, 0],
    ),
    (Edit::TakeOff { corner: 1 }, 3, 0, &[1, 0, 3]),
    (Edit::TakeOff { corner: 1 }, 3, 11, &[1, 0, 3]),
    (Edit::Add { side: 2 }, 7, 0, &[3, 0, 4, 0, 0, 0, 2]),
    (Edit::Turn { a: 0, b: 2 }, 7, 0, &[3, 0, 4, 0, 1, 0, 3]),
];
const PLAIN: [Step; 4] = [
    (
        Edit::Add { side: 0 },
        11,
        0,
        &[3, 0, 5, 0, 0, 0, 2, 0, 0, 0, 3],
    ),
    (Edit::TakeOff { corner: 1 }, 7, 0, &[3, 0, 4, 0, 0, 0, 2]),
    (Edit::TakeOff { corner: 1 }, 3, 0, &[1, 0, 3]),
    (Edit::Add { side: 0 }, 7, 0, &[3, 0, 4, 0, 0, 0, 2]),
];

fn known_lists(tests: &mut Tests, operation: &str, run: Run) {
    let check = |first: &[u8], steps: &[Step]| -> Outcome {
        let list: Vec<Lending> = steps.iter().map(|step| (step.0, step.1)).collect();
        let numbers: Vec<u16> = steps.iter().map(|step| step.2).collect();
        leaves(run, first, &[], &[], first)?;
        (1..=steps.len()).try_for_each(|count| {
            let sheet = steps[count - 1].3;
            leaves(run, first, &list[..count], &numbers[..count], sheet)
        })
    };
    let name = format!("{operation}: request (xi), known lists");
    tests.test(&format!("{name}, with angles to a triangle and on"), || {
        check(&[11, 0, 4, 0, 2, 0, 0, 1, 194], &ANGLED)
    });
    tests.test(&format!("{name}, with bit 2 and angles"), || {
        let first = [15, 0, 4, 0, 2, 0, 0, 9, 9, 9, 9, 1, 194];
        check(&first, &ANGLED[2..])
    });
    tests.test(&format!("{name}, without angles"), || {
        check(&[3, 0, 4, 0, 2, 0, 0], &PLAIN)
    });
}

/// If no edit is taken the sheet left is the first one, in its own order.
fn none_taken(tests: &mut Tests, operation: &str, run: Run) {
    let name = format!("{operation}: request (xi), if no edit is taken the first sheet is left");
    tests.test(&name, || {
        let mut random = Random::new(571);
        for round in 0..600 {
            let part = any_part(size(round, &mut random), &mut random);
            let first = any_sheet(&any_angled(part, &mut random), &mut random);
            let mut list = Growing::new(&first);
            list.refuse(&mut random);
            list.leaves(run, &first)?;
        }
        Ok(())
    });
}

/// Random lists from small parts, with and without angles, that take off more
/// corners than they add: the sheet left is the plain part's. Many of them pass
/// through a triangle.
fn through_triangles(tests: &mut Tests, operation: &str, run: Run) {
    let name = format!("{operation}: request (xi), lists through triangles");
    tests.test(&name, || {
        let mut random = Random::new(572);
        let mut lost = 0;
        for _ in 0..2000 {
            let part = any_part(random.between(3, 7) as Corner, &mut random);
            let first = any_sheet(&part, &mut random);
            let mut list = Growing::new(&first);
            for _ in 0..random.between(1, 14) {
                let edits = one_of_each_kind(&list.plain.part, &mut random);
                // taking off lends the least and comes first
                let &(edit, room) = if random.coin() {
                    &edits[0]
                } else {
                    random.pick(&edits)
                };
                list.take((edit, room + *random.pick(&[0, 0, 1, 2, 4, 6])));
                list.refuse(&mut random);
            }
            let left = &list.plain.part;
            lost += usize::from(part.angles.is_some() && left.n > 3 && left.angles.is_none());
            list.leaves(run, &Fields::of(left).bytes())?;
        }
        assert!(
            lost > 100,
            "lists that lose their angles in a triangle: {lost}"
        );
        Ok(())
    });
}

/// Each edit that a small part with angles takes, with every room up to one byte
/// more than the result.
fn every_room(tests: &mut Tests, operation: &str, run: Run) {
    let name = format!("{operation}: request (xi), every room of every edit taken");
    tests.test(&name, || {
        let mut random = Random::new(573);
        for part in (4..=6).flat_map(all_parts) {
            let part = any_angled(part, &mut random);
            for (edit, least) in taken_edits(&part) {
                let first = any_sheet(&part, &mut random);
                let mut edited = part.clone();
                edit.apply(&mut edited).expect("the part takes the edit");
                let result = Fields::of(&edited).bytes();
                assert_eq!(result.len(), least as usize);
                for room in 0..=least + 1 {
                    let (number, left) = if room < least {
                        (8, &first)
                    } else {
                        (0, &result)
                    };
                    leaves(run, &first, &[(edit, room)], &[number], left)?;
                }
            }
        }
        Ok(())
    });
}

/// One list from a sheet with angles and from the same without, each edit with
/// enough room: the same numbers, and the same corners and pairs are left.
fn lists_alike(tests: &mut Tests, operation: &str, run: Run) {
    let name = format!("{operation}: request (xi), lists from sheets that differ in angles only");
    tests.test(&name, || {
        let mut random = Random::new(574);
        for round in 0..400 {
            let part = any_part(size(round, &mut random), &mut random);
            let part = any_angled(part, &mut random);
            let without = sheet::normal(&Part::new(part.n, &part.diagonals));
            let mut plain = PlainPart::new(&without).expect("a valid sheet");
            let edit = |_| {
                let edit = any_edit(&plain.part, &mut random);
                plain.edit(edit, ENOUGH);
                (edit, ENOUGH as u32)
            };
            let list: Vec<Lending> = (0..round % 12).map(edit).collect();
            let (numbers, plain_left) = run(&without, &list)?;
            let (found, mut left) = run(&sheet::normal(&part), &list)?;
            same_numbers(&without, &found, &numbers)?;
            let n = Corner::from_be_bytes([left[1], left[2]]);
            left.truncate(pairs_end(n));
            left[0] &= !8;
            same_bytes(&without, &left, &plain_left)?;
        }
        Ok(())
    });
}
