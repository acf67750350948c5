//! Request (xii) in lists of edits from a first sheet with bit 2: what an edit
//! taken writes has none; if none is taken, the sheet left is still the first one,
//! bit 2 and all. `operation` begins the tests' names.

use super::any_edits::{any_list, one_of_each_kind, taken_edits};
use super::lists::{leaves, size, Growing, Run};
use super::sheets::{any_four, any_order, any_part, both_kinds};
use super::Tests;
use bend_tests::edit::Edit;
use bend_tests::edit_list::{edits, encoded, Lending};
use bend_tests::fields::Fields;
use bend_tests::part::Part;
use bend_tests::random::Random;
use bend_tests::shapes::all_parts;

/// All tests of one way to run a list.
pub fn run(tests: &mut Tests, operation: &str, run: Run) {
    none_taken(tests, operation, run);
    some_taken(tests, operation, run);
    exact_rooms(tests, operation, run);
    lists_alike(tests, operation, run);
}

/// The part's sheet in a random order, with bit 2.
fn with_bit_2(part: &Part, random: &mut Random) -> Vec<u8> {
    let skipped = Some(any_four(random));
    any_order(part, skipped, random)
}

fn none_taken(tests: &mut Tests, operation: &str, run: Run) {
    let name = format!("{operation}: request (xii), if no edit is taken the first sheet is left");
    tests.test(&format!("{name}, 05 00 03 00 00 00 09"), || {
        let first = [5, 0, 3, 0, 0, 0, 9];
        let list = [
            (Edit::Add { side: 0 }, 6),
            (Edit::Add { side: 3 }, 9),
            (Edit::TakeOff { corner: 0 }, 9),
            (Edit::Turn { a: 0, b: 2 }, 9),
            (Edit::Add { side: 2 }, 0),
        ];
        let numbers = [8, 9, 11, 13, 8];
        (0..=list.len())
            .try_for_each(|count| leaves(run, &first, &list[..count], &numbers[..count], &first))
    });
    tests.test(&name, || {
        let mut random = Random::new(451);
        for round in 0..1000 {
            let part = any_part(size(round, &mut random), &mut random);
            let first = with_bit_2(&part, &mut random);
            let mut list = Growing::new(&first);
            list.refuse(&mut random);
            list.leaves(run, &first)?;
        }
        Ok(())
    });
}

/// Edits taken among refused ones, with outputs as long as the result or longer.
fn some_taken(tests: &mut Tests, operation: &str, run: Run) {
    let name = format!("{operation}: request (xii), an edit taken leaves a sheet without bit 2");
    tests.test(&name, || {
        let mut random = Random::new(452);
        for round in 0..1000 {
            let part = any_part(size(round, &mut random), &mut random);
            let first = with_bit_2(&part, &mut random);
            let mut list = Growing::new(&first);
            list.refuse(&mut random);
            for _ in 0..random.between(1, 3) {
                let edits = one_of_each_kind(&list.plain.part, &mut random);
                let &(edit, least) = random.pick(&edits);
                list.take((edit, least + random.pick(&[0, 0, 4, 20])));
                list.refuse(&mut random);
            }
            list.leaves(run, &Fields::of(&list.plain.part).bytes())?;
        }
        Ok(())
    });
}

/// One byte less than the result is 8; the result's own length is enough, and
/// more changes nothing, be it less than four bytes or not.
fn exact_rooms(tests: &mut Tests, operation: &str, run: Run) {
    let name = format!("{operation}: request (xii), room for the result and one byte less");
    let check = |part: &Part, (edit, room): Lending, random: &mut Random| {
        let first = with_bit_2(part, random);
        let mut edited = part.clone();
        edit.apply(&mut edited).expect("the part takes the edit");
        let expected = Fields::of(&edited).bytes();
        let (short, enough) = ((edit, room - 1), (edit, room));
        leaves(run, &first, &[short], &[8], &first)?;
        leaves(run, &first, &[enough], &[0], &expected)?;
        leaves(run, &first, &[short, enough], &[8, 0], &expected)?;
        leaves(run, &first, &[(edit, room + 3)], &[0], &expected)?;
        leaves(run, &first, &[(edit, room + 4)], &[0], &expected)
    };
    tests.test(&format!("{name}, all parts of up to 6 corners"), || {
        let mut random = Random::new(453);
        for part in (3..=6).flat_map(all_parts) {
            for part in both_kinds(&part, &mut random) {
                for edit in taken_edits(&part) {
                    check(&part, edit, &mut random)?;
                }
            }
        }
        Ok(())
    });
    tests.test(&format!("{name}, large parts"), || {
        let mut random = Random::new(454);
        for n in (7..=1021).step_by(78).chain([1022, 1023, 1024]) {
            let part = any_part(n, &mut random);
            for edit in one_of_each_kind(&part, &mut random) {
                check(&part, edit, &mut random)?;
            }
        }
        Ok(())
    });
}

/// One list from two sheets that differ only in bit 2 and its bytes.
fn lists_alike(tests: &mut Tests, operation: &str, run: Run) {
    let name = format!("{operation}: request (xii), lists from sheets that differ only there");
    tests.test(&name, || {
        let mut random = Random::new(455);
        for round in 0..400 {
            let part = any_part(size(round, &mut random), &mut random);
            let list = any_list(&part, 1 + round % 12, &mut random);
            let list = edits(&encoded(&list, 0)).expect("an encoded list");
            let without = any_order(&part, None, &mut random);
            let (numbers, left) = run(&without, &list)?;
            let with = with_bit_2(&part, &mut random);
            let taken = numbers.contains(&0);
            let expected = if taken { &left } else { &with };
            leaves(run, &with, &list, &numbers, expected)?;
        }
        Ok(())
    });
}
