//! Lists of edits: the library reads what it wrote, the plain part of document 01
//! is fed the edits alone, and both must leave the same sheet.

use super::angle_lists;
use super::any_edits::{any_edit, any_room};
use super::bit_2_lists;
use super::checks::{must_be, same_bytes, Failure, Outcome};
use super::edits::{by_library, same};
use super::lists::Left;
use super::sheets::{any_part, any_sheet};
use super::Tests;
#[cfg(all(feature = "plan", feature = "draw"))]
use bend_tests::draw::chart;
use bend_tests::edit_list::Lending;
use bend_tests::plain_part::PlainPart;
#[cfg(all(feature = "plan", feature = "draw"))]
use bend_tests::plan::Pieces;
use bend_tests::random::Random;

/// Runs one list of edits. The library reads what it wrote last; the plain part
/// is fed the edits alone.
fn list(first: &[u8], length: usize, random: &mut Random) -> Outcome {
    let mut plain = PlainPart::new(first).expect("the list starts from a valid sheet");
    let mut left = first.to_vec();
    for _ in 0..length {
        let edit = any_edit(&plain.part, random);
        let lent = any_room(&plain.part, random);
        let mut out = random.bytes(lent);
        let answer = by_library(&left, edit, &mut out);
        let number = plain.edit(edit, lent);
        must_be(number, answer, &left).map_err(|failure| failure.after(&format!("{edit:?} on")))?;
        if number == 0 {
            out.truncate((answer >> 16) as usize);
            left = out;
        }
    }
    same_bytes(first, &left, &plain.sheet())?;
    #[cfg(all(feature = "plan", feature = "draw"))]
    planned_and_drawn(&left, &plain)?;
    Ok(())
}

/// Plan and Draw on the sheet left give what the plain part's plan gives.
#[cfg(all(feature = "plan", feature = "draw"))]
fn planned_and_drawn(left: &[u8], plain: &PlainPart) -> Outcome {
    let plan = Pieces::of(&plain.part).plan();
    super::plan::gives(left, Ok(plan.counts))?;
    super::draw::draws(left, &chart(&plain.part, &plan))
}

/// The numbers and the sheet that the list gives, by a call for each edit.
fn run_list(first: &[u8], list: &[Lending]) -> Result<Left, Failure> {
    let mut left = first.to_vec();
    let mut numbers = Vec::new();
    for &(edit, room) in list {
        same(&left, edit, room as usize)?;
        let mut out = vec![0; room as usize];
        let answer = by_library(&left, edit, &mut out);
        numbers.push(answer as u16);
        if answer & 0xffff == 0 {
            out.truncate((answer >> 16) as usize);
            left = out;
        }
    }
    Ok((numbers, left))
}

pub fn run(tests: &mut Tests) {
    for (name, n, count, length) in [
        ("the empty list", 12, 10, 0),
        ("short lists from 3 corners", 3, 3000, 8),
        ("long lists from 3 corners", 3, 60, 1500),
        ("long lists from 40 corners", 40, 60, 1500),
        ("long lists from 1,020 corners", 1020, 8, 1500),
        ("long lists from 1,024 corners", 1024, 8, 1500),
    ] {
        tests.test(&format!("edits: {name}"), || {
            let mut random = Random::new(91);
            for _ in 0..count {
                let part = any_part(n, &mut random);
                list(&any_sheet(&part, &mut random), length, &mut random)?;
            }
            Ok(())
        });
    }
    bit_2_lists::run(tests, "edits", run_list);
    angle_lists::run(tests, "edits", run_list);
}
