//! Faulty lists of edits: what refusals 32 to 35 name, in every set, of which the
//! first in the order must win; and every length of the outputs.

use super::any_edits::any_list;
use super::run_edits::{enough, gives, Lengths};
use super::sheets::{any_part, any_sheet, without_and_with};
use super::Tests;
use bend_tests::edit::Edit;
use bend_tests::edit_list::{encoded, EDIT};
use bend_tests::part::Corner;
use bend_tests::random::Random;

/// One way to spoil a list, or the lengths that it is lent.
type Fault = (u16, fn(&mut Vec<u8>, &mut Lengths, &mut Random));

/// A fault for each refusal, in the order in which they are tested.
const FAULTS: [Fault; 4] = [
    (32, |list, _, random| {
        let more = random.between(1, EDIT - 1);
        list.extend(random.bytes(more));
    }),
    (33, |list, _, random| {
        let place = random.below(list.len() / EDIT) * EDIT;
        list[place] = random.between(3, 255) as u8;
    }),
    (34, |list, lengths, random| {
        lengths[2] = random.below(list.len() / EDIT * 2);
    }),
    (35, |list, lengths, random| {
        let place = random.below(list.len() / EDIT) * EDIT + 9;
        let short = random.below(2);
        let room = match random.below(3) {
            0 => u32::MAX,
            1 => lengths[short] as u32 + 1,
            _ => (lengths[short] + random.between(1, 1 << 20)) as u32,
        };
        list[place..place + 4].copy_from_slice(&room.to_be_bytes());
    }),
];

/// Every set of faults, done so that none hides another; the first one in the
/// order counts.
pub fn run(tests: &mut Tests) {
    for set in 0..1 << FAULTS.len() {
        let faults = FAULTS.iter().enumerate();
        let faults: Vec<&Fault> = faults
            .filter(|(i, _)| set >> i & 1 == 1)
            .map(|(_, f)| f)
            .collect();
        let numbers: Vec<u16> = faults.iter().map(|fault| fault.0).collect();
        tests.test(&format!("run_edits: refusals {numbers:?}"), || {
            let mut random = Random::new(101);
            for round in 0..400 {
                let part = any_part(random.between(3, 12) as Corner, &mut random);
                let list = any_list(&part, 1 + round % 6, &mut random);
                let mut lengths = enough(&list, &mut random);
                let mut bytes = encoded(&list, random.bits() as u32);
                for fault in faults.iter().rev() {
                    fault.1(&mut bytes, &mut lengths, &mut random);
                }
                let first = any_sheet(&part, &mut random);
                gives(
                    numbers.first().copied().unwrap_or(0),
                    &first,
                    &bytes,
                    lengths,
                )?;
            }
            Ok(())
        });
    }
    tests.test(
        "run_edits: every length of the numbers and of a buffer",
        || {
            let mut random = Random::new(102);
            let list = [(Edit::Add { side: 2 }, 50), (Edit::Turn { a: 2, b: 4 }, 51)];
            let list = encoded(&list, 0);
            for first in without_and_with(&any_part(9, &mut random)) {
                for length in 0..60 {
                    let number = if length < 4 { 34 } else { 0 };
                    gives(number, &first, &list, [51, 51, length])?;
                    let number = if length < 51 { 35 } else { 0 };
                    gives(number, &first, &list, [length, 51, 4])?;
                    gives(number, &first, &list, [51, length, 4])?;
                }
            }
            Ok(())
        },
    );
}
