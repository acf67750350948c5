//! Encoded lists of edits: the library's `bend_run_edits` beside the model, and
//! beside the plain part of document 01, which is fed the edits alone.

use super::angle_lists;
use super::any_edits::any_list;
use super::bit_2_lists;
use super::checks::{guarded, hex, inside, must_be, same_bytes, Failure, Outcome};
use super::lists::Left;
use super::sheets::{any_part, any_sheet, has_angles, length_of, without_and_with, DAMAGES};
use super::Tests;
use crate::library;
use bend_tests::edit::Edit;
use bend_tests::edit_list::{edits, encoded, run as by_model, Lending, Place, Ran};
use bend_tests::part::Corner;
use bend_tests::plain_part::PlainPart;
use bend_tests::random::Random;
use bend_tests::shapes::all_parts;
use std::hint::black_box;

/// The lengths of the front buffer, the back buffer and the output for numbers.
pub type Lengths = [usize; 3];

/// The model's answer as the library packs it. The first sheet's length is not
/// told.
fn packed(answer: Ran) -> u64 {
    match answer {
        Ok((Place::First, _)) => 0,
        Ok((place, length)) => (place as u64) << 16 | (length as u64) << 32,
        Err(number) => number.into(),
    }
}

/// The two sides on one list. They must agree on the answer and on every byte
/// of the three outputs, and leave the first sheet, the list and the bytes round
/// the outputs as they were. Gives the answer.
fn same(first: &[u8], list: &[u8], lengths: Lengths) -> Result<u64, Failure> {
    let mut outs = lengths.map(guarded);
    let mut expected_outs = outs.clone();
    let kept = (first.to_vec(), list.to_vec());
    let [front, back, numbers] = &mut outs;
    let answer = library::run_edits(first, list, inside(front), inside(back), inside(numbers));
    let inputs_stay = black_box((first, list)) == (&kept.0[..], &kept.1[..]);
    let [front, back, numbers] = &mut expected_outs;
    let (front, back, numbers) = (inside(front), inside(back), inside(numbers));
    let expected = packed(by_model(&kept.0, &kept.1, front, back, numbers));
    if answer == expected && outs == expected_outs && inputs_stay {
        as_plain_part(first, list, answer, &mut outs)?;
        return Ok(answer);
    }
    let told = |answer: u64, outs: &[Vec<u8>; 3]| {
        let (number, place, length) = (answer & 0xffff, answer >> 16 & 0xffff, answer >> 32);
        let [front, back, numbers] = outs.each_ref().map(|bytes| hex(bytes));
        format!("number {number}, place {place}, length {length}, front {front}, back {back}, numbers {numbers}, with the bytes round them")
    };
    let mut library = told(answer, &outs);
    if !inputs_stay {
        library += ", input changed";
    }
    Err(Failure {
        input: format!("{} with {lengths:?} lent, from {}", hex(list), hex(first)),
        library,
        model: told(expected, &expected_outs),
    })
}

/// The numbers written are the plain part's, and so is the sheet left, if the
/// list was run from a sheet that is accepted.
fn as_plain_part(first: &[u8], list: &[u8], answer: u64, outs: &mut [Vec<u8>; 3]) -> Outcome {
    let (Ok(mut plain), 0) = (PlainPart::new(first), answer & 0xffff) else {
        return Ok(());
    };
    let list = edits(list).expect("the list was run");
    let number = |&(edit, room): &Lending| plain.edit(edit, room as usize).to_be_bytes();
    let expected: Vec<u8> = list.iter().flat_map(number).collect();
    let [front, back, numbers] = outs.each_mut().map(|bytes| inside(bytes));
    same_bytes(first, &numbers[..expected.len()], &expected)?;
    same_bytes(first, left(answer, first, front, back), &plain.sheet())
}

/// The sheet left, which the answer places.
fn left<'a>(answer: u64, first: &'a [u8], front: &'a [u8], back: &'a [u8]) -> &'a [u8] {
    let length = (answer >> 32) as usize;
    match answer >> 16 & 0xffff {
        0 => first,
        1 => &front[..length],
        _ => &back[..length],
    }
}

/// The numbers and the sheet that the list gives, with buffers just long enough.
fn run_list(first: &[u8], list: &[Lending]) -> Result<Left, Failure> {
    let most = list.iter().map(|&(_, room)| room as usize).max();
    let lengths = [most.unwrap_or(0), most.unwrap_or(0), 2 * list.len()];
    let list = encoded(list, 0);
    gives(0, first, &list, lengths)?;
    let [mut front, mut back, mut numbers] = lengths.map(|length| vec![0; length]);
    let answer = library::run_edits(first, &list, &mut front, &mut back, &mut numbers);
    let number = |two: &[u8]| u16::from_be_bytes([two[0], two[1]]);
    let numbers = numbers.chunks(2).map(number).collect();
    Ok((numbers, left(answer, first, &front, &back).to_vec()))
}

/// Both sides, and the number that the test was made to get.
pub fn gives(number: u16, first: &[u8], list: &[u8], lengths: Lengths) -> Outcome {
    must_be(number, same(first, list, lengths)?, list)
}

/// Lengths that are enough for the list, or a little more.
pub fn enough(list: &[Lending], random: &mut Random) -> Lengths {
    let most = list.iter().map(|&(_, room)| room as usize).max();
    let mut some = |length: usize| length + random.below(3) * random.below(40);
    let most = most.unwrap_or(0);
    [some(most), some(most), some(2 * list.len())]
}

pub fn run(tests: &mut Tests) {
    known_part(tests);
    random_lists(tests);
    bit_2_lists::run(tests, "run_edits", run_list);
    angle_lists::run(tests, "run_edits", run_list);
}

/// n = 4, (0,2) turned: (1,3); turned again: (0,2). Then a corner is added on
/// the root side, and one at which a diagonal ends is not taken off.
fn known_part(tests: &mut Tests) {
    tests.test("run_edits: the known part turned and turned again", || {
        let first = [3, 0, 4, 0, 2, 0, 0];
        let list = [
            (Edit::Turn { a: 0, b: 2 }, 7),
            (Edit::Turn { a: 3, b: 1 }, 8),
            (Edit::Add { side: 3 }, 11),
            (Edit::TakeOff { corner: 2 }, 12),
        ];
        for (count, answer, in_front, in_back) in [
            (0, 0, &[][..], &[][..]),
            (1, 1 << 16 | 7 << 32, &[3, 0, 4, 0, 1, 0, 3], &[]),
            (2, 2 << 16 | 7 << 32, &[3, 0, 4, 0, 1, 0, 3], TURNED),
            (3, 1 << 16 | 11 << 32, ADDED, TURNED),
            (4, 1 << 16 | 11 << 32, ADDED, TURNED),
        ] {
            let list = encoded(&list[..count], 5);
            gives(0, &first, &list, [12, 13, 9])?;
            let (mut front, mut back, mut numbers) = ([7; 12], [8; 13], [9; 9]);
            let found = library::run_edits(&first, &list, &mut front, &mut back, &mut numbers);
            let number = |i: usize| [0, if i == 3 { 12 } else { 0 }];
            let expected: Vec<u8> = (0..count).flat_map(number).collect();
            same_bytes(&list, &found.to_be_bytes(), &u64::to_be_bytes(answer))?;
            same_bytes(&list, &front, &over(in_front, &[7; 12]))?;
            same_bytes(&list, &back, &over(in_back, &[8; 13]))?;
            same_bytes(&list, &numbers, &over(&expected, &[9; 9]))?;
        }
        Ok(())
    });
}

/// n = 4 with (0,2), and n = 5 with (0,2) and (0,3).
const TURNED: &[u8] = &[3, 0, 4, 0, 0, 0, 2];
const ADDED: &[u8] = &[3, 0, 5, 0, 0, 0, 2, 0, 0, 0, 3];

/// The bytes, and behind them what lay there before.
fn over(bytes: &[u8], before: &[u8]) -> Vec<u8> {
    [bytes, &before[bytes.len()..]].concat()
}

fn random_lists(tests: &mut Tests) {
    for n in 3..=5 {
        let name = format!("run_edits: all lists of two edits of all parts of {n} corners");
        tests.test(&name, || {
            let numbers = 0..=u64::from(n);
            let one = numbers
                .clone()
                .flat_map(|x| [Edit::Add { side: x }, Edit::TakeOff { corner: x }]);
            let two = numbers
                .clone()
                .flat_map(|a| numbers.clone().map(move |b| Edit::Turn { a, b }));
            let edits: Vec<Edit> = one.chain(two).collect();
            for first in all_parts(n).iter().flat_map(without_and_with) {
                let room = length_of(n + 2, has_angles(&first));
                for &one in &edits {
                    for &two in &edits {
                        let list = [(one, room as u32), (two, room as u32)];
                        gives(0, &first, &encoded(&list, 1), [room, room, 4])?;
                    }
                }
            }
            Ok(())
        });
    }
    for (n, count, length) in [
        (3, 3000, 8),
        (12, 300, 60),
        (40, 40, 400),
        (1020, 6, 300),
        (1024, 6, 300),
    ] {
        tests.test(&format!("run_edits: lists from {n} corners"), || {
            let mut random = Random::new(u64::from(n));
            for _ in 0..count {
                let part = any_part(n, &mut random);
                let list = any_list(&part, length, &mut random);
                let lengths = enough(&list, &mut random);
                let list = encoded(&list, random.bits() as u32);
                gives(0, &any_sheet(&part, &mut random), &list, lengths)?;
            }
            Ok(())
        });
    }
    for (name, damage) in DAMAGES {
        tests.test(
            &format!("run_edits: damaged sheets and lists, {name}"),
            || {
                let mut random = Random::new(103);
                for _ in 0..1000 {
                    let part = any_part(random.between(3, 16) as Corner, &mut random);
                    let list = any_list(&part, 6, &mut random);
                    let lengths = enough(&list, &mut random);
                    let mut list = encoded(&list, 0);
                    let mut first = any_sheet(&part, &mut random);
                    damage(&mut first, &mut random);
                    gives(0, &first, &list, lengths)?;
                    damage(&mut list, &mut random);
                    same(&any_sheet(&part, &mut random), &list, lengths)?;
                }
                Ok(())
            },
        );
    }
}
