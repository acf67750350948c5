//! Request (xi), what is written of angles: known sheets byte for byte, and the
//! library's answers on sheets that differ in angles only. `operation` begins the
//! tests' names.

use super::any_edits::{all_edits, one_of_each_kind, taken_edits};
use super::calls::Call;
use super::checks::{same_bytes, Outcome};
use super::sheets::{any_angled, any_four, length_of, ordered, pairs_end, ENOUGH, ORDERS};
use super::Tests;
use bend_tests::edit::Edit;
use bend_tests::edit_list::Lending;
use bend_tests::fields::Fields;
use bend_tests::part::{Angle, Corner, Part};
use bend_tests::random::Random;
use bend_tests::shapes::{all_parts, part, SHAPES};

/// Sheets with angles and what they are set in order, with every length of output.
/// A sheet's pairs are followed by its angles; `skipped` is put between them.
pub fn set_in_order(tests: &mut Tests, normalize: impl Call) {
    let name = "normalize: request (xi), known sheets with angles, every room";
    tests.test(name, || {
        // the pairs, the angles, and both of them in order
        let known: [[&[u8]; 4]; 4] = [
            [
                &[11, 0, 4, 0, 2, 0, 0],
                &[7, 8],
                &[11, 0, 4, 0, 0, 0, 2],
                &[7, 8],
            ],
            [
                &[11, 0, 4, 0, 1, 0, 3],
                &[0, 0],
                &[11, 0, 4, 0, 1, 0, 3],
                &[0, 0],
            ],
            // the star: (4,2) 30 degrees, (0,4) -0.1, (2,0) -180
            [
                &[11, 0, 6, 0, 4, 0, 2, 0, 0, 0, 4, 0, 2, 0, 0],
                &[1, 44, 255, 255, 248, 248],
                &[11, 0, 6, 0, 0, 0, 2, 0, 0, 0, 4, 0, 2, 0, 4],
                &[248, 248, 255, 255, 1, 44],
            ],
            // (3,1) 180 degrees before (4,1) -90
            [
                &[11, 0, 5, 0, 3, 0, 1, 0, 4, 0, 1],
                &[7, 8, 252, 124],
                &[11, 0, 5, 0, 1, 0, 3, 0, 1, 0, 4],
                &[7, 8, 252, 124],
            ],
        ];
        let mut random = Random::new(551);
        for [pairs, angles, pairs_in_order, angles_in_order] in known {
            let result = [pairs_in_order, angles_in_order].concat();
            let mut numbered = pairs.to_vec();
            numbered[0] |= 4;
            let with_bit_2 = [&numbered[..], &any_four(&mut random), angles].concat();
            for sheet in [[pairs, angles].concat(), with_bit_2, result.clone()] {
                (0..result.len() + 6)
                    .try_for_each(|room| normalize.writes(&sheet, room, &result))?;
            }
        }
        Ok(())
    });
}

/// Known edits of sheets with angles, byte for byte, with every length of output.
pub fn edited<C: Call>(tests: &mut Tests, call: impl Fn(Edit) -> C) {
    // n = 4 with (0,2) at 45 degrees, and n = 5 with (0,2) at 1 and (0,3) at -2
    let square: &[u8] = &[11, 0, 4, 0, 2, 0, 0, 1, 194];
    let turned: &[u8] = &[11, 0, 4, 0, 1, 0, 3, 0, 0];
    let pentagon: &[u8] = &[11, 0, 5, 0, 3, 0, 0, 0, 0, 0, 2, 255, 236, 0, 10];
    let known: [(&[u8], Edit, &[u8]); 9] = [
        (square, Edit::Turn { a: 2, b: 0 }, turned),
        (
            turned,
            Edit::Turn { a: 1, b: 3 },
            &[11, 0, 4, 0, 0, 0, 2, 0, 0],
        ),
        (square, Edit::TakeOff { corner: 3 }, &[1, 0, 3]),
        (
            square,
            Edit::Add { side: 3 },
            &[11, 0, 5, 0, 0, 0, 2, 0, 0, 0, 3, 1, 194, 0, 0],
        ),
        (
            square,
            Edit::Add { side: 0 },
            &[11, 0, 5, 0, 0, 0, 2, 0, 0, 0, 3, 0, 0, 1, 194],
        ),
        (
            pentagon,
            Edit::TakeOff { corner: 1 },
            &[11, 0, 4, 0, 0, 0, 2, 255, 236],
        ),
        (
            pentagon,
            Edit::TakeOff { corner: 4 },
            &[11, 0, 4, 0, 0, 0, 2, 0, 10],
        ),
        (
            pentagon,
            Edit::Turn { a: 0, b: 2 },
            &[11, 0, 5, 0, 0, 0, 3, 0, 1, 0, 3, 255, 236, 0, 0],
        ),
        (&[1, 0, 3], Edit::Add { side: 2 }, &[3, 0, 4, 0, 0, 0, 2]),
    ];
    for (sheet, edit, result) in known {
        let name = format!("edits: request (xi), {edit:?} of {sheet:?}, every room");
        tests.test(&name, || {
            (0..result.len() + 6).try_for_each(|room| call(edit).writes(sheet, room, result))
        });
    }
}

/// The part's listing in one order with several angles, or with none.
fn differing(part: &Part, random: &mut Random) -> Vec<Fields> {
    let order = *random.pick(&ORDERS);
    let listed = ordered(&Part::new(part.n, &part.diagonals), order, random);
    let count = part.diagonals.len();
    let mut all = vec![None, Some(vec![0; count]), Some(vec![-1800; count])];
    all.extend((0..3).map(|_| any_angled(part.clone(), random).angles));
    let mut with = |angles: Option<Vec<Angle>>| Fields {
        skipped: random.coin().then(|| any_four(random)),
        angles,
        ..listed.clone()
    };
    all.into_iter().map(&mut with).collect()
}

/// Parts with angles: all of up to 6 corners, and large ones of every shape.
fn parts(random: &mut Random) -> Vec<Part> {
    let mut parts: Vec<Part> = (4..=6).flat_map(all_parts).collect();
    for shape in SHAPES.iter().flat_map(|&shape| [shape; 10]) {
        let n = *random.pick(&[9, 31, 170, 511, 900, 1022, 1023, 1024]);
        parts.push(part(shape, n, random));
    }
    parts
}

/// "The chart doesn't depend on angles", and the plan does not either.
pub fn alike<C: Call>(
    tests: &mut Tests,
    operation: &str,
    calls: impl Fn(&Part, &[Lending]) -> Vec<(C, usize)>,
) {
    let name = format!("{operation}: request (xi), sheets that differ in angles only");
    tests.test(&name, || {
        let mut random = Random::new(561);
        for part in parts(&mut random) {
            let fields = differing(&part, &mut random);
            let sheets: Vec<Vec<u8>> = fields.iter().map(Fields::bytes).collect();
            for (call, room) in calls(&part, &[]) {
                for lent in [room.saturating_sub(1), room, room + 4] {
                    call.alike(&sheets, lent)?;
                }
            }
        }
        Ok(())
    });
}

/// The library on the same sheet without angles, and with them: the same refusal, or
/// the same corners and pairs, and bit 3 and angles exactly if n is over 3.
fn same_but_for_angles(call: impl Call, fields: &Fields) -> Outcome {
    let answered = |sheet: &[u8]| {
        let mut out = vec![0x5a; ENOUGH];
        (call.by_library(sheet, &mut out), out)
    };
    let sheet = fields.bytes();
    let angles = None;
    let (without, plain) = answered(
        &Fields {
            angles,
            ..fields.clone()
        }
        .bytes(),
    );
    let (answer, mut out) = answered(&sheet);
    if without & 0xffff != 0 {
        return same_bytes(&sheet, &answer.to_be_bytes(), &without.to_be_bytes());
    }
    let n = Corner::from_be_bytes([plain[1], plain[2]]);
    let due = (length_of(n, true) as u64) << 16;
    same_bytes(&sheet, &answer.to_be_bytes(), &due.to_be_bytes())?;
    out[0] ^= if n > 3 { 8 } else { 0 };
    same_bytes(&sheet, &out[..pairs_end(n)], &plain[..pairs_end(n)])
}

/// What is written of sheets that differ in angles only is the same but for them.
pub fn same_pairs<C: Call>(
    tests: &mut Tests,
    operation: &str,
    calls: impl Fn(&Part, &[Lending]) -> Vec<(C, usize)>,
) {
    let name = format!("{operation}: request (xi), the same pairs whatever the angles");
    tests.test(&name, || {
        let mut random = Random::new(562);
        for part in parts(&mut random) {
            let edits = match part.n {
                0..=6 => {
                    let asked = all_edits(part.n).into_iter().map(|edit| (edit, 0));
                    asked.chain(taken_edits(&part)).collect()
                }
                _ => one_of_each_kind(&part, &mut random),
            };
            let fields = differing(&part, &mut random);
            for (call, _) in calls(&part, &edits) {
                fields[1..]
                    .iter()
                    .try_for_each(|fields| same_but_for_angles(call, fields))?;
            }
        }
        Ok(())
    });
}
