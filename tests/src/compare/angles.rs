//! Request (xi), bend angles on the sheet, for every operation that reads a sheet:
//! "bit 3 stands for signed angles, two bytes each in two's complement, in tenths of
//! a degree, one for each pair in the listed order". `operation` begins the tests'
//! names.

use super::any_edits::one_of_each_kind;
use super::calls::Call;
use super::checks::Outcome;
use super::sheets::{any_angle, any_angled, any_four, any_order, any_part, any_sheet};
use super::sheets::{ordered, pairs_end, ORDERS};
use super::Tests;
use bend_tests::edit::Edit;
use bend_tests::edit_list::Lending;
use bend_tests::part::{Angle, Corner, Part};
use bend_tests::random::Random;

/// Tests of an operation. `calls` gives its calls for a part and edits of it, each
/// with the length of its result.
pub fn run<C: Call>(
    tests: &mut Tests,
    operation: &str,
    calls: impl Fn(&Part, &[Lending]) -> Vec<(C, usize)>,
) {
    known_refusals(tests, operation, &calls);
    map_bytes_and_lengths(tests, operation, &calls);
    values_and_places(tests, operation, &calls);
    listings(tests, operation, &calls);
    damaged_behind_the_pairs(tests, operation, &calls);
}

/// Angles at the edges of their range, and where signs or bytes may get lost.
const EDGES: [Angle; 13] = [
    -1801, -1800, -1799, 1799, 1800, 1801, 32767, -32768, -1, 0, 1, 256, -256,
];

/// A random part with `n` corners and angles, unless it is a triangle.
fn any_bent(n: Corner, random: &mut Random) -> Part {
    let part = any_part(n, random);
    any_angled(part, random)
}

/// What the papers refuse, by name: each sheet with its number.
const REFUSED: [(u16, &[u8]); 22] = [
    (23, &[9, 0, 3]),
    (23, &[13, 0, 3, 0, 0, 0, 9]),
    (2, &[9, 0, 3, 0, 0]),
    (2, &[9, 0, 3, 0, 0, 0, 9]),
    (2, &[13, 0, 3]),
    (2, &[13, 0, 3, 0, 0, 0]),
    (2, &[13, 0, 3, 0, 0, 0, 9, 0, 0]),
    (4, &[11, 0, 3]),
    (4, &[15, 0, 3, 0, 0, 0, 9]),
    (4, &[9, 0, 4, 0, 0]),
    (4, &[9, 0, 4, 0, 0, 0, 2, 0, 0]),
    (3, &[9, 0, 2]),
    (3, &[11, 4, 1]),
    (2, &[9, 0]),
    (1, &[8, 0, 3]),
    (1, &[25, 0, 3]),
    // the square without its angle, with half of it, with one too many
    (2, &[11, 0, 4, 0, 0, 0, 2]),
    (2, &[11, 0, 4, 0, 0, 0, 2, 0]),
    (2, &[11, 0, 4, 0, 0, 0, 2, 0, 0, 0, 0]),
    // 1,801 and -1,801, also behind the four bytes of bit 2
    (23, &[11, 0, 4, 0, 0, 0, 2, 7, 9]),
    (23, &[11, 0, 4, 0, 2, 0, 0, 0xf8, 0xf7]),
    (23, &[15, 0, 4, 0, 1, 0, 3, 0, 0, 0, 9, 7, 9]),
];

fn known_refusals<C: Call>(
    tests: &mut Tests,
    operation: &str,
    calls: impl Fn(&Part, &[Lending]) -> Vec<(C, usize)>,
) {
    let name = format!("{operation}: request (xi), refusals by name, every room");
    tests.test(&name, || {
        let edits = [
            Edit::Add { side: 0 },
            Edit::Add { side: u64::MAX },
            Edit::TakeOff { corner: 0 },
            Edit::TakeOff { corner: 4 },
            Edit::Turn { a: 0, b: 2 },
            Edit::Turn { a: 1, b: 1 << 32 },
        ];
        let edits = edits.map(|edit| (edit, 0));
        for (call, _) in calls(&Part::new(3, &[]), &edits) {
            for (number, sheet) in REFUSED {
                (0..16).try_for_each(|lent| call.gives(number, sheet, lent))?;
            }
        }
        Ok(())
    });
}

/// Any map byte and length on a sheet whose pairs are followed by enough bytes for
/// all fields, the angles in their range; and the map bytes that may be taken on
/// the same with an angle out of it at every place.
fn map_bytes_and_lengths<C: Call>(
    tests: &mut Tests,
    operation: &str,
    calls: impl Fn(&Part, &[Lending]) -> Vec<(C, usize)>,
) {
    for n in [3, 4, 5, 6, 9] {
        let name = format!("{operation}: request (xi), every map byte and length, n = {n}");
        tests.test(&name, || {
            let mut random = Random::new(501);
            let part = any_bent(n, &mut random);
            let mut sheet = any_order(&part, None, &mut random);
            sheet.truncate(pairs_end(n));
            let places = usize::from(n) + 1;
            sheet.extend((0..places).flat_map(|_| any_angle(&mut random).to_be_bytes()));
            sheet.push(0);
            let every_length = |call: C, map: u8, sheet: &[u8], room: usize| -> Outcome {
                let sheet = [&[map], &sheet[1..]].concat();
                (0..=sheet.len()).try_for_each(|length| {
                    let sheet = &sheet[..length];
                    call.gives(call.due(n, sheet, room), sheet, room)
                })
            };
            for (call, room) in calls(&part, &one_of_each_kind(&part, &mut random)) {
                (0..=255).try_for_each(|map| every_length(call, map, &sheet, room))?;
                for place in 0..places {
                    let mut sheet = sheet.clone();
                    let at = pairs_end(n) + 2 * place;
                    let angle: Angle = *random.pick(&[1801, -1801, 32767, -32768]);
                    sheet[at..at + 2].copy_from_slice(&angle.to_be_bytes());
                    (0..16).try_for_each(|map| every_length(call, map, &sheet, room))?;
                }
            }
            Ok(())
        });
    }
}

/// The number for a sheet that gets `valid` unless the angle spoils it.
fn by_angle(angle: Angle, valid: u16) -> u16 {
    match angle {
        -1800..=1800 => valid,
        _ => 23,
    }
}

/// Angles at the edges of their range, at the first, a middle and the last place,
/// with and without the four bytes of bit 2 before them; and every angle there is.
fn values_and_places<C: Call>(
    tests: &mut Tests,
    operation: &str,
    calls: impl Fn(&Part, &[Lending]) -> Vec<(C, usize)>,
) {
    for n in [4, 5, 6, 9, 40, 1024] {
        let name = format!("{operation}: request (xi), angles at the edges, n = {n}");
        tests.test(&name, || {
            let mut random = Random::new(511);
            let part = any_bent(n, &mut random);
            let calls = calls(&part, &one_of_each_kind(&part, &mut random));
            let order = *random.pick(&ORDERS);
            let mut fields = ordered(&part, order, &mut random);
            let last = part.diagonals.len() - 1;
            for (place, angle) in [0, last / 2, last]
                .iter()
                .flat_map(|p| EDGES.map(|a| (p, a)))
            {
                let listed = fields.angles.clone();
                fields.angles.as_mut().expect("angles")[*place] = angle;
                for skipped in [None, Some(any_four(&mut random))] {
                    fields.skipped = skipped;
                    let sheet = fields.bytes();
                    for &(call, room) in &calls {
                        for lent in [0, room.saturating_sub(1), room, room + 5] {
                            call.gives(by_angle(angle, call.on_valid(lent, room)), &sheet, lent)?;
                        }
                    }
                }
                fields.angles = listed;
            }
            Ok(())
        });
    }
    let name = format!("{operation}: request (xi), every angle of a square");
    tests.test(&name, || {
        let square = Part::new(4, &[(1, 3)]).angled(&[0]);
        for (call, room) in calls(&square, &one_of_each_kind(&square, &mut Random::new(512))) {
            for angle in Angle::MIN..=Angle::MAX {
                let sheet = [&[11, 0, 4, 0, 3, 0, 1], &angle.to_be_bytes()[..]].concat();
                call.gives(by_angle(angle, call.on_valid(room, room)), &sheet, room)?;
            }
        }
        Ok(())
    });
}

/// One part's angles with their pairs in many orders, either corner first, with and
/// without bit 2: the library answers and writes the same.
fn listings<C: Call>(
    tests: &mut Tests,
    operation: &str,
    calls: impl Fn(&Part, &[Lending]) -> Vec<(C, usize)>,
) {
    let name = format!("{operation}: request (xi), any order of the pairs with their angles");
    tests.test(&name, || {
        let mut random = Random::new(521);
        let sizes = (4..=60).flat_map(|n| [n; 3]);
        for n in sizes
            .chain((61..1024).step_by(41))
            .chain([1022, 1023, 1024])
        {
            let part = any_bent(n, &mut random);
            let sheet = |_| any_sheet(&part, &mut random);
            let sheets: Vec<Vec<u8>> = (0..6).map(sheet).collect();
            for (call, room) in calls(&part, &one_of_each_kind(&part, &mut random)) {
                call.alike(&sheets, room)?;
                call.alike(&sheets, room.saturating_sub(1))?;
            }
        }
        Ok(())
    });
}

/// Bytes behind the pairs replaced at random, and the sheet cut off or longer.
fn damaged_behind_the_pairs<C: Call>(
    tests: &mut Tests,
    operation: &str,
    calls: impl Fn(&Part, &[Lending]) -> Vec<(C, usize)>,
) {
    let name = format!("{operation}: request (xi), damaged behind the pairs");
    tests.test(&name, || {
        let mut random = Random::new(531);
        for round in 0..2000 {
            let n = if round % 40 == 0 {
                1024
            } else {
                random.between(4, 24)
            };
            let part = any_bent(n as Corner, &mut random);
            let mut sheet = any_sheet(&part, &mut random);
            for _ in 0..random.below(4) {
                let place = random.between(pairs_end(part.n), sheet.len() - 1);
                let any = random.byte();
                sheet[place] = *random.pick(&[0, 7, 8, 9, 0xf7, 0xf8, 0xff, any]);
            }
            match random.below(8) {
                0 => sheet.push(random.byte()),
                1 => sheet.truncate(random.between(pairs_end(part.n), sheet.len())),
                2 => sheet[0] = *random.pick(&[3, 7, 11, 15]),
                _ => {}
            }
            for (call, room) in calls(&part, &one_of_each_kind(&part, &mut random)) {
                call.gives(call.due(part.n, &sheet, room), &sheet, room)?;
            }
        }
        Ok(())
    });
}

/// 8 counts the angles of the result: every length of output of small parts, and
/// the edges of large ones.
pub fn output_lengths<C: Call>(
    tests: &mut Tests,
    operation: &str,
    calls: impl Fn(&Part, &[Lending]) -> Vec<(C, usize)>,
) {
    let name = format!("{operation}: request (xi), lengths of output");
    tests.test(&name, || {
        let mut random = Random::new(541);
        let sizes = (4..=24).flat_map(|n| [n; 3]);
        for n in sizes.chain([40, 511, 1022, 1023, 1024]) {
            let part = any_bent(n, &mut random);
            let sheet = any_sheet(&part, &mut random);
            for (call, room) in calls(&part, &one_of_each_kind(&part, &mut random)) {
                let first = if n < 25 {
                    0
                } else {
                    room.saturating_sub(2 * usize::from(n))
                };
                let lengths = (first..=room + 1).step_by(1 + usize::from(n) / 300);
                for lent in lengths.chain([room - 1, room]) {
                    call.gives(call.on_valid(lent, room), &sheet, lent)?;
                }
            }
        }
        Ok(())
    });
}
