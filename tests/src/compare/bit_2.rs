//! Request (xii), part numbers go, for every operation that reads a sheet: "New
//! sheets are written without bit 2. A sheet that still has it is read and its
//! four bytes are skipped, the result has none." `operation` begins the tests'
//! names.

use super::any_edits::{all_edits, one_of_each_kind, taken_edits};
use super::calls::Call;
use super::sheets::{any_four, any_order, any_part, both_kinds, length_of, maybe_angled};
use super::sheets::{ordered, ORDERS};
use super::Tests;
use bend_tests::edit_list::Lending;
use bend_tests::part::Part;
use bend_tests::random::Random;
use bend_tests::shapes::{all_parts, part, SHAPES};
use bend_tests::sheet::Skipped;

/// Tests of an operation. `calls` gives its calls for a part and edits of it, each
/// with the length of its result.
pub fn run<C: Call>(
    tests: &mut Tests,
    operation: &str,
    calls: impl Fn(&Part, &[Lending]) -> Vec<(C, usize)>,
) {
    map_bytes_and_lengths(tests, operation, &calls);
    sheets_alike(tests, operation, &calls);
}

fn map_bytes_and_lengths<C: Call>(
    tests: &mut Tests,
    operation: &str,
    calls: impl Fn(&Part, &[Lending]) -> Vec<(C, usize)>,
) {
    for n in [3, 4, 5, 40] {
        let name = format!("{operation}: request (xii), every map byte and length, n = {n}");
        tests.test(&name, || {
            let mut random = Random::new(401);
            let part = any_part(n, &mut random);
            let part = Part::new(n, &part.diagonals);
            let mut sheet = any_order(&part, None, &mut random);
            sheet.extend(random.bytes(13));
            for (call, room) in calls(&part, &one_of_each_kind(&part, &mut random)) {
                for map in 0..=255 {
                    sheet[0] = map;
                    for length in 0..=sheet.len() {
                        let sheet = &sheet[..length];
                        call.gives(call.due(n, sheet, room), sheet, room)?;
                    }
                }
            }
            Ok(())
        });
    }
}

/// Bytes of bit 2: the edges of their range, such as are pairs of small parts,
/// each byte over all its values, and many at random.
fn many_fours(random: &mut Random) -> Vec<Skipped> {
    let edges = [0, 1, 9, 1 << 24, i32::MAX as u32, 1 << 31, u32::MAX - 1];
    let mut fours: Vec<Skipped> = edges.map(u32::to_be_bytes).to_vec();
    fours.extend([[0, 0, 0, 2], [0, 2, 0, 0], [0, 1, 0, 3], [0, 1, 0, 2]]);
    for rest in [0, 255] {
        for (place, byte) in (0..4).flat_map(|place| (0..=255).map(move |byte| (place, byte))) {
            let mut four = [rest; 4];
            four[place] = byte;
            fours.push(four);
        }
    }
    fours.extend((0..1000).map(|_| (random.bits() as u32).to_be_bytes()));
    fours
}

/// The part's sheets in one order: without bit 2, and with each four bytes.
fn differing(part: &Part, fours: &[Skipped], random: &mut Random) -> Vec<Vec<u8>> {
    let order = *random.pick(&ORDERS);
    let mut fields = ordered(part, order, random);
    let mut sheets = vec![fields.bytes()];
    for &four in fours {
        fields.skipped = Some(four);
        sheets.push(fields.bytes());
    }
    sheets
}

/// "Two sheets that differ only there now give the same normal sheet", and the
/// same of everything else.
fn sheets_alike<C: Call>(
    tests: &mut Tests,
    operation: &str,
    calls: impl Fn(&Part, &[Lending]) -> Vec<(C, usize)>,
) {
    let name = format!("{operation}: request (xii), sheets that differ only there");
    tests.test(&format!("{name}, any four bytes"), || {
        let mut random = Random::new(411);
        let fours = many_fours(&mut random);
        for n in [3, 4, 7] {
            let part = any_part(n, &mut random);
            let sheets = differing(&part, &fours, &mut random);
            for (call, room) in calls(&part, &one_of_each_kind(&part, &mut random)) {
                call.alike(&sheets, room)?;
            }
        }
        Ok(())
    });
    tests.test(&format!("{name}, all parts of up to 6 corners"), || {
        let mut random = Random::new(412);
        let parts = (3..=6).flat_map(all_parts);
        let parts: Vec<Part> = parts
            .flat_map(|part| both_kinds(&part, &mut random))
            .collect();
        for part in parts {
            let fours = [[0; 4], [0, 0, 0, 2], any_four(&mut random)];
            let sheets = differing(&part, &fours, &mut random);
            let room = length_of(part.n + 1, part.angles.is_some()) as u32;
            let asked = all_edits(part.n).into_iter().map(|edit| (edit, room));
            let edits: Vec<Lending> = asked.chain(taken_edits(&part)).collect();
            for (call, room) in calls(&part, &edits) {
                for lent in [room.saturating_sub(1), room, room + 4] {
                    call.alike(&sheets, lent)?;
                }
            }
        }
        Ok(())
    });
    tests.test(&format!("{name}, parts of up to 1,024 corners"), || {
        let mut random = Random::new(413);
        for shape in SHAPES.iter().flat_map(|&shape| [shape; 12]) {
            let n = *random.pick(&[9, 31, 170, 511, 900, 1022, 1023, 1024]);
            let part = part(shape, n, &mut random);
            let part = maybe_angled(part, &mut random);
            let fours = [any_four(&mut random), any_four(&mut random)];
            let sheets = differing(&part, &fours, &mut random);
            for (call, room) in calls(&part, &one_of_each_kind(&part, &mut random)) {
                for lent in [room.saturating_sub(1), room, room + 4] {
                    call.alike(&sheets, lent)?;
                }
            }
        }
        Ok(())
    });
}

/// The output needs no room for the four bytes: 8 counts the result without them.
pub fn output_lengths<C: Call>(
    tests: &mut Tests,
    operation: &str,
    calls: impl Fn(&Part, &[Lending]) -> Vec<(C, usize)>,
) {
    let name = format!("{operation}: request (xii), an output without room for the four bytes");
    tests.test(&name, || {
        let mut random = Random::new(421);
        let sizes = (3..=40).flat_map(|n| [n; 3]);
        for n in sizes.chain([511, 1022, 1023, 1024]) {
            let part = any_part(n, &mut random);
            let skipped = Some(any_four(&mut random));
            let sheet = any_order(&part, skipped, &mut random);
            for (call, room) in calls(&part, &one_of_each_kind(&part, &mut random)) {
                for lent in room.saturating_sub(6)..=room + 6 {
                    call.gives(call.on_valid(lent, room), &sheet, lent)?;
                }
            }
        }
        Ok(())
    });
}

/// Sheets with bit 2 set in order, byte for byte, with every length of output.
pub fn results(tests: &mut Tests, normalize: impl Call) {
    let known: [(&str, &[u8], &[u8]); 3] = [
        ("05 00 03", &[5, 0, 3], &[1, 0, 3]),
        (
            "07 00 04 00 02 00 00",
            &[7, 0, 4, 0, 2, 0, 0],
            &[3, 0, 4, 0, 0, 0, 2],
        ),
        (
            "the star's pairs",
            &[7, 0, 6, 0, 4, 0, 2, 0, 0, 0, 4, 0, 2, 0, 0],
            &[3, 0, 6, 0, 0, 0, 2, 0, 0, 0, 4, 0, 2, 0, 4],
        ),
    ];
    for (name, head, normal) in known {
        let name = format!("normalize: request (xii), {name} and any four bytes, every room");
        tests.test(&name, || {
            for four in many_fours(&mut Random::new(431)) {
                let sheet = [head, &four].concat();
                for room in 0..=normal.len() + 5 {
                    normalize.writes(&sheet, room, normal)?;
                }
            }
            Ok(())
        });
    }
}
