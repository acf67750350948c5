//! What is timed: each operation at 128 and at 1,024 corners, on a handful of
//! parts of different shapes.

#[cfg(feature = "read_chart")]
use crate::charts;
#[cfg(feature = "cut")]
use crate::cuts;
#[cfg(feature = "draw")]
use crate::drawings;
#[cfg(feature = "join")]
use crate::joins;
#[allow(unused_imports)] // unused if charts alone are timed
use crate::library;
#[cfg(feature = "edits")]
use bend_tests::edit::{edit_sheet, Edit};
#[cfg(feature = "run_edits")]
use bend_tests::edit_list;
#[cfg(feature = "normalize")]
use bend_tests::fields::Fields;
#[cfg(feature = "normalize")]
use bend_tests::part::Angle;
use bend_tests::part::{Corner, Part};
#[cfg(feature = "run_edits")]
use bend_tests::plain_part::PlainPart;
#[cfg(feature = "plan")]
use bend_tests::plan::plan_sheet;
use bend_tests::random::Random;
use bend_tests::shapes::{part, SHAPES};
#[allow(unused_imports)] // unused if charts alone are timed
use bend_tests::sheet;
use std::hint::black_box;
use std::rc::Rc;

/// Calls an operation once on every input, each time with the same output.
pub type Pass = Box<dyn Fn(&mut [u8])>;

/// One line of the table.
pub struct Case {
    pub operation: &'static str,
    pub corners: Corner,
    pub inputs: usize,
    pub ours: Pass,
    pub model: Pass,
}

/// Room for the longest result of any operation.
pub const ROOM: usize = 32_000;

/// A part of each shape.
pub fn parts(corners: Corner) -> Vec<Part> {
    let mut random = Random::new(u64::from(corners));
    SHAPES
        .iter()
        .map(|&shape| part(shape, corners, &mut random))
        .collect()
}

/// The parts' sheets in normal order.
#[cfg(any(feature = "normalize", feature = "plan", feature = "draw"))]
pub fn normal_sheets(corners: Corner) -> Vec<Vec<u8>> {
    parts(corners).iter().map(sheet::normal).collect()
}

/// The same with bit 2 and its four bytes, which are skipped.
#[cfg(feature = "normalize")]
fn sheets_with_bit_2(corners: Corner) -> Vec<Vec<u8>> {
    let with = |part: &Part| sheet::with_pairs(part.n, &part.diagonals, Some([0, 0, 0, 42]));
    parts(corners).iter().map(with).collect()
}

/// The parts' sheets with pairs in any order, either corner first, and an angle
/// for each if asked for.
#[cfg(feature = "normalize")]
fn shuffled_sheets(corners: Corner, angled: bool) -> Vec<Vec<u8>> {
    let mut random = Random::new(7);
    let mut shuffled = |part: &Part| {
        let mut fields = Fields::of(part);
        random.shuffle(&mut fields.pairs);
        for pair in fields.pairs.iter_mut().step_by(2) {
            *pair = (pair.1, pair.0);
        }
        fields.angles = angled.then(|| angles(part));
        fields.bytes()
    };
    parts(corners).iter().map(&mut shuffled).collect()
}

/// An angle for each diagonal of the part.
#[cfg(feature = "normalize")]
fn angles(part: &Part) -> Vec<Angle> {
    let mut random = Random::new(8);
    let angle = |_| random.between(0, 3600) as Angle - 1800;
    part.diagonals.iter().map(angle).collect()
}

/// The parts' sheets in normal order, with angles.
#[cfg(feature = "normalize")]
fn sheets_with_angles(corners: Corner) -> Vec<Vec<u8>> {
    let with = |part: Part| sheet::normal(&part.clone().angled(&angles(&part)));
    parts(corners).into_iter().map(with).collect()
}

/// A case of an operation whose two sides take an input and lent output.
pub fn case<I: 'static, A: 'static, B: 'static>(
    operation: &'static str,
    corners: Corner,
    inputs: Vec<I>,
    ours: impl Fn(&I, &mut [u8]) -> A + 'static,
    model: impl Fn(&I, &mut [u8]) -> B + 'static,
) -> Case {
    let inputs = Rc::new(inputs);
    Case {
        operation,
        corners,
        inputs: inputs.len(),
        ours: pass(inputs.clone(), ours),
        model: pass(inputs, model),
    }
}

fn pass<I: 'static, A: 'static>(
    inputs: Rc<Vec<I>>,
    call: impl Fn(&I, &mut [u8]) -> A + 'static,
) -> Pass {
    Box::new(move |out| {
        for input in inputs.iter() {
            black_box(call(black_box(input), out));
        }
    })
}

/// The parts' sheets with the edit that `choose` gives for each.
#[cfg(feature = "edits")]
fn edits(corners: Corner, choose: impl Fn(&Part) -> Edit) -> Vec<(Vec<u8>, Edit)> {
    parts(corners)
        .iter()
        .map(|part| (sheet::normal(part), choose(part)))
        .collect()
}

/// A corner of the part at which no diagonal ends.
#[cfg(feature = "edits")]
fn ear(part: &Part) -> Corner {
    let ends = |k: Corner| part.diagonals.iter().any(|&(a, b)| a == k || b == k);
    (0..part.n)
        .rev()
        .find(|&k| !ends(k))
        .expect("every part has ears")
}

/// The library's function for the edit.
#[cfg(feature = "edits")]
fn edit(sheet: &[u8], edit: Edit, out: &mut [u8]) -> u64 {
    match edit {
        Edit::Add { side } => library::add_ear(sheet, side as usize, out),
        Edit::TakeOff { corner } => library::remove_ear(sheet, corner as usize, out),
        Edit::Turn { a, b } => library::flip(sheet, a as usize, b as usize, out),
    }
}

/// The middle diagonal turned.
#[cfg(feature = "edits")]
fn turn(part: &Part) -> Edit {
    let (a, b) = part.diagonals[part.diagonals.len() / 2];
    Edit::Turn {
        a: a.into(),
        b: b.into(),
    }
}

/// The parts' sheets with a list of 16 turns each.
#[cfg(feature = "run_edits")]
fn lists(corners: Corner) -> Vec<(Vec<u8>, Vec<u8>)> {
    let list = |part: &Part| {
        let sheet = sheet::normal(part);
        let mut plain = PlainPart::new(&sheet).expect("the part is valid");
        let room = sheet.len();
        let edit = |_| {
            let edit = turn(&plain.part);
            plain.edit(edit, room);
            (edit, room as u32)
        };
        let list: Vec<edit_list::Lending> = (0..16).map(edit).collect();
        (sheet, edit_list::encoded(&list, 0))
    };
    parts(corners).iter().map(list).collect()
}

/// The output as a front buffer, a back buffer and an output for the numbers.
#[cfg(feature = "run_edits")]
fn in_three(out: &mut [u8]) -> [&mut [u8]; 3] {
    let (front, rest) = out.split_at_mut(ROOM / 3);
    let (back, numbers) = rest.split_at_mut(ROOM / 3);
    [front, back, numbers]
}

/// All cases, each operation's two sizes next to each other.
pub fn all() -> Vec<Case> {
    let mut cases = Vec::new();
    let sizes = [128, 1024];
    #[cfg(feature = "normalize")]
    {
        let normalize_case = |operation, n, sheets: Vec<Vec<u8>>| {
            case(
                operation,
                n,
                sheets,
                |sheet, out| library::normalize(sheet, out),
                |sheet, out| sheet::set_in_order(sheet, out),
            )
        };
        cases.extend(sizes.map(|n| normalize_case("normalize, in order", n, normal_sheets(n))));
        cases.extend(
            sizes.map(|n| normalize_case("normalize, in order, bit 2", n, sheets_with_bit_2(n))),
        );
        cases.extend(
            sizes.map(|n| normalize_case("normalize, shuffled", n, shuffled_sheets(n, false))),
        );
        cases.extend(
            sizes.map(|n| normalize_case("normalize, in order, angles", n, sheets_with_angles(n))),
        );
        cases.extend(
            sizes.map(|n| {
                normalize_case("normalize, shuffled, angles", n, shuffled_sheets(n, true))
            }),
        );
    }
    #[cfg(feature = "edits")]
    {
        let edit_case = |operation, n, inputs: Vec<(Vec<u8>, Edit)>| {
            case(
                operation,
                n,
                inputs,
                |(sheet, chosen), out| edit(sheet, *chosen, out),
                |(sheet, chosen), out| edit_sheet(sheet, *chosen, out),
            )
        };
        // A part of 1,024 corners takes no more: the corner is added one below.
        cases.extend(sizes.map(|n| {
            let side = |part: &Part| Edit::Add {
                side: u64::from(part.n / 3),
            };
            edit_case("add a corner, to", n, edits(n - 1, side))
        }));
        cases.extend(sizes.map(|n| {
            let corner = |part: &Part| Edit::TakeOff {
                corner: u64::from(ear(part)),
            };
            edit_case("take off a corner", n, edits(n, corner))
        }));
        cases.extend(sizes.map(|n| edit_case("turn a diagonal", n, edits(n, turn))));
    }
    #[cfg(feature = "join")]
    cases.extend(joins::all(sizes));
    #[cfg(feature = "cut")]
    cases.extend(cuts::all(sizes));
    #[cfg(feature = "run_edits")]
    cases.extend(sizes.map(|n| {
        case(
            "run a list of 16 turns",
            n,
            lists(n),
            |(sheet, list), out| {
                let [front, back, numbers] = in_three(out);
                library::run_edits(sheet, list, front, back, numbers)
            },
            |(sheet, list), out| {
                let [front, back, numbers] = in_three(out);
                edit_list::run(sheet, list, front, back, numbers)
            },
        )
    }));
    #[cfg(feature = "plan")]
    cases.extend(sizes.map(|n| {
        case(
            "plan",
            n,
            normal_sheets(n),
            |sheet, _| library::plan(sheet),
            |sheet, _| plan_sheet(sheet),
        )
    }));
    #[cfg(feature = "draw")]
    cases.extend(drawings::all(sizes));
    #[cfg(feature = "read_chart")]
    cases.extend(charts::all(sizes));
    cases
}
