//! What is timed of drawing: on the tape, and on a label.

use crate::cases::{case, normal_sheets, parts, Case};
use crate::library;
use bend_tests::draw::{chart_of, draw_sheet};
use bend_tests::label::{draw_label, LABEL_ROWS};
use bend_tests::part::Corner;
use bend_tests::shapes::{Shape, SHAPES};
use bend_tests::sheet;

/// The sheets of a part of each shape but the deep one, which has too many rows at
/// 1,024 corners: all are taken.
fn label_sheets(corners: Corner) -> Vec<Vec<u8>> {
    let mut sheets = Vec::new();
    for (shape, part) in SHAPES.into_iter().zip(parts(corners)) {
        if shape != Shape::Deep {
            assert!(chart_of(&part).rows <= LABEL_ROWS, "{shape:?}");
            sheets.push(sheet::normal(&part));
        }
    }
    sheets
}

/// All cases of drawing, each operation's two sizes next to each other.
pub fn all(sizes: [Corner; 2]) -> Vec<Case> {
    let tape = |n| {
        case(
            "draw",
            n,
            normal_sheets(n),
            |sheet: &Vec<u8>, out| library::draw(sheet, out),
            |sheet, out| draw_sheet(sheet, out),
        )
    };
    let label = |n| {
        case(
            "draw a label",
            n,
            label_sheets(n),
            |sheet: &Vec<u8>, out| library::draw_label(sheet, out),
            |sheet, out| draw_label(sheet, out),
        )
    };
    let mut cases = Vec::from(sizes.map(tape));
    cases.extend(sizes.map(label));
    cases
}
