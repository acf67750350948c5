//! What is timed of cutting: a part of the size, along the diagonal whose two halves are
//! the most alike.

use crate::cases::{case, parts, Case, ROOM};
use crate::library;
use bend_tests::cut::cut_sheet;
use bend_tests::part::{Corner, Pair, Part};
use bend_tests::sheet;

/// A sheet, and a diagonal of its part.
type Cut = (Vec<u8>, Pair);

/// A part of each shape.
fn cuts(corners: Corner) -> Vec<Cut> {
    let unlike = |&(a, b): &Pair| corners.abs_diff(2 * (b - a));
    let middle = |part: &Part| {
        let diagonals = part.diagonals.iter().copied();
        let pair = diagonals.min_by_key(unlike).expect("no triangle");
        (sheet::normal(part), pair)
    };
    parts(corners).iter().map(middle).collect()
}

/// The output as two, for the inner part and the rest.
fn in_two(out: &mut [u8]) -> [&mut [u8]; 2] {
    out.split_at_mut(ROOM / 2).into()
}

/// The case of cutting, its two sizes next to each other.
pub fn all(sizes: [Corner; 2]) -> [Case; 2] {
    sizes.map(|n| {
        case(
            "cut",
            n,
            cuts(n),
            |(sheet, (a, b)): &Cut, out| library::cut(sheet, (*a).into(), (*b).into(), in_two(out)),
            |(sheet, (a, b)), out| cut_sheet(sheet, (*a).into(), (*b).into(), in_two(out)),
        )
    })
}
