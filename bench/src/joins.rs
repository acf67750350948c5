//! What is timed of joining: two halves that make a part of the size.

use crate::cases::{case, parts, Case};
use crate::library;
use bend_tests::join::join_sheets;
use bend_tests::part::Corner;
use bend_tests::sheet;

/// Two sheets, and the first's side for the second.
type Halves = (Vec<u8>, Vec<u8>, u64);

/// A part of each shape with the next shape's on a side in its middle: joined they have
/// the corners, and share two.
fn halves(corners: Corner) -> Vec<Halves> {
    let parts = parts(corners / 2 + 1);
    let next = parts.iter().cycle().skip(1);
    let joined = parts.iter().zip(next).map(|(first, second)| {
        assert_eq!(first.n + second.n - 2, corners);
        let side = u64::from(first.n / 2);
        (sheet::normal(first), sheet::normal(second), side)
    });
    joined.collect()
}

/// The case of joining, its two sizes next to each other.
pub fn all(sizes: [Corner; 2]) -> [Case; 2] {
    sizes.map(|n| {
        case(
            "join",
            n,
            halves(n),
            |(first, second, side): &Halves, out| library::join(first, second, *side as usize, out),
            |(first, second, side), out| join_sheets(first, second, *side, out),
        )
    })
}
