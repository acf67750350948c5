//! Cut (request (iii)): known cuts, worked out by hand, by the library's `bend_cut` and by
//! the model.

use super::cut_calls::{writes, Ends};
use super::Tests;

/// A sheet's corner count and pairs, and its angles if there are any.
type Bytes = (&'static [u8], &'static [u8]);

const TRIANGLE: Bytes = (&[0, 3], &[]);
/// (3,0) and (0,2), and the same at -2 degrees and at 1.
const PENTAGON: Bytes = (&[0, 5, 0, 3, 0, 0, 0, 0, 0, 2], &[]);
const BENT_PENTAGON: Bytes = (PENTAGON.0, &[255, 236, 0, 10]);
/// The star: (4,2), (0,4) and (2,0).
const STAR: Bytes = (&[0, 6, 0, 4, 0, 2, 0, 0, 0, 4, 0, 2, 0, 0], &[]);
/// (2,4) at 180 degrees, (0,5) at 0, (4,0) at -180 and (1,4) at 0.1.
const SEVEN: Bytes = (
    &[0, 7, 0, 2, 0, 4, 0, 0, 0, 5, 0, 4, 0, 0, 0, 1, 0, 4],
    &[7, 8, 0, 0, 248, 248, 0, 1],
);
/// (6,8) at 10 degrees, (6,2) at 180, (0,6) at -0.1, (4,6) at -180, (2,4) at 0 and (1,6)
/// at 30.
const NINE: Bytes = (
    &[
        0, 9, 0, 6, 0, 8, 0, 6, 0, 2, 0, 0, 0, 6, 0, 4, 0, 6, 0, 2, 0, 4, 0, 1, 0, 6,
    ],
    &[0, 100, 7, 8, 255, 255, 248, 248, 0, 0, 1, 44],
);

/// A sheet, a diagonal of its part, the inner part and the rest.
type Known = (Bytes, Ends, Bytes, Bytes);

const KNOWN: [Known; 17] = [
    ((&[0, 4, 0, 3, 0, 1], &[]), (1, 3), TRIANGLE, TRIANGLE),
    ((&[0, 4, 0, 0, 0, 2], &[]), (0, 2), TRIANGLE, TRIANGLE),
    ((&[0, 4, 0, 0, 0, 2], &[7, 8]), (0, 2), TRIANGLE, TRIANGLE),
    (PENTAGON, (0, 2), TRIANGLE, (&[0, 4, 0, 0, 0, 2], &[])),
    (PENTAGON, (0, 3), (&[0, 4, 0, 0, 0, 2], &[]), TRIANGLE),
    (
        BENT_PENTAGON,
        (0, 2),
        TRIANGLE,
        (&[0, 4, 0, 0, 0, 2], &[255, 236]),
    ),
    (
        BENT_PENTAGON,
        (0, 3),
        (&[0, 4, 0, 0, 0, 2], &[0, 10]),
        TRIANGLE,
    ),
    (
        STAR,
        (2, 4),
        TRIANGLE,
        (&[0, 5, 0, 0, 0, 2, 0, 0, 0, 3], &[]),
    ),
    (
        STAR,
        (0, 4),
        (&[0, 5, 0, 0, 0, 2, 0, 2, 0, 4], &[]),
        TRIANGLE,
    ),
    (
        STAR,
        (0, 2),
        TRIANGLE,
        (&[0, 5, 0, 0, 0, 3, 0, 1, 0, 3], &[]),
    ),
    (
        SEVEN,
        (1, 4),
        (&[0, 4, 0, 1, 0, 3], &[7, 8]),
        (&[0, 5, 0, 0, 0, 2, 0, 0, 0, 3], &[248, 248, 0, 0]),
    ),
    (
        SEVEN,
        (0, 4),
        (&[0, 5, 0, 1, 0, 4, 0, 2, 0, 4], &[0, 1, 7, 8]),
        (&[0, 4, 0, 0, 0, 2], &[0, 0]),
    ),
    (
        SEVEN,
        (2, 4),
        TRIANGLE,
        (
            &[0, 6, 0, 0, 0, 3, 0, 0, 0, 4, 0, 1, 0, 3],
            &[248, 248, 0, 0, 0, 1],
        ),
    ),
    (
        SEVEN,
        (0, 5),
        (
            &[0, 6, 0, 0, 0, 4, 0, 1, 0, 4, 0, 2, 0, 4],
            &[248, 248, 0, 1, 7, 8],
        ),
        TRIANGLE,
    ),
    (
        NINE,
        (2, 6),
        (&[0, 5, 0, 0, 0, 2, 0, 2, 0, 4], &[0, 0, 248, 248]),
        (
            &[0, 6, 0, 0, 0, 3, 0, 1, 0, 3, 0, 3, 0, 5],
            &[255, 255, 1, 44, 0, 100],
        ),
    ),
    (
        NINE,
        (1, 6),
        (
            &[0, 6, 0, 1, 0, 3, 0, 1, 0, 5, 0, 3, 0, 5],
            &[0, 0, 7, 8, 248, 248],
        ),
        (&[0, 5, 0, 0, 0, 2, 0, 2, 0, 4], &[255, 255, 0, 100]),
    ),
    (
        NINE,
        (6, 8),
        TRIANGLE,
        (
            &[
                0, 8, 0, 0, 0, 6, 0, 1, 0, 6, 0, 2, 0, 4, 0, 2, 0, 6, 0, 4, 0, 6,
            ],
            &[255, 255, 1, 44, 0, 0, 7, 8, 248, 248],
        ),
    ),
];

/// The sheet, with bit 2 and its four bytes if there are any.
fn sheet((pairs, angles): Bytes, skipped: &[u8]) -> Vec<u8> {
    let bit = |bit: u8, stands: bool| if stands { bit } else { 0 };
    let map = bit(2, pairs.len() > 2) + bit(4, !skipped.is_empty()) + bit(8, !angles.is_empty());
    [&[1 + map], pairs, skipped, angles].concat()
}

/// By hand, byte for byte, in either order and with every length of both outputs.
pub fn run(tests: &mut Tests) {
    for (whole, (a, b), inner, rest) in KNOWN {
        let name = format!("cut: {:?} along ({a},{b}), every room", sheet(whole, &[]));
        tests.test(&name, || {
            let (inner, rest) = (sheet(inner, &[]), sheet(rest, &[]));
            for whole in [sheet(whole, &[]), sheet(whole, &[1, 2, 3, 4])] {
                for one in 0..=inner.len() + 2 {
                    for other in 0..=rest.len() + 2 {
                        writes(&whole, (a, b), [one, other], [&inner, &rest])?;
                        writes(&whole, (b, a), [one, other], [&inner, &rest])?;
                    }
                }
            }
            Ok(())
        });
    }
}
