//! Cutting a part along one of its diagonals.
//! Follows request (iii) of document 02: "A piece too long for the brake is cut along one
//! of its diagonals (a,b). Two sheets come out: corners a to b, rooted at the cut, and the
//! rest with its old root. .. Refusals are those of turning a diagonal, with 8 if either
//! output is too short." By request (xi) "an angle is dropped when its diagonal becomes a
//! side. Cut halves keep theirs; .. a result has bit 3 exactly when a sheet it comes from
//! has and its own n is over 3." By request (xii) no part number is kept.

use crate::answer::{Refusal, WrittenTwo};
use crate::edit::diagonal;
use crate::part::{Angle, Corner, Pair, Part, FEWEST};
use crate::sheet::{length, read, write_normal};

/// The part in two: corners a to b, then the rest. The numbers may be any.
pub fn cut(part: &Part, a: u64, b: u64) -> Result<[Part; 2], Refusal> {
    let (a, b) = diagonal(part, a, b)?;
    let inside = |(p, q): Pair| a <= p && q <= b && (p, q) != (a, b);
    let outside = |(p, q): Pair| p < a || b < q;
    // the corners between a and b go, so that b becomes a+1
    let gone = b - (a + 1);
    let of_rest = |x: Corner| if x <= a { x } else { x - gone };
    Ok([
        half(part, b - a + 1, inside, |x| x - a),
        half(part, part.n - gone, outside, of_rest),
    ])
}

/// A half with `n` corners: the diagonals that it keeps, under new numbers, which ascend
/// as the old ones do, and their angles.
fn half(
    part: &Part,
    n: Corner,
    keeps: impl Fn(Pair) -> bool,
    new: impl Fn(Corner) -> Corner,
) -> Part {
    let kept = part.diagonals.iter().filter(|&&pair| keeps(pair));
    let angles_kept = |angles: &Vec<Angle>| {
        let both = part.diagonals.iter().zip(angles);
        let kept = both.filter(|(&pair, _)| keeps(pair));
        kept.map(|(_, &angle)| angle).collect()
    };
    let angles = part.angles.as_ref().filter(|_| n > FEWEST);
    Part {
        n,
        diagonals: kept.map(|&(p, q)| (new(p), new(q))).collect(),
        angles: angles.map(angles_kept),
    }
}

/// A sheet cut in two: refusals 1 to 7 and 23, then 9 and 13, and 8 last. If either output
/// is too short, neither is written.
pub fn cut_sheet(sheet: &[u8], a: u64, b: u64, [one, other]: [&mut [u8]; 2]) -> WrittenTwo {
    let [inner, rest] = cut(&read(sheet)?, a, b)?;
    if one.len() < length(&inner) || other.len() < length(&rest) {
        return Err(Refusal::OutputShort);
    }
    Ok([write_normal(&inner, one)?, write_normal(&rest, other)?])
}

#[cfg(test)]
mod tests {
    use super::*;
    use crate::part::sort;
    use crate::shapes::all_parts;
    use crate::sheet::normal;

    /// The number, and the bytes of outputs of the lengths, first filled with 9.
    fn halves(sheet: &[u8], (a, b): (u64, u64), lent: [usize; 2]) -> (u16, [Vec<u8>; 2]) {
        let [mut one, mut other] = lent.map(|length| vec![9; length]);
        match cut_sheet(sheet, a, b, [&mut one, &mut other]) {
            Ok([inner, rest]) => {
                one.truncate(inner);
                other.truncate(rest);
                (0, [one, other])
            }
            Err(refusal) => (refusal.number(), [one, other]),
        }
    }

    /// Named in either order, with every length of both outputs up to two too many: both
    /// halves are written or, by 8, neither.
    fn cuts(sheet: &[u8], (a, b): (u64, u64), inner: &[u8], rest: &[u8]) {
        for (one, other) in (0..=inner.len() + 2)
            .flat_map(|one| (0..=rest.len() + 2).map(move |other| (one, other)))
        {
            let due = if one < inner.len() || other < rest.len() {
                (8, [vec![9; one], vec![9; other]])
            } else {
                (0, [inner.to_vec(), rest.to_vec()])
            };
            assert_eq!(halves(sheet, (a, b), [one, other]), due);
            assert_eq!(halves(sheet, (b, a), [one, other]), due);
        }
    }

    /// The same sheet with bit 3 and the angles, each of two bytes.
    fn bent(sheet: &[u8], angles: &[u8]) -> Vec<u8> {
        let mut sheet = [sheet, angles].concat();
        sheet[0] |= 8;
        sheet
    }

    const TRIANGLE: &[u8] = &[1, 0, 3];
    /// A pentagon with (3,0) and (0,2).
    const PENTAGON: &[u8] = &[3, 0, 5, 0, 3, 0, 0, 0, 0, 0, 2];
    /// A part of 7 corners with (2,4), (0,5), (4,0) and (1,4).
    const SEVEN: &[u8] = &[3, 0, 7, 0, 2, 0, 4, 0, 0, 0, 5, 0, 4, 0, 0, 0, 1, 0, 4];

    #[test]
    fn known_cuts() {
        for pair in [[0, 2], [1, 3]] {
            let square = [3, 0, 4, 0, pair[1], 0, pair[0]];
            let numbered = [7, 0, 4, 0, pair[1], 0, pair[0], 1, 2, 3, 4];
            let ends = (pair[0].into(), pair[1].into());
            cuts(&square, ends, TRIANGLE, TRIANGLE);
            cuts(&numbered, ends, TRIANGLE, TRIANGLE);
        }
        // corners 0, 2, 3, 4 are left, so that (0,3) becomes (0,2); or 0 to 3 go
        let square: &[u8] = &[3, 0, 4, 0, 0, 0, 2];
        cuts(PENTAGON, (0, 2), TRIANGLE, square);
        cuts(PENTAGON, (0, 3), square, TRIANGLE);
        // of 7 corners: 1 to 4 and the rest, 2 to 4, 0 to 4, 0 to 5
        let fan: &[u8] = &[3, 0, 5, 0, 0, 0, 2, 0, 0, 0, 3];
        cuts(SEVEN, (1, 4), &[3, 0, 4, 0, 1, 0, 3], fan);
        let six: &[u8] = &[3, 0, 6, 0, 0, 0, 3, 0, 0, 0, 4, 0, 1, 0, 3];
        cuts(SEVEN, (2, 4), TRIANGLE, six);
        let five: &[u8] = &[3, 0, 5, 0, 1, 0, 4, 0, 2, 0, 4];
        cuts(SEVEN, (0, 4), five, square);
        let six: &[u8] = &[3, 0, 6, 0, 0, 0, 4, 0, 1, 0, 4, 0, 2, 0, 4];
        cuts(SEVEN, (0, 5), six, TRIANGLE);
    }

    #[test]
    fn angles_of_known_cuts() {
        // two triangles have none
        let square = bent(&[3, 0, 4, 0, 3, 0, 1], &[7, 8]);
        cuts(&square, (1, 3), TRIANGLE, TRIANGLE);
        // (3,0) at -2 degrees and (0,2) at 1: the other's is left
        let pentagon = bent(PENTAGON, &[255, 236, 0, 10]);
        let square: &[u8] = &[3, 0, 4, 0, 0, 0, 2];
        cuts(&pentagon, (0, 2), TRIANGLE, &bent(square, &[255, 236]));
        cuts(&pentagon, (0, 3), &bent(square, &[0, 10]), TRIANGLE);
        // (2,4) at 180 degrees, (0,5) at 0, (4,0) at -180 and (1,4) at 0.1
        let seven = bent(SEVEN, &[7, 8, 0, 0, 248, 248, 0, 1]);
        let inner = bent(&[3, 0, 4, 0, 1, 0, 3], &[7, 8]);
        let rest = bent(&[3, 0, 5, 0, 0, 0, 2, 0, 0, 0, 3], &[248, 248, 0, 0]);
        cuts(&seven, (1, 4), &inner, &rest);
        // bit 3 stays where all angles are 0
        let inner = bent(&[3, 0, 5, 0, 1, 0, 4, 0, 2, 0, 4], &[0, 1, 7, 8]);
        cuts(&seven, (0, 4), &inner, &bent(square, &[0, 0]));
    }

    #[test]
    fn the_order_of_refusals() {
        let overbent = bent(PENTAGON, &[7, 9, 0, 0]);
        let crossing = [3, 0, 5, 0, 0, 0, 2, 0, 1, 0, 3];
        let pentagon = PENTAGON.to_vec();
        for (number, sheet, ends) in [
            (1, vec![], (u64::MAX, u64::MAX)),
            (7, crossing.to_vec(), (9, 9)),
            (23, overbent.clone(), (0, u64::MAX)),
            (23, overbent.clone(), (1, 2)),
            (23, overbent, (0, 3)),
            (9, pentagon.clone(), (0, 5)),
            (9, pentagon.clone(), (5, 0)),
            (9, pentagon.clone(), (5, 5)),
            (9, pentagon.clone(), (1 << 32, 2)),
            (9, pentagon.clone(), (0, (1 << 16) + 2)),
            (13, pentagon.clone(), (0, 1)),
            (13, pentagon.clone(), (4, 0)),
            (13, pentagon.clone(), (2, 2)),
            (13, pentagon.clone(), (1, 3)),
            (13, TRIANGLE.to_vec(), (0, 2)),
            (9, TRIANGLE.to_vec(), (0, 3)),
        ] {
            for lent in [[20, 20], [20, 0], [0, 20], [0, 0]] {
                let untouched = lent.map(|length| vec![9; length]);
                assert_eq!(halves(&sheet, ends, lent), (number, untouched));
            }
        }
    }

    /// "Two sheets come out: corners a to b, rooted at the cut, and the rest with its old
    /// root." Each half's corners in turn, by their old numbers; of both the cut is a side.
    #[test]
    fn the_corners_sentence_by_sentence() {
        let pairs = |n: Corner| (0..n).flat_map(move |p| (p + 1..n).map(move |q| (p, q)));
        let edges = |part: &Part| -> Vec<Pair> {
            let joined = pairs(part.n).filter(|&(p, q)| part.joined(p, q));
            joined.collect()
        };
        for part in (3..=7).flat_map(all_parts) {
            for (a, b) in pairs(part.n) {
                let both = cut(&part, a.into(), b.into());
                assert_eq!(cut(&part, b.into(), a.into()), both);
                if b == a + 1 || (a, b) == (0, part.n - 1) || !part.joined(a, b) {
                    assert_eq!(both, Err(Refusal::Lacking));
                    continue;
                }
                let [inner, rest] = both.unwrap();
                assert!(inner.is_valid() && rest.is_valid());
                let inner_corners: Vec<Corner> = (a..=b).collect();
                let rest_corners: Vec<Corner> = (0..=a).chain(b..part.n).collect();
                let mut found = Vec::new();
                for (half, corners) in [(&inner, &inner_corners), (&rest, &rest_corners)] {
                    assert_eq!(usize::from(half.n), corners.len());
                    let old = |x: Corner| corners[usize::from(x)];
                    found.extend(edges(half).iter().map(|&(p, q)| (old(p), old(q))));
                }
                // the cut is the root of the one and side a of the other
                assert_eq!(
                    (inner_corners[0], inner_corners[inner_corners.len() - 1]),
                    (a, b)
                );
                assert_eq!(rest_corners[usize::from(a)..][..2], [a, b]);
                assert_eq!(
                    (rest_corners[0], rest_corners[rest_corners.len() - 1]),
                    (0, part.n - 1)
                );
                sort(&mut found);
                found.dedup();
                assert_eq!(found, edges(&part));
            }
        }
    }

    /// The largest half there is beside a triangle, with angles.
    #[test]
    fn the_longest_halves() {
        let fan: Vec<Pair> = (2..1023).map(|b| (0, b)).collect();
        let fan = normal(&Part::new(1024, &fan).angled(&[-900; 1021]));
        let (number, [inner, rest]) = halves(&fan, (1022, 0), [6123, 3]);
        assert_eq!((number, inner.len(), &rest[..]), (0, 6123, TRIANGLE));
        let (number, [inner, rest]) = halves(&fan, (2, 0), [3, 6123]);
        assert_eq!((number, &inner[..], rest.len()), (0, TRIANGLE, 6123));
    }
}
