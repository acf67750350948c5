//! Joining two parts along a seam.
//! Follows request (i) of document 02: "The second part's root is laid on side i of the
//! first, i below n-1, so its corner j becomes i+j, its last falls on the first part's
//! old corner i+1, and the first's later corners move up to match. The seam turns into
//! a diagonal. The result is in normal order .. The first sheet's refusals come before
//! the second's; then 9 also for the root side, 10 when more than 1,024 corners would
//! result, then 8." By request (xi) the seam starts at 0, and "a result has bit 3
//! exactly when a sheet it comes from has and its own n is over 3; diagonals that had
//! no angle then start at 0." By request (xii) no part number is kept.

use crate::answer::{Refusal, Written};
use crate::part::{sort, sort_with_angles, Angle, Corner, Part, MOST};
use crate::sheet::{read, write_normal};

/// The two parts as one, the second on the first's side, which may be any number.
pub fn join(first: &Part, second: &Part, side: u64) -> Result<Part, Refusal> {
    let (root, last) = (u64::from(first.n - 1), second.n - 1);
    if side >= root {
        return Err(Refusal::OutOfRange);
    }
    let n = first.n + second.n - 2;
    if n > MOST {
        return Err(Refusal::Full);
    }
    let i = side as Corner;
    let of_second = |j: Corner| i + j;
    let up = of_second(last) - (i + 1);
    let of_first = |x: Corner| if x <= i { x } else { x + up };
    let mut diagonals = Vec::with_capacity(usize::from(n - 3));
    for &(a, b) in &first.diagonals {
        diagonals.push((of_first(a), of_first(b)));
    }
    for &(a, b) in &second.diagonals {
        diagonals.push((of_second(a), of_second(b)));
    }
    diagonals.push((i, of_first(i + 1)));
    let mut angles = None;
    if first.angles.is_some() || second.angles.is_some() {
        angles = Some([angles_or_0(first), angles_or_0(second), vec![0]].concat());
    }
    match &mut angles {
        None => sort(&mut diagonals),
        Some(angles) => sort_with_angles(&mut diagonals, angles),
    }
    Ok(Part {
        n,
        diagonals,
        angles,
    })
}

/// The part's angles, or 0 for each of its diagonals.
fn angles_or_0(part: &Part) -> Vec<Angle> {
    let none = || vec![0; part.diagonals.len()];
    part.angles.clone().unwrap_or_else(none)
}

/// Two sheets joined: refusals 1 to 7 and 23 of the first, then of the second, then 9
/// and 10, and 8 last.
pub fn join_sheets(first: &[u8], second: &[u8], side: u64, out: &mut [u8]) -> Written {
    let (first, second) = (read(first)?, read(second)?);
    write_normal(&join(&first, &second, side)?, out)
}

#[cfg(test)]
mod tests {
    use super::*;
    use crate::part::Pair;
    use crate::shapes::all_parts;
    use crate::sheet::normal;

    /// The number, and the bytes of an output of the length, first filled with 9.
    fn joined(first: &[u8], second: &[u8], side: u64, lent: usize) -> (u16, Vec<u8>) {
        let mut out = vec![9; lent];
        match join_sheets(first, second, side, &mut out) {
            Ok(length) => out.truncate(length),
            Err(refusal) => return (refusal.number(), out),
        }
        (0, out)
    }

    /// A pentagon with (3,0) and (0,2), and a square with (3,1).
    const PENTAGON: [u8; 11] = [3, 0, 5, 0, 3, 0, 0, 0, 0, 0, 2];
    const SQUARE: [u8; 7] = [3, 0, 4, 0, 3, 0, 1];

    /// The same sheet with bit 3 and the angles, each of two bytes.
    fn bent(sheet: &[u8], angles: &[u8]) -> Vec<u8> {
        let mut sheet = [sheet, angles].concat();
        sheet[0] |= 8;
        sheet
    }

    #[test]
    fn known_joins() {
        let triangle = [1, 0, 3];
        for (side, result) in [(0, [3, 0, 4, 0, 0, 0, 2]), (1, [3, 0, 4, 0, 1, 0, 3])] {
            assert_eq!(joined(&triangle, &triangle, side, 7), (0, result.to_vec()));
            let numbered = [5, 0, 3, 1, 2, 3, 4];
            assert_eq!(joined(&numbered, &numbered, side, 9), (0, result.to_vec()));
        }
        assert_eq!(joined(&triangle, &triangle, 2, 7), (9, vec![9; 7]));
        // The pentagon's corners behind the side move up by 2; the square's diagonal
        // becomes (side + 1, side + 3) and the seam is (side, side + 3).
        for (side, pairs) in [
            (0, [0, 0, 0, 3, 0, 0, 0, 4, 0, 0, 0, 5, 0, 1, 0, 3]),
            (1, [0, 0, 0, 4, 0, 0, 0, 5, 0, 1, 0, 4, 0, 2, 0, 4]),
            (2, [0, 0, 0, 2, 0, 0, 0, 5, 0, 2, 0, 5, 0, 3, 0, 5]),
            (3, [0, 0, 0, 2, 0, 0, 0, 3, 0, 3, 0, 6, 0, 4, 0, 6]),
        ] {
            let result = [&[3, 0, 7], &pairs[..]].concat();
            assert_eq!(joined(&PENTAGON, &SQUARE, side, 19), (0, result));
        }
        // the pentagon on the square: (0,2) and (0,3) are not turned round
        for (side, pairs) in [
            (0, [0, 0, 0, 2, 0, 0, 0, 3, 0, 0, 0, 4, 0, 4, 0, 6]),
            (1, [0, 1, 0, 3, 0, 1, 0, 4, 0, 1, 0, 5, 0, 1, 0, 6]),
            (2, [0, 1, 0, 6, 0, 2, 0, 4, 0, 2, 0, 5, 0, 2, 0, 6]),
        ] {
            let result = [&[3, 0, 7], &pairs[..]].concat();
            assert_eq!(joined(&SQUARE, &PENTAGON, side, 30), (0, result));
        }
    }

    #[test]
    fn angles_of_known_joins() {
        // (3,0) at -2 degrees and (0,2) at 1; (3,1) at 180
        let pentagon = bent(&PENTAGON, &[255, 236, 0, 10]);
        let square = bent(&SQUARE, &[7, 8]);
        let pairs = [3, 0, 7, 0, 0, 0, 4, 0, 0, 0, 5, 0, 1, 0, 4, 0, 2, 0, 4];
        for (first, second, angles) in [
            (&pentagon[..], &square[..], [0, 10, 255, 236, 0, 0, 7, 8]),
            (&pentagon, &SQUARE, [0, 10, 255, 236, 0, 0, 0, 0]),
            (&PENTAGON, &square, [0, 0, 0, 0, 0, 0, 7, 8]),
        ] {
            let result = bent(&pairs, &angles);
            assert_eq!(joined(first, second, 1, 27), (0, result));
            assert_eq!(joined(first, second, 1, 26), (8, vec![9; 26]));
        }
        assert_eq!(joined(&PENTAGON, &SQUARE, 1, 19), (0, pairs.to_vec()));
        assert_eq!(joined(&PENTAGON, &SQUARE, 1, 18), (8, vec![9; 18]));
        // with a triangle, either way; bit 3 stays where all angles are 0
        let flat = bent(&SQUARE, &[0, 0]);
        let result = bent(&[3, 0, 5, 0, 0, 0, 2, 0, 2, 0, 4], &[0; 4]);
        assert_eq!(joined(&flat, &[1, 0, 3], 0, 15), (0, result));
        let result = bent(&[3, 0, 5, 0, 1, 0, 4, 0, 2, 0, 4], &[0, 0, 7, 8]);
        assert_eq!(joined(&[1, 0, 3], &square, 1, 15), (0, result));
    }

    #[test]
    fn the_order_of_refusals() {
        let fan = |n: Corner| {
            let pairs: Vec<Pair> = (2..n - 1).map(|b| (0, b)).collect();
            normal(&Part::new(n, &pairs))
        };
        let overbent = bent(&SQUARE, &[7, 9]);
        for (number, first, second, side) in [
            (23, overbent.clone(), vec![], u64::MAX),
            (1, fan(1024), vec![], u64::MAX),
            (23, fan(1024), overbent, u64::MAX),
            (9, fan(1024), fan(1024), u64::MAX),
            (9, fan(1024), fan(1024), 1023),
            (10, fan(1024), fan(1024), 1022),
            (10, fan(1024), fan(3), 0),
            (10, fan(3), fan(1024), 0),
            (10, fan(1023), fan(4), 0),
            (8, fan(1023), fan(3), 1021),
            (8, fan(1022), fan(4), 0),
            (8, fan(3), fan(1023), 1),
            (9, fan(3), fan(3), 2),
            (9, fan(3), fan(1023), 1 << 16),
        ] {
            assert_eq!(joined(&first, &second, side, 6), (number, vec![9; 6]));
        }
        assert_eq!(joined(&fan(1023), &fan(3), 1021, 4087).0, 0);
        assert_eq!(joined(&fan(1022), &fan(4), 0, 4087).0, 0);
    }
    /// "The second part's root is laid on side i of the first, .. so its corner j becomes
    /// i+j, its last falls on the first part's old corner i+1, and the first's later
    /// corners move up to match."
    #[test]
    fn the_corners_sentence_by_sentence() {
        let parts: Vec<Part> = (3..=6).flat_map(all_parts).collect();
        let pairs = |n: Corner| (0..n).flat_map(move |a| (a + 1..n).map(move |b| (a, b)));
        for (first, second) in parts.iter().flat_map(|a| parts.iter().map(move |b| (a, b))) {
            for i in 0..first.n - 1 {
                let whole = join(first, second, i.into()).unwrap();
                let of_second: Vec<Corner> = (i..).take(second.n.into()).collect();
                let last = of_second[of_second.len() - 1];
                let of_first: Vec<Corner> = (0..=i).chain(last..whole.n).collect();
                assert_eq!(of_first.len(), first.n.into());
                assert_eq!(of_first[usize::from(i) + 1], last);
                let mut edges = Vec::new();
                for (half, new) in [(first, of_first), (second, of_second)] {
                    for (a, b) in pairs(half.n).filter(|&(a, b)| half.joined(a, b)) {
                        edges.push((new[usize::from(a)], new[usize::from(b)]));
                    }
                }
                // the seam is an edge of both
                sort(&mut edges);
                edges.dedup();
                assert_eq!(edges.len(), 2 * usize::from(whole.n) - 3);
                assert!(pairs(whole.n)
                    .filter(|&(a, b)| whole.joined(a, b))
                    .eq(edges));
                assert!(whole.has((i, last)));
            }
        }
    }
}
