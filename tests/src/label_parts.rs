//! Parts for the label's limit: with as few corners as their levels need, and one or
//! two more, in as many rows as are asked for.
//! Follows request (ii) of document 02: "a part of D levels never has fewer than 2 to
//! the power D+1, less 1, corners, and for each D from 1 to 9 some part has exactly
//! that many."

use crate::edit::Edit;
use crate::part::{lower_first, Corner, Pair, Part};
use crate::random::Random;

/// The fewest corners of a part with the levels.
pub fn fewest_corners(levels: u16) -> Corner {
    (2 << levels) - 1
}

/// The places of u+1 and of x among u, u+1, x, v-1 and v.
const SECOND: usize = 1;
const MIDDLE: usize = 2;

/// Adds the edges of a piece (u,v) with the levels and the fewest corners, and gives v:
/// a triangle, or two such pieces of one level less side by side, (u+1,x) and (x,v-1),
/// and three triangles on u, u+1, x, v-1 and v. Their diagonals start from one of these
/// five corners, at the place that `fan` gives for the levels.
fn fewest_piece(
    u: Corner,
    levels: u16,
    fan: &mut impl FnMut(u16) -> usize,
    pairs: &mut Vec<Pair>,
) -> Corner {
    let mut v = u + 2;
    if levels > 1 {
        let from = fan(levels);
        let x = fewest_piece(u + 1, levels - 1, fan, pairs);
        v = fewest_piece(x, levels - 1, fan, pairs) + 1;
        let five = [u, u + 1, x, v - 1, v];
        pairs.extend([2, 3].map(|on| lower_first((five[from], five[(from + on) % 5]))));
    }
    pairs.push((u, v));
    v
}

/// A part with the levels and as many corners more than the fewest, at most 2. One
/// more makes a triangle with the root; two make two, and the old root lies behind
/// them, at neither of the new one's corners.
fn fewest_and(levels: u16, more: Corner, mut fan: impl FnMut(u16) -> usize) -> Part {
    let mut pairs = Vec::new();
    let v = fewest_piece(more / 2, levels, &mut fan, &mut pairs);
    if more == 2 {
        pairs.push((0, v));
    }
    let root = v + more.min(1);
    pairs.retain(|&pair| pair != (0, root));
    Part::new(root + 1, &pairs)
}

/// The part with the levels and the fewest corners whose triangle at the root is
/// (u,x,v) in every piece: of the triangles beyond it, (u,u+1,x) has the next piece
/// beyond (u+1,x), and (x,v-1,v) beyond (x,v-1). No stem, in levels + 1 rows.
pub fn fewest(levels: u16) -> Part {
    fewest_and(levels, 0, |_| MIDDLE)
}

/// The part with corners added on the root until it has `n`.
pub fn grown(mut part: Part, n: Corner) -> Part {
    while part.n < n {
        let side = u64::from(part.n - 1);
        Edit::Add { side }.apply(&mut part).expect("there is room");
    }
    part
}

/// A part of 2 or more levels, with as many corners more than the fewest, at most 2, and
/// with the rows asked for: from levels + 1, or levels + 2 if two corners are more, to
/// 2 * levels - 1 + more.
///
/// Of 3 levels or more, a piece with its diagonals from u+1 makes a row more than one
/// with them from x: beneath it a stem is needed. Each corner more makes a stem too.
pub fn with_rows(levels: u16, more: Corner, rows: u16) -> Part {
    let deepest = rows + 1 - levels - more;
    let fan = |levels: u16| if levels <= deepest { SECOND } else { MIDDLE };
    fewest_and(levels, more, fan)
}

/// Levels, corners more than the fewest, and rows of parts on either side of the
/// label's limit: the most rows of 7 levels, the fewest of 8 and of 9, and fourteen to
/// eighteen. Sixteen need 512 corners and seventeen, if there are 8 levels, 513.
pub const EITHER_SIDE: [(u16, Corner, u16); 16] = [
    (7, 2, 15),
    (8, 0, 9),
    (8, 0, 14),
    (8, 0, 15),
    (8, 1, 15),
    (8, 1, 16),
    (8, 2, 15),
    (8, 2, 16),
    (8, 2, 17),
    (9, 0, 10),
    (9, 0, 15),
    (9, 0, 16),
    (9, 0, 17),
    (9, 1, 15),
    (9, 1, 16),
    (9, 1, 18),
];

/// A part with the levels: the diagonals of its pieces from any of the five corners,
/// and up to `more` corners added on any sides.
pub fn any_fewest(levels: u16, more: usize, random: &mut Random) -> Part {
    let added = random.below(more + 1);
    let mut part = fewest_and(levels, added.min(2) as Corner, |_| random.below(5));
    for _ in 2..added {
        let side = random.below(usize::from(part.n)) as u64;
        Edit::Add { side }.apply(&mut part).expect("there is room");
    }
    part
}

#[cfg(test)]
mod tests {
    use super::*;
    use crate::draw::chart_of;
    use crate::plan::Pieces;
    use crate::shapes::{all_parts, part, SHAPES};

    /// The part's levels, and the rows of its chart.
    fn levels_and_rows(part: &Part) -> (u16, u16) {
        (Pieces::of(part).counts().levels, chart_of(part).rows)
    }

    /// "A part of D levels never has fewer than 2 to the power D+1, less 1, corners."
    fn check_corners(part: &Part) -> u16 {
        let levels = Pieces::of(part).counts().levels;
        assert!(part.n >= fewest_corners(levels), "{part:?}");
        levels
    }

    #[test]
    fn for_each_number_of_levels_a_part_has_the_fewest_corners() {
        for (levels, n) in (1..=9).zip([3, 7, 15, 31, 63, 127, 255, 511, 1023]) {
            let part = fewest(levels);
            assert!(part.is_valid() && part.n == n && n == fewest_corners(levels));
            assert_eq!(levels_and_rows(&part), (levels, levels + 1));
            assert_eq!(Pieces::of(&part).counts().stems, 0);
        }
        assert_eq!(fewest(2), Part::new(7, &[(1, 3), (3, 5), (0, 3), (3, 6)]));
    }

    /// 7 corners are needed for 2 levels and 15 for 3. Of the parts of 7 the five have 2
    /// levels that `fewest_piece` gives, by the corner from which the diagonals start.
    #[test]
    fn no_small_part_has_more_levels_than_its_corners_allow() {
        for n in 3..=14 {
            let most = all_parts(n).iter().map(check_corners).max();
            assert_eq!(most, Some(if n < 7 { 1 } else { 2 }));
        }
        let mut of_two_levels = all_parts(7);
        of_two_levels.retain(|part| check_corners(part) == 2);
        let mut five = [0, 1, 2, 3, 4].map(|place| fewest_and(2, 0, |_| place));
        of_two_levels.sort_by(|one, other| one.diagonals.cmp(&other.diagonals));
        five.sort_by(|one, other| one.diagonals.cmp(&other.diagonals));
        assert_eq!(of_two_levels, five);
    }

    #[test]
    fn no_large_part_has_more_levels_than_its_corners_allow() {
        let mut random = Random::new(31);
        for shape in SHAPES {
            for n in (15..300).chain(1000..=1024) {
                check_corners(&part(shape, n, &mut random));
            }
        }
        for levels in 2..=9 {
            for _ in 0..40 {
                let mut part = any_fewest(levels, 0, &mut random);
                assert!(part.is_valid());
                assert_eq!(check_corners(&part), levels);
                // without any one of its corners
                let ends = |k: Corner| part.diagonals.iter().any(|&(a, b)| a == k || b == k);
                let ears: Vec<Corner> = (0..part.n).filter(|&k| !ends(k)).collect();
                let corner = u64::from(*random.pick(&ears));
                Edit::TakeOff { corner }.apply(&mut part).expect("an ear");
                assert_eq!(check_corners(&part), levels - 1);
            }
        }
    }

    #[test]
    fn parts_have_the_rows_asked_for() {
        for levels in 2..=9 {
            for more in 0..=2.min(1024 - fewest_corners(levels)) {
                for rows in levels + 1 + more / 2..=2 * levels - 1 + more {
                    let part = with_rows(levels, more, rows);
                    assert!(part.is_valid() && part.n == fewest_corners(levels) + more);
                    assert_eq!(levels_and_rows(&part), (levels, rows));
                }
            }
        }
    }

    /// With the fewest corners two of the 2D + 1 rows are always empty: row 1 needs a stem
    /// at the root and row 2D - 1 one in a piece hung there, and each needs more corners,
    /// for a piece with a stem contains one of as many levels. So of 511 corners no part
    /// has 16 rows. With a corner more one row is empty, as row 1 needs two.
    #[test]
    fn the_fewest_corners_leave_rows_empty() {
        let mut random = Random::new(32);
        for levels in (2..=9).flat_map(|levels| [levels; 200]) {
            for more in 0..=1 {
                let fans = |_| random.below(5);
                let part = fewest_and(levels, more, fans);
                let (_, rows) = levels_and_rows(&part);
                assert!(levels < rows && rows < 2 * levels + more, "{part:?}");
            }
        }
        let most = |n: Corner| all_parts(n).iter().map(|part| chart_of(part).rows).max();
        assert_eq!([7, 8, 9].map(most), [3, 4, 5].map(Some));
    }
}
