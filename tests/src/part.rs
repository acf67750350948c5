//! A part: an outline of corners cut into triangles by diagonals.
//! Follows "The part" of document 01; by request (xii) a part has no number, by
//! request (xi) it may have "an angle with each diagonal".

use std::ops::RangeInclusive;

/// A corner, numbered from 0 round the outline.
pub type Corner = u16;

/// Two corners. In a `Part` the lower one comes first.
pub type Pair = (Corner, Corner);

/// The fewest and the most corners of a part.
pub const FEWEST: Corner = 3;
pub const MOST: Corner = 1024;

/// The angle of a bend, in tenths of a degree.
pub type Angle = i16;

/// The angles that are allowed.
pub const ANGLES: RangeInclusive<Angle> = -1800..=1800;

/// n corners and n-3 diagonals.
#[derive(Clone, Debug, PartialEq, Eq)]
pub struct Part {
    pub n: Corner,
    /// Each with its lower corner first; ascending.
    pub diagonals: Vec<Pair>,
    /// One for each diagonal, in their order, or none at all. A triangle has none.
    pub angles: Option<Vec<Angle>>,
}

/// The pair with its lower corner first.
pub fn lower_first((a, b): Pair) -> Pair {
    (a.min(b), a.max(b))
}

/// Whether the pair, lower corner first, is a side of a part with `n` corners.
pub fn is_side(n: Corner, (a, b): Pair) -> bool {
    b < n && (a + 1 == b || (a == 0 && b == n - 1))
}

/// Whether the pair, either corner first, joins two corners of a part with
/// `n` corners that are different and no neighbours.
pub fn is_diagonal(n: Corner, pair: Pair) -> bool {
    let (a, b) = lower_first(pair);
    a < b && b < n && !is_side(n, (a, b))
}

/// Whether two diagonals, each lower corner first, cross.
pub fn cross((a, b): Pair, (c, d): Pair) -> bool {
    (a < c && c < b && b < d) || (c < a && a < d && d < b)
}

/// Whether any two of the diagonals cross, word by word.
pub fn any_cross(diagonals: &[Pair]) -> bool {
    diagonals
        .iter()
        .any(|&one| diagonals.iter().any(|&other| cross(one, other)))
}

/// The same for different diagonals in ascending order, in linear time.
///
/// The diagonals are met by ascending lower corner, the wider first; `open`
/// holds the ends of those that span the corner at hand, the nearest last.
pub fn any_cross_ascending(diagonals: &[Pair]) -> bool {
    let mut open: Vec<Corner> = Vec::with_capacity(diagonals.len());
    for from_one_corner in diagonals.chunk_by(|one, next| one.0 == next.0) {
        for &(a, b) in from_one_corner.iter().rev() {
            while open.last().is_some_and(|&end| end <= a) {
                open.pop();
            }
            if open.last().is_some_and(|&end| end < b) {
                return true;
            }
            open.push(b);
        }
    }
    false
}

impl Part {
    /// A part from pairs in any order, either corner first; without angles.
    pub fn new(n: Corner, pairs: &[Pair]) -> Part {
        let mut diagonals: Vec<Pair> = pairs.iter().copied().map(lower_first).collect();
        sort(&mut diagonals);
        let angles = None;
        Part {
            n,
            diagonals,
            angles,
        }
    }

    /// The part with these angles, in the order of its diagonals, which ascend.
    pub fn angled(self, angles: &[Angle]) -> Part {
        assert_eq!(angles.len(), self.diagonals.len());
        let angles = Some(angles.to_vec());
        Part { angles, ..self }
    }

    /// Whether this is a part at all: 3 to 1,024 corners and n-3 different
    /// diagonals, none crossing; no angles, or one for each diagonal.
    pub fn is_valid(&self) -> bool {
        (FEWEST..=MOST).contains(&self.n)
            && self.diagonals.len() == usize::from(self.n - 3)
            && self.diagonals.iter().all(|&pair| is_diagonal(self.n, pair))
            && self.diagonals.windows(2).all(|two| two[0] < two[1])
            && !any_cross(&self.diagonals)
            && self.angles.iter().all(|angles| {
                self.n > FEWEST
                    && angles.len() == self.diagonals.len()
                    && angles.iter().all(|angle| ANGLES.contains(angle))
            })
    }

    /// Whether the diagonal, lower corner first, is one of the part's.
    pub fn has(&self, diagonal: Pair) -> bool {
        self.diagonals.binary_search(&diagonal).is_ok()
    }

    /// Whether a side or a diagonal joins the two corners.
    pub fn joined(&self, a: Corner, b: Corner) -> bool {
        let pair = lower_first((a, b));
        is_side(self.n, pair) || self.has(pair)
    }
}

/// A number that ascends as the pairs do.
fn key((a, b): Pair) -> u32 {
    u32::from(a) << 16 | u32::from(b)
}

/// Sorts the pairs ascending.
pub fn sort(pairs: &mut [Pair]) {
    pairs.sort_unstable_by_key(|&pair| key(pair));
}

/// The same, and each angle moves with its pair.
pub fn sort_with_angles(pairs: &mut [Pair], angles: &mut [Angle]) {
    let both = pairs.iter().copied().zip(angles.iter().copied());
    let mut both: Vec<(Pair, Angle)> = both.collect();
    both.sort_unstable_by_key(|&(pair, _)| key(pair));
    for ((pair, angle), sorted) in pairs.iter_mut().zip(angles).zip(both) {
        (*pair, *angle) = sorted;
    }
}

#[cfg(test)]
mod tests {
    use super::*;

    #[test]
    fn crossing_is_found_in_linear_time_as_by_definition() {
        let n = 7;
        let all: Vec<Pair> = (0..n)
            .flat_map(|a| (a..n).map(move |b| (a, b)))
            .filter(|&pair| is_diagonal(n, pair))
            .collect();
        for chosen in 0..1u32 << all.len() {
            let some: Vec<Pair> = (0..all.len())
                .filter(|i| chosen >> i & 1 == 1)
                .map(|i| all[i])
                .collect();
            assert_eq!(any_cross(&some), any_cross_ascending(&some), "{some:?}");
        }
    }

    #[test]
    fn sides_and_diagonals() {
        assert!(is_side(5, (0, 4)) && is_side(5, (3, 4)) && !is_side(5, (0, 3)));
        assert!(is_diagonal(5, (3, 0)) && !is_diagonal(5, (4, 0)) && !is_diagonal(5, (2, 2)));
        assert!(!is_diagonal(5, (1, 5)) && !is_diagonal(5, (u16::MAX, 1)));
        assert!(cross((0, 2), (1, 3)) && cross((1, 3), (0, 2)) && !cross((0, 2), (2, 4)));
    }

    #[test]
    fn angles_of_a_valid_part() {
        let pentagon = || Part::new(5, &[(0, 2), (0, 3)]);
        for (angles, valid) in [
            ([0, 0], true),
            ([1800, -1800], true),
            ([1801, 0], false),
            ([0, -1801], false),
            ([0, i16::MIN], false),
        ] {
            assert_eq!(pentagon().angled(&angles).is_valid(), valid);
        }
        assert!(!Part::new(3, &[]).angled(&[]).is_valid());
    }

    #[test]
    fn an_angle_moves_with_its_pair() {
        let mut pairs = [(2, 4), (0, 4), (0, 2)];
        let mut angles = [7, -8, 9];
        sort_with_angles(&mut pairs, &mut angles);
        assert_eq!((pairs, angles), ([(0, 2), (0, 4), (2, 4)], [9, -8, 7]));
    }
}
