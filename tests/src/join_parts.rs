//! Parts to join whose joined part has as many levels, or as few, as the halves allow.
//! Follows request (i) of document 02: "its levels are at least those of either half
//! and at most their sum".

use crate::edit::Edit;
use crate::join::join;
use crate::label_parts::fewest;
use crate::part::{Corner, Part};

/// Two parts, the first's side for the second, and the levels of all three.
#[derive(Clone, Debug)]
pub struct Halves {
    pub first: Part,
    pub second: Part,
    pub side: u64,
    /// Of the first, of the second, and of the joined part.
    pub levels: [u16; 3],
}

/// Two parts of the levels, of which one has a triangle more: joined they stand side by
/// side on it, with no more levels than each.
fn side_by_side(levels: u16) -> Halves {
    let first = join(&Part::new(3, &[]), &fewest(levels), 0).expect("there is room");
    Halves {
        side: u64::from(first.n - 2),
        first,
        second: fewest(levels),
        levels: [levels; 3],
    }
}

/// A square of one level, and on the side that meets neither end of its root two parts
/// of the levels side by side: one of them is hung whole, whatever a stem does.
fn on_a_square(levels: u16) -> Halves {
    let Halves {
        first,
        second,
        side,
        ..
    } = side_by_side(levels);
    Halves {
        first: Part::new(4, &[(0, 2)]),
        second: join(&first, &second, side).expect("there is room"),
        side: 1,
        levels: [1, levels, levels + 1],
    }
}

/// A part that lacks one corner of the fewest that a level more needs, and a triangle,
/// whose corner takes its place.
fn with_a_triangle(levels: u16) -> Halves {
    let mut first = fewest(levels + 1);
    let ends = |k: Corner| first.diagonals.iter().any(|&(a, b)| a == k || b == k);
    let mut corners = 1..first.n - 1;
    let ear = corners.find(|&k| !ends(k)).expect("an ear off the root");
    let corner = u64::from(ear);
    Edit::TakeOff { corner }.apply(&mut first).expect("an ear");
    Halves {
        first,
        second: Part::new(3, &[]),
        side: corner - 1,
        levels: [levels, 1, levels + 1],
    }
}

/// One that has as few levels as the halves allow, and two that have as many: the upper
/// bound is reached if one of the halves has a single level.
pub fn at_either_bound(levels: u16) -> [Halves; 3] {
    [
        side_by_side(levels),
        on_a_square(levels),
        with_a_triangle(levels),
    ]
}

#[cfg(test)]
mod tests {
    use super::*;
    use crate::cut::cut;
    use crate::cut_joined::cut_again;
    use crate::label_parts::any_fewest;
    use crate::plan::Pieces;
    use crate::random::Random;
    use crate::shapes::{all_parts, kinds, part, SHAPES};

    fn levels(part: &Part) -> u16 {
        Pieces::of(part).counts().levels
    }

    /// The parts joined, and the joined one cut at the seam: "The seam turns into a
    /// diagonal", the second is the piece on it and the first the rest.
    fn check(first: &Part, second: &Part, i: Corner) -> Part {
        let whole = join(first, second, i.into()).unwrap();
        let (n, m) = (first.n, second.n);
        assert!(whole.is_valid() && whole.n == n + m - 2, "{whole:?}");
        let seam = (i, i + m - 1);
        let halves = cut(&whole, seam.0.into(), seam.1.into());
        assert_eq!(halves, Ok(cut_again(first, second)));
        let angled = first.angles.is_some() || second.angles.is_some();
        let place = whole.diagonals.binary_search(&seam).unwrap();
        let angle = whole.angles.as_ref().map(|angles| angles[place]);
        assert_eq!(angle, angled.then_some(0));
        whole
    }

    /// The levels of both halves and of the joined part: "at least those of either half
    /// and at most their sum". A stem from the root to the seam and on leaves beside it
    /// pieces of either half: there is at most one level more than the higher has.
    fn check_levels(first: &Part, second: &Part, whole: &Part) -> [u16; 3] {
        let all = [first, second, whole].map(levels);
        let [one, other, joined] = all;
        assert!(
            one.max(other) <= joined && joined <= one + other,
            "{whole:?}"
        );
        assert!(joined <= one.max(other) + 1, "{whole:?}");
        all
    }

    #[test]
    fn all_pairs_of_small_parts() {
        let parts: Vec<Part> = (3..=7).flat_map(all_parts).collect();
        let mut seen = [[0; 2]; 2];
        for (first, second) in parts.iter().flat_map(|a| parts.iter().map(move |b| (a, b))) {
            for i in 0..first.n - 1 {
                let whole = check(first, second, i);
                let [one, other, joined] = check_levels(first, second, &whole);
                seen[0][usize::from(joined == one.max(other))] += 1;
                seen[1][usize::from(joined == one + other)] += 1;
            }
        }
        assert!(seen.iter().flatten().all(|&count| count > 100), "{seen:?}");
        let small: Vec<Part> = (3..=6)
            .flat_map(all_parts)
            .flat_map(|part| kinds(&part))
            .collect();
        for (first, second) in small.iter().flat_map(|a| small.iter().map(move |b| (a, b))) {
            for i in 0..first.n - 1 {
                check(first, second, i);
            }
        }
    }

    #[test]
    fn larger_pairs() {
        let mut random = Random::new(41);
        for (one, other) in SHAPES.iter().flat_map(|&a| SHAPES.map(|b| (a, b))) {
            for most in [20, 60, 60, 200, 1024] {
                let n = random.between(3, most - 1) as Corner;
                let m = random.between(3, most + 2 - usize::from(n)) as Corner;
                let (first, second) = (part(one, n, &mut random), part(other, m, &mut random));
                let i = random.below(usize::from(n) - 1) as Corner;
                let (firsts, seconds) = (kinds(&first), kinds(&second));
                let (first, second) = (random.pick(&firsts), random.pick(&seconds));
                check_levels(first, second, &check(first, second, i));
            }
        }
        // of many levels for their corners
        for _ in 0..3000 {
            let mut deep = || any_fewest(random.between(1, 6) as u16, 8, &mut random);
            let (first, second) = (deep(), deep());
            let i = random.below(usize::from(first.n) - 1) as Corner;
            let whole = join(&first, &second, i.into()).unwrap();
            check_levels(&first, &second, &whole);
        }
    }

    #[test]
    fn both_bounds_are_reached() {
        for count in 1..=8 {
            let [low, high, higher] = at_either_bound(count).map(|halves| {
                let whole = check(&halves.first, &halves.second, halves.side as Corner);
                let all = check_levels(&halves.first, &halves.second, &whole);
                assert_eq!(all, halves.levels);
                all
            });
            assert_eq!(low, [count; 3]);
            assert_eq!(high, [1, count, 1 + count]);
            assert_eq!(higher, [count, 1, count + 1]);
        }
    }

    /// A triangle joined on a side other than the root is a corner added there.
    #[test]
    fn a_triangle_is_a_corner_added() {
        let mut random = Random::new(42);
        let sizes = [9, 40, 333, 1023];
        let shaped = sizes
            .into_iter()
            .flat_map(|n| SHAPES.map(|shape| (n, shape)));
        let larger = shaped.map(|(n, shape)| part(shape, n, &mut random));
        let triangle = Part::new(3, &[]);
        for part in (3..=8).flat_map(all_parts).chain(larger) {
            for part in kinds(&part) {
                for side in 0..u64::from(part.n) - 1 {
                    let mut added = part.clone();
                    Edit::Add { side }.apply(&mut added).unwrap();
                    assert_eq!(join(&part, &triangle, side), Ok(added));
                }
            }
        }
    }
}
