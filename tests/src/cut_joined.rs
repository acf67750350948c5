//! What is due of parts that are cut and joined again, and joined and cut again.
//! Follows request (iii) of document 02: "Joining them again at the same seam gives the
//! part set in order"; by request (xi) cut halves "joined again .. give the old part but
//! for a 0 on the seam, or without angles when both halves are triangles."

use crate::part::{Pair, Part, FEWEST};

/// What the halves of the part give that was cut along the diagonal, lower corner first:
/// the inner one joined on the rest, at the diagonal's lower corner.
pub fn joined_again(part: &Part, seam: Pair) -> Part {
    let mut whole = part.clone();
    if whole.n == 2 * FEWEST - 2 {
        whole.angles = None;
    }
    if let Some(angles) = &mut whole.angles {
        let place = part.diagonals.binary_search(&seam);
        angles[place.expect("a diagonal of the part")] = 0;
    }
    whole
}

/// What two joined parts give that are cut at the seam: the second, then the first. If
/// either has angles, both have, but for triangles; diagonals that had none have 0.
pub fn cut_again(first: &Part, second: &Part) -> [Part; 2] {
    let angled = first.angles.is_some() || second.angles.is_some();
    [second, first].map(|half| {
        let mut half = half.clone();
        if angled && half.n > FEWEST {
            half.angles.get_or_insert(vec![0; half.diagonals.len()]);
        }
        half
    })
}

#[cfg(test)]
mod tests {
    use super::*;
    use crate::cut::cut;
    use crate::join::join;
    use crate::join_parts::{at_either_bound, Halves};
    use crate::label_parts::any_fewest;
    use crate::plan::Pieces;
    use crate::random::Random;
    use crate::shapes::{all_parts, kinds, part, SHAPES};

    fn levels(part: &Part) -> u16 {
        Pieces::of(part).counts().levels
    }

    /// The part is cut along the diagonal, and its halves are joined again.
    fn check(part: &Part, (a, b): Pair) -> [Part; 2] {
        let [inner, rest] = cut(part, b.into(), a.into()).unwrap();
        assert!(inner.is_valid() && rest.is_valid(), "{part:?} {a} {b}");
        for half in [&inner, &rest] {
            assert_eq!(half.angles.is_some(), part.angles.is_some() && half.n > 3);
        }
        let whole = join(&rest, &inner, a.into());
        assert_eq!(whole, Ok(joined_again(part, (a, b))));
        [inner, rest]
    }

    /// "Neither half has more levels than the whole": of both, whether it has as many.
    fn check_levels(part: &Part, halves: &[Part; 2]) -> [bool; 2] {
        let whole = levels(part);
        halves.each_ref().map(|half| {
            let half = levels(half);
            assert!(half <= whole, "{part:?}");
            half == whole
        })
    }

    #[test]
    fn every_cut_of_small_parts() {
        let mut seen = [[0; 2]; 2];
        for part in (4..=8).flat_map(all_parts) {
            for kind in kinds(&part) {
                for &diagonal in &part.diagonals {
                    let halves = check(&kind, diagonal);
                    for (half, as_many) in check_levels(&part, &halves).into_iter().enumerate() {
                        seen[half][usize::from(as_many)] += 1;
                    }
                }
            }
        }
        assert!(seen.iter().flatten().all(|&count| count > 100), "{seen:?}");
    }

    #[test]
    fn larger_parts() {
        let mut random = Random::new(44);
        for shape in SHAPES {
            for n in [9, 20, 60, 200, 513, 1023, 1024] {
                let kinds = kinds(&part(shape, n, &mut random));
                for part in kinds {
                    for _ in 0..12 {
                        let &diagonal = random.pick(&part.diagonals);
                        check_levels(&part, &check(&part, diagonal));
                    }
                }
            }
        }
        // of many levels for their corners
        for _ in 0..1000 {
            let part = any_fewest(random.between(2, 6) as u16, 8, &mut random);
            let &diagonal = random.pick(&part.diagonals);
            check_levels(&part, &check(&part, diagonal));
        }
    }

    /// Halves of up to 1,022 corners with as many levels as the whole, and with fewer.
    #[test]
    fn levels_at_either_bound() {
        for count in 1..=8 {
            let [equal, above, beside] = at_either_bound(count).map(|joined| {
                let Halves {
                    first,
                    second,
                    side,
                    ..
                } = joined;
                let whole = join(&first, &second, side).unwrap();
                let end = side + u64::from(second.n) - 1;
                let halves = cut(&whole, end, side).unwrap();
                assert_eq!(halves, [second, first]);
                check_levels(&whole, &halves)
            });
            assert_eq!(equal, [true, true]);
            assert_eq!([above, beside], [[false; 2]; 2]);
        }
    }
}
