//! Parts whose levels tell the values of an edge of another part: Plan gives levels,
//! and no operation the values. Follows request (iv) of document 02; the reasons are
//! the lemmas of chapter 6 of document 004. The corners' letters are those of `depth`.

use crate::depth::{Depth, Depths};
use crate::part::{is_diagonal, Corner, Pair, Part, MOST};

/// One of the values of an edge, a part that tells it, and the levels of that part.
pub struct Telling {
    pub value: &'static str,
    pub part: Part,
    pub levels: u16,
}

/// The diagonals within the piece and its root edge, with their corners renumbered.
fn piece(part: &Part, (a, b): Pair, new: impl Fn(Corner) -> Corner) -> Vec<Pair> {
    let inside = |&(p, q): &Pair| a <= p && q <= b && (p, q) != (a, b);
    let within = part.diagonals.iter().copied().filter(inside);
    let edges = within.chain([(a, b)]);
    edges.map(|(p, q)| (new(p), new(q))).collect()
}

/// The part with `n` corners and those of the edges that are diagonals.
fn part_of(n: Corner, mut edges: Vec<Pair>) -> Part {
    edges.retain(|&edge| is_diagonal(n, edge));
    Part::new(n, &edges)
}

/// The piece (a,b) by itself: its levels are the whole's value.
fn alone(part: &Part, (a, b): Pair) -> Part {
    part_of(b - a + 1, piece(part, (a, b), |x| x - a))
}

/// The piece (a,b) on corners 1 to m, between 0 and m + 1, and the diagonal (0,m).
/// At the root the fan of 0 is the whole's value by Lemma 6.4, the partial umbrella of
/// 0 the handle's by Lemma 6.6, which is never more, and m + 1 has 0 of both. By Lemma
/// 6.7 there is one level more than the handle's value.
fn behind_a_gate(part: &Part, (a, b): Pair) -> Part {
    let m = b - a + 1;
    let mut edges = piece(part, (a, b), |x| x - a + 1);
    edges.push((0, m));
    part_of(m + 2, edges)
}

/// The piece (a,c) and one corner behind it, which has 0 for fan and partial umbrella.
/// A partial umbrella is never more than the fan: by Lemma 6.7 there is one level more
/// than the value of the partial umbrella of a.
fn before_a_corner(part: &Part, (a, c): Pair) -> Part {
    part_of(c - a + 2, piece(part, (a, c), |x| x - a))
}

/// The same for b: one corner, and the piece (c,b).
fn after_a_corner(part: &Part, (c, b): Pair) -> Part {
    part_of(b - c + 2, piece(part, (c, b), |x| x - c + 1))
}

/// The piece (a,c) and its mirror image behind it, so that both ends have the same
/// values. By Lemma 6.7 there is one level more than the value of the fan of a: a stem
/// helps at one end only.
fn before_its_mirror(part: &Part, (a, c): Pair) -> Part {
    let mut edges = piece(part, (a, c), |x| x - a);
    edges.extend(piece(part, (a, c), |x| 2 * c - a - x));
    part_of(2 * (c - a) + 1, edges)
}

/// The same for b: the mirror image, and the piece (c,b).
fn after_its_mirror(part: &Part, (c, b): Pair) -> Part {
    let mut edges = piece(part, (c, b), |x| b + x - 2 * c);
    edges.extend(piece(part, (c, b), |x| b - x));
    part_of(2 * (b - c) + 1, edges)
}

/// The six values of an edge (a,b) whose piece has the triangle (a,c,b), each with the
/// part that tells it, but those of more than 1,024 corners.
pub fn telling(part: &Part, (a, b): Pair, c: Corner, depth: Depth) -> Vec<Telling> {
    let Depth {
        handle,
        fan_a,
        fan_b,
        partial_a,
        partial_b,
        whole,
    } = depth;
    let tell = |value, part, levels| Telling {
        value,
        part,
        levels,
    };
    let mut all = vec![
        tell("handle", behind_a_gate(part, (a, b)), 1 + handle),
        tell("fan of a", before_its_mirror(part, (a, c)), 1 + fan_a),
        tell("fan of b", after_its_mirror(part, (c, b)), 1 + fan_b),
        tell("partial of a", before_a_corner(part, (a, c)), 1 + partial_a),
        tell("partial of b", after_a_corner(part, (c, b)), 1 + partial_b),
        tell("whole", alone(part, (a, b)), whole),
    ];
    all.retain(|telling| telling.part.n <= MOST);
    all
}

/// The same of every edge of the part whose piece is not empty.
pub fn every_edge(part: &Part) -> impl Iterator<Item = (Pair, Telling)> + '_ {
    let depths = Depths::of(part);
    let edges: Vec<(Pair, Depth)> = depths.all().collect();
    edges.into_iter().flat_map(move |(edge, depth)| {
        let c = depths
            .third_corner(edge)
            .expect("a piece that is not empty");
        let all = telling(part, edge, c, depth).into_iter();
        all.map(move |telling| (edge, telling))
    })
}

#[cfg(test)]
mod tests {
    use super::*;
    use crate::plan::Pieces;
    use crate::random::Random;
    use crate::shapes::{all_parts, part, SHAPES};

    /// Each of them is a part, and its plan has the levels.
    #[test]
    fn levels_tell_the_values() {
        let mut random = Random::new(10);
        let sizes = (9..40).chain([100, 200]);
        let shaped = sizes.flat_map(|n| SHAPES.map(|shape| (n, shape)));
        let larger = shaped.map(|(n, shape)| part(shape, n, &mut random));
        for part in (3..=8).flat_map(all_parts).chain(larger) {
            for (edge, told) in every_edge(&part) {
                assert!(part.n > 40 || told.part.is_valid());
                let levels = Pieces::of(&told.part).counts().levels;
                assert_eq!(
                    levels, told.levels,
                    "{} of {edge:?} of {part:?}",
                    told.value
                );
            }
        }
    }
}
