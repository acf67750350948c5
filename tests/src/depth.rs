//! The six values of an edge, in the order of chapter 6 of document 004: handle,
//! fans, partial umbrellas, the whole. Follows request (iv) of document 02, by the
//! equations of that chapter's lemmas; `depth_search` finds the same by search.
//!
//! The edge is (a,b), a < b, and (a,c,b) the triangle of its piece at it. The
//! triangle of the piece (a,c) is (a,d,c), that of (c,b) is (c,e,b); there is no d
//! where (a,c) is a side, and no e where (c,b) is one.

use crate::neighbours::Neighbours;
use crate::part::{Corner, Pair, Part};
use std::collections::BTreeMap;

/// The values of an edge (a,b); all 0 where its piece is empty, beyond a side.
#[derive(Clone, Copy, Debug, Default, PartialEq, Eq)]
pub struct Depth {
    pub handle: u16,
    pub fan_a: u16,
    pub fan_b: u16,
    pub partial_a: u16,
    pub partial_b: u16,
    pub whole: u16,
}

impl From<[u16; 6]> for Depth {
    /// In the order of the fields, which is the thesis's.
    fn from([handle, fan_a, fan_b, partial_a, partial_b, whole]: [u16; 6]) -> Depth {
        Depth {
            handle,
            fan_a,
            fan_b,
            partial_a,
            partial_b,
            whole,
        }
    }
}

/// Lemma 6.2: the handle goes on into (a,c) and (c,b) hangs, or the reverse.
fn handle(ac: Depth, cb: Depth) -> u16 {
    let low = ac.handle.max(cb.whole);
    let high = cb.handle.max(ac.whole);
    low.min(high)
}

/// Lemma 6.4, for a: from the fan of a at (a,c), and the values of (d,c). For b:
/// from the fan of b at (c,b), and the values of (c,e).
fn fan(inner_fan: u16, opposite: Option<Depth>) -> u16 {
    opposite.map_or(0, |opposite| inner_fan.max(opposite.whole))
}

/// Lemma 6.6, for a: from the partial umbrella and the fan of a at (a,c), and the
/// values of (d,c). For b: from those of b at (c,b), and the values of (c,e).
fn partial(inner_partial: u16, inner_fan: u16, opposite: Option<Depth>) -> u16 {
    opposite.map_or(0, |opposite| {
        let hung = inner_partial.max(opposite.whole);
        let entered = inner_fan.max(opposite.handle);
        hung.min(entered)
    })
}

/// Lemma 6.7: from the fans and the partial umbrellas of the same edge.
fn whole(edge: Depth) -> u16 {
    let stem_at_a = edge.partial_a.max(edge.fan_b);
    let stem_at_b = edge.partial_b.max(edge.fan_a);
    1 + stem_at_a.min(stem_at_b)
}

/// The values of every edge of a part whose piece is not empty.
pub struct Depths {
    neighbours: Neighbours,
    known: BTreeMap<Pair, Depth>,
}

impl Depths {
    pub fn of(part: &Part) -> Depths {
        let mut depths = Depths {
            neighbours: Neighbours::of(part),
            known: BTreeMap::new(),
        };
        depths.work_out((0, part.n - 1));
        depths
    }

    /// The edges whose piece is not empty, ascending, each with its values.
    pub fn all(&self) -> impl Iterator<Item = (Pair, Depth)> + '_ {
        self.known.iter().map(|(&edge, &depth)| (edge, depth))
    }

    /// The values of one edge of the part.
    pub fn at(&self, (a, b): Pair) -> Depth {
        if a + 1 == b {
            return Depth::default();
        }
        self.known[&(a, b)]
    }

    /// The third corner of the piece's triangle at the edge, if it is not empty.
    pub fn third_corner(&self, (a, b): Pair) -> Option<Corner> {
        (a + 1 < b).then(|| self.neighbours.third_corner((a, b)))
    }

    /// Works out the values of the edge, after those of all edges of its piece.
    fn work_out(&mut self, (a, b): Pair) {
        let Some(c) = self.third_corner((a, b)) else {
            return;
        };
        self.work_out((a, c));
        self.work_out((c, b));
        let (ac, cb) = (self.at((a, c)), self.at((c, b)));
        let dc = self.third_corner((a, c)).map(|d| self.at((d, c)));
        let ce = self.third_corner((c, b)).map(|e| self.at((c, e)));
        let mut depth = Depth {
            handle: handle(ac, cb),
            fan_a: fan(ac.fan_a, dc),
            fan_b: fan(cb.fan_b, ce),
            partial_a: partial(ac.partial_a, ac.fan_a, dc),
            partial_b: partial(cb.partial_b, cb.fan_b, ce),
            whole: 0,
        };
        depth.whole = whole(depth);
        self.known.insert((a, b), depth);
    }
}

/// A part by its corners and diagonals, and its edges whose piece is not empty,
/// ascending, with their values.
pub type Known = (Corner, &'static [Pair], &'static [(Pair, [u16; 6])]);

/// Parts of document 01 with the values that the lemmas give, worked out by hand.
pub const KNOWN: [Known; 3] = [
    (3, &[], &[((0, 2), [0, 0, 0, 0, 0, 1])]),
    (
        6,
        &[(0, 2), (2, 4), (0, 4)],
        &[
            ((0, 2), [0, 0, 0, 0, 0, 1]),
            ((0, 4), [1, 0, 0, 0, 0, 1]),
            ((0, 5), [1, 1, 0, 0, 0, 1]),
            ((2, 4), [0, 0, 0, 0, 0, 1]),
        ],
    ),
    (
        7,
        &[(0, 5), (1, 5), (1, 3), (3, 5)],
        &[
            ((0, 5), [1, 0, 1, 0, 0, 1]),
            ((0, 6), [1, 1, 0, 1, 0, 2]),
            ((1, 3), [0, 0, 0, 0, 0, 1]),
            ((1, 5), [1, 0, 0, 0, 0, 1]),
            ((3, 5), [0, 0, 0, 0, 0, 1]),
        ],
    ),
];

#[cfg(test)]
mod tests {
    use super::*;
    use crate::plan::Pieces;
    use crate::random::Random;
    use crate::shapes::{part, SHAPES};

    #[test]
    fn known_parts() {
        for (n, pairs, values) in KNOWN {
            let depths = Depths::of(&Part::new(n, pairs));
            let expected = values.iter().map(|&(edge, six)| (edge, Depth::from(six)));
            assert!(depths.all().eq(expected), "{pairs:?}");
            for a in 0..n - 1 {
                assert_eq!(depths.at((a, a + 1)), Depth::default());
            }
        }
    }

    /// The handle's and the whole's, beside the least that the plan is drawn by.
    #[test]
    fn large_parts() {
        let mut random = Random::new(5);
        for n in [10, 60, 511, 1023, 1024] {
            for shape in SHAPES.iter().flat_map(|&shape| [shape; 4]) {
                let part = part(shape, n, &mut random);
                let depths = Depths::of(&part);
                assert_eq!(depths.all().count(), usize::from(n) - 2);
                let pieces = Pieces::of(&part);
                for ((a, b), levels, beside) in pieces.least().filter(|((a, b), ..)| a + 1 < *b) {
                    let Depth { handle, whole, .. } = depths.at((a, b));
                    assert_eq!((whole, handle), (levels.into(), beside.into()));
                }
            }
        }
    }
}
