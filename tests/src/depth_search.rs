//! The six values of an edge by search, for small parts: from the definitions of
//! document 004 and the words of request (iv), and from no equation of `depth`.
//!
//! The umbrellas are found among all sets of triangles of the piece. A triangle
//! (p,x,q), p < x < q, is named by its edge (p,q).

use crate::depth::Depth;
use crate::part::{Corner, Pair, Part};
use crate::search::{least_of_all_plans, third_corner, words};
use std::collections::{BTreeSet, HashMap};

/// Some triangles of the piece (a,b), whose cap is (a,b).
struct Taken<'a> {
    part: &'a Part,
    cap: Pair,
    triangles: Vec<Pair>,
}

impl Taken<'_> {
    /// Every set of triangles of the piece that holds together from its cap on.
    fn all(part: &Part, (a, b): Pair) -> Vec<Taken<'_>> {
        let inside = |&(p, q): &Pair| a <= p && q <= b && (p, q) != (a, b);
        let mut edges: Vec<Pair> = part.diagonals.iter().copied().filter(inside).collect();
        edges.push((a, b));
        let chosen = |set: u32| {
            let places = (0..edges.len()).filter(|i| set >> i & 1 == 1);
            Taken {
                part,
                cap: (a, b),
                triangles: places.map(|i| edges[i]).collect(),
            }
        };
        let sets = (0..1 << edges.len()).map(chosen);
        sets.filter(Taken::holds_together).collect()
    }

    /// The two edges (p,x) and (x,q) of every triangle (p,x,q).
    fn inner_edges(&self) -> Vec<Pair> {
        let two = |&(p, q): &Pair| {
            let x = third_corner(self.part, (p, q));
            [(p, x), (x, q)]
        };
        self.triangles.iter().flat_map(two).collect()
    }

    fn holds_together(&self) -> bool {
        let inner = self.inner_edges();
        let entered = |edge: &Pair| *edge == self.cap || inner.contains(edge);
        self.triangles.contains(&self.cap) && self.triangles.iter().all(entered)
    }

    /// Definition 3.2: the diagonals with a triangle taken on one side only.
    fn hanging(&self) -> Vec<Pair> {
        let inner = self.inner_edges().into_iter();
        inner
            .filter(|&(p, q)| p + 1 < q && !self.triangles.contains(&(p, q)))
            .collect()
    }

    fn corners(&self) -> BTreeSet<Corner> {
        let edges = self.inner_edges();
        edges.iter().flat_map(|&(p, q)| [p, q]).collect()
    }

    /// The corners joined to one by an edge of these triangles.
    fn neighbours(&self, corner: Corner) -> BTreeSet<Corner> {
        let edges = self.triangles.iter().copied().chain(self.inner_edges());
        edges
            .flat_map(|(p, q)| [(p, q), (q, p)])
            .filter(|&(one, _)| one == corner)
            .map(|(_, other)| other)
            .collect()
    }

    fn has_all_neighbours(&self, corner: Corner) -> bool {
        let (a, b) = self.cap;
        let joined = (a..=b).filter(|&x| x != corner && self.part.joined(corner, x));
        self.neighbours(corner) == joined.collect()
    }

    /// Whether, of some of the triangles, each has the next within its piece.
    fn is_path(&self, some: impl Fn(&&Pair) -> bool) -> bool {
        let mut path: Vec<&Pair> = self.triangles.iter().filter(some).collect();
        path.sort_unstable_by_key(|(p, q)| q - p);
        path.windows(2)
            .all(|two| two[1].0 <= two[0].0 && two[0].1 <= two[1].1)
    }

    /// "A handle umbrella .. is an outerplanar path P with end-edge (a,b)".
    fn is_handle(&self) -> bool {
        self.is_path(|_| true)
    }

    /// Definition 3.1: a path, and triangles at a and at b.
    fn is_umbrella(&self) -> bool {
        let (a, b) = self.cap;
        self.is_path(|&&(p, q)| p != a && q != b)
    }

    /// "A fan umbrella of a is an umbrella with cap (a,b) in which all vertices
    /// other than a are neighbors of a", here with all neighbours of a; a is `at`.
    fn is_fan(&self, at: Corner) -> bool {
        let mut others = self.corners();
        others.remove(&at);
        self.is_umbrella() && self.neighbours(at) == others && self.has_all_neighbours(at)
    }

    /// "A partial umbrella of a is an umbrella with cap (a,b) in which b has exactly
    /// two neighbors", here with all neighbours of a; a is `at`.
    fn is_partial(&self, at: Corner) -> bool {
        let two = self.neighbours(opposite(self.cap, at)).len() == 2;
        self.is_umbrella() && two && self.has_all_neighbours(at)
    }
}

/// The other corner of the edge.
fn opposite((a, b): Pair, corner: Corner) -> Corner {
    a + b - corner
}

/// A part, with the least levels of each of its pieces over all their plans.
pub struct DepthSearch<'a> {
    part: &'a Part,
    levels: HashMap<Pair, u16>,
}

impl DepthSearch<'_> {
    pub fn new(part: &Part) -> DepthSearch<'_> {
        let edges = part.diagonals.iter().copied().chain([(0, part.n - 1)]);
        let least = |edge| (edge, least_of_all_plans(part, edge));
        DepthSearch {
            part,
            levels: edges.map(least).collect(),
        }
    }

    /// The most levels of one of the pieces, 0 if there is none.
    fn most(&self, pieces: impl IntoIterator<Item = Pair>) -> u16 {
        let levels = pieces.into_iter().map(|piece| self.levels[&piece]);
        levels.max().unwrap_or(0)
    }

    /// Request (iv): "the least, over stems by document 01's letters with that edge
    /// as first gate (also where it is the root or no rim edge), of the most levels of
    /// a piece left hanging beside the stem (0 if none)".
    fn handle_by_letters(&self, gate: Pair) -> u16 {
        let stems = words(self.part, gate).into_iter();
        let most = stems.map(|(_, hung)| self.most(hung));
        most.min().expect("some stem ends")
    }

    /// Definition 6.1: the same over paths that may end at any triangle.
    pub fn handle_by_paths(&self, cap: Pair) -> u16 {
        let taken = Taken::all(self.part, cap).into_iter();
        let handles = taken.filter(Taken::is_handle);
        let most = handles.map(|handle| self.most(handle.hanging()));
        most.min().expect("the triangle at the cap is a path")
    }

    /// Of each umbrella of a kind, the most levels of a hanging piece that does not
    /// contain the corner of the cap opposite `at`.
    fn hung(&self, cap: Pair, at: Corner, is: impl Fn(&Taken) -> bool) -> Vec<u16> {
        let away = |&(p, q): &Pair| !(p..=q).contains(&opposite(cap, at));
        let taken = Taken::all(self.part, cap).into_iter();
        taken
            .filter(is)
            .map(|taken| self.most(taken.hanging().into_iter().filter(away)))
            .collect()
    }

    /// Definition 6.3, of the one fan umbrella.
    fn fan(&self, cap: Pair, at: Corner) -> u16 {
        let fans = self.hung(cap, at, |taken| taken.is_fan(at));
        assert_eq!(fans.len(), 1, "the fan umbrella is unique");
        fans[0]
    }

    /// Definition 6.5, the least over all partial umbrellas.
    fn partial(&self, cap: Pair, at: Corner) -> u16 {
        let partials = self.hung(cap, at, |taken| taken.is_partial(at));
        *partials.iter().min().expect("the fan is one of them")
    }

    /// The values of an edge whose piece is not empty.
    pub fn depth(&self, (a, b): Pair) -> Depth {
        Depth {
            handle: self.handle_by_letters((a, b)),
            fan_a: self.fan((a, b), a),
            fan_b: self.fan((a, b), b),
            partial_a: self.partial((a, b), a),
            partial_b: self.partial((a, b), b),
            whole: self.levels[&(a, b)],
        }
    }
}

#[cfg(test)]
mod tests {
    use super::*;
    use crate::depth::{Depths, KNOWN};
    use crate::random::Random;
    use crate::shapes::{all_parts, part, Shape, SHAPES};

    /// Every edge of the part by both ways; gives the part's levels.
    fn agree(part: &Part) -> u16 {
        let search = DepthSearch::new(part);
        let depths = Depths::of(part);
        for (edge, depth) in depths.all() {
            assert_eq!(depth, search.depth(edge), "{edge:?} of {part:?}");
            let handle = search.handle_by_paths(edge);
            assert_eq!(depth.handle, handle, "{edge:?} of {part:?}");
        }
        depths.at((0, part.n - 1)).whole
    }

    #[test]
    fn known_parts() {
        for (n, pairs, values) in KNOWN {
            let part = Part::new(n, pairs);
            let search = DepthSearch::new(&part);
            for &(edge, six) in values {
                assert_eq!(search.depth(edge), Depth::from(six), "{edge:?} of {part:?}");
            }
        }
    }

    #[test]
    fn the_equations_give_what_the_search_finds() {
        (3..=9).flat_map(all_parts).for_each(|part| {
            agree(&part);
        });
    }

    #[test]
    fn the_same_on_larger_parts() {
        let mut random = Random::new(6);
        let sizes = [11, 13, 15].into_iter();
        let shaped = sizes.flat_map(|n| SHAPES.map(|shape| (n, shape)));
        let mut levels = Vec::new();
        for (n, shape) in shaped.chain([(15, Shape::Deep); 4]) {
            let part = part(shape, n, &mut random);
            let mirror = |&(a, b): &Pair| (n - 1 - a, n - 1 - b);
            let mirrored: Vec<Pair> = part.diagonals.iter().map(mirror).collect();
            levels.extend([agree(&part), agree(&Part::new(n, &mirrored))]);
        }
        assert_eq!(levels.into_iter().max(), Some(3));
    }
}
