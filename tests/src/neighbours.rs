//! The corners joined to each corner of a part, for quick drawing.
//! Follows "The part" of document 01.

use crate::part::{Corner, Pair, Part};

/// All sides and diagonals, ascending.
fn edges(part: &Part) -> Vec<Pair> {
    let root = part.n - 1;
    let mut edges = Vec::with_capacity(2 * usize::from(part.n) - 3);
    let mut diagonals = part.diagonals.iter().copied().peekable();
    for a in 0..root {
        edges.push((a, a + 1));
        while let Some(diagonal) = diagonals.next_if(|diagonal| diagonal.0 == a) {
            edges.push(diagonal);
        }
        if a == 0 {
            edges.push((0, root));
        }
    }
    edges
}

/// The corners joined to each corner, ascending, one run after another.
pub struct Neighbours {
    start: Vec<usize>,
    corners: Vec<Corner>,
}

impl Neighbours {
    pub fn of(part: &Part) -> Neighbours {
        let n = usize::from(part.n);
        let edges = edges(part);
        let mut start = vec![0; n + 1];
        for &(a, b) in &edges {
            start[usize::from(a) + 1] += 1;
            start[usize::from(b) + 1] += 1;
        }
        for a in 0..n {
            start[a + 1] += start[a];
        }
        // In ascending edges each corner meets first its lower neighbours, then
        // its higher ones, in their order.
        let mut corners = vec![0; 2 * edges.len()];
        let mut end = start.clone();
        let mut put = |run: Corner, corner: Corner| {
            let end = &mut end[usize::from(run)];
            corners[*end] = corner;
            *end += 1;
        };
        edges.iter().for_each(|&(a, b)| put(b, a));
        edges.iter().for_each(|&(a, b)| put(a, b));
        Neighbours { start, corners }
    }

    /// The corners joined to `corner`.
    fn run(&self, corner: Corner) -> &[Corner] {
        let corner = usize::from(corner);
        &self.corners[self.start[corner]..self.start[corner + 1]]
    }

    /// The corners strictly between `low` and `high` joined to `corner`.
    pub fn between(&self, corner: Corner, low: Corner, high: Corner) -> &[Corner] {
        let run = self.run(corner);
        let first = run.partition_point(|&other| other <= low);
        let end = run.partition_point(|&other| other < high);
        &run[first..end]
    }

    /// The corner x, p < x < q, of the triangle (p,x,q).
    pub fn third_corner(&self, (p, q): Pair) -> Corner {
        let inside = self.between(p, p, q);
        *inside.last().expect("the gate is a diagonal")
    }

    /// The place of the edge (a,b) among all runs.
    pub fn place(&self, (a, b): Pair) -> usize {
        let place = self.run(a).binary_search(&b);
        self.start[usize::from(a)] + place.expect("the corners are joined")
    }

    /// How many places there are.
    pub fn places(&self) -> usize {
        self.corners.len()
    }

    /// All edges, ascending, each with its place.
    pub fn edges(&self) -> impl Iterator<Item = (usize, Pair)> + '_ {
        let runs = (0..).zip(self.start.windows(2));
        runs.flat_map(|(a, run)| (run[0]..run[1]).map(move |place| (place, a)))
            .map(|(place, a)| (place, (a, self.corners[place])))
            .filter(|(_, (a, b))| a < b)
    }
}

#[cfg(test)]
mod tests {
    use super::*;
    use crate::search::third_corner;
    use crate::shapes::all_parts;

    #[test]
    fn neighbours_are_the_joined_corners() {
        for part in (3..=8).flat_map(all_parts) {
            let neighbours = Neighbours::of(&part);
            for a in 0..part.n {
                let joined: Vec<Corner> = (0..part.n).filter(|&b| part.joined(a, b)).collect();
                assert_eq!(neighbours.run(a), joined);
            }
            for &diagonal in &part.diagonals {
                let third = third_corner(&part, diagonal);
                assert_eq!(neighbours.third_corner(diagonal), third);
            }
            assert!(neighbours.edges().map(|(_, edge)| edge).eq(edges(&part)));
            assert!(neighbours
                .edges()
                .all(|(place, edge)| place == neighbours.place(edge)));
        }
    }
}
