//! Plans by search, written down word by word: every umbrella that the rules
//! allow and, for small parts, every plan.
//! Follows "Umbrellas and levels" of document 01.

use crate::part::{Corner, Pair, Part};
use crate::plan::{Letter, Plan, Stem};
use std::collections::HashMap;

/// An umbrella of a piece: its stem, and the diagonals that carry hung pieces.
#[derive(Clone, Debug)]
pub struct Umbrella {
    pub stem: Option<Stem>,
    pub hung: Vec<Pair>,
}

fn is_side((p, q): Pair) -> bool {
    p + 1 == q
}

/// Those of the edges that are diagonals.
fn diagonals(edges: impl IntoIterator<Item = Pair>) -> Vec<Pair> {
    edges.into_iter().filter(|&edge| !is_side(edge)).collect()
}

/// The edges of the rim: every corner strictly between u and v that is joined to
/// u or v, each with the next.
pub fn rim_edges(part: &Part, (u, v): Pair) -> Vec<Pair> {
    let rim: Vec<Corner> = (u + 1..v)
        .filter(|&r| part.joined(u, r) || part.joined(r, v))
        .collect();
    rim.windows(2).map(|two| (two[0], two[1])).collect()
}

/// The corner x, p < x < q, of the triangle (p,x,q).
pub fn third_corner(part: &Part, (p, q): Pair) -> Corner {
    (p + 1..q)
        .find(|&x| part.joined(p, x) && part.joined(x, q))
        .expect("the gate is a diagonal of a valid part")
}

/// Every word of a stem from the gate, with the diagonals left beside it.
pub fn words(part: &Part, gate: Pair) -> Vec<(Vec<Letter>, Vec<Pair>)> {
    let x = third_corner(part, gate);
    let (left, right) = ((gate.0, x), (x, gate.1));
    let mut all = Vec::new();
    if is_side(left) || is_side(right) {
        all.push((vec![Letter::E], diagonals([left, right])));
    }
    for (letter, across, beside) in [(Letter::L, left, right), (Letter::R, right, left)] {
        if is_side(across) {
            continue;
        }
        for (word, hung) in words(part, across) {
            let word = [vec![letter], word].concat();
            all.push((word, [diagonals([beside]), hung].concat()));
        }
    }
    all
}

/// Every umbrella of the piece.
pub fn umbrellas(part: &Part, piece: Pair) -> Vec<Umbrella> {
    let rim = diagonals(rim_edges(part, piece));
    let mut all = vec![Umbrella {
        stem: None,
        hung: rim.clone(),
    }];
    for &gate in &rim {
        let others: Vec<Pair> = rim.iter().copied().filter(|&edge| edge != gate).collect();
        for (word, beside) in words(part, gate) {
            all.push(Umbrella {
                stem: Some(Stem { gate, word }),
                hung: [others.clone(), beside].concat(),
            });
        }
    }
    all
}

/// Every plan of the piece.
pub fn plans(part: &Part, piece: Pair) -> Vec<Plan> {
    let mut all = Vec::new();
    for umbrella in umbrellas(part, piece) {
        let mut choices: Vec<Vec<Plan>> = vec![Vec::new()];
        for &hung in &umbrella.hung {
            let of_hung = plans(part, hung);
            choices = choices
                .iter()
                .flat_map(|chosen| {
                    let with = |plan: &Plan| [&chosen[..], std::slice::from_ref(plan)].concat();
                    of_hung.iter().map(with).collect::<Vec<_>>()
                })
                .collect();
        }
        let plan = |hung| Plan::new(piece, umbrella.stem.clone(), hung);
        all.extend(choices.into_iter().map(plan));
    }
    all
}

/// The least levels of any plan of the piece.
pub fn least_of_all_plans(part: &Part, piece: Pair) -> u16 {
    let levels = plans(part, piece)
        .into_iter()
        .map(|plan| plan.counts.levels);
    levels.min().expect("every piece has a plan")
}

/// A search of one part's plans that keeps what it found of each piece.
pub struct Search<'a> {
    part: &'a Part,
    least: HashMap<Pair, u16>,
}

impl Search<'_> {
    pub fn new(part: &Part) -> Search<'_> {
        Search {
            part,
            least: HashMap::new(),
        }
    }

    /// The levels with the umbrella, if every hung piece has its least levels.
    fn levels_with(&mut self, umbrella: &Umbrella) -> u16 {
        let hung = umbrella.hung.iter().map(|&hung| self.least_levels(hung));
        1 + hung.max().unwrap_or(0)
    }

    /// The least levels of the piece, over all its umbrellas.
    pub fn least_levels(&mut self, piece: Pair) -> u16 {
        if let Some(&levels) = self.least.get(&piece) {
            return levels;
        }
        let all = umbrellas(self.part, piece);
        let levels = all.iter().map(|umbrella| self.levels_with(umbrella));
        let least = levels.min().expect("every piece has an umbrella");
        self.least.insert(piece, least);
        least
    }

    /// The plan drawn: in every piece the umbrella that reaches the least levels
    /// and comes first, no stem before any, then by first gate, then by word.
    pub fn plan_drawn(&mut self, piece: Pair) -> Plan {
        let least = self.least_levels(piece);
        let umbrella = umbrellas(self.part, piece)
            .into_iter()
            .filter(|umbrella| self.levels_with(umbrella) == least)
            .min_by(|one, other| one.stem.cmp(&other.stem))
            .expect("some umbrella reaches the least levels");
        let hung = umbrella.hung.iter().map(|&hung| self.plan_drawn(hung));
        let hung = hung.collect();
        Plan::new(piece, umbrella.stem, hung)
    }
}

/// The plan drawn of the whole part, by search.
pub fn plan_drawn(part: &Part) -> Plan {
    Search::new(part).plan_drawn((0, part.n - 1))
}

#[cfg(test)]
mod tests {
    use super::*;
    use crate::plan::{Counts, Pieces};
    use crate::random::Random;
    use crate::shapes::{all_parts, part, Shape, HUNG, SHAPES};

    /// The triangles that a plan takes, in the order of its umbrellas.
    fn triangles(part: &Part, plan: &Plan) -> Vec<(Corner, Corner, Corner)> {
        let (u, v) = plan.piece;
        let mut taken = vec![(u, third_corner(part, (u, v)), v)];
        for (a, b) in rim_edges(part, (u, v)) {
            let low = part.joined(u, a) && part.joined(u, b);
            taken.push(if low { (u, a, b) } else { (a, b, v) });
        }
        if let Some(Stem { gate, word }) = &plan.stem {
            let mut gate = *gate;
            for letter in word {
                let x = third_corner(part, gate);
                taken.push((gate.0, x, gate.1));
                gate = match letter {
                    Letter::R => (x, gate.1),
                    _ => (gate.0, x),
                };
            }
        }
        taken.extend(plan.hung.iter().flat_map(|hung| triangles(part, hung)));
        taken
    }

    #[test]
    fn known_parts() {
        let counts = |n, pairs: &[Pair]| {
            let part = Part::new(n, pairs);
            let searched = plan_drawn(&part).counts;
            assert_eq!(searched, Pieces::of(&part).counts());
            let Counts {
                levels,
                umbrellas,
                stems,
            } = searched;
            (levels, umbrellas, stems)
        };
        assert_eq!(counts(3, &[]), (1, 1, 0));
        assert_eq!(counts(4, &[(0, 2)]), (1, 1, 0));
        assert_eq!(counts(5, &[(0, 3), (1, 3)]), (1, 1, 1));
        assert_eq!(counts(6, &[(0, 2), (2, 4), (0, 4)]), (1, 1, 1));
        assert_eq!(counts(7, &[(0, 5), (1, 5), (1, 3), (3, 5)]), (2, 2, 0));
        assert_eq!(counts(11, &HUNG), (2, 4, 1));
    }

    #[test]
    fn the_linear_plan_is_the_one_found_by_search() {
        let mut random = Random::new(3);
        let mut parts: Vec<Part> = (3..=9).flat_map(all_parts).collect();
        for round in 0..2000 {
            let shape = SHAPES[round % SHAPES.len()];
            let n = random.between(10, 64) as Corner;
            parts.push(part(shape, n, &mut random));
        }
        for part in parts {
            let pieces = Pieces::of(&part);
            let drawn = plan_drawn(&part);
            assert_eq!(drawn, pieces.plan(), "{part:?}");
            assert_eq!(drawn.counts, pieces.counts(), "{part:?}");
            if part.n > 9 {
                continue;
            }
            for (piece, levels, beside) in pieces.least().filter(|(piece, ..)| !is_side(*piece)) {
                let least = |hung: &Pair| least_of_all_plans(&part, *hung);
                let most = |(_, hung): (_, Vec<Pair>)| hung.iter().map(least).max().unwrap_or(0);
                let stem = words(&part, piece).into_iter().map(most).min();
                assert_eq!(u16::from(levels), least_of_all_plans(&part, piece));
                assert_eq!(Some(u16::from(beside)), stem);
            }
        }
    }

    #[test]
    fn every_plan_takes_every_triangle_once() {
        for part in (3..=8).flat_map(all_parts) {
            for plan in plans(&part, (0, part.n - 1)) {
                let mut taken = triangles(&part, &plan);
                taken.sort_unstable();
                taken.dedup();
                assert_eq!(taken.len(), usize::from(part.n) - 2);
            }
        }
    }

    #[test]
    fn large_plans() {
        let mut random = Random::new(2);
        for n in [100, 1023, 1024] {
            for shape in SHAPES {
                let part = part(shape, n, &mut random);
                let pieces = Pieces::of(&part);
                let plan = pieces.plan();
                assert_eq!(plan.counts, pieces.counts());
                assert!(plan.counts.levels <= 9);
                let mut taken = triangles(&part, &plan);
                taken.sort_unstable();
                taken.dedup();
                assert_eq!(taken.len(), usize::from(n) - 2);
            }
        }
        let mut deepest = |n| {
            let parts = (0..8).map(|_| part(Shape::Deep, n, &mut random));
            parts.map(|part| Pieces::of(&part).counts().levels).max()
        };
        assert_eq!((deepest(1022), deepest(1023)), (Some(8), Some(9)));
    }
}
