//! The strokes of a chart followed with a finger, from bar to bar: what request (x) of
//! document 02 wants the nearest bar for. By "A chart is true" of document 01 no bar
//! stands between the two bars of a stroke; behind the cell at which it comes to the
//! second bar, this bar is the nearest.

use crate::chart::{Chart, Stroke};
use crate::nearest::{distance, step, Cell};
use crate::part::Corner;

/// Each stroke of the chart, either way: the cell of the bar that it leaves, the cell
/// of the bar that it comes to, the next cell behind that one, and this bar's corner.
/// The chart is a true one with empty rows and columns round it.
pub fn followed(chart: &Chart) -> Vec<(Cell, Cell, Cell, Corner)> {
    let either_way = |stroke: &Stroke| [(stroke.a, stroke.b), (stroke.b, stroke.a)];
    let pairs = |stroke: &Stroke| either_way(stroke).map(|pair| (pair, stroke.column));
    let follow = |((a, b), column): ((Corner, Corner), Option<u16>)| {
        let (one, other) = (chart.bars[usize::from(a)], chart.bars[usize::from(b)]);
        let (leaves, comes) = match column {
            Some(column) => (column, column),
            None if one.left < other.left => (one.right, other.left),
            None => (one.left, other.right),
        };
        let first = (usize::from(one.row), usize::from(leaves));
        let second = (usize::from(other.row), usize::from(comes));
        let behind = step(first, second, distance(first, second) + 1);
        (first, second, behind, b)
    };
    chart.strokes.iter().flat_map(pairs).map(follow).collect()
}

#[cfg(test)]
mod tests {
    use super::*;
    use crate::changes::{cut_back, framed, stretched};
    use crate::draw::{chart_of, placed_of};
    use crate::nearest::nearest;
    use crate::random::Random;
    use crate::shapes::{part, SHAPES};

    #[test]
    fn strokes_are_followed_from_bar_to_bar() {
        let mut random = Random::new(33);
        let mut seen = [0; 2];
        for round in 0..600 {
            let n = random.between(3, if round % 20 == 0 { 300 } else { 40 });
            let part = part(SHAPES[round % SHAPES.len()], n as Corner, &mut random);
            let (drawn, placed) = (chart_of(&part), placed_of(&part));
            let wide = stretched(&drawn, 3, &mut random);
            for chart in [&drawn, &placed, &wide, &cut_back(&wide)].map(framed) {
                for (first, second, behind, corner) in followed(&chart) {
                    let find = |to| nearest(&chart.bars, first, to);
                    assert_eq!((find(second), find(behind)), (None, Some(corner)));
                    seen[usize::from(first.0 == second.0)] += 1;
                }
            }
        }
        assert!(seen.iter().all(|&count| count > 10_000), "{seen:?}");
    }
}
