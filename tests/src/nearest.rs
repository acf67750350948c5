//! The nearest bar: the first that stands between two cells of a row or column.
//! Follows request (x) of document 02: the question "whether a bar stands between two
//! cells of a row or column, neither cell counted, now answers with the corner of such
//! a bar nearest the first cell (the lowest if bars share a cell), or none exactly if
//! there is no such bar". Bars may be asked that are not tested yet; asked of a chart's
//! bytes, the question has refusals 14 and 15 of Read a chart, then 9.

use crate::answer::Refusal;
use crate::chart::Bar;
use crate::part::Corner;
use crate::reader::with_bars_tested;
use std::cmp::Ordering;

/// A cell: its row and its column.
pub type Cell = (usize, usize);

/// The corner of the nearest bar, or none, or a refusal.
pub type Found = Result<Option<Corner>, Refusal>;

/// How far two cells of a row or column are apart.
pub fn distance(first: Cell, second: Cell) -> usize {
    first.0.abs_diff(second.0) + first.1.abs_diff(second.1)
}

/// The cell that lies so many steps from the first, on the way to the second.
pub fn step(first: Cell, second: Cell, steps: usize) -> Cell {
    let place = |from: usize, to: usize| match from.cmp(&to) {
        Ordering::Less => from + steps,
        Ordering::Equal => from,
        Ordering::Greater => from - steps,
    };
    (place(first.0, second.0), place(first.1, second.1))
}

/// The cells strictly between two of a row or column, from the first to the second.
fn between(first: Cell, second: Cell) -> impl Iterator<Item = Cell> {
    (1..distance(first, second)).map(move |steps| step(first, second, steps))
}

/// Whether the bar has a cell in the column. With left over right it has none.
fn reaches(bar: &Bar, column: usize) -> bool {
    (usize::from(bar.left)..=usize::from(bar.right)).contains(&column)
}

/// The corner of the bar between two cells of a row or column that is nearest the
/// first: cell by cell from there, the lowest whose bar covers the cell.
pub fn nearest(bars: &[Bar], first: Cell, second: Cell) -> Option<Corner> {
    // the others cover no cell of the row or column: without them it is quicker
    let meets = |bar: &Bar| usize::from(bar.row) == first.0 || reaches(bar, first.1);
    let bars = (0..).zip(bars).filter(|(_, bar)| meets(bar));
    let bars: Vec<(Corner, &Bar)> = bars.collect();
    let lowest_over = |(row, column): Cell| {
        let covers = |bar: &Bar| usize::from(bar.row) == row && reaches(bar, column);
        bars.iter().find(|(_, bar)| covers(bar))
    };
    let found = between(first, second).find_map(lowest_over);
    found.map(|&(corner, _)| corner)
}

/// The nearest bar, of a chart's bytes. Refusal 9, after those of the chart: a cell
/// outside it, or two cells that are not of one row or column.
pub fn nearest_bar(bytes: &[u8], first: Cell, second: Cell) -> Found {
    let (chart, _) = with_bars_tested(bytes)?;
    let (rows, columns) = (usize::from(chart.rows), usize::from(chart.columns));
    let inside = |(row, column): Cell| row < rows && column < columns;
    let in_line = first.0 == second.0 || first.1 == second.1;
    if !inside(first) || !inside(second) || !in_line {
        return Err(Refusal::OutOfRange);
    }
    Ok(nearest(&chart.bars, first, second))
}

#[cfg(test)]
mod tests {
    use super::*;
    use crate::draw::placed_of;
    use crate::part::Part;

    /// The bars, each given as row, left and right column.
    fn bars(bars: &[(u16, u16, u16)]) -> Vec<Bar> {
        let bar = |&(row, left, right)| Bar { row, left, right };
        bars.iter().map(bar).collect()
    }

    /// Corners 3, 0 and 2 from left to right on row 4, and corners 4, 1 and 0 down
    /// column 3.
    fn cross() -> Vec<Bar> {
        bars(&[(4, 3, 5), (2, 3, 3), (4, 7, 7), (4, 1, 1), (0, 0, 9)])
    }

    #[test]
    fn along_a_row_either_way() {
        let find = |from, to| nearest(&cross(), (4, from), (4, to));
        let rightwards = [(0, 9, 3), (1, 9, 0), (5, 9, 2)];
        let leftwards = [(9, 0, 2), (7, 0, 0), (3, 0, 3)];
        for (from, to, corner) in rightwards.into_iter().chain(leftwards) {
            assert_eq!(find(from, to), Some(corner));
        }
        assert_eq!(nearest(&cross(), (3, 0), (3, 9)), None);
    }

    #[test]
    fn along_a_column_either_way() {
        let find = |from, to| nearest(&cross(), (from, 3), (to, 3));
        let (downwards, upwards) = ([(0, 5, 1), (2, 5, 0)], [(5, 0, 0), (4, 0, 1)]);
        for (from, to, corner) in downwards.into_iter().chain(upwards) {
            assert_eq!(find(from, to), Some(corner));
        }
        assert_eq!(find(9, 4), None);
        assert_eq!(nearest(&cross(), (1, 8), (9, 8)), None);
    }

    /// Corner 0 is not found before corner 1, which stands nearer.
    #[test]
    fn the_nearest_and_not_the_lowest() {
        let row = bars(&[(0, 6, 8), (0, 3, 4)]);
        assert_eq!(nearest(&row, (0, 0), (0, 9)), Some(1));
        assert_eq!(nearest(&row, (0, 9), (0, 0)), Some(0));
        let column = bars(&[(6, 0, 1), (3, 1, 2)]);
        assert_eq!(nearest(&column, (0, 1), (9, 1)), Some(1));
        assert_eq!(nearest(&column, (9, 1), (0, 1)), Some(0));
    }

    #[test]
    fn of_bars_that_share_the_cell_the_lowest() {
        // cell 2 is that of corner 2 alone, cell 3 of corners 1 and 2, 5 of all three
        let shared = bars(&[(0, 5, 7), (0, 3, 7), (0, 2, 7)]);
        let find = |from, to| nearest(&shared, (0, from), (0, to));
        let rightwards = [(0, 9, 2), (2, 9, 1), (4, 9, 0)];
        let leftwards = [(9, 0, 0), (5, 0, 1), (3, 0, 2)];
        for (from, to, corner) in rightwards.into_iter().chain(leftwards) {
            assert_eq!(find(from, to), Some(corner));
        }
        let twice = bars(&[(9, 0, 0), (1, 0, 3), (1, 3, 5)]);
        assert_eq!(nearest(&twice, (0, 3), (2, 3)), Some(1));
        assert_eq!(nearest(&twice, (2, 3), (0, 3)), Some(1));
    }

    #[test]
    fn end_cells_do_not_count() {
        let ends = bars(&[(1, 1, 2), (1, 5, 6)]);
        for (from, to) in [(2, 5), (5, 2)] {
            assert_eq!(nearest(&ends, (1, from), (1, to)), None);
        }
        let ends = bars(&[(1, 0, 4), (5, 2, 6)]);
        for (from, to) in [(1, 5), (5, 1)] {
            assert_eq!(nearest(&ends, (from, 3), (to, 3)), None);
        }
    }

    /// Corner 0 covers the first cell or the second and counts by those between.
    #[test]
    fn a_bar_over_an_end_that_reaches_between() {
        let row = bars(&[(0, 2, 4), (0, 6, 6)]);
        let find = |from, to| nearest(&row, (0, from), (0, to));
        for (from, to, corner) in [(3, 9, 0), (4, 9, 1), (9, 3, 1)] {
            assert_eq!(find(from, to), Some(corner));
        }
        for (from, to) in [(6, 3), (2, 4), (4, 2), (5, 3)] {
            assert_eq!(find(from, to), Some(0));
        }
        assert_eq!(find(5, 4), None);
    }

    #[test]
    fn left_over_right_has_no_cell() {
        let none = bars(&[(0, 4, 3), (0, 5, 2), (0, u16::MAX, 0)]);
        for (from, to) in [(0, 9), (9, 0), (3, 5), (0, 65_535)] {
            assert_eq!(nearest(&none, (0, from), (0, to)), None);
        }
        let none = bars(&[(2, 4, 3), (3, 5, 2)]);
        assert!((0..9).all(|column| nearest(&none, (0, column), (9, column)).is_none()));
        let behind = bars(&[(0, 4, 3), (0, 4, 4)]);
        assert_eq!(nearest(&behind, (0, 0), (0, 9)), Some(1));
    }

    #[test]
    fn equal_and_neighbouring_cells() {
        let all = bars(&[(0, 0, 5), (1, 0, 5), (2, 0, 5), (3, 0, 5)]);
        for cell in [(0, 0), (0, 3), (1, 0), (2, 4)] {
            assert_eq!(nearest(&all, cell, cell), None);
            for other in [(cell.0 + 1, cell.1), (cell.0, cell.1 + 1)] {
                assert_eq!(nearest(&all, cell, other), None);
                assert_eq!(nearest(&all, other, cell), None);
            }
        }
        assert_eq!(nearest(&all, (1, 1), (3, 1)), Some(2));
        assert_eq!(nearest(&all, (1, 3), (1, 1)), Some(1));
    }

    /// Of the square's chart with 3 rows and 3 columns: 14, then 15, then 9.
    #[test]
    fn refusals_in_their_order() {
        let chart = placed_of(&Part::new(4, &[(0, 2)]));
        let mut spoilt = chart.clone();
        spoilt.bars[1].row = 3;
        let (bytes, spoilt) = (chart.bytes(), spoilt.bytes());
        let far = [3, 65_535, 65_536, 1 << 32, usize::MAX];
        let outside = far.iter().flat_map(|&far| [(far, 0), (0, far), (far, far)]);
        let other_line = [(1, 1), (2, 1), (1, 2), (2, 2)];
        for cell in outside.chain(other_line) {
            for (one, other) in [((0, 0), cell), (cell, (0, 0))] {
                let refusal = |bytes: &[u8]| nearest_bar(bytes, one, other).err();
                assert_eq!(refusal(&bytes), Some(Refusal::OutOfRange));
                assert_eq!(refusal(&spoilt), Some(Refusal::Bar));
                assert_eq!(refusal(&spoilt[1..]), Some(Refusal::ChartForm));
            }
        }
        let find = |first, second| nearest_bar(&bytes, first, second);
        assert_eq!(find((3, 3), (3, 3)), Err(Refusal::OutOfRange));
        assert_eq!(find((2, 2), (2, 0)), Ok(Some(2)));
        assert_eq!(find((0, 0), (2, 0)), Ok(None));
    }
}
