//! Whether a chart is true, and the part that it shows, looked up cell by cell.
//! Follows "The chart's bytes" of document 01, from "A chart is true", and "Read
//! a chart" under "Operations and their refusals".

use crate::answer::Refusal;
use crate::chart::{Bar, Chart, Stroke};
use crate::part::{any_cross, is_diagonal, lower_first, Corner, Pair, Part};

/// The corner whose bar covers each cell, row by row.
pub type Cells = Vec<Vec<Option<usize>>>;

/// The chart's cells, or none if the bars break their rule: left at most right,
/// within rows and columns, no cell shared.
pub fn cells(chart: &Chart) -> Option<Cells> {
    let empty_row = vec![None; usize::from(chart.columns)];
    let mut cells = vec![empty_row; usize::from(chart.rows)];
    for (corner, bar) in chart.bars.iter().enumerate() {
        if bar.left > bar.right {
            return None;
        }
        for column in bar.left..=bar.right {
            let row = cells.get_mut(usize::from(bar.row))?;
            let cell = row.get_mut(usize::from(column))?;
            if cell.replace(corner).is_some() {
                return None;
            }
        }
    }
    Some(cells)
}

/// The cells of a level stroke's row between its two bars: row and columns.
fn gap(one: Bar, other: Bar) -> (u16, std::ops::Range<u16>) {
    let (left, right) = if one.left < other.left {
        (one, other)
    } else {
        (other, one)
    };
    (left.row, left.right + 1..right.left)
}

/// The rows strictly between two bars.
fn rows_between(one: Bar, other: Bar) -> std::ops::Range<u16> {
    one.row.min(other.row) + 1..one.row.max(other.row)
}

/// The bars that a stroke joins.
fn bars_of(chart: &Chart, stroke: &Stroke) -> (Bar, Bar) {
    let bar = |corner| chart.bars[usize::from(corner)];
    (bar(stroke.a), bar(stroke.b))
}

/// Whether the stroke's bars fit: on one row with no bar between, or both with
/// the upright's column, on different rows with no bar between.
fn fits(chart: &Chart, cells: &Cells, stroke: &Stroke) -> bool {
    let free = |row: u16, column: u16| cells[usize::from(row)][usize::from(column)].is_none();
    let (one, other) = bars_of(chart, stroke);
    match stroke.column {
        None => {
            let (row, mut columns) = gap(one, other);
            one.row == other.row && columns.all(|column| free(row, column))
        }
        Some(column) => {
            one.row != other.row
                && (one.left..=one.right).contains(&column)
                && (other.left..=other.right).contains(&column)
                && rows_between(one, other).all(|row| free(row, column))
        }
    }
}

/// Whether no upright passes through the gap of a level stroke.
fn gaps_are_free(chart: &Chart) -> bool {
    let (level, upright): (Vec<_>, Vec<_>) = chart
        .strokes
        .iter()
        .partition(|stroke| stroke.column.is_none());
    level.iter().all(|stroke| {
        let (one, other) = bars_of(chart, stroke);
        let (row, columns) = gap(one, other);
        !upright.iter().any(|passing| {
            let (one, other) = bars_of(chart, passing);
            rows_between(one, other).contains(&row)
                && passing
                    .column
                    .is_some_and(|column| columns.contains(&column))
        })
    })
}

/// Whether the chart is true. Its strokes name corners that it has.
pub fn is_true(chart: &Chart) -> bool {
    let Some(cells) = cells(chart) else {
        return false;
    };
    let fits = |stroke: &Stroke| fits(chart, &cells, stroke);
    chart.strokes.iter().all(fits) && gaps_are_free(chart)
}

/// What the reader must find, rule by rule and cell by cell.
pub fn part_shown(chart: &Chart) -> Result<Part, Refusal> {
    let n = chart.bars.len() as Corner;
    let cells = cells(chart).ok_or(Refusal::Bar)?;
    let edges: Vec<Pair> = chart.strokes.iter().map(|s| (s.a, s.b)).collect();
    let named = edges.iter().all(|&(a, b)| a < b && b < n);
    let ascend = edges.windows(2).all(|two| two[0] < two[1]);
    if !named
        || !ascend
        || !chart
            .strokes
            .iter()
            .all(|stroke| fits(chart, &cells, stroke))
    {
        return Err(Refusal::Stroke);
    }
    if !gaps_are_free(chart) {
        return Err(Refusal::Gap);
    }
    let mut sides = (0..n).map(|i| lower_first((i, (i + 1) % n)));
    let diagonals: Vec<Pair> = edges
        .iter()
        .copied()
        .filter(|&e| is_diagonal(n, e))
        .collect();
    if !sides.all(|side| edges.contains(&side)) || any_cross(&diagonals) {
        return Err(Refusal::NotAPart);
    }
    Ok(Part::new(n, &diagonals))
}

/// Whether each column is named by exactly one upright.
pub fn fills_columns(chart: &Chart) -> bool {
    let mut named: Vec<u16> = chart
        .strokes
        .iter()
        .filter_map(|stroke| stroke.column)
        .collect();
    named.sort_unstable();
    named.into_iter().eq(0..chart.columns)
}

#[cfg(test)]
mod tests {
    use super::*;
    use crate::draw::{chart_of, placed, placed_of};
    use crate::plan::Pieces;
    use crate::random::Random;
    use crate::search::plans;
    use crate::shapes::{all_parts, part, HUNG, SHAPES, SIDE_BY_SIDE};

    /// The bars of the chart, each as row, left and right column.
    fn bars(chart: &Chart) -> Vec<(u16, u16, u16)> {
        let bars = chart.bars.iter();
        bars.map(|bar| (bar.row, bar.left, bar.right)).collect()
    }

    /// The triangle's chart as document 01 has it, with the empty row 1.
    const TRIANGLE: [u8; 43] = [
        0, 3, 0, 2, 0, 3, 0, 0, 0, 0, 0, 0, 0, 2, 0, 0, 0, 1, 0, 0, 0, 1, 0, 1, 1, 0, 0, 0, 1, 0,
        0, 0, 0, 0, 0, 2, 1, 0, 1, 0, 2, 0, 1,
    ];

    #[test]
    fn known_parts_by_document_01s_places() {
        let bars = |n, pairs: &[Pair]| bars(&placed_of(&Part::new(n, pairs)));
        assert_eq!(placed_of(&Part::new(3, &[])).bytes(), TRIANGLE);
        assert_eq!(
            bars(4, &[(0, 2)]),
            [(0, 0, 1), (2, 0, 0), (2, 1, 2), (0, 2, 2)]
        );
        assert_eq!(
            bars(5, &[(0, 3), (1, 3)]),
            [(0, 0, 3), (1, 1, 2), (1, 0, 0), (2, 0, 4), (0, 4, 4)]
        );
        assert_eq!(
            bars(5, &[(1, 4), (1, 3)]),
            [(0, 0, 0), (2, 0, 4), (1, 4, 4), (1, 2, 3), (0, 1, 4)]
        );
        assert_eq!(
            bars(11, &HUNG),
            [
                (0, 0, 12),
                (1, 10, 11),
                (3, 9, 10),
                (1, 0, 9),
                (4, 0, 1),
                (2, 1, 2),
                (4, 2, 5),
                (2, 4, 4),
                (2, 5, 6),
                (4, 6, 13),
                (0, 13, 13)
            ]
        );
        let six = placed_of(&Part::new(6, &[(0, 2), (2, 4), (0, 4)]));
        assert_eq!((six.rows, six.columns), (3, 6));
        let seven = placed_of(&Part::new(7, &[(0, 5), (1, 5), (1, 3), (3, 5)]));
        assert_eq!((seven.rows, seven.columns), (5, 7));
    }

    /// Request (v): "the known parts' rows .. follow".
    #[test]
    fn known_parts_as_drawn() {
        let chart = |n, pairs: &[Pair]| chart_of(&Part::new(n, pairs));
        let bars = |n, pairs: &[Pair]| bars(&chart(n, pairs));
        let mut triangle = TRIANGLE;
        (triangle[1], triangle[13]) = (2, 1);
        assert_eq!(chart(3, &[]).bytes(), triangle);
        // no stem and nothing hung: rows 0 and 2 are left
        assert_eq!(chart(4, &[(0, 2)]).rows, 2);
        assert_eq!(
            bars(4, &[(0, 2)]),
            [(0, 0, 1), (1, 0, 0), (1, 1, 2), (0, 2, 2)]
        );
        // bars on every row: a stem, and pieces hung on row 1 and on row 2D
        let full: [(Corner, &[Pair]); 4] = [
            (5, &[(0, 3), (1, 3)]),
            (5, &[(1, 4), (1, 3)]),
            (6, &[(0, 2), (2, 4), (0, 4)]),
            (11, &HUNG),
        ];
        for (n, pairs) in full {
            assert_eq!(chart(n, pairs), placed_of(&Part::new(n, pairs)));
        }
        // a piece hung on row 4, and no stem: rows 0, 2 and 4 are left
        let seven = [(0, 5), (1, 5), (1, 3), (3, 5)];
        assert_eq!(chart(7, &seven).rows, 3);
        assert_eq!(
            bars(7, &seven),
            [
                (0, 0, 5),
                (2, 0, 2),
                (1, 1, 1),
                (1, 2, 3),
                (1, 4, 4),
                (2, 3, 6),
                (0, 6, 6)
            ]
        );
        // row 1 goes; row 3 stays, as row 2, beside the piece that has no bar on it
        assert_eq!(chart(12, &SIDE_BY_SIDE).rows, 4);
        assert_eq!(
            bars(12, &SIDE_BY_SIDE),
            [
                (0, 0, 12),
                (3, 0, 5),
                (2, 4, 4),
                (2, 2, 3),
                (2, 1, 1),
                (1, 1, 6),
                (3, 6, 9),
                (1, 8, 8),
                (1, 9, 10),
                (1, 11, 11),
                (3, 10, 13),
                (0, 13, 13)
            ]
        );
    }

    #[test]
    fn charts_are_true_and_fill_their_columns() {
        let mut random = Random::new(4);
        let mut parts: Vec<Part> = (3..=9).flat_map(all_parts).collect();
        for round in 0..400 {
            let n = random.between(10, if round < 360 { 100 } else { 1024 });
            parts.push(part(SHAPES[round % SHAPES.len()], n as u16, &mut random));
        }
        for part in parts {
            let counts = Pieces::of(&part).counts();
            let (placed, drawn) = (placed_of(&part), chart_of(&part));
            assert_eq!(placed.rows, 2 * counts.levels + 1);
            assert!(drawn.rows <= 2 * counts.levels + 1 && !drawn.has_empty_row());
            for chart in [placed, drawn] {
                assert!(is_true(&chart) && fills_columns(&chart), "{part:?}");
                let touching = |stroke: &Stroke| {
                    let (one, other) = bars_of(&chart, stroke);
                    stroke.column.is_some() || gap(one, other).1.is_empty()
                };
                assert!(chart.strokes.iter().all(touching));
                assert_eq!(chart.columns, part.n - 2 + counts.umbrellas + counts.stems);
            }
        }
    }

    #[test]
    fn the_chart_of_any_plan_is_true() {
        for part in (3..=8).flat_map(all_parts) {
            for plan in plans(&part, (0, part.n - 1)) {
                let placed = placed(&part, &plan);
                for chart in [placed.closed(), placed] {
                    assert!(is_true(&chart) && fills_columns(&chart), "{plan:?}");
                }
            }
        }
    }
}
