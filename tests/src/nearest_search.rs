//! The nearest bar of request (x) by two other ways, to test the model with: by the
//! distances of all bars, and by the cells in which a chart's truth is looked up.

use crate::answer::Refusal;
use crate::chart::{Bar, Chart};
use crate::nearest::{Cell, Found};
use crate::part::Corner;
use crate::truth::cells;

/// By distances: of each bar the places on the line strictly between the two cells;
/// the least distance of one from the first cell, then the lowest corner.
pub fn by_distance(bars: &[Bar], first: Cell, second: Cell) -> Option<Corner> {
    let along_row = first.0 == second.0;
    let place = |cell: Cell| if along_row { cell.1 } else { cell.0 };
    let (from, to) = (place(first), place(second));
    let away = |bar: &Bar| {
        let [row, left, right] = [bar.row, bar.left, bar.right].map(usize::from);
        let (places, meets) = if along_row {
            (left..right + 1, row == first.0)
        } else {
            (row..row + 1, left <= first.1 && first.1 <= right)
        };
        let start = places.start.max(from.min(to) + 1);
        let end = places.end.min(from.max(to));
        let nearest = if from < to {
            start
        } else {
            end.saturating_sub(1)
        };
        (meets && start < end).then(|| from.abs_diff(nearest))
    };
    let found = (0..).zip(bars);
    let found = found.filter_map(|(corner, bar)| Some((away(bar)?, corner)));
    found.min().map(|(_, corner)| corner)
}

/// By the chart's cells: a bar breaks its rule if there are none; else the first corner
/// on the line from the first cell to the second.
pub fn by_cells(chart: &Chart, first: Cell, second: Cell) -> Found {
    let cells = cells(chart).ok_or(Refusal::Bar)?;
    let cell = |(row, column): Cell| cells.get(row)?.get(column);
    if cell(first).is_none() || cell(second).is_none() {
        return Err(Refusal::OutOfRange);
    }
    let (line, from, to) = if first.0 == second.0 {
        (cells[first.0].clone(), first.1, second.1)
    } else if first.1 == second.1 {
        let column = cells.iter().map(|row| row[first.1]);
        (column.collect(), first.0, second.0)
    } else {
        return Err(Refusal::OutOfRange);
    };
    let mut corners = line[..from.max(to)].iter().skip(from.min(to) + 1).flatten();
    let found = if from < to {
        corners.next()
    } else {
        corners.next_back()
    };
    Ok(found.map(|&corner| corner as Corner))
}

#[cfg(test)]
mod tests {
    use super::*;
    use crate::changes::any_small_chart;
    use crate::nearest::{nearest, nearest_bar};
    use crate::random::Random;
    use crate::shapes::SHAPES;

    /// Two of so many rows and columns of cells; of one row or column, if asked for.
    fn two_cells(rows: usize, columns: usize, in_line: bool, random: &mut Random) -> [Cell; 2] {
        let cell = [(); 2].map(|()| (random.below(rows), random.below(columns)));
        match random.below(if in_line { 2 } else { 3 }) {
            0 => [cell[0], (cell[0].0, cell[1].1)],
            1 => [cell[0], (cell[1].0, cell[0].1)],
            _ => cell,
        }
    }

    #[test]
    fn as_the_least_distance_has_it() {
        let mut random = Random::new(31);
        let mut seen = [0; 2];
        for _ in 0..5_000 {
            let bar = |_| Bar {
                row: random.below(6) as u16,
                left: random.below(10) as u16,
                right: random.below(12) as u16,
            };
            let bars: Vec<Bar> = (0..12).map(bar).collect();
            let bars = &bars[random.below(12)..];
            for _ in 0..12 {
                let [first, second] = two_cells(7, 13, true, &mut random);
                let found = nearest(bars, first, second);
                let expected = by_distance(bars, first, second);
                assert_eq!(found, expected, "{bars:?} {first:?} {second:?}");
                seen[usize::from(found.is_some())] += 1;
            }
        }
        assert!(seen.iter().all(|&count| count > 10_000), "{seen:?}");
    }

    #[test]
    fn finds_what_cells_show() {
        let mut random = Random::new(32);
        let mut seen = [0; 4];
        for round in 0..40_000 {
            let chart = any_small_chart(SHAPES[round % SHAPES.len()], &mut random);
            let (rows, columns) = (usize::from(chart.rows), usize::from(chart.columns));
            let [first, second] = two_cells(rows + 1, columns + 1, false, &mut random);
            let found = nearest_bar(&chart.bytes(), first, second);
            let expected = by_cells(&chart, first, second);
            assert_eq!(found, expected, "{chart:?} {first:?} {second:?}");
            seen[match found {
                Ok(corner) => usize::from(corner.is_some()),
                Err(refusal) => 2 + usize::from(refusal == Refusal::Bar),
            }] += 1;
        }
        assert!(seen.iter().all(|&count| count > 1000), "{seen:?}");
    }
}
