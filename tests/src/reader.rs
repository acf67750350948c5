//! Reading a chart back to its part's sheet.
//! Follows "Read a chart" under "Operations and their refusals" of document 01,
//! with the rules of "A chart is true". Each rule is tested on the whole chart
//! before the next; sorted bars and a sweep over the columns make it quick. A part
//! read from a chart has no angles (request (xi)). "Empty rows and columns are
//! allowed", and request (v) leaves that: "Charts handed in may still have them."

use crate::answer::{Refusal, Written};
use crate::chart::{Bar, Chart, Stroke};
use crate::part::{any_cross_ascending, is_side, Corner, Pair, Part};
use crate::sheet::write_normal;
use std::collections::BTreeMap;
use std::ops::Bound::Excluded;

/// The corners by their bars' rows, and from left to right within a row.
fn by_rows(bars: &[Bar]) -> Vec<usize> {
    let mut corners: Vec<usize> = (0..bars.len()).collect();
    corners.sort_unstable_by_key(|&corner| (bars[corner].row, bars[corner].left));
    corners
}

/// Refusal 15: left is at most right, bars lie within rows and columns, and no
/// two share a cell.
fn check_bars(chart: &Chart, by_rows: &[usize]) -> Result<(), Refusal> {
    let lies_within =
        |bar: &Bar| bar.left <= bar.right && bar.row < chart.rows && bar.right < chart.columns;
    let apart = |two: &[usize]| {
        let (one, next) = (chart.bars[two[0]], chart.bars[two[1]]);
        one.row != next.row || one.right < next.left
    };
    if chart.bars.iter().all(lies_within) && by_rows.windows(2).all(apart) {
        Ok(())
    } else {
        Err(Refusal::Bar)
    }
}

/// An upright: its column and its two rows, the upper first.
#[derive(Clone, Copy)]
struct Upright {
    column: u16,
    rows: (u16, u16),
}

/// A run of cells on a row.
#[derive(Clone, Copy)]
struct Run {
    row: u16,
    first: u16,
    last: u16,
}

/// Whether an upright, strictly between its rows, passes through one of the runs.
/// The uprights ascend by column.
fn any_passes(uprights: &[Upright], runs: &[Run]) -> bool {
    let (mut starting, mut ending) = (runs.to_vec(), runs.to_vec());
    starting.sort_unstable_by_key(|run| run.first);
    ending.sort_unstable_by_key(|run| run.last);
    let mut starting = starting.iter().peekable();
    let mut ending = ending.iter().peekable();
    // For each row, how many of its runs cover the column at hand.
    let mut covering: BTreeMap<u16, usize> = BTreeMap::new();
    for &Upright { column, rows } in uprights {
        while let Some(run) = starting.next_if(|run| run.first <= column) {
            *covering.entry(run.row).or_default() += 1;
        }
        while let Some(run) = ending.next_if(|run| run.last < column) {
            let count = covering.get_mut(&run.row).expect("the run has started");
            *count -= 1;
            if *count == 0 {
                covering.remove(&run.row);
            }
        }
        let between = (Excluded(rows.0), Excluded(rows.1));
        if covering.range(between).next().is_some() {
            return true;
        }
    }
    false
}

/// Refusal 16, then 17: strokes ascend and name two corners each, the lower
/// first; a level stroke joins neighbours on a row; an upright lies in both its
/// bars, on different rows, with no bar between; no upright passes through the
/// gap of a level stroke.
fn check_strokes(chart: &Chart, by_rows: &[usize]) -> Result<(), Refusal> {
    let n = chart.bars.len();
    let named = |stroke: &Stroke| stroke.a < stroke.b && usize::from(stroke.b) < n;
    let ascend = |two: &[Stroke]| (two[0].a, two[0].b) < (two[1].a, two[1].b);
    if !chart.strokes.iter().all(named) || !chart.strokes.windows(2).all(ascend) {
        return Err(Refusal::Stroke);
    }
    let mut place = vec![0; n];
    for (i, &corner) in by_rows.iter().enumerate() {
        place[corner] = i;
    }
    let mut uprights = Vec::new();
    let mut gaps = Vec::new();
    for stroke in &chart.strokes {
        let (a, b) = (usize::from(stroke.a), usize::from(stroke.b));
        let (one, other) = (chart.bars[a], chart.bars[b]);
        match stroke.column {
            None if one.row == other.row && place[a].abs_diff(place[b]) == 1 => {
                let (left, right) = (one.right.min(other.right), one.left.max(other.left));
                if left + 1 < right {
                    gaps.push(Run {
                        row: one.row,
                        first: left + 1,
                        last: right - 1,
                    });
                }
            }
            Some(column)
                if one.row != other.row
                    && (one.left..=one.right).contains(&column)
                    && (other.left..=other.right).contains(&column) =>
            {
                let rows = (one.row.min(other.row), one.row.max(other.row));
                uprights.push(Upright { column, rows });
            }
            _ => return Err(Refusal::Stroke),
        }
    }
    uprights.sort_unstable_by_key(|upright| upright.column);
    let bars: Vec<Run> = chart
        .bars
        .iter()
        .map(|bar| Run {
            row: bar.row,
            first: bar.left,
            last: bar.right,
        })
        .collect();
    if any_passes(&uprights, &bars) {
        return Err(Refusal::Stroke);
    }
    if any_passes(&uprights, &gaps) {
        return Err(Refusal::Gap);
    }
    Ok(())
}

/// Refusal 18: the strokes are all sides of the part, and diagonals that do not
/// cross.
fn part_of(chart: &Chart) -> Result<Part, Refusal> {
    let n = chart.bars.len() as Corner;
    let edges = chart.strokes.iter().map(|stroke| (stroke.a, stroke.b));
    let (sides, diagonals): (Vec<Pair>, Vec<Pair>) = edges.partition(|&edge| is_side(n, edge));
    if sides.len() != usize::from(n) || any_cross_ascending(&diagonals) {
        return Err(Refusal::NotAPart);
    }
    let angles = None;
    Ok(Part {
        n,
        diagonals,
        angles,
    })
}

/// The chart in the bytes, its bars tested, and its corners by rows; or refusal 14
/// or 15.
pub fn with_bars_tested(bytes: &[u8]) -> Result<(Chart, Vec<usize>), Refusal> {
    let chart = Chart::from_bytes(bytes)?;
    let by_rows = by_rows(&chart.bars);
    check_bars(&chart, &by_rows)?;
    Ok((chart, by_rows))
}

/// The part that a chart's bytes show, or the first refusal that applies.
pub fn read(bytes: &[u8]) -> Result<Part, Refusal> {
    let (chart, by_rows) = with_bars_tested(bytes)?;
    check_strokes(&chart, &by_rows)?;
    part_of(&chart)
}

/// Read a chart: its bytes to the normal sheet of its part.
pub fn read_chart(bytes: &[u8], out: &mut [u8]) -> Written {
    write_normal(&read(bytes)?, out)
}

#[cfg(test)]
mod tests {
    use super::*;
    use crate::changes::*;
    use crate::draw::{chart_of, placed_of};
    use crate::random::Random;
    use crate::shapes::{all_parts, SHAPES};
    use crate::truth::part_shown;

    #[test]
    fn charts_drawn_otherwise_are_read_back() {
        let mut random = Random::new(5);
        for part in (3..=8).flat_map(all_parts) {
            let chart = chart_of(&part);
            let placed = placed_of(&part);
            let stretched = stretched(&mirrored(&chart), 3, &mut random);
            for chart in [&chart, &placed, &mirrored(&chart), &upside_down(&stretched)] {
                assert_eq!(read(&chart.bytes()), Ok(part.clone()));
            }
            for turn in 0..usize::from(part.n) {
                let turned = crate::shapes::rotated(&part, turn as Corner);
                assert_eq!(read(&rotated(&chart, turn, false).bytes()), Ok(turned));
            }
        }
    }

    #[test]
    fn quick_reading_finds_what_cells_show() {
        let mut random = Random::new(6);
        let mut seen = [0; 19];
        for round in 0..60_000 {
            let chart = any_small_chart(SHAPES[round % SHAPES.len()], &mut random);
            let quick = read(&chart.bytes());
            assert_eq!(quick, part_shown(&chart), "{chart:?}");
            seen[quick.map_or_else(|refusal| usize::from(refusal.number()), |_| 0)] += 1;
        }
        let expected = [0, 15, 16, 17, 18];
        assert!(
            expected.iter().all(|&number| seen[number] > 100),
            "{seen:?}"
        );
    }
}
