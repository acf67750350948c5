//! Charts drawn otherwise: changes that keep a chart true, and others that break
//! a rule. They make the charts that the reader is tested with. The rules are
//! those of "A chart is true" under "The chart's bytes" of document 01.

use crate::chart::{Bar, Chart, Stroke};
use crate::draw::chart_of;
use crate::part::{lower_first, Corner};
use crate::random::Random;
use crate::shapes::{part, Shape};

/// Reversed left to right.
pub fn mirrored(chart: &Chart) -> Chart {
    let column = |column: u16| chart.columns - 1 - column;
    let mut changed = chart.clone();
    for (bar, old) in changed.bars.iter_mut().zip(&chart.bars) {
        (bar.left, bar.right) = (column(old.right), column(old.left));
    }
    for stroke in &mut changed.strokes {
        stroke.column = stroke.column.map(column);
    }
    changed
}

/// Upside down.
pub fn upside_down(chart: &Chart) -> Chart {
    let mut changed = chart.clone();
    for bar in &mut changed.bars {
        bar.row = chart.rows - 1 - bar.row;
    }
    changed
}

/// With every bar and upright in the row and the column that are given for its own.
fn replaced(
    chart: &Chart,
    row: impl Fn(u16) -> u16,
    column: impl Fn(u16) -> u16,
    (rows, columns): (u16, u16),
) -> Chart {
    let mut changed = chart.clone();
    (changed.rows, changed.columns) = (rows, columns);
    for bar in &mut changed.bars {
        *bar = Bar {
            row: row(bar.row),
            left: column(bar.left),
            right: column(bar.right),
        };
    }
    for stroke in &mut changed.strokes {
        stroke.column = stroke.column.map(&column);
    }
    changed
}

/// With empty rows and columns put in at random, `most` at a place.
pub fn stretched(chart: &Chart, most: usize, random: &mut Random) -> Chart {
    let mut places = |count: u16| -> Vec<u16> {
        let mut next = random.below(most + 1) as u16;
        let mut all = Vec::new();
        for _ in 0..=count {
            all.push(next);
            next += 1 + random.below(most + 1) as u16;
        }
        all
    };
    let (rows, columns) = (places(chart.rows), places(chart.columns));
    let row = |row: u16| rows[usize::from(row)];
    let column = |column: u16| columns[usize::from(column)];
    let ends = (row(chart.rows), column(chart.columns));
    replaced(chart, row, column, ends)
}

/// With empty rows put in above and empty columns to the left.
pub fn shifted(chart: &Chart, rows: u16, columns: u16) -> Chart {
    let ends = (chart.rows + rows, chart.columns + columns);
    replaced(chart, |row| row + rows, |column| column + columns, ends)
}

/// With an empty row and an empty column on every side.
pub fn framed(chart: &Chart) -> Chart {
    let mut changed = shifted(chart, 1, 1);
    (changed.rows, changed.columns) = (changed.rows + 1, changed.columns + 1);
    changed
}

/// Spread over as many rows and columns as a chart can have, from the first to the
/// last of them.
pub fn spread(chart: &Chart) -> Chart {
    let place = |count: u16| {
        let last = u32::from(count - 1).max(1);
        move |place: u16| (u32::from(place) * u32::from(u16::MAX - 1) / last) as u16
    };
    let ends = (u16::MAX, u16::MAX);
    replaced(chart, place(chart.rows), place(chart.columns), ends)
}

/// With the bars cut back to their uprights: level strokes then have gaps.
pub fn cut_back(chart: &Chart) -> Chart {
    let mut changed = chart.clone();
    for (corner, bar) in (0..).zip(&mut changed.bars) {
        let own = |stroke: &&Stroke| stroke.a == corner || stroke.b == corner;
        let columns = chart.strokes.iter().filter(own).filter_map(|s| s.column);
        bar.left = columns.clone().min().unwrap_or(bar.left);
        bar.right = columns.max().unwrap_or(bar.right);
    }
    changed
}

/// With corner k called `names[k]`.
pub fn renamed(chart: &Chart, names: &[Corner]) -> Chart {
    let mut changed = chart.clone();
    for (bar, &name) in chart.bars.iter().zip(names) {
        changed.bars[usize::from(name)] = *bar;
    }
    for stroke in &mut changed.strokes {
        let name = |corner: Corner| names[usize::from(corner)];
        (stroke.a, stroke.b) = lower_first((name(stroke.a), name(stroke.b)));
    }
    changed.strokes.sort_by_key(|stroke| (stroke.a, stroke.b));
    changed
}

/// With the corners renumbered round the outline, and the other way round if
/// asked for.
pub fn rotated(chart: &Chart, turn: usize, backwards: bool) -> Chart {
    let n = chart.bars.len();
    let name = |k: usize| (if backwards { n - 1 - k } else { k } + turn) % n;
    let names: Vec<Corner> = (0..n).map(|k| name(k) as Corner).collect();
    renamed(chart, &names)
}

/// With the numbers of two corners exchanged.
pub fn exchanged(chart: &Chart, one: usize, other: usize) -> Chart {
    let mut names: Vec<Corner> = (0..chart.bars.len() as Corner).collect();
    names.swap(one, other);
    renamed(chart, &names)
}

/// With one number of a bar, a stroke or the head changed by a little or a lot.
pub fn nudged(chart: &Chart, random: &mut Random) -> Chart {
    let mut changed = chart.clone();
    let bar = random.below(chart.bars.len());
    let stroke = random.below(chart.strokes.len());
    let mut nudge = |number: &mut u16| {
        *number = match random.below(8) {
            0 => random.bits() as u16,
            1 => 0,
            2..=4 => number.wrapping_add(1),
            _ => number.wrapping_sub(1),
        }
    };
    match (bar + stroke) % 9 {
        0 => nudge(&mut changed.bars[bar].row),
        1 | 2 => nudge(&mut changed.bars[bar].left),
        3 | 4 => nudge(&mut changed.bars[bar].right),
        5 => nudge(&mut changed.strokes[stroke].b),
        6 => nudge(&mut changed.strokes[stroke].a),
        7 => changed.strokes[stroke].column.iter_mut().for_each(nudge),
        _ => nudge(&mut changed.columns),
    }
    changed
}

/// With a bar made longer at one end, by a few cells.
pub fn lengthened(chart: &Chart, random: &mut Random) -> Chart {
    let mut changed = chart.clone();
    let bar = random.below(chart.bars.len());
    let (bar, by) = (&mut changed.bars[bar], random.between(1, 3) as u16);
    if random.coin() {
        bar.left = bar.left.saturating_sub(by);
    } else {
        bar.right = (bar.right + by).min(chart.columns - 1);
    }
    changed
}

/// The columns that lie in both bars.
fn common_columns(one: Bar, other: Bar) -> Vec<u16> {
    (one.left.max(other.left)..=one.right.min(other.right)).collect()
}

/// With an upright, if the stroke drawn is one, in another column of its bars.
pub fn moved(chart: &Chart, random: &mut Random) -> Chart {
    let mut changed = chart.clone();
    let stroke = random.below(chart.strokes.len());
    let Stroke { a, b, column } = &mut changed.strokes[stroke];
    let bar = |corner: Corner| chart.bars[usize::from(corner)];
    let columns = common_columns(bar(*a), bar(*b));
    if column.is_some() && !columns.is_empty() {
        *column = Some(*random.pick(&columns));
    }
    changed
}

/// A chart of bars strewn at random and strokes between bars that see each other.
/// Most show no part, and some have an upright in a level gap.
pub fn strewn(n: usize, random: &mut Random) -> Chart {
    let rows = random.between(2, 5);
    let mut next_free = vec![0; rows];
    let mut bars = Vec::new();
    for _ in 0..n {
        let row = random.below(rows);
        let left = next_free[row] + random.below(3) as u16;
        let right = left + random.below(5) as u16;
        next_free[row] = right + 1;
        bars.push(Bar {
            row: row as u16,
            left,
            right,
        });
    }
    random.shuffle(&mut bars);
    let columns = *next_free.iter().max().expect("there are rows");
    let mut strokes = sights(&bars, random);
    random.shuffle(&mut strokes);
    strokes.truncate(2 * n - 3);
    while strokes.len() < 2 * n - 3 {
        let (a, b) = (random.below(n) as Corner, random.below(n) as Corner);
        let column = Some(random.below(columns.into()) as u16);
        strokes.push(Stroke { a, b, column });
    }
    strokes.sort_by_key(|stroke| (stroke.a, stroke.b));
    Chart {
        rows: rows as u16,
        columns,
        bars,
        strokes,
    }
}

/// A stroke for every two bars that see each other along a row or a column.
fn sights(bars: &[Bar], random: &mut Random) -> Vec<Stroke> {
    let mut strokes = Vec::new();
    let covered = |row, column| {
        let covers = |bar: &Bar| bar.row == row && bar.left <= column && column <= bar.right;
        bars.iter().any(covers)
    };
    for (a, &one) in bars.iter().enumerate() {
        for (b, &other) in bars.iter().enumerate().skip(a + 1) {
            let column = if one.row == other.row {
                let (from, to) = (one.right.min(other.right), one.left.max(other.left));
                if (from + 1..to).any(|column| covered(one.row, column)) {
                    continue;
                }
                None
            } else {
                let (upper, lower) = (one.row.min(other.row), one.row.max(other.row));
                let mut columns = common_columns(one, other);
                columns.retain(|&column| !(upper + 1..lower).any(|row| covered(row, column)));
                if columns.is_empty() {
                    continue;
                }
                Some(*random.pick(&columns))
            };
            strokes.push(Stroke {
                a: a as Corner,
                b: b as Corner,
                column,
            });
        }
    }
    strokes
}

/// The chart with a few random changes; often some number is wrong at the end.
pub fn changed(chart: &Chart, random: &mut Random) -> Chart {
    let mut changed = chart.clone();
    for _ in 0..random.below(5) {
        changed = match random.below(10) {
            0 => exchanged(&changed, 0, random.below(chart.bars.len())),
            1 => rotated(&changed, random.below(chart.bars.len()), random.coin()),
            2 => mirrored(&changed),
            3 => upside_down(&changed),
            4 => cut_back(&changed),
            5 => stretched(&changed, 2, random),
            6 | 7 => lengthened(&changed, random),
            _ => moved(&changed, random),
        };
        if changed.bars.iter().any(|bar| bar.left > bar.right) {
            break;
        }
    }
    for _ in 0..random.below(3) {
        changed = nudged(&changed, random);
    }
    changed
}

/// A chart of a small part of the shape, as drawn or with its bars cut back, or of
/// bars strewn at random, with a few random changes.
pub fn any_small_chart(shape: Shape, random: &mut Random) -> Chart {
    let n = random.between(3, 14);
    let part = part(shape, n as Corner, random);
    let chart = match random.below(3) {
        0 => chart_of(&part),
        1 => cut_back(&chart_of(&part)),
        _ => strewn(random.between(3, 7), random),
    };
    changed(&chart, random)
}
