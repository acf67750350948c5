//! The nearest bar (request (x)): the library's `bend_nearest_bar` beside the model,
//! on charts of all kinds.

use super::checks::{hex, on_a_small_stack, Failure, Outcome};
use super::read_chart::{any_chart, both_charts, many_charts, ACCEPTED, OTHERS};
use super::sheets::any_part;
use super::Tests;
use crate::library;
use bend_tests::changes::{
    any_small_chart, changed, cut_back, framed, shifted, spread, stretched, strewn,
};
use bend_tests::chart::Chart;
use bend_tests::draw::chart_of;
use bend_tests::follow::followed;
use bend_tests::nearest::{nearest_bar, Cell, Found};
use bend_tests::part::{Corner, Part};
use bend_tests::random::Random;
use bend_tests::shapes::{all_parts, part, SHAPES};
use std::hint::black_box;

pub fn run(tests: &mut Tests) {
    every_two_cells(tests);
    strokes_followed(tests);
    large_charts(tests);
    charts_drawn_otherwise(tests);
    changed_charts(tests);
}

/// What is found, as the library packs it.
fn packed(found: Found) -> u64 {
    match found {
        Ok(None) => 0,
        Ok(Some(corner)) => (u64::from(corner) + 1) << 16,
        Err(refusal) => u64::from(refusal.number()),
    }
}

/// The library gives this answer between the two cells, and leaves the chart as it was.
pub fn gives(bytes: &[u8], first: Cell, second: Cell, expected: Found) -> Outcome {
    let expected = packed(expected);
    let given = bytes.to_vec();
    let answer = library::nearest_bar(&given, first, second);
    let given = black_box(given);
    if answer == expected && given == bytes {
        return Ok(());
    }
    let told = |answer: u64| match (answer & 0xffff, answer >> 16) {
        (number, 0) => format!("number {number}, no bar"),
        (number, found) => format!("number {number}, corner {}", found - 1),
    };
    let changed = if given == bytes {
        ""
    } else {
        ", input changed"
    };
    Err(Failure {
        input: format!("from {first:?} to {second:?} on {}", hex(bytes)),
        library: told(answer) + changed,
        model: told(expected),
    })
}

/// Both sides between two cells, from the first to the second and back.
pub fn same(bytes: &[u8], first: Cell, second: Cell) -> Outcome {
    gives(bytes, first, second, nearest_bar(bytes, first, second))?;
    gives(bytes, second, first, nearest_bar(bytes, second, first))
}

/// Any cell, or one at the end of a bar or next to it. A few lie outside the chart.
fn any_cell(chart: &Chart, random: &mut Random) -> Cell {
    let (rows, columns) = (usize::from(chart.rows), usize::from(chart.columns));
    if random.below(4) == 0 {
        return (random.below(rows + 1), random.below(columns + 1));
    }
    let bar = random.pick(&chart.bars);
    let end = if random.coin() { bar.left } else { bar.right };
    let column = (usize::from(end) + random.below(3)).saturating_sub(1);
    (usize::from(bar.row), column)
}

/// Both sides between so many times two cells of a row or column of the chart.
pub fn lines(chart: &Chart, count: usize, random: &mut Random) -> Outcome {
    let bytes = chart.bytes();
    for _ in 0..count {
        let (first, other) = (any_cell(chart, random), any_cell(chart, random));
        let second = if random.coin() {
            (first.0, other.1)
        } else {
            (other.0, first.1)
        };
        same(&bytes, first, second)?;
    }
    Ok(())
}

/// The cells of the chart, and those of a row below it and a column to the right.
pub fn cells_and_margin(chart: &Chart) -> Vec<Cell> {
    let (rows, columns) = (usize::from(chart.rows), usize::from(chart.columns));
    let row = |row| (0..=columns).map(move |column| (row, column));
    (0..=rows).flat_map(row).collect()
}

/// Both sides between every two of those cells, of one row or column or not.
pub fn every_two(chart: &Chart) -> Outcome {
    let bytes = chart.bytes();
    let cells = cells_and_margin(chart);
    for (i, &first) in cells.iter().enumerate() {
        let mut others = cells[i..].iter();
        others.try_for_each(|&second| same(&bytes, first, second))?;
    }
    Ok(())
}

fn every_two_cells(tests: &mut Tests) {
    for n in 3..=7 {
        let name = format!("nearest_bar: every two cells, all parts of {n} corners");
        tests.test(&name, || {
            let charts = all_parts(n).into_iter().flat_map(|part| both_charts(&part));
            charts.into_iter().try_for_each(|chart| every_two(&chart))
        });
    }
    tests.test("nearest_bar: every two cells of strewn bars", || {
        let mut random = Random::new(371);
        for _ in 0..150 {
            every_two(&strewn(random.between(3, 8), &mut random))?;
        }
        Ok(())
    });
}

/// No bar stands between the bars of a stroke; one cell on, the second is found.
fn strokes_followed(tests: &mut Tests) {
    tests.test("nearest_bar: strokes followed from bar to bar", || {
        let mut random = Random::new(372);
        let mut parts: Vec<Part> = (3..=7).flat_map(all_parts).collect();
        for n in [20, 60, 200] {
            parts.extend(SHAPES.map(|shape| part(shape, n, &mut random)));
        }
        for [drawn, placed] in parts.iter().map(both_charts) {
            let wide = stretched(&drawn, 3, &mut random);
            for chart in [&drawn, &placed, &wide, &cut_back(&wide)].map(framed) {
                let bytes = chart.bytes();
                for (first, second, behind, corner) in followed(&chart) {
                    gives(&bytes, first, second, Ok(None))?;
                    gives(&bytes, first, behind, Ok(Some(corner)))?;
                }
            }
        }
        Ok(())
    });
}

fn large_charts(tests: &mut Tests) {
    tests.test("nearest_bar: each of 1,024 corners is found", || {
        let mut random = Random::new(380);
        let chart = framed(&chart_of(&any_part(1024, &mut random)));
        let bytes = chart.bytes();
        for (corner, bar) in (0..).zip(&chart.bars) {
            let (row, column) = (usize::from(bar.row), usize::from(bar.left));
            let found = |first, second| gives(&bytes, first, second, Ok(Some(corner)));
            found((row, column - 1), (row, column + 1))?;
            found((row - 1, column), (row + 1, column))?;
            found((row + 1, column), (row - 1, column))?;
        }
        Ok(())
    });
    for shape in SHAPES {
        let name = format!("nearest_bar: {shape:?}, of up to 1,024 corners");
        tests.test(&name, || {
            let mut random = Random::new(373);
            for round in 0..40 {
                let n = match round {
                    0..=3 => 1024,
                    4 | 5 => 1023,
                    _ => random.between(10, 1024) as Corner,
                };
                let charts = both_charts(&part(shape, n, &mut random));
                lines(random.pick(&charts), 12, &mut random)?;
            }
            Ok(())
        });
    }
    let name = "nearest_bar: every shape of 1,024 corners on a small stack";
    tests.test(name, || {
        on_a_small_stack(|| {
            let mut random = Random::new(374);
            for shape in SHAPES {
                lines(&chart_of(&part(shape, 1024, &mut random)), 4, &mut random)?;
            }
            Ok(())
        })
    });
}

fn charts_drawn_otherwise(tests: &mut Tests) {
    for (name, change) in ACCEPTED.into_iter().chain(OTHERS) {
        tests.test(&format!("nearest_bar: {name}"), || {
            let mut random = Random::new(375);
            for chart in many_charts(&mut random) {
                let count = if chart.bars.len() > 100 { 4 } else { 12 };
                lines(&change(&chart, &mut random), count, &mut random)?;
            }
            Ok(())
        });
    }
    tests.test("nearest_bar: hundreds of rows", || {
        let mut random = Random::new(376);
        for _ in 0..200 {
            let chart = any_chart(60, &mut random);
            lines(&stretched(&chart, 150, &mut random), 12, &mut random)?;
        }
        Ok(())
    });
    type Far = fn(&Chart) -> Chart;
    let farthest: [(&str, Far); 2] = [
        ("spread over 65,535 rows and columns", spread),
        ("in the last of 65,535 rows and columns", |chart| {
            shifted(chart, u16::MAX - chart.rows, u16::MAX - chart.columns)
        }),
    ];
    for (name, far) in farthest {
        tests.test(&format!("nearest_bar: {name}"), || {
            let mut random = Random::new(377);
            for most in [12, 100, 1024] {
                for _ in 0..40 {
                    lines(&far(&any_chart(most, &mut random)), 8, &mut random)?;
                }
            }
            lines(
                &far(&chart_of(&any_part(1024, &mut random))),
                8,
                &mut random,
            )
        });
    }
}

fn changed_charts(tests: &mut Tests) {
    tests.test("nearest_bar: small charts changed at random", || {
        let mut random = Random::new(378);
        for round in 0..30_000 {
            let chart = any_small_chart(SHAPES[round % SHAPES.len()], &mut random);
            lines(&chart, 3, &mut random)?;
        }
        Ok(())
    });
    tests.test("nearest_bar: large charts changed at random", || {
        let mut random = Random::new(379);
        for _ in 0..300 {
            let chart = any_chart(1024, &mut random);
            lines(&changed(&chart, &mut random), 3, &mut random)?;
        }
        Ok(())
    });
}
