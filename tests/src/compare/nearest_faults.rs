//! The nearest bar on faulty charts and between faulty cells: 14 and 15 as in Read a
//! chart, then 9. Charts that Read a chart refuses by 16, 17 or 18 are answered.

use super::chart_faults::{
    heads_and_map_bytes, square, square_with_empty_row, square_with_gap, FAULTS,
};
use super::checks::Outcome;
use super::nearest::{cells_and_margin, every_two, gives, lines, same};
use super::read_chart::{self, both_charts, damaged_charts};
use super::Tests;
use bend_tests::answer::Refusal;
use bend_tests::changes::spread;
use bend_tests::chart::Chart;
use bend_tests::nearest::Cell;
use bend_tests::random::Random;
use bend_tests::shapes::all_parts;

pub fn run(tests: &mut Tests) {
    faults(tests);
    heads_and_map_bytes(tests, "nearest_bar", |bytes| {
        gives(bytes, (0, 0), (0, 2), Err(Refusal::ChartForm))?;
        gives(bytes, (9, 9), (usize::MAX, 0), Err(Refusal::ChartForm))
    });
    damaged_charts(
        tests,
        "nearest_bar",
        |bytes, _, random| match Chart::from_bytes(bytes) {
            Ok(chart) => lines(&chart, 2, random),
            Err(_) => same(bytes, (0, random.below(4)), (0, random.below(4))),
        },
    );
    cells(tests);
}

/// Numbers that no chart has as a row or column, or nearly none.
const FAR: [usize; 8] = [
    65_534,
    65_535,
    65_536,
    65_537,
    1 << 32,
    (1 << 32) + 1,
    1 << 63,
    usize::MAX,
];

/// The chart is refused so between any two cells, on it or not.
fn refused(chart: &Chart, refusal: Refusal) -> Outcome {
    let bytes = chart.bytes();
    let mut cells = cells_and_margin(&square_with_gap());
    cells.extend(FAR.iter().flat_map(|&far| [(far, 0), (1, far), (far, far)]));
    for &first in &cells {
        let mut seconds = cells.iter();
        seconds.try_for_each(|&second| gives(&bytes, first, second, Err(refusal)))?;
    }
    Ok(())
}

fn faults(tests: &mut Tests) {
    for (number, fault, spoil) in FAULTS {
        let name = format!("nearest_bar: {fault}, which Read a chart refuses by {number}");
        tests.test(&name, || {
            for mut chart in [square(), square_with_empty_row()] {
                spoil(&mut chart);
                read_chart::gives(number, &chart)?;
                match number {
                    14 => refused(&chart, Refusal::ChartForm)?,
                    15 => refused(&chart, Refusal::Bar)?,
                    _ => every_two(&chart)?,
                }
            }
            Ok(())
        });
    }
    let name = "nearest_bar: an upright in a gap, which Read a chart refuses by 17";
    tests.test(name, || {
        read_chart::gives(17, &square_with_gap())?;
        every_two(&square_with_gap())
    });
    tests.test("nearest_bar: 14 before 15", || {
        let of = |wanted| FAULTS.iter().filter(move |(number, ..)| *number == wanted);
        for (_, _, spoil) in of(14) {
            for (_, _, spoil_too) in of(15) {
                let mut chart = square();
                spoil_too(&mut chart);
                spoil(&mut chart);
                refused(&chart, Refusal::ChartForm)?;
            }
        }
        Ok(())
    });
}

fn cells(tests: &mut Tests) {
    let refused = |chart: &Chart, first: Cell, second: Cell| -> Outcome {
        let bytes = chart.bytes();
        gives(&bytes, first, second, Err(Refusal::OutOfRange))?;
        gives(&bytes, second, first, Err(Refusal::OutOfRange))
    };
    tests.test("nearest_bar: 9 a cell outside the chart", || {
        for chart in (3..=5)
            .flat_map(all_parts)
            .flat_map(|part| both_charts(&part))
        {
            let ends = (usize::from(chart.rows), usize::from(chart.columns));
            for (row, column) in [ends, (65_536, 65_536), (1 << 32, 1 << 32)] {
                // in line with the first cell, and what is left of 16 or 32 bits is one
                for cell in [(row, 0), (0, column), (row + 1, 0), (0, column + 1)] {
                    refused(&chart, (0, 0), cell)?;
                    refused(&chart, cell, cell)?;
                }
            }
        }
        Ok(())
    });
    tests.test("nearest_bar: 9 two cells of no row or column", || {
        for chart in (3..=5)
            .flat_map(all_parts)
            .flat_map(|part| both_charts(&part))
        {
            for row in 1..usize::from(chart.rows) {
                for column in 1..usize::from(chart.columns) {
                    refused(&chart, (0, 0), (row, column))?;
                    refused(&chart, (0, column), (row, 0))?;
                }
            }
        }
        Ok(())
    });
    tests.test("nearest_bar: cells of any size", || {
        let numbers = [0, 1, 2, 3].into_iter().chain(FAR);
        let pairs = numbers
            .clone()
            .flat_map(|row| numbers.clone().map(move |column| (row, column)));
        let cells: Vec<Cell> = pairs.collect();
        for chart in [square(), spread(&square())] {
            let bytes = chart.bytes();
            for &first in &cells {
                cells
                    .iter()
                    .try_for_each(|&second| same(&bytes, first, second))?;
            }
        }
        let mut random = Random::new(381);
        let bytes = spread(&square_with_gap()).bytes();
        for _ in 0..20_000 {
            let any = |random: &mut Random| (random.bits() >> random.below(64)) as usize;
            let (row, column, other) = (any(&mut random), any(&mut random), any(&mut random));
            same(&bytes, (row, column), (row, other))?;
            same(&bytes, (row, column), (other, column))?;
        }
        Ok(())
    });
}
