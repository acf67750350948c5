//! The nearest bar on known charts, with the answers written out by hand.

use super::chart_faults::square_with_gap;
use super::nearest::{gives, same};
use super::Tests;
use bend_tests::chart::{Bar, Chart};
use bend_tests::draw::{chart_of, placed_of};
use bend_tests::nearest::Cell;
use bend_tests::part::{Corner, Part};
use bend_tests::shapes::HUNG;

pub fn run(tests: &mut Tests) {
    let mut known = |name: &str, chart: Chart, answers: &[(Cell, Cell, Option<Corner>)]| {
        tests.test(&format!("nearest_bar: known, {name}"), || {
            let bytes = chart.bytes();
            for &(first, second, corner) in answers {
                gives(&bytes, first, second, Ok(corner))?;
                same(&bytes, first, second)?;
            }
            Ok(())
        });
    };
    // 0 lies at (0,0), 1 at (2,0) and (2,1), 2 at (0,1)
    let triangle = placed_of(&Part::new(3, &[]));
    let nothing_between = [
        ((0, 0), (2, 0), None),
        ((2, 1), (0, 1), None),
        ((0, 0), (0, 1), None),
        ((2, 1), (2, 1), None),
        ((1, 0), (1, 1), None),
    ];
    known("the triangle", triangle, &nothing_between);
    // row 0: 0 everywhere. row 1: 2 2 - 3 3. row 2: 1 everywhere
    let from_a_gap = [
        ((1, 0), (1, 4), Some(2)),
        ((1, 4), (1, 0), Some(3)),
        ((1, 1), (1, 3), None),
        ((1, 2), (1, 4), Some(3)),
        ((1, 2), (1, 0), Some(2)),
        ((1, 1), (1, 4), Some(3)),
        ((0, 0), (2, 0), Some(2)),
        ((2, 4), (0, 4), Some(3)),
        ((0, 2), (2, 2), None),
        ((0, 0), (0, 4), Some(0)),
        ((2, 3), (2, 1), Some(1)),
        ((1, 2), (2, 2), None),
    ];
    known("a square with a gap", square_with_gap(), &from_a_gap);
    // row 2: - 5 5 - 7 8 8, then nothing. row 4: 4 4 6 6 6 6, then 9
    // column 9 downwards: 0 3 - 2 9. column 10: 0 1 - 2 9. column 13: 10 - - - 9
    let far_from_each_other = [
        ((2, 0), (2, 13), Some(5)),
        ((2, 13), (2, 0), Some(8)),
        ((2, 13), (2, 6), None),
        ((2, 2), (2, 5), Some(7)),
        ((2, 5), (2, 2), Some(7)),
        ((2, 6), (2, 3), Some(8)),
        ((4, 0), (4, 13), Some(4)),
        ((4, 1), (4, 13), Some(6)),
        ((4, 13), (4, 0), Some(9)),
        ((4, 6), (4, 0), Some(6)),
        ((0, 9), (4, 9), Some(3)),
        ((4, 9), (0, 9), Some(2)),
        ((0, 10), (4, 10), Some(1)),
        ((1, 10), (3, 10), None),
        ((1, 10), (4, 10), Some(2)),
        ((0, 13), (4, 13), None),
        ((0, 13), (0, 0), Some(0)),
    ];
    let hung = chart_of(&Part::new(11, &HUNG));
    known("pieces hung on rows 1 and 4", hung, &far_from_each_other);
    let bars = [(32_768, 1, 1), (32_768, 65_533, 65_533), (1, 0, 65_534)];
    let across_the_largest = [
        ((32_768, 0), (32_768, 65_534), Some(0)),
        ((32_768, 65_534), (32_768, 0), Some(1)),
        ((32_768, 1), (32_768, 65_534), Some(1)),
        ((32_768, 1), (32_768, 65_533), None),
        ((0, 500), (65_534, 500), Some(2)),
        ((65_534, 500), (0, 500), Some(2)),
        ((65_534, 500), (1, 500), None),
        ((65_534, 1), (0, 1), Some(0)),
        ((0, 65_533), (65_534, 65_533), Some(2)),
        ((1, 65_533), (65_534, 65_533), Some(1)),
    ];
    let largest = of_three(u16::MAX, u16::MAX, bars);
    known("65,535 rows and columns", largest, &across_the_largest);
}

/// The triangle's chart with other bars. The strokes need not fit them.
fn of_three(rows: u16, columns: u16, bars: [(u16, u16, u16); 3]) -> Chart {
    let bars = bars.map(|(row, left, right)| Bar { row, left, right });
    Chart {
        rows,
        columns,
        bars: bars.to_vec(),
        ..chart_of(&Part::new(3, &[]))
    }
}
