//! What is timed on charts: Read a chart, on our charts and on foreign ones, and the
//! nearest bar.

use crate::cases::{case, parts, Case};
use crate::library;
use bend_tests::changes::stretched;
use bend_tests::chart::{Chart, Stroke};
use bend_tests::draw::chart_of;
use bend_tests::nearest::{nearest_bar, Cell};
use bend_tests::part::Corner;
use bend_tests::random::Random;
use bend_tests::reader::read_chart;

/// The charts of a part of each shape.
fn charts(corners: Corner) -> Vec<Chart> {
    parts(corners).iter().map(chart_of).collect()
}

/// The same with empty rows and columns put in, so that level strokes have gaps.
fn foreign(corners: Corner) -> Vec<Chart> {
    let mut random = Random::new(9);
    let charts = charts(corners).into_iter();
    charts
        .map(|chart| stretched(&chart, 3, &mut random))
        .collect()
}

/// A foreign chart's bytes with two cells: the ends of its longest upright, from the
/// upper bar to one row below the lower one, which is the bar to be found.
fn longest_upright(chart: Chart) -> (Vec<u8>, Cell, Cell) {
    let rows = |stroke: &Stroke| {
        let row = |corner: Corner| chart.bars[usize::from(corner)].row;
        let (one, other) = (row(stroke.a), row(stroke.b));
        (one.min(other), one.max(other))
    };
    let uprights = chart.strokes.iter().filter_map(|stroke| {
        let ((upper, lower), column) = (rows(stroke), stroke.column?);
        Some((lower - upper, upper, lower, column))
    });
    let (_, upper, lower, column) = uprights.max().expect("there are uprights");
    let cell = |row: u16| (usize::from(row), usize::from(column));
    let bytes = Chart {
        rows: chart.rows + 1,
        ..chart.clone()
    };
    (bytes.bytes(), cell(upper), cell(lower + 1))
}

/// All cases on charts, each operation's two sizes next to each other.
pub fn all(sizes: [Corner; 2]) -> Vec<Case> {
    let mut cases = Vec::new();
    let read_case = |operation, n, charts: Vec<Chart>| {
        case(
            operation,
            n,
            charts.iter().map(Chart::bytes).collect(),
            |chart: &Vec<u8>, out| library::read_chart(chart, out),
            |chart, out| read_chart(chart, out),
        )
    };
    cases.extend(sizes.map(|n| read_case("read a chart", n, charts(n))));
    cases.extend(sizes.map(|n| read_case("read a chart, foreign", n, foreign(n))));
    cases.extend(sizes.map(|n| {
        case(
            "nearest bar",
            n,
            foreign(n).into_iter().map(longest_upright).collect(),
            |(chart, first, second), _| library::nearest_bar(chart, *first, *second),
            |(chart, first, second), _| nearest_bar(chart, *first, *second),
        )
    }));
    cases
}
