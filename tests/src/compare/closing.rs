//! Rows without bars (request (v)): a chart that the library draws has none, and is
//! the one by document 01's places but for its rows; charts handed in with empty rows
//! are read as before.

use super::checks::{hex, must_be, same_bytes, Failure, Outcome};
use super::draw::{drawn, draws};
use super::read_chart::same;
use super::sheets::{any_part, any_sheet};
use super::Tests;
use crate::library;
use bend_tests::changes::{changed, cut_back, stretched, strewn};
use bend_tests::chart::Chart;
use bend_tests::draw::{chart_of, placed_of};
use bend_tests::part::{Corner, Part};
use bend_tests::plan::Pieces;
use bend_tests::random::Random;
use bend_tests::shapes::{all_parts, part, tall, tight, SHAPES, SIDE_BY_SIDE};
use bend_tests::sheet;
use std::collections::BTreeSet;

pub fn run(tests: &mut Tests) {
    floor_and_ceiling(tests);
    rows_drawn(tests);
    empty_rows_handed_in(tests);
    empty_rows_put_in(tests);
    changed_and_closed(tests);
}

/// All small parts, those with the fewest and the most rows for their levels, and
/// some of every shape and size.
fn parts(random: &mut Random) -> Vec<Part> {
    let mut parts: Vec<Part> = (3..=8).flat_map(all_parts).collect();
    parts.push(Part::new(12, &SIDE_BY_SIDE));
    parts.extend((1..=9).map(tight).chain((2..=8).map(tall)));
    for shape in SHAPES {
        for most in [20, 100, 1024] {
            parts.extend((0..12).map(|_| part(shape, random.between(9, most) as Corner, random)));
        }
        parts.push(part(shape, 1024, random));
    }
    parts
}

/// The chart that the library draws.
fn chart_drawn(sheet: &[u8]) -> Result<Chart, Failure> {
    let bytes = drawn(sheet);
    Chart::from_bytes(&bytes).map_err(|_| Failure {
        input: hex(sheet),
        library: hex(&bytes),
        model: "a chart".to_string(),
    })
}

/// A failure, told in the words, unless it holds of the chart that the library draws.
fn holds(sheet: &[u8], words: &str, of: impl FnOnce(&Chart) -> bool) -> Outcome {
    let chart = chart_drawn(sheet)?;
    if of(&chart) {
        return Ok(());
    }
    Err(Failure {
        input: hex(sheet),
        library: hex(&chart.bytes()),
        model: words.to_string(),
    })
}

fn floor_and_ceiling(tests: &mut Tests) {
    let mut rows = |words: &str, parts: Vec<Part>, rows: fn(u16) -> u16| {
        tests.test(&format!("draw: request (v), {words}"), || {
            let mut random = Random::new(231);
            for part in &parts {
                let sheet = any_sheet(part, &mut random);
                let levels = Pieces::of(part).counts().levels;
                holds(&sheet, words, |chart| chart.rows == rows(levels))?;
                draws(&sheet, &chart_of(part))?;
            }
            Ok(())
        });
    };
    let tight = (1..=9).map(tight).collect();
    rows("D levels in D + 1 rows", tight, |levels| levels + 1);
    let tall = (2..=8).map(tall).collect();
    rows("D levels in 2D + 1 rows", tall, |levels| 2 * levels + 1);
}

/// Whether one is the other but for the rows of bars, and any two bars lie on one
/// row in both, or one above the other in both.
fn differ_in_rows_alone(one: &Chart, other: &Chart) -> bool {
    let ends = |chart: &Chart| -> Vec<(u16, u16)> {
        let bars = chart.bars.iter();
        bars.map(|bar| (bar.left, bar.right)).collect()
    };
    let bars = one.bars.iter().zip(&other.bars);
    let rows: BTreeSet<(u16, u16)> = bars.map(|(one, other)| (one.row, other.row)).collect();
    let rows: Vec<(u16, u16)> = rows.into_iter().collect();
    one.columns == other.columns
        && one.strokes == other.strokes
        && ends(one) == ends(other)
        && rows.is_sorted_by(|one, next| one.0 < next.0 && one.1 < next.1)
}

fn rows_drawn(tests: &mut Tests) {
    type Rule = fn(&Part, &Chart) -> bool;
    let rules: [(&str, Rule); 4] = [
        ("no empty row", |_, chart| !chart.has_empty_row()),
        ("one or two rows a level, and one more", |part, chart| {
            let levels = Pieces::of(part).counts().levels;
            levels < chart.rows && chart.rows <= 2 * levels + 1
        }),
        (
            "2 rows exactly for one umbrella without a stem",
            |part, chart| {
                let counts = Pieces::of(part).counts();
                (chart.rows == 2) == (counts.umbrellas == 1 && counts.stems == 0)
            },
        ),
        ("by document 01's places but for the rows", |part, chart| {
            let placed = placed_of(part);
            chart.length() == placed.length() && differ_in_rows_alone(chart, &placed)
        }),
    ];
    for (words, rule) in rules {
        tests.test(&format!("draw: request (v), {words}"), || {
            let mut random = Random::new(232);
            for part in parts(&mut random) {
                let sheet = any_sheet(&part, &mut random);
                holds(&sheet, words, |chart| rule(&part, chart))?;
            }
            Ok(())
        });
    }
}

/// The library reads the chart as the part, whose normal sheet it writes.
fn shows(part: &Part, chart: &Chart) -> Outcome {
    let bytes = chart.bytes();
    let expected = sheet::with_pairs(part.n, &part.diagonals, None);
    let mut back = vec![0; expected.len()];
    must_be(0, library::read_chart(&bytes, &mut back), &bytes)?;
    same_bytes(&bytes, &back, &expected)?;
    same(&bytes, expected.len() + 2)
}

/// The chart as document 01 places it, closed, and both with empty rows and columns
/// put in.
fn empty_rows_handed_in(tests: &mut Tests) {
    tests.test(
        "read_chart: request (v), charts with empty rows and closed",
        || {
            let mut random = Random::new(361);
            for part in parts(&mut random) {
                let (placed, closed) = (placed_of(&part), chart_of(&part));
                let wide = stretched(&placed, 3, &mut random);
                for chart in [&placed, &closed, &wide.closed(), &wide] {
                    shows(&part, chart)?;
                    let length = 4 * usize::from(part.n) - 9;
                    let all = if part.n <= 6 { length } else { 0 };
                    (0..all).try_for_each(|lent| same(&chart.bytes(), lent))?;
                }
            }
            Ok(())
        },
    );
}

/// What the library draws, as it is and with empty rows put in.
fn empty_rows_put_in(tests: &mut Tests) {
    tests.test(
        "read_chart: request (v), empty rows put into what is drawn",
        || {
            let mut random = Random::new(362);
            for part in parts(&mut random) {
                let chart = chart_drawn(&any_sheet(&part, &mut random))?;
                shows(&part, &chart)?;
                shows(&part, &stretched(&chart, 2, &mut random))?;
            }
            Ok(())
        },
    );
}

/// Charts with empty rows, many of them with a wrong number, get the answer of the
/// same chart closed.
fn changed_and_closed(tests: &mut Tests) {
    let name = "read_chart: request (v), changed charts are taken or refused as closed ones";
    tests.test(name, || {
        let mut random = Random::new(363);
        for _ in 0..30_000 {
            let n = random.between(3, 12) as Corner;
            let placed = placed_of(&any_part(n, &mut random));
            let chart = match random.below(4) {
                0 => placed,
                1 => stretched(&placed, 2, &mut random),
                2 => cut_back(&placed),
                _ => stretched(&strewn(random.between(3, 7), &mut random), 2, &mut random),
            };
            let chart = changed(&chart, &mut random);
            let (bytes, closed) = (chart.bytes(), chart.closed().bytes());
            same(&bytes, 64)?;
            same(&closed, 64)?;
            let answer = |bytes: &[u8]| {
                let mut out = [0x5a; 64];
                let answer = library::read_chart(bytes, &mut out).to_be_bytes();
                [&answer[..], &out].concat()
            };
            same_bytes(&bytes, &answer(&bytes), &answer(&closed))?;
        }
        Ok(())
    });
}
