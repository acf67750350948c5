//! Faulty charts: what refusals 14 to 18 name, by itself and in twos, of which the
//! first in the published order must win.

use super::checks::{must_be, Outcome};
use super::read_chart::{gives, same};
use super::sheets::any_part;
use super::Tests;
use crate::library;
use bend_tests::changes::{exchanged, mirrored, rotated, stretched, upside_down};
use bend_tests::chart::{Bar, Chart, Stroke};
use bend_tests::draw::{chart_of, placed_of};
use bend_tests::part::Part;
use bend_tests::random::Random;

pub fn run(tests: &mut Tests) {
    heads_and_map_bytes(tests, "read_chart", |bytes| {
        must_be(14, library::read_chart(bytes, &mut [0; 9]), bytes)?;
        same(bytes, 9)
    });
    faults(tests);
    gaps(tests);
}

/// Our chart of n = 4, (0,2). Upright are (0,1), (0,2) and (2,3), in this order
/// of columns, level (0,3) and (1,2).
pub fn square() -> Chart {
    chart_of(&Part::new(4, &[(0, 2)]))
}

/// The same by document 01's places: row 1 is empty.
pub fn square_with_empty_row() -> Chart {
    placed_of(&Part::new(4, &[(0, 2)]))
}

/// A chart of the same part, true but that the upright (0,1) passes through the
/// gap of the level stroke (2,3).
pub fn square_with_gap() -> Chart {
    let bar = |row, left, right| Bar { row, left, right };
    let stroke = |a, b, column| Stroke { a, b, column };
    Chart {
        rows: 3,
        columns: 5,
        bars: vec![bar(0, 0, 4), bar(2, 0, 4), bar(1, 0, 1), bar(1, 3, 4)],
        strokes: vec![
            stroke(0, 1, Some(2)),
            stroke(0, 2, Some(0)),
            stroke(0, 3, Some(3)),
            stroke(1, 2, Some(1)),
            stroke(2, 3, None),
        ],
    }
}

/// A fault: the number that it leads to, its name, and how it is done to the
/// square's chart.
pub type Fault = (u16, &'static str, fn(&mut Chart));

/// The faults, in the order in which they are tested.
pub const FAULTS: [Fault; 15] = [
    (14, "a stroke over", |c| c.strokes.push(c.strokes[0])),
    (14, "a stroke short", |c| c.strokes.truncate(4)),
    (15, "left over right", |c| c.bars[2].left = 3),
    (15, "a bar below the rows", |c| c.bars[1].row = c.rows),
    (15, "a bar right of the columns", |c| c.columns = 2),
    (15, "no rows", |c| c.rows = 0),
    (15, "two bars in one cell", |c| c.bars[1] = c.bars[0]),
    (16, "corner n", |c| c.strokes[4].b = 4),
    (16, "higher corner first", |c| {
        let Stroke { a, b, .. } = &mut c.strokes[0];
        std::mem::swap(a, b);
    }),
    (16, "strokes out of order", |c| c.strokes.swap(2, 3)),
    (16, "a stroke repeated", |c| c.strokes[1] = c.strokes[0]),
    (16, "level between rows", |c| {
        let upright = c.strokes.iter_mut().find(|s| s.column.is_some());
        upright.expect("there are uprights").column = None;
    }),
    (16, "upright on a row", |c| {
        let level = c.strokes.iter_mut().find(|s| s.column.is_none());
        level.expect("there are level strokes").column = Some(1);
    }),
    (16, "upright outside its bars", |c| {
        c.strokes[0].column = Some(9)
    }),
    (18, "corners exchanged", |c| *c = exchanged(c, 2, 3)),
];

/// Wrong map bytes and corner counts, which the operation must refuse by 14.
pub fn heads_and_map_bytes(tests: &mut Tests, operation: &str, refused: impl Fn(&[u8]) -> Outcome) {
    let name = format!("{operation}: 14 each of bits 1 to 7, in each stroke");
    tests.test(&name, || {
        let chart = square();
        for stroke in 0..chart.strokes.len() {
            let mut before = chart.clone();
            before.strokes.truncate(stroke);
            for bit in 1..8 {
                let mut bytes = chart.bytes();
                bytes[before.length()] |= 1 << bit;
                refused(&bytes)?;
            }
        }
        Ok(())
    });
    tests.test(&format!("{operation}: 14 every corner count"), || {
        let mut bytes = square().bytes();
        for count in (0..=u16::MAX).filter(|&count| count != 4) {
            bytes[4..6].copy_from_slice(&count.to_be_bytes());
            refused(&bytes)?;
        }
        Ok(())
    });
    let name = format!("{operation}: 14 1,025 corners, with all their bars");
    tests.test(&name, || {
        let mut chart = chart_of(&any_part(1024, &mut Random::new(311)));
        chart.bars.push(chart.bars[0]);
        chart.strokes.extend([chart.strokes[0]; 2]);
        refused(&chart.bytes())
    });
}

fn faults(tests: &mut Tests) {
    for (number, name, spoil) in FAULTS {
        tests.test(&format!("read_chart: {number} {name}"), || {
            for mut chart in [square(), square_with_empty_row()] {
                spoil(&mut chart);
                gives(number, &chart)?;
                let bytes = chart.bytes();
                for lent in 0..10 {
                    let answer = library::read_chart(&bytes, &mut vec![0; lent]);
                    must_be(number, answer, &bytes)?;
                    same(&bytes, lent)?;
                }
            }
            Ok(())
        });
        for (later, also, spoil_too) in FAULTS.iter().filter(|(later, ..)| *later > number) {
            let name = format!("read_chart: {number} {name} before {later} {also}");
            tests.test(&name, || {
                for mut chart in [square(), square_with_empty_row()] {
                    spoil_too(&mut chart);
                    spoil(&mut chart);
                    gives(number, &chart)?;
                }
                let mut with_gap = square_with_gap();
                spoil_too(&mut with_gap);
                spoil(&mut with_gap);
                same(&with_gap.bytes(), 64)
            });
        }
    }
}

fn gaps(tests: &mut Tests) {
    tests.test("read_chart: 17 an upright through a level gap", || {
        let chart = square_with_gap();
        gives(17, &chart)?;
        gives(17, &mirrored(&chart))?;
        gives(17, &upside_down(&chart))?;
        (0..4).try_for_each(|turn| gives(17, &rotated(&chart, turn, false)))?;
        let mut random = Random::new(312);
        (0..50).try_for_each(|_| gives(17, &stretched(&chart, 9, &mut random)))?;
        (0..9).try_for_each(|lent| same(&chart.bytes(), lent))
    });
    tests.test("read_chart: 15 before 17", || {
        let mut chart = square_with_gap();
        chart.bars[3].right = 5;
        gives(15, &chart)
    });
    tests.test("read_chart: 16 before 17", || {
        let mut chart = square_with_gap();
        chart.strokes[3].column = Some(4);
        gives(16, &chart)
    });
    tests.test("read_chart: 17 before 18", || {
        let chart = square_with_gap();
        for (one, other) in [(0, 2), (0, 3), (1, 2), (1, 3)] {
            gives(17, &exchanged(&chart, one, other))?;
        }
        Ok(())
    });
    tests.test(
        "read_chart: 16 an upright past a bar beside the gap",
        || {
            for column in [0, 1, 3, 4] {
                let mut chart = square_with_gap();
                chart.strokes[0].column = Some(column);
                gives(16, &chart)?;
            }
            Ok(())
        },
    );
    tests.test(
        "read_chart: an upright that ends on a bar beside a gap",
        || {
            // (0,1) goes round corner 3: the gap's row has bars at its ends alone.
            let mut chart = square_with_gap();
            chart.columns = 6;
            chart.bars[0].right = 5;
            chart.bars[1].right = 5;
            chart.strokes[0].column = Some(5);
            chart.strokes[3].column = Some(1);
            gives(0, &chart)?;
            gives(0, &mirrored(&chart))?;
            gives(0, &upside_down(&chart))
        },
    );
}
