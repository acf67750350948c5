//! Read a chart: the library's `bend_read_chart` beside the model.

#[cfg(all(feature = "normalize", feature = "draw"))]
use super::checks::same_bytes;
use super::checks::{must_be, same_writing, Outcome};
#[cfg(all(feature = "normalize", feature = "draw"))]
use super::sheets::{any_angled, any_four, any_order, pairs_end};
use super::sheets::{any_part, DAMAGES};
use super::Tests;
use crate::library;
use bend_tests::changes::{
    changed, cut_back, exchanged, lengthened, mirrored, moved, nudged, rotated, stretched, strewn,
    upside_down,
};
use bend_tests::chart::Chart;
use bend_tests::draw::{chart_of, placed_of};
use bend_tests::part::{Corner, Part};
use bend_tests::random::Random;
use bend_tests::reader::read_chart;
use bend_tests::shapes::all_parts;
#[cfg(all(feature = "normalize", feature = "draw"))]
use bend_tests::sheet;

pub fn run(tests: &mut Tests) {
    charts_drawn_otherwise(tests);
    changed_charts(tests);
    damaged_charts(tests, "read_chart", |bytes, lent, _| same(bytes, lent));
    output_lengths(tests);
    #[cfg(all(feature = "normalize", feature = "draw"))]
    back_from_sheets(tests);
    #[cfg(all(feature = "normalize", feature = "draw"))]
    back_without_angles(tests);
}

/// Both sides on one chart with `lent` bytes of output.
pub fn same(bytes: &[u8], lent: usize) -> Outcome {
    same_writing(bytes, lent, library::read_chart, read_chart)
}

/// Both sides, and the number that the test was made to get.
pub fn gives(number: u16, chart: &Chart) -> Outcome {
    let bytes = chart.bytes();
    let answer = library::read_chart(&bytes, &mut vec![0; 5000]);
    must_be(number, answer, &bytes)?;
    same(&bytes, 5000)
}

/// The part's chart as drawn, and by document 01's places, with its empty rows.
pub fn both_charts(part: &Part) -> [Chart; 2] {
    [chart_of(part), placed_of(part)]
}

/// One of the two charts of a random part of up to `most` corners.
pub fn any_chart(most: usize, random: &mut Random) -> Chart {
    let n = random.between(3, most);
    let charts = both_charts(&any_part(n as Corner, random));
    random.pick(&charts).clone()
}

/// Both charts of all small parts, and one of some random ones of every size.
pub fn many_charts(random: &mut Random) -> Vec<Chart> {
    let small = (3..=8).flat_map(all_parts);
    let mut charts: Vec<Chart> = small.flat_map(|part| both_charts(&part)).collect();
    for most in [40, 200, 1024] {
        charts.extend((0..30).map(|_| any_chart(most, random)));
    }
    charts.push(chart_of(&any_part(1024, random)));
    charts
}

/// A way to draw a chart otherwise, with its name.
type Change = (&'static str, fn(&Chart, &mut Random) -> Chart);

/// Those that keep a chart true.
pub const ACCEPTED: [Change; 8] = [
    ("as drawn", |chart, _| chart.clone()),
    ("mirrored", |chart, _| mirrored(chart)),
    ("upside down", |chart, _| upside_down(chart)),
    ("mirrored and upside down", |chart, _| {
        upside_down(&mirrored(chart))
    }),
    ("stretched", |chart, random| stretched(chart, 3, random)),
    ("stretched to the limit", |chart, random| {
        stretched(chart, 28, random)
    }),
    ("renumbered by rotation", |chart, random| {
        rotated(chart, random.below(chart.bars.len()), false)
    }),
    ("renumbered backwards", |chart, random| {
        rotated(chart, random.below(chart.bars.len()), true)
    }),
];

/// Others.
pub const OTHERS: [Change; 6] = [
    ("two corners exchanged", |chart, random| {
        let n = chart.bars.len();
        exchanged(chart, random.below(n), random.below(n))
    }),
    ("bars cut back", |chart, _| cut_back(chart)),
    ("bars cut back, stretched", |chart, random| {
        stretched(&cut_back(chart), 2, random)
    }),
    ("a bar lengthened", |chart, random| {
        lengthened(&stretched(chart, 2, random), random)
    }),
    ("an upright moved", |chart, random| {
        moved(&stretched(chart, 1, random), random)
    }),
    ("a number changed", nudged),
];

fn charts_drawn_otherwise(tests: &mut Tests) {
    for (name, change) in ACCEPTED {
        tests.test(&format!("read_chart: {name}"), || {
            let mut random = Random::new(301);
            let charts = many_charts(&mut random);
            let mut otherwise = charts.iter().map(|chart| change(chart, &mut random));
            otherwise.try_for_each(|chart| gives(0, &chart))
        });
    }
    for (name, change) in OTHERS {
        tests.test(&format!("read_chart: {name}"), || {
            let mut random = Random::new(302);
            let charts = many_charts(&mut random);
            for _ in 0..4 {
                let mut otherwise = charts.iter().map(|chart| change(chart, &mut random));
                otherwise.try_for_each(|chart| same(&chart.bytes(), 5000))?;
            }
            Ok(())
        });
    }
}

fn changed_charts(tests: &mut Tests) {
    tests.test("read_chart: small charts changed at random", || {
        let mut random = Random::new(321);
        for _ in 0..100_000 {
            let chart = any_chart(10, &mut random);
            same(&changed(&chart, &mut random).bytes(), 64)?;
        }
        Ok(())
    });
    tests.test("read_chart: large charts changed at random", || {
        let mut random = Random::new(322);
        for _ in 0..1500 {
            let chart = any_chart(1024, &mut random);
            same(&changed(&chart, &mut random).bytes(), 5000)?;
        }
        Ok(())
    });
    tests.test("read_chart: bars strewn at random", || {
        let mut random = Random::new(323);
        for _ in 0..100_000 {
            let chart = strewn(random.between(3, 8), &mut random);
            same(&chart.bytes(), 64)?;
        }
        Ok(())
    });
}

/// Damaged charts and other bytes, each checked with so much output lent.
pub fn damaged_charts(
    tests: &mut Tests,
    operation: &str,
    check: impl Fn(&[u8], usize, &mut Random) -> Outcome,
) {
    for (name, damage) in DAMAGES {
        tests.test(&format!("{operation}: damaged, {name}"), || {
            let mut random = Random::new(331);
            for round in 0..5000 {
                let most = if round % 50 == 0 { 1024 } else { 16 };
                let mut bytes = any_chart(most, &mut random).bytes();
                damage(&mut bytes, &mut random);
                check(&bytes, bytes.len(), &mut random)?;
            }
            Ok(())
        });
    }
    tests.test(
        &format!("{operation}: every bit of small charts flipped"),
        || {
            let mut random = Random::new(334);
            let parts = (3..=6).flat_map(all_parts);
            for chart in parts.flat_map(|part| both_charts(&part)) {
                let bytes = chart.bytes();
                for bit in 0..8 * bytes.len() {
                    let mut damaged = bytes.clone();
                    damaged[bit / 8] ^= 1 << (bit % 8);
                    check(&damaged, 64, &mut random)?;
                }
            }
            Ok(())
        },
    );
    tests.test(&format!("{operation}: every truncation"), || {
        let mut random = Random::new(332);
        for n in [3, 4, 5, 9, 40, 200] {
            let bytes = chart_of(&any_part(n, &mut random)).bytes();
            (0..=bytes.len()).try_for_each(|length| check(&bytes[..length], 900, &mut random))?;
        }
        Ok(())
    });
    tests.test(
        &format!("{operation}: short, random and long bytes"),
        || {
            let mut random = Random::new(333);
            (0..=255).try_for_each(|byte| check(&[byte], 50, &mut random))?;
            for length in [0, 1, 6, 24, 43, 100_000] {
                for byte in [0, 1, 3, 255] {
                    check(&vec![byte; length], 50, &mut random)?;
                }
            }
            for _ in 0..20_000 {
                let length = random.below(80);
                let mut bytes = random.bytes(length);
                bytes.iter_mut().for_each(|byte| *byte %= 4);
                check(&bytes, 100, &mut random)?;
            }
            Ok(())
        },
    );
}

fn output_lengths(tests: &mut Tests) {
    tests.test("read_chart: every length of output, small charts", || {
        let parts = (3..=7).flat_map(all_parts);
        for chart in parts.flat_map(|part| both_charts(&part)) {
            let length = 4 * chart.bars.len() - 9;
            (0..=length + 2).try_for_each(|lent| same(&chart.bytes(), lent))?;
        }
        Ok(())
    });
    tests.test("read_chart: the edges of the output's length", || {
        let mut random = Random::new(341);
        for n in (8..=1024).step_by(127).chain([1023, 1024]) {
            let bytes = chart_of(&any_part(n, &mut random)).bytes();
            let length = 4 * usize::from(n) - 9;
            for lent in [0, 1, 2, 3, length / 2]
                .into_iter()
                .chain(length - 4..=length + 2)
            {
                same(&bytes, lent)?;
            }
        }
        Ok(())
    });
}

/// The chart of a sheet with bit 2 is read back as the sheet set in order.
#[cfg(all(feature = "normalize", feature = "draw"))]
fn back_from_sheets(tests: &mut Tests) {
    let name = "read_chart: request (xii), back from the chart comes the sheet set in order";
    tests.test(name, || {
        let mut random = Random::new(351);
        let large = [40, 300, 1023, 1024].map(|n| any_part(n, &mut random));
        let large = large.map(|part| Part::new(part.n, &part.diagonals));
        for part in (3..=8).flat_map(all_parts).chain(large) {
            let skipped = Some(any_four(&mut random));
            let sheet = any_order(&part, skipped, &mut random);
            let mut ordered = vec![0; pairs_end(part.n)];
            let mut back = ordered.clone();
            must_be(0, library::normalize(&sheet, &mut ordered), &sheet)?;
            let chart = super::draw::drawn(&sheet);
            must_be(0, library::read_chart(&chart, &mut back), &chart)?;
            same_bytes(&sheet, &ordered, &back)?;
        }
        Ok(())
    });
}

/// The charts of sheets with angles are read back as the same sheet, set in order,
/// of the part without them.
#[cfg(all(feature = "normalize", feature = "draw"))]
fn back_without_angles(tests: &mut Tests) {
    let name = "read_chart: request (xi), a chart read back has no angles";
    tests.test(name, || {
        let mut random = Random::new(352);
        let large = [40, 300, 1023, 1024].map(|n| any_part(n, &mut random));
        for part in (4..=8).flat_map(all_parts).chain(large) {
            let part = any_angled(part, &mut random);
            let expected = sheet::with_pairs(part.n, &part.diagonals, None);
            for skipped in [None, Some(any_four(&mut random))] {
                let sheet = any_order(&part, skipped, &mut random);
                let chart = super::draw::drawn(&sheet);
                let mut back = vec![0; expected.len()];
                must_be(0, library::read_chart(&chart, &mut back), &chart)?;
                same_bytes(&sheet, &back, &expected)?;
                let mut longer = vec![7; expected.len() + 2 * part.diagonals.len()];
                must_be(0, library::read_chart(&chart, &mut longer), &chart)?;
                let (back, rest) = longer.split_at(expected.len());
                same_bytes(&sheet, back, &expected)?;
                same_bytes(&sheet, rest, &vec![7; rest.len()])?;
            }
        }
        Ok(())
    });
}
