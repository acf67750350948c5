//! Draw on a label (request (ii)): the library's `bend_draw_label` beside the model and
//! beside the library's own `bend_draw`, the tape's.

use super::angle_results;
use super::angles;
use super::bit_2;
use super::calls::Call;
use super::checks::{hex, same_writing, Failure, Outcome};
use super::faults::{refusals, spoiled_sheets};
use super::groups::{self, Damaged};
use super::sheets::{any_part, any_sheet, maybe_angled, without_and_with, DAMAGES};
use super::Tests;
use crate::library;
use bend_tests::answer::Refusal;
use bend_tests::chart::Chart;
use bend_tests::draw::chart_of;
use bend_tests::edit::Edit;
use bend_tests::edit_list::Lending;
use bend_tests::label::draw_label;
use bend_tests::label_parts::{any_fewest, fewest, fewest_corners, grown, with_rows, EITHER_SIDE};
use bend_tests::part::{Part, MOST};
use bend_tests::plan::Pieces;
use bend_tests::random::Random;
use bend_tests::shapes::{tall, tight};

/// More bytes than any chart has.
const ENOUGH: usize = 20_500;

pub fn run(tests: &mut Tests) {
    known_parts(tests);
    either_side(tests);
    every_length(tests);
    near_the_limit(tests);
    under_511_corners(tests);
    faults_over_the_limit(tests);
    any_sheets(tests);
    let call = |part: &Part, _: &[Lending]| {
        let chart = chart_of(part);
        vec![(Label::of(&chart), chart.length())]
    };
    bit_2::run(tests, "label", call);
    bit_2::output_lengths(tests, "label", call);
    angles::run(tests, "label", call);
    angles::output_lengths(tests, "label", call);
    angle_results::alike(tests, "label", call);
}

/// The call, for a part whose chart has these rows.
#[derive(Clone, Copy, Debug)]
struct Label {
    rows: u16,
}

impl Label {
    fn of(chart: &Chart) -> Label {
        Label { rows: chart.rows }
    }
}

impl Call for Label {
    fn by_library(self, sheet: &[u8], out: &mut [u8]) -> u64 {
        library::draw_label(sheet, out)
    }

    fn same(self, sheet: &[u8], lent: usize) -> Outcome {
        same_writing(sheet, lent, library::draw_label, draw_label)
    }

    /// By the rows: a label that counts levels, corners or rows as placed fails, one of
    /// fourteen or of sixteen rows, and one that measures the output first.
    fn on_valid(self, lent: usize, room: usize) -> u16 {
        match self.rows {
            16.. => 19,
            _ if lent < room => 8,
            _ => 0,
        }
    }
}

/// A valid sheet, of a part that has the chart: the number due, the model's answer and
/// bytes, and the tape's.
fn on_valid(chart: &Chart, sheet: &[u8], lent: usize) -> Outcome {
    let label = Label::of(chart);
    label.gives(label.on_valid(lent, chart.length()), sheet, lent)?;
    beside_the_tape(sheet, lent)
}

/// Any sheet: the model's answer and bytes, and the tape's.
fn on_any(sheet: &[u8], lent: usize) -> Outcome {
    same_writing(sheet, lent, library::draw_label, draw_label)?;
    beside_the_tape(sheet, lent)
}

/// What holds of the library's two drawings on any sheet. If the label gives 19, it
/// changes nothing, the tape draws or gives 8, and the part has 511 corners or more; if
/// not, both give and write the same. So a tape that has the limit as well fails.
fn beside_the_tape(sheet: &[u8], lent: usize) -> Outcome {
    let untouched = vec![0x5a; lent];
    let (mut on_label, mut on_tape) = (untouched.clone(), untouched.clone());
    let label = library::draw_label(sheet, &mut on_label);
    let tape = library::draw(sheet, &mut on_tape);
    let holds = if label == 19 {
        let drawn = matches!(tape & 0xffff, 0 | 8);
        drawn && on_label == untouched && sheet[1..3] >= 511u16.to_be_bytes()[..]
    } else {
        tape == label && on_tape == on_label
    };
    if holds {
        return Ok(());
    }
    let told = |answer: u64, out: &[u8]| {
        let (number, length) = (answer & 0xffff, answer >> 16);
        format!("number {number}, length {length}, output {}", hex(out))
    };
    Err(Failure {
        input: format!("{} with {lent} bytes of output", hex(sheet)),
        library: told(label, &on_label),
        model: format!("as on the tape: {}", told(tape, &on_tape)),
    })
}

fn known_parts(tests: &mut Tests) {
    tests.test("label: known part n = 3, every room", || {
        let chart = [
            0, 2, 0, 2, 0, 3, 0, 0, 0, 0, 0, 0, 0, 1, 0, 0, 0, 1, 0, 0, 0, 1, 0, 1, 1, 0, 0, 0, 1,
            0, 0, 0, 0, 0, 0, 2, 1, 0, 1, 0, 2, 0, 1,
        ];
        let label = Label { rows: 2 };
        (0..=48).try_for_each(|room| label.writes(&[1, 0, 3], room, &chart))
    });
    // of as few corners as the levels need, of two more, and of as many as have no more
    tests.test("label: 1 to 9 levels in the fewest rows are taken", || {
        let mut random = Random::new(601);
        for levels in 1..=9 {
            let few = fewest_corners(levels);
            let most = fewest_corners(levels + 1).min(MOST + 1) - 1;
            let grown = [few, (few + 2).min(most), most].map(|n| grown(fewest(levels), n));
            for part in grown.into_iter().chain([tight(levels)]) {
                let chart = chart_of(&part);
                assert_eq!(chart.rows, levels + 1);
                on_valid(&chart, &any_sheet(&part, &mut random), ENOUGH)?;
            }
        }
        Ok(())
    });
}

/// Parts on either side of the limit, with and without bit 2 and angles, and in any
/// order.
fn either_side(tests: &mut Tests) {
    for (levels, more, rows) in EITHER_SIDE {
        let part = with_rows(levels, more, rows);
        let name = format!("{} corners, {levels} levels, {rows} rows", part.n);
        tests.test(&format!("label: {name}"), || {
            let chart = chart_of(&part);
            assert_eq!(chart.rows, rows);
            assert_eq!(Pieces::of(&part).counts().levels, levels);
            let length = chart.length();
            let mut sheets = without_and_with(&part);
            sheets.push(any_sheet(&part, &mut Random::new(602)));
            for lent in [0, 1, 6, length / 2, length - 1, length, length + 3] {
                for sheet in &sheets {
                    on_valid(&chart, sheet, lent)?;
                }
                Label::of(&chart).alike(&sheets, lent)?;
            }
            Ok(())
        });
    }
}

/// Every length of output: over the limit 19 at each of them, else 8 below the chart's.
fn every_length(tests: &mut Tests) {
    for (levels, more, rows) in [(8, 0, 15), (8, 1, 16), (8, 2, 15), (8, 2, 16)] {
        let part = with_rows(levels, more, rows);
        let name = format!("{} corners in {rows} rows", part.n);
        tests.test(&format!("label: every length of output, {name}"), || {
            let sheet = any_sheet(&part, &mut Random::new(603));
            let chart = chart_of(&part);
            let expected = |_: &[u8], out: &mut [u8]| match rows {
                16.. => Err(Refusal::LabelRows),
                _ => chart.write(out),
            };
            (0..=chart.length() + 20)
                .try_for_each(|lent| same_writing(&sheet, lent, library::draw_label, expected))
        });
    }
    tests.test("label: every length of output, small parts", || {
        let mut random = Random::new(604);
        for n in 3..=16 {
            let part = any_part(n, &mut random);
            let (sheet, chart) = (any_sheet(&part, &mut random), chart_of(&part));
            (0..=chart.length() + 2).try_for_each(|lent| on_valid(&chart, &sheet, lent))?;
        }
        Ok(())
    });
}

/// Any parts with the fewest corners for their levels and some more, many of them on
/// either side of the limit.
fn near_the_limit(tests: &mut Tests) {
    for (levels, more) in [(8, 2), (8, 60), (8, 500), (9, 1)] {
        let name = format!("any parts of {levels} levels, fewest corners and at most {more} more");
        tests.test(&format!("label: {name}"), || {
            let mut random = Random::new(605);
            let mut seen = [0; 2];
            for _ in 0..150 {
                let part = any_fewest(levels, more, &mut random);
                let chart = chart_of(&part);
                let sheet = any_sheet(&maybe_angled(part, &mut random), &mut random);
                on_valid(&chart, &sheet, ENOUGH)?;
                on_valid(&chart, &sheet, random.below(chart.length()))?;
                seen[usize::from(chart.rows > 15)] += 1;
            }
            assert!(seen.iter().all(|&count| count > 15), "{seen:?}");
            Ok(())
        });
    }
}

/// "So no part under 511 corners is ever refused for its rows": parts of 7 levels in up
/// to fifteen rows, and parts over the limit with corners taken off.
fn under_511_corners(tests: &mut Tests) {
    let taken = |part: Part, random: &mut Random| {
        let chart = chart_of(&part);
        assert!(part.n < 511 && chart.rows <= 15);
        let part = maybe_angled(part, random);
        on_valid(&chart, &any_sheet(&part, random), chart.length())
    };
    tests.test("label: under 511 corners, 7 levels", || {
        let mut random = Random::new(606);
        taken(tall(7), &mut random)?;
        (0..200).try_for_each(|_| taken(any_fewest(7, 255, &mut random), &mut random))
    });
    tests.test("label: under 511 corners, cut from 17 rows", || {
        let mut random = Random::new(607);
        for _ in 0..60 {
            let mut part = with_rows(8, 2, 17);
            while part.n > 510 {
                let corner = random.below(usize::from(part.n)) as u64;
                let _ = Edit::TakeOff { corner }.apply(&mut part);
            }
            taken(part, &mut random)?;
        }
        Ok(())
    });
}

/// Each fault, and damage, on sheets of parts over the limit: 1 to 7 and 23 come before
/// 19, whatever the output.
fn faults_over_the_limit(tests: &mut Tests) {
    let over = [(8, 1, 16), (8, 2, 17), (9, 1, 18)];
    let parts = over.map(|(levels, more, rows)| with_rows(levels, more, rows));
    tests.test("label: 1 to 7 and 23 before 19", || {
        let mut random = Random::new(608);
        for part in parts.iter().flat_map(|part| [part; 4]) {
            let label = Label::of(&chart_of(part));
            for (number, sheet) in spoiled_sheets(part, &mut random) {
                label.gives(number, &sheet, ENOUGH)?;
                label.gives(number, &sheet, 0)?;
                beside_the_tape(&sheet, ENOUGH)?;
            }
        }
        Ok(())
    });
    for (name, damage) in DAMAGES {
        tests.test(&format!("label: damaged over the limit, {name}"), || {
            let mut random = Random::new(609);
            for part in parts.iter().flat_map(|part| [part; 30]) {
                let part = maybe_angled(part.clone(), &mut random);
                let mut sheet = any_sheet(&part, &mut random);
                damage(&mut sheet, &mut random);
                on_any(&sheet, *random.pick(&[0, 1, ENOUGH]))?;
            }
            Ok(())
        });
    }
}

/// The sheets that other operations are given, valid ones and others.
fn any_sheets(tests: &mut Tests) {
    let beside = "beside the tape";
    groups::small_parts(tests, "label", beside, 611, |_, sheet| on_any(sheet, 300));
    groups::large_parts(tests, "label", [612, 613], |sheet| on_any(sheet, ENOUGH));
    refusals(tests, "label", |number, sheet, lent| {
        Label { rows: 0 }.gives(number, sheet, lent)
    });
    let how_many = Damaged {
        rounds: 500,
        to_a_large_one: 40,
        most: 24,
    };
    groups::damaged_sheets(tests, "label", 614, how_many, |part, sheet, random| {
        let large = part.n == 1024;
        on_any(sheet, if large { ENOUGH } else { random.below(800) })
    });
    groups::random_bytes(tests, "label", 615, |bytes| on_any(bytes, 100));
}
