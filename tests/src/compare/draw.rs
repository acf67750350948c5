//! Draw: the library's `bend_draw` beside the model.

use super::angle_results;
use super::angles;
use super::bit_2;
use super::calls::Call;
use super::checks::{hex, must_be, same_bytes, same_writing, Failure, Outcome};
use super::faults::refusals;
use super::groups::{self, Damaged};
use super::sheets::{any_part, any_sheet, maybe_angled};
use super::Tests;
use crate::library;
use bend_tests::chart::Chart;
use bend_tests::draw::{chart, chart_of, draw_sheet};
use bend_tests::edit_list::Lending;
use bend_tests::part::{Corner, Pair, Part};
use bend_tests::random::Random;
use bend_tests::search::plan_drawn;
use bend_tests::shapes::{part, HUNG, SHAPES, SIDE_BY_SIDE};
use bend_tests::sheet;
use bend_tests::truth::{fills_columns, is_true};

pub fn run(tests: &mut Tests) {
    known_parts(tests);
    searched(tests);
    large_parts(tests);
    refusals(tests, "draw", |number, sheet, lent| {
        let answer = library::draw(sheet, &mut vec![0; lent]);
        must_be(number, answer, sheet)?;
        same(sheet, lent)
    });
    damaged_sheets(tests);
    output_lengths(tests);
    let call = |part: &Part, _: &[Lending]| vec![(Draw, chart_of(part).length())];
    bit_2::run(tests, "draw", call);
    bit_2::output_lengths(tests, "draw", call);
    angles::run(tests, "draw", call);
    angles::output_lengths(tests, "draw", call);
    angle_results::alike(tests, "draw", call);
}

#[derive(Clone, Copy, Debug)]
struct Draw;

impl Call for Draw {
    fn by_library(self, sheet: &[u8], out: &mut [u8]) -> u64 {
        library::draw(sheet, out)
    }

    fn same(self, sheet: &[u8], lent: usize) -> Outcome {
        same(sheet, lent)
    }
}

/// Both sides on one sheet with `lent` bytes of output.
fn same(sheet: &[u8], lent: usize) -> Outcome {
    same_writing(sheet, lent, library::draw, draw_sheet)
}

/// The library draws the given chart.
pub fn draws(sheet: &[u8], chart: &Chart) -> Outcome {
    let expected = |_: &[u8], out: &mut [u8]| chart.write(out);
    same_writing(sheet, chart.length() + 2, library::draw, expected)
}

/// The bytes that the library draws.
pub fn drawn(sheet: &[u8]) -> Vec<u8> {
    let mut out = vec![0; 40_000];
    let answer = library::draw(sheet, &mut out);
    out.truncate((answer >> 16) as usize);
    out
}

fn known_parts(tests: &mut Tests) {
    // document 01's known parts, with the rows of request (v)
    tests.test("draw: known part n = 3", || {
        let chart = [
            0, 2, 0, 2, 0, 3, 0, 0, 0, 0, 0, 0, 0, 1, 0, 0, 0, 1, 0, 0, 0, 1, 0, 1, 1, 0, 0, 0, 1,
            0, 0, 0, 0, 0, 0, 2, 1, 0, 1, 0, 2, 0, 1,
        ];
        same_bytes(&[1, 0, 3], &drawn(&[1, 0, 3]), &chart)
    });
    type Bars = &'static [[u8; 3]];
    let known: [(Corner, &[Pair], [u8; 2], Bars); 7] = [
        (
            4,
            &[(0, 2)],
            [2, 3],
            &[[0, 0, 1], [1, 0, 0], [1, 1, 2], [0, 2, 2]],
        ),
        (
            5,
            &[(0, 3), (1, 3)],
            [3, 5],
            &[[0, 0, 3], [1, 1, 2], [1, 0, 0], [2, 0, 4], [0, 4, 4]],
        ),
        (
            5,
            &[(1, 4), (1, 3)],
            [3, 5],
            &[[0, 0, 0], [2, 0, 4], [1, 4, 4], [1, 2, 3], [0, 1, 4]],
        ),
        (
            6,
            &[(0, 2), (2, 4), (0, 4)],
            [3, 6],
            &[
                [0, 0, 4],
                [1, 3, 3],
                [1, 1, 2],
                [1, 0, 0],
                [2, 0, 5],
                [0, 5, 5],
            ],
        ),
        (
            7,
            &[(0, 5), (1, 5), (1, 3), (3, 5)],
            [3, 7],
            &[
                [0, 0, 5],
                [2, 0, 2],
                [1, 1, 1],
                [1, 2, 3],
                [1, 4, 4],
                [2, 3, 6],
                [0, 6, 6],
            ],
        ),
        // not document 01's: pieces hung on row 1 and on row 2D
        (
            11,
            &HUNG,
            [5, 14],
            &[
                [0, 0, 12],
                [1, 10, 11],
                [3, 9, 10],
                [1, 0, 9],
                [4, 0, 1],
                [2, 1, 2],
                [4, 2, 5],
                [2, 4, 4],
                [2, 5, 6],
                [4, 6, 13],
                [0, 13, 13],
            ],
        ),
        // nor this: a row goes for the whole chart, not for a piece
        (
            12,
            &SIDE_BY_SIDE,
            [4, 14],
            &[
                [0, 0, 12],
                [3, 0, 5],
                [2, 4, 4],
                [2, 2, 3],
                [2, 1, 1],
                [1, 1, 6],
                [3, 6, 9],
                [1, 8, 8],
                [1, 9, 10],
                [1, 11, 11],
                [3, 10, 13],
                [0, 13, 13],
            ],
        ),
    ];
    for (n, pairs, [rows, columns], bars) in known {
        tests.test(&format!("draw: known part n = {n}, {pairs:?}"), || {
            let sheet = sheet::with_pairs(n, pairs, None);
            let head = [rows, columns, n as u8];
            let numbers = head.iter().chain(bars.iter().flatten());
            let expected: Vec<u8> = numbers.flat_map(|&number| [0, number]).collect();
            let bytes = drawn(&sheet);
            let end = bytes.len().min(expected.len());
            same_bytes(&sheet, &bytes[..end], &expected)?;
            same(&sheet, 300)
        });
    }
}

fn searched(tests: &mut Tests) {
    let beside = "by the plan found by search";
    let by_search = |part: &Part, sheet: &[u8]| draws(sheet, &chart(part, &plan_drawn(part)));
    groups::small_parts(tests, "draw", beside, 201, by_search);
    groups::shaped_parts(tests, "draw", beside, 202, by_search);
}

/// A failure unless the library's bytes are a true chart with an upright in
/// every column.
fn is_a_true_chart(sheet: &[u8]) -> Outcome {
    let bytes = drawn(sheet);
    let chart = Chart::from_bytes(&bytes);
    if chart.is_ok_and(|chart| is_true(&chart) && fills_columns(&chart)) {
        return Ok(());
    }
    Err(Failure {
        input: hex(sheet),
        library: hex(&bytes),
        model: "a true chart with an upright in every column".to_string(),
    })
}

fn large_parts(tests: &mut Tests) {
    groups::large_parts(tests, "draw", [203, 206], |sheet| same(sheet, 40_000));
    for shape in SHAPES {
        tests.test(&format!("draw: {shape:?}, true charts"), || {
            let mut random = Random::new(204);
            for n in (3..200).chain([1023, 1024]) {
                let part = maybe_angled(part(shape, n, &mut random), &mut random);
                is_a_true_chart(&any_sheet(&part, &mut random))?;
            }
            Ok(())
        });
    }
    groups::bit_2_angles_and_order(tests, "draw", 205, |part, sheet| {
        draws(sheet, &chart_of(part))
    });
}

fn damaged_sheets(tests: &mut Tests) {
    let how_many = Damaged {
        rounds: 2000,
        to_a_large_one: 40,
        most: 24,
    };
    groups::damaged_sheets(tests, "draw", 211, how_many, |part, sheet, random| {
        let large = part.n == 1024;
        same(sheet, if large { 40_000 } else { random.below(800) })
    });
    groups::truncated_sheets(tests, "draw", 212, |sheet| same(sheet, 20_000));
    groups::random_bytes(tests, "draw", 213, |bytes| same(bytes, 100));
}

fn output_lengths(tests: &mut Tests) {
    tests.test("draw: every length of output, small parts", || {
        let mut random = Random::new(221);
        for n in (3..=16).flat_map(|n| [n; 3]) {
            let part = any_part(n, &mut random);
            let sheet = any_sheet(&part, &mut random);
            let length = chart_of(&part).length();
            (0..=length + 2).try_for_each(|lent| same(&sheet, lent))?;
        }
        Ok(())
    });
    tests.test(
        "draw: the edges of the output's length, large parts",
        || {
            let mut random = Random::new(222);
            for n in (17..=1024).step_by(53).chain([1023, 1024]) {
                let part = any_part(n, &mut random);
                let sheet = any_sheet(&part, &mut random);
                let length = chart_of(&part).length();
                let near = length - 8..=length + 2;
                for lent in [0, 1, 5, 6, sheet.len(), length / 2]
                    .into_iter()
                    .chain(near)
                {
                    same(&sheet, lent)?;
                }
            }
            Ok(())
        },
    );
}
