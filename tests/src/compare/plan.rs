//! Plan: the library's `bend_plan` beside the model.

use super::angle_results;
use super::angles;
use super::bit_2;
use super::calls::Call;
use super::checks::{hex, must_be, Failure, Outcome};
use super::faults::refusals;
use super::groups::{self, Damaged};
use super::sheets::any_sheet;
use super::Tests;
use crate::library;
use bend_tests::answer::Refusal;
use bend_tests::edit_list::Lending;
use bend_tests::part::{Corner, Pair, Part};
use bend_tests::plan::{plan_sheet, Counts};
use bend_tests::random::Random;
use bend_tests::search::{least_of_all_plans, plan_drawn};
use bend_tests::shapes::{part, Shape};
use bend_tests::sheet;

pub fn run(tests: &mut Tests) {
    known_parts(tests);
    searched(tests);
    large_parts(tests);
    refusals(tests, "plan", |number, sheet, _| {
        must_be(number, library::plan(sheet), sheet)?;
        same(sheet)
    });
    damaged_sheets(tests);
    let call = |_: &Part, _: &[Lending]| vec![(Plan, 0)];
    bit_2::run(tests, "plan", call);
    angles::run(tests, "plan", call);
    angle_results::alike(tests, "plan", call);
}

#[derive(Clone, Copy, Debug)]
struct Plan;

impl Call for Plan {
    fn by_library(self, sheet: &[u8], _: &mut [u8]) -> u64 {
        library::plan(sheet)
    }

    fn same(self, sheet: &[u8], _: usize) -> Outcome {
        same(sheet)
    }
}

/// The library's answer, told as the model's.
fn told(answer: u64) -> String {
    let part = |from: u32| answer >> from & 0xffff;
    format!(
        "number {}, levels {}, umbrellas {}, stems {}",
        part(0),
        part(16),
        part(32),
        part(48)
    )
}

/// The library gives the expected counts or refusal, and zeros with a refusal.
pub fn gives(sheet: &[u8], expected: Result<Counts, Refusal>) -> Outcome {
    let expected = match expected {
        Err(refusal) => u64::from(refusal.number()),
        Ok(counts) => {
            let all = [counts.stems, counts.umbrellas, counts.levels, 0];
            all.iter().fold(0, |packed, &n| packed << 16 | u64::from(n))
        }
    };
    let given = sheet.to_vec();
    let answer = library::plan(&given);
    if answer == expected && given == sheet {
        return Ok(());
    }
    let changed = if given == sheet {
        ""
    } else {
        ", input changed"
    };
    Err(Failure {
        input: hex(sheet),
        library: told(answer) + changed,
        model: told(expected),
    })
}

/// Both sides on one sheet.
fn same(sheet: &[u8]) -> Outcome {
    gives(sheet, plan_sheet(sheet))
}

fn known_parts(tests: &mut Tests) {
    let known: [(Corner, &[Pair], [u16; 3]); 6] = [
        (3, &[], [1, 1, 0]),
        (4, &[(0, 2)], [1, 1, 0]),
        (5, &[(0, 3), (1, 3)], [1, 1, 1]),
        (5, &[(1, 4), (1, 3)], [1, 1, 1]),
        (6, &[(0, 2), (2, 4), (0, 4)], [1, 1, 1]),
        (7, &[(0, 5), (1, 5), (1, 3), (3, 5)], [2, 2, 0]),
    ];
    for (n, pairs, [levels, umbrellas, stems]) in known {
        tests.test(&format!("plan: known part n = {n}, {pairs:?}"), || {
            let counts = Counts {
                levels,
                umbrellas,
                stems,
            };
            gives(&sheet::with_pairs(n, pairs, None), Ok(counts))
        });
    }
}

fn searched(tests: &mut Tests) {
    let plans = "beside a search of all plans";
    groups::small_parts(tests, "plan", plans, 101, |part, sheet| {
        let plan = plan_drawn(part);
        assert_eq!(plan.counts.levels, least_of_all_plans(part, plan.piece));
        gives(sheet, Ok(plan.counts))
    });
    let umbrellas = "beside a search of all umbrellas";
    groups::shaped_parts(tests, "plan", umbrellas, 102, |part, sheet| {
        gives(sheet, Ok(plan_drawn(part).counts))
    });
}

fn large_parts(tests: &mut Tests) {
    groups::large_parts(tests, "plan", [103, 106], same);
    tests.test("plan: 2^(levels+1) - 1 corners and one less", || {
        let mut random = Random::new(104);
        for power in 3..=10 {
            for n in [(1 << power) - 2, (1 << power) - 1] {
                for _ in 0..20 {
                    let part = part(Shape::Deep, n, &mut random);
                    same(&any_sheet(&part, &mut random))?;
                }
            }
        }
        Ok(())
    });
    groups::bit_2_angles_and_order(tests, "plan", 105, |part, sheet| {
        gives(sheet, plan_sheet(&sheet::normal(part)))
    });
}

fn damaged_sheets(tests: &mut Tests) {
    let how_many = Damaged {
        rounds: 3000,
        to_a_large_one: 20,
        most: 24,
    };
    groups::damaged_sheets(tests, "plan", 111, how_many, |_, sheet, _| same(sheet));
    groups::truncated_sheets(tests, "plan", 112, same);
    groups::random_bytes(tests, "plan", 113, same);
}
