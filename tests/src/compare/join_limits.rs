//! Join (request (i)): two valid sheets that are refused by 9, 10 or 8, or just taken.

use super::checks::Outcome;
use super::join::every_two_shapes;
use super::join_calls::{any_sheets, gives};
use super::sheets::{any_part, both_kinds, has_angles, length_of, without_and_with, ENOUGH};
use super::Tests;
use bend_tests::part::{Corner, Part};
use bend_tests::random::Random;
use bend_tests::shapes::{part, Shape};

pub fn run(tests: &mut Tests) {
    at_the_limit(tests);
    output_lengths(tests);
}

/// Corners of two parts that are just taken, and of such as are refused by 10.
const TAKEN: [(Corner, Corner); 8] = [
    (1023, 3),
    (1022, 4),
    (1021, 5),
    (514, 512),
    (513, 513),
    (512, 514),
    (4, 1022),
    (3, 1023),
];
const REFUSED: [(Corner, Corner); 10] = [
    (1024, 3),
    (1023, 4),
    (1022, 5),
    (514, 513),
    (513, 514),
    (4, 1023),
    (3, 1024),
    (768, 768),
    (1023, 1023),
    (1024, 1024),
];

/// With and without bit 2 and angles in either sheet. On the first, a middle and the
/// last side before the root they are taken if the output is just long enough, and
/// else refused by 8; or they are refused by 10, whatever the output. On the root and
/// beyond it is 9, whatever the corners.
fn at_the_limit(tests: &mut Tests) {
    for (n, m) in TAKEN.into_iter().chain(REFUSED) {
        let full = REFUSED.contains(&(n, m));
        let number = if full { "refused by 10" } else { "taken" };
        tests.test(&format!("join: {m} corners on {n}, {number}"), || {
            let mut random = Random::new(711);
            let (first, second) = (any_part(n, &mut random), any_part(m, &mut random));
            let seconds = without_and_with(&second);
            for first in without_and_with(&first) {
                for second in &seconds {
                    let length = length_of(1024, has_angles(&first) || has_angles(second));
                    for side in [0, n / 2, n - 2].map(u64::from) {
                        for (lent, due) in [(0, 8), (length - 1, 8), (length, 0), (length + 2, 0)] {
                            let due = if full { 10 } else { due };
                            gives(due, &first, second, side, lent)?;
                        }
                    }
                    for side in [u64::from(n - 1), u64::from(n), 1 << 63, u64::MAX] {
                        gives(9, &first, second, side, ENOUGH)?;
                        gives(9, &first, second, side, 0)?;
                    }
                }
            }
            Ok(())
        });
    }
}

/// The parts with and without angles, with these lengths of output.
fn rooms(
    first: &Part,
    second: &Part,
    lengths: impl Iterator<Item = usize> + Clone,
    random: &mut Random,
) -> Outcome {
    let side = random.below(usize::from(first.n) - 1) as u64;
    for first in both_kinds(first, random) {
        for second in both_kinds(second, random) {
            let mut lengths = lengths.clone();
            lengths.try_for_each(|lent| any_sheets(&first, &second, side, lent, random))?;
        }
    }
    Ok(())
}

fn output_lengths(tests: &mut Tests) {
    tests.test("join: every length of output, small parts", || {
        let mut random = Random::new(712);
        for n in (3..=16).flat_map(|n| [n; 3]) {
            let m = random.between(3, 16) as Corner;
            let first = part(Shape::Split, n, &mut random);
            let second = part(Shape::Split, m, &mut random);
            let longest = length_of(n + m - 2, true);
            rooms(&first, &second, 0..=longest + 2, &mut random)?;
        }
        Ok(())
    });
    tests.test("join: every length of output, 200 corners", || {
        let mut random = Random::new(713);
        let first = part(Shape::Mixed, 90, &mut random);
        let second = part(Shape::Split, 112, &mut random);
        rooms(&first, &second, 0..=length_of(200, true) + 2, &mut random)
    });
    let name = "join: the edges of the output's length, large parts";
    tests.test(name, || {
        let mut random = Random::new(714);
        for corners in (60..1022).step_by(61).chain([1022, 1023, 1024]) {
            let n = random.between(3, usize::from(corners) - 1) as Corner;
            let first = part(Shape::Mixed, n, &mut random);
            let second = part(Shape::Mixed, corners + 2 - n, &mut random);
            let [without, with] = [false, true].map(|angled| length_of(corners, angled));
            let near = (without - 7..=without + 7).chain(with - 7..=with + 2);
            rooms(&first, &second, (0..8).chain(near), &mut random)?;
        }
        Ok(())
    });
    tests.test("join: an output much longer than the result", || {
        every_two_shapes(100, &mut Random::new(715), |first, second, side, random| {
            any_sheets(first, second, side, 100_000, random)
        })
    });
}
