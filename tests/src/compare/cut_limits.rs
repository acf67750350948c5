//! Cut (request (iii)): lengths of the two outputs. "8 if either output is too short", and
//! then neither is touched.

use super::checks::Outcome;
use super::cut::{every_cut, every_shape};
use super::cut_calls::{any_order, ends, lengths, Ends};
use super::sheets::both_kinds;
use super::Tests;
use bend_tests::part::Part;
use bend_tests::random::Random;
use bend_tests::shapes::{part, Shape};

pub fn run(tests: &mut Tests) {
    small_parts(tests);
    one_by_one(tests);
    large_parts(tests);
    // of their lengths the low 16 bits are 0 and 1, or 1 and 0
    tests.test("cut: outputs much longer than the results", || {
        every_shape(100, &mut Random::new(754), |part, ends, random| {
            any_order(part, ends, [1 << 16, (2 << 16) + 1], random)?;
            any_order(part, ends, [(1 << 16) + 1, 1 << 16], random)
        })
    });
}

/// The part along the diagonal with these lengths of output, each with each.
fn rooms(
    part: &Part,
    ends: Ends,
    inner: impl Iterator<Item = usize>,
    rest: impl Iterator<Item = usize> + Clone,
    random: &mut Random,
) -> Outcome {
    for one in inner {
        for other in rest.clone() {
            any_order(part, ends, [one, other], random)?;
        }
    }
    Ok(())
}

fn small_parts(tests: &mut Tests) {
    for n in 4..=7 {
        let name = format!("cut: every length of both outputs, all parts of {n} corners");
        tests.test(&name, || {
            every_cut(n, &mut Random::new(751), |part, pair, random| {
                let [inner, rest] = lengths(part, ends(pair));
                rooms(part, ends(pair), 0..=inner + 2, 0..=rest + 2, random)
            })
        });
    }
}

/// The other output is just long enough, a byte short or longer, has no byte, or would do
/// for the other half.
fn one_by_one(tests: &mut Tests) {
    tests.test("cut: every length of either output, 120 corners", || {
        let mut random = Random::new(752);
        let whole = part(Shape::Mixed, 120, &mut random);
        for part in both_kinds(&whole, &mut random) {
            for _ in 0..2 {
                let pair = ends(*random.pick(&part.diagonals));
                let [inner, rest] = lengths(&part, pair);
                let others = [0, inner, rest, rest.saturating_sub(1), rest + 1];
                rooms(&part, pair, 0..=inner + 2, others.into_iter(), &mut random)?;
                let others = [0, rest, inner, inner.saturating_sub(1), inner + 1];
                rooms(&part, pair, others.into_iter(), 0..=rest + 2, &mut random)?;
            }
        }
        Ok(())
    });
}

fn large_parts(tests: &mut Tests) {
    let name = "cut: the edges of the outputs' lengths, large parts";
    tests.test(name, || {
        let mut random = Random::new(753);
        for n in (60..1022).step_by(61).chain([1022, 1023, 1024]) {
            let whole = part(Shape::Mixed, n, &mut random);
            for part in both_kinds(&whole, &mut random) {
                let pair = ends(*random.pick(&part.diagonals));
                let [inner, rest] = lengths(&part, pair).map(|length| {
                    let near = length.saturating_sub(2)..=length + 1;
                    near.chain([0, length.saturating_sub(7), length + 9])
                });
                rooms(&part, pair, inner, rest, &mut random)?;
            }
        }
        Ok(())
    });
}
