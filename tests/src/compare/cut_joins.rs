//! Cut (request (iii)) and Join (request (i)), by the library one after the other: what was
//! cut is joined again, and what was joined is cut at the seam.

use super::checks::{same_bytes, Outcome};
use super::cut::{every_cut, some_cuts};
use super::cut_calls::{ends, gives, halves};
use super::join::every_two_shapes;
use super::join_calls::joined;
use super::sheets::{any_sheet, both_kinds, ENOUGH};
use super::Tests;
use bend_tests::cut_joined::{cut_again, joined_again};
use bend_tests::part::{lower_first, Pair, Part};
use bend_tests::random::Random;
use bend_tests::shapes::all_parts;
use bend_tests::sheet::normal;

pub fn run(tests: &mut Tests) {
    cut_and_joined(tests);
    joined_and_cut(tests);
}

/// "Joining them again at the same seam gives the part set in order."
fn back_together(part: &Part, pair: Pair, random: &mut Random) -> Outcome {
    let sheet = any_sheet(part, random);
    let [inner, rest] = halves(&sheet, ends(pair));
    let seam = lower_first(pair);
    let whole = joined(&rest, &inner, seam.0.into());
    same_bytes(&sheet, &whole, &normal(&joined_again(part, seam)))
        .map_err(|failure| failure.after(&format!("cut at {pair:?} and joined again,")))
}

fn cut_and_joined(tests: &mut Tests) {
    for n in 4..=8 {
        let name = format!("cut: all parts of {n} corners, joined again");
        tests.test(&name, || every_cut(n, &mut Random::new(774), back_together));
    }
    for n in [20, 100, 1023, 1024] {
        let name = format!("cut: every shape of {n} corners, joined again");
        tests.test(&name, || some_cuts(n, &mut Random::new(775), back_together));
    }
}

/// Two parts that can be joined, in any order: the joined part is cut at its seam. "The
/// second part's root is laid on side i", so that corner i + m - 1 is the seam's other end.
fn at_the_seam(first: &Part, second: &Part, side: u64, random: &mut Random) -> Outcome {
    let whole = joined(&any_sheet(first, random), &any_sheet(second, random), side);
    let seam = (side + u64::from(second.n) - 1, side);
    gives(0, &whole, seam, [ENOUGH; 2])?;
    for (half, written) in cut_again(first, second).iter().zip(halves(&whole, seam)) {
        same_bytes(&whole, &written, &normal(half))?;
    }
    Ok(())
}

fn joined_and_cut(tests: &mut Tests) {
    let name = "cut: all parts of up to 5 corners, joined, at the seam";
    tests.test(name, || {
        let mut random = Random::new(776);
        let small = (3..=5).flat_map(all_parts);
        let kinds = |part| both_kinds(&part, &mut random);
        let small: Vec<Part> = small.flat_map(kinds).collect();
        for (first, second) in small.iter().flat_map(|a| small.iter().map(move |b| (a, b))) {
            for side in 0..u64::from(first.n) - 1 {
                at_the_seam(first, second, side, &mut random)?;
            }
        }
        Ok(())
    });
    for corners in [20, 100, 1024] {
        let name = format!("cut: every shape on every shape, {corners} corners, at the seam");
        tests.test(&name, || {
            every_two_shapes(corners, &mut Random::new(777), at_the_seam)
        });
    }
}
