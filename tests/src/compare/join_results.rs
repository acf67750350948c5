//! Join (request (i)): what becomes of the joined part. The library sets in order what
//! it wrote, plans, draws and joins it again.

#[cfg(feature = "plan")]
use super::checks::{hex, Failure};
use super::checks::{must_be, same_bytes, Outcome};
use super::join::every_two_shapes;
use super::join_calls::{any_sheets, joined, number_due};
use super::sheets::{any_part, any_sheet, maybe_angled, ENOUGH};
use super::written::is_sheet_of;
#[cfg(feature = "plan")]
use super::written::levels;
use super::Tests;
use crate::library;
use bend_tests::join::join;
#[cfg(feature = "plan")]
use bend_tests::join_parts;
use bend_tests::part::{Corner, Part};
use bend_tests::random::Random;
use bend_tests::shapes::all_parts;
use bend_tests::sheet::normal;

pub fn run(tests: &mut Tests) {
    followed(tests);
    chains(tests);
    #[cfg(feature = "plan")]
    at_either_bound(tests);
}

/// Two parts that can be joined, in any order: the joined part, and what becomes of it.
fn follow(first: &Part, second: &Part, side: u64, random: &mut Random) -> Outcome {
    any_sheets(first, second, side, ENOUGH, random)?;
    let whole = join(first, second, side).expect("it is taken");
    let (one, other) = (any_sheet(first, random), any_sheet(second, random));
    let written = joined(&one, &other, side);
    is_sheet_of(&whole, &written)?;
    #[cfg(feature = "plan")]
    levels_between(&one, &other, &written)?;
    Ok(())
}

fn followed(tests: &mut Tests) {
    tests.test(
        "join: all parts of up to 5 corners, planned and drawn",
        || {
            let mut random = Random::new(721);
            let parts: Vec<Part> = (3..=5).flat_map(all_parts).collect();
            for (first, second) in parts.iter().flat_map(|a| parts.iter().map(move |b| (a, b))) {
                for side in 0..u64::from(first.n) - 1 {
                    let first = maybe_angled(first.clone(), &mut random);
                    let second = maybe_angled(second.clone(), &mut random);
                    follow(&first, &second, side, &mut random)?;
                }
            }
            Ok(())
        },
    );
    for corners in [20, 100, 1024] {
        let name =
            format!("join: every shape on every shape, {corners} corners, planned and drawn");
        tests.test(&name, || {
            every_two_shapes(corners, &mut Random::new(722), follow)
        });
    }
}

/// Parts are joined one after another, the one at hand as the first or as the second,
/// and some are refused. The library reads what it wrote last; the model is fed the
/// parts alone.
fn chain(most: usize, random: &mut Random) -> Outcome {
    let mut part = any_part(random.between(3, most) as Corner, random);
    let mut left = any_sheet(&part, random);
    let mut full = 0;
    while full < 3 {
        let new = any_part(random.between(3, most) as Corner, random);
        let sheet = any_sheet(&new, random);
        let mut halves = [(&part, &left), (&new, &sheet)];
        if random.coin() {
            halves.reverse();
        }
        let [(first, one), (second, other)] = halves;
        let side = random.below(usize::from(first.n)) as u64;
        let lent = if random.below(6) == 0 {
            random.below(200)
        } else {
            ENOUGH
        };
        let angled = first.angles.is_some() || second.angles.is_some();
        let number = number_due(first.n, second.n, side, angled, lent);
        let mut out = random.bytes(lent);
        let answer = library::join(one, other, side as usize, &mut out);
        must_be(number, answer, one)?;
        full += usize::from(number == 10);
        if number == 0 {
            out.truncate((answer >> 16) as usize);
            (part, left) = (join(first, second, side).expect("it is taken"), out);
            same_bytes(&left, &left, &normal(&part))?;
        }
    }
    is_sheet_of(&part, &left)
}

fn chains(tests: &mut Tests) {
    for (most, count) in [(4, 4), (8, 8), (40, 20), (200, 40)] {
        let name = format!("join: parts of up to {most} corners, one after another");
        tests.test(&name, || {
            let mut random = Random::new(723);
            (0..count).try_for_each(|_| chain(most, &mut random))
        });
    }
}

/// "Its levels are at least those of either half and at most their sum."
#[cfg(feature = "plan")]
fn levels_between(first: &[u8], second: &[u8], whole: &[u8]) -> Outcome {
    let [one, other, all] = [first, second, whole].map(levels);
    if one.max(other) <= all && all <= one + other {
        return Ok(());
    }
    Err(Failure {
        input: format!("{} of {} and {}", hex(whole), hex(first), hex(second)),
        library: format!("{all} levels, of {one} and {other}"),
        model: "at least those of either half and at most their sum".to_string(),
    })
}

/// Both bounds, reached by halves of up to 1,022 corners.
#[cfg(feature = "plan")]
fn at_either_bound(tests: &mut Tests) {
    for count in 1..=8 {
        let name = format!("join: a half of {count} levels, at either bound");
        tests.test(&name, || {
            let mut random = Random::new(724);
            for halves in join_parts::at_either_bound(count) {
                let first = maybe_angled(halves.first, &mut random);
                let second = maybe_angled(halves.second, &mut random);
                follow(&first, &second, halves.side, &mut random)?;
                let (one, other) = (normal(&first), normal(&second));
                let whole = joined(&one, &other, halves.side);
                let found = [&one, &other, &whole].map(|sheet| levels(sheet) as u8);
                same_bytes(&whole, &found, &halves.levels.map(|due| due as u8))?;
            }
            Ok(())
        });
    }
}
