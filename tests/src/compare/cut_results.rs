//! Cut (request (iii)): what becomes of the halves. The library sets in order what it
//! wrote, plans, draws and cuts it again.

#[cfg(feature = "plan")]
use super::checks::{hex, Failure};
use super::checks::{same_bytes, Outcome};
use super::cut::{every_cut, some_cuts};
use super::cut_calls::{any_ends, ends, gives, halves, number_due};
#[cfg(feature = "plan")]
use super::sheets::both_kinds;
use super::sheets::{any_part, any_sheet, ENOUGH};
use super::written::is_sheet_of;
#[cfg(feature = "plan")]
use super::written::levels;
use super::Tests;
use bend_tests::cut::cut;
#[cfg(feature = "plan")]
use bend_tests::join::join;
#[cfg(feature = "plan")]
use bend_tests::join_parts;
use bend_tests::part::{Corner, Pair, Part};
use bend_tests::random::Random;
use bend_tests::sheet::normal;

pub fn run(tests: &mut Tests) {
    followed(tests);
    to_triangles(tests);
    #[cfg(feature = "plan")]
    at_either_bound(tests);
}

/// The part along one of its diagonals, and what becomes of both halves.
fn follow(part: &Part, pair: Pair, random: &mut Random) -> Outcome {
    let sheet = any_sheet(part, random);
    gives(0, &sheet, ends(pair), [ENOUGH; 2])?;
    let due = cut(part, pair.0.into(), pair.1.into()).expect("a diagonal of the part");
    for (half, written) in due.iter().zip(&halves(&sheet, ends(pair))) {
        is_sheet_of(half, written)?;
        #[cfg(feature = "plan")]
        not_more_levels(written, &sheet)?;
    }
    Ok(())
}

fn followed(tests: &mut Tests) {
    for n in 4..=8 {
        let name = format!("cut: all parts of {n} corners, planned and drawn");
        tests.test(&name, || every_cut(n, &mut Random::new(771), follow));
    }
    for n in [20, 100, 1024] {
        let name = format!("cut: every shape of {n} corners, planned and drawn");
        tests.test(&name, || some_cuts(n, &mut Random::new(772), follow));
    }
}

/// A part is cut again and again until triangles are left, and some cuts are refused. The
/// library reads what it wrote; the model is fed the part alone.
fn cut_up(part: Part, random: &mut Random) -> Outcome {
    let first = any_sheet(&part, random);
    let corners = part.n;
    let mut triangles: Corner = 0;
    let mut left = vec![(part, first.clone())];
    while let Some((part, sheet)) = left.pop() {
        let pair = any_ends(&part, random);
        let lent = match random.below(8) {
            0 => [random.below(60), ENOUGH],
            1 => [ENOUGH, random.below(60)],
            _ => [ENOUGH; 2],
        };
        let number = number_due(&part, pair, lent);
        gives(number, &sheet, pair, lent)?;
        if part.n == 3 {
            triangles += 1;
        } else if number != 0 {
            left.push((part, sheet));
        } else {
            let due = cut(&part, pair.0, pair.1).expect("it is taken");
            for (half, written) in due.into_iter().zip(halves(&sheet, pair)) {
                same_bytes(&sheet, &written, &normal(&half))?;
                left.push((half, written));
            }
        }
    }
    // of n corners there are n - 2 triangles
    let found = (triangles + 2).to_be_bytes();
    same_bytes(&first, &found, &corners.to_be_bytes())
}

fn to_triangles(tests: &mut Tests) {
    for (n, count) in [(8, 60), (40, 20), (300, 4), (1024, 1)] {
        let name = format!("cut: parts of {n} corners, cut up to triangles");
        tests.test(&name, || {
            let mut random = Random::new(773);
            (0..count).try_for_each(|_| cut_up(any_part(n, &mut random), &mut random))
        });
    }
}

/// "Neither half has more levels than the whole."
#[cfg(feature = "plan")]
fn not_more_levels(half: &[u8], whole: &[u8]) -> Outcome {
    let [some, all] = [half, whole].map(levels);
    if some <= all {
        return Ok(());
    }
    Err(Failure {
        input: format!("{} of {}", hex(half), hex(whole)),
        library: format!("{some} levels, of a part that has {all}"),
        model: "no more levels than the whole".to_string(),
    })
}

/// Halves of up to 1,022 corners with as many levels as the whole, and with fewer.
#[cfg(feature = "plan")]
fn at_either_bound(tests: &mut Tests) {
    for count in 1..=8 {
        let name = format!("cut: a half of {count} levels, as many as the whole or fewer");
        tests.test(&name, || {
            let mut random = Random::new(778);
            for joined in join_parts::at_either_bound(count) {
                let whole = join(&joined.first, &joined.second, joined.side).expect("it is taken");
                let side = joined.side as Corner;
                let seam = (side, side + joined.second.n - 1);
                for whole in both_kinds(&whole, &mut random) {
                    follow(&whole, seam, &mut random)?;
                    let sheet = normal(&whole);
                    let [inner, rest] = halves(&sheet, ends(seam));
                    let found = [&rest, &inner, &sheet].map(|sheet| levels(sheet) as u8);
                    same_bytes(&sheet, &found, &joined.levels.map(|due| due as u8))?;
                }
            }
            Ok(())
        });
    }
}
