//! Edits to ask for: all those of a part, those that it takes, random ones, and
//! lists of them.

use super::sheets::length_of;
use bend_tests::edit::Edit;
use bend_tests::edit_list::Lending;
use bend_tests::part::{Corner, Part};
use bend_tests::plain_part::PlainPart;
use bend_tests::random::Random;
use bend_tests::sheet;

/// Numbers that name no corner of any part; some do if high bits are lost.
pub const HUGE: [u64; 12] = [
    1024,
    1025,
    65_535,
    65_536,
    65_538,
    1 << 32,
    (1 << 32) + 2,
    1 << 48,
    1 << 63,
    (1 << 63) + 2,
    u64::MAX - 1,
    u64::MAX,
];

/// Every edit that a part with `n` corners can be asked for, and more.
pub fn all_edits(n: Corner) -> Vec<Edit> {
    let numbers = || (0..u64::from(n) + 2).chain(HUGE);
    let one = numbers().flat_map(|x| [Edit::Add { side: x }, Edit::TakeOff { corner: x }]);
    let two = numbers().flat_map(|a| numbers().map(move |b| Edit::Turn { a, b }));
    one.chain(two).collect()
}

/// Whether a diagonal of the part ends at the corner.
fn diagonal_ends_at(part: &Part, corner: u64) -> bool {
    let mut diagonals = part.diagonals.iter();
    diagonals.any(|&(a, b)| corner == a.into() || corner == b.into())
}

/// Every edit that the part takes, lending the least that is enough: the length of
/// the sheet that results.
pub fn taken_edits(part: &Part) -> Vec<Lending> {
    let n = part.n;
    let numbers = || (0..n).map(u64::from);
    let sides = numbers().filter(|_| n < 1024);
    let ears = numbers().filter(|&k| n > 3 && !diagonal_ends_at(part, k));
    let diagonals = part.diagonals.iter().map(|&(a, b)| (a.into(), b.into()));
    let room = |n| length_of(n, part.angles.is_some()) as u32;
    let add = |side| (Edit::Add { side }, room(n + 1));
    let take_off = |corner| (Edit::TakeOff { corner }, room(n - 1));
    let turn = |(a, b)| (Edit::Turn { a, b }, room(n));
    let turns = diagonals.flat_map(|(a, b)| [(a, b), (b, a)]).map(turn);
    sides
        .map(add)
        .chain(ears.map(take_off))
        .chain(turns)
        .collect()
}

/// One of these for each kind of edit that the part takes.
pub fn one_of_each_kind(part: &Part, random: &mut Random) -> Vec<Lending> {
    let mut edits = taken_edits(part);
    random.shuffle(&mut edits);
    // The kinds differ in what they lend.
    edits.sort_by_key(|&(_, room)| room);
    edits.dedup_by_key(|&mut (_, room)| room);
    edits
}

/// A random edit, most of them such that the part can take it.
pub fn any_edit(part: &Part, random: &mut Random) -> Edit {
    let n = usize::from(part.n);
    let any = |random: &mut Random| match random.below(24) {
        0 => *random.pick(&HUGE),
        1 => part.n.into(),
        _ => random.below(n) as u64,
    };
    match random.below(6) {
        0 | 1 => Edit::Add { side: any(random) },
        2 | 3 => {
            // An ear is rare in some parts: look for one, but not for long.
            let mut corner = any(random);
            for _ in 0..6 {
                if !diagonal_ends_at(part, corner) {
                    break;
                }
                corner = any(random);
            }
            Edit::TakeOff { corner }
        }
        4 if !part.diagonals.is_empty() => {
            let &(a, b) = random.pick(&part.diagonals);
            let (a, b) = if random.coin() { (a, b) } else { (b, a) };
            Edit::Turn {
                a: a.into(),
                b: b.into(),
            }
        }
        _ => Edit::Turn {
            a: any(random),
            b: any(random),
        },
    }
}

/// A length to lend to an edit of the part, mostly enough.
pub fn any_room(part: &Part, random: &mut Random) -> usize {
    let length = sheet::length(part);
    let longer = length_of(part.n + 1, part.angles.is_some());
    match random.below(12) {
        0 => random.below(longer + 1),
        1 => length,
        2 => longer,
        3 => longer - random.below(10).min(length),
        _ => longer + random.below(100),
    }
}

/// A list of `count` edits, most of which the part can take, one after another.
pub fn any_list(part: &Part, count: usize, random: &mut Random) -> Vec<Lending> {
    let mut plain = PlainPart::new(&sheet::normal(part)).expect("the part is valid");
    let edit = |_| {
        let edit = any_edit(&plain.part, random);
        let room = any_room(&plain.part, random);
        plain.edit(edit, room);
        (edit, room as u32)
    };
    (0..count).map(edit).collect()
}
