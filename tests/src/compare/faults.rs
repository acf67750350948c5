//! Faulty sheets: every fault that refusals 1 to 7 and 23 name, by itself and in
//! twos. In twos the first in the published order must win.

use super::checks::Outcome;
use super::sheets::{any_angle, any_four, any_part, ordered, ENOUGH, ORDERS};
use super::Tests;
use bend_tests::fields::Fields;
use bend_tests::part::{cross, is_diagonal, lower_first, Angle, Corner, Pair, Part};
use bend_tests::random::Random;
use bend_tests::sheet::ANGLES_BIT;

/// What becomes of a drafted sheet's bytes at their end.
#[derive(Clone, Copy)]
enum Ending {
    Whole,
    Keep(usize),
    Drop(usize),
    Add(usize),
}

/// A sheet in the making, to which faults are done.
struct Draft {
    map: u8,
    n: Corner,
    /// Those of a valid sheet but for the pairs and angles that faults change.
    fields: Fields,
    ending: Ending,
    /// The places of pairs that a fault needs as they are.
    taken: Vec<usize>,
}

impl Draft {
    /// A valid sheet with at least eight pairs.
    fn new(random: &mut Random) -> Draft {
        let n = match random.below(8) {
            0 => 1024,
            1 => random.between(41, 1023),
            _ => random.between(11, 40),
        };
        Draft::of(&any_part(n as Corner, random), random)
    }

    /// A valid sheet of the part.
    fn of(part: &Part, random: &mut Random) -> Draft {
        let order = *random.pick(&ORDERS);
        let skipped = (random.below(3) > 0).then(|| any_four(random));
        let fields = ordered(part, order, random);
        let fields = Fields { skipped, ..fields };
        Draft {
            map: fields.bytes()[0],
            n: part.n,
            fields,
            ending: Ending::Whole,
            taken: Vec::new(),
        }
    }

    fn bytes(&self) -> Vec<u8> {
        let mut bytes = self.fields.bytes();
        bytes[0] = self.map;
        bytes[1..3].copy_from_slice(&self.n.to_be_bytes());
        match self.ending {
            Ending::Whole => {}
            Ending::Keep(length) => bytes.truncate(length),
            Ending::Drop(count) => bytes.truncate(bytes.len() - count),
            Ending::Add(count) => bytes.extend(vec![0; count]),
        }
        bytes
    }

    /// A place among the pairs that no fault needs yet, often the first or last.
    fn take(&mut self, random: &mut Random) -> usize {
        loop {
            let place = match random.below(4) {
                0 => 0,
                1 => self.fields.pairs.len() - 1,
                _ => random.below(self.fields.pairs.len()),
            };
            if !self.taken.contains(&place) {
                self.taken.push(place);
                return place;
            }
        }
    }
}

/// One way to spoil a valid sheet.
struct Fault {
    name: &'static str,
    /// The refusal that it leads to by itself.
    number: u16,
    /// When it is tested, in the published order: the lower first.
    rank: usize,
    spoil: fn(&mut Draft, &mut Random),
}

const fn fault(
    number: u16,
    rank: usize,
    name: &'static str,
    spoil: fn(&mut Draft, &mut Random),
) -> Fault {
    Fault {
        name,
        number,
        rank,
        spoil,
    }
}

/// Every kind of fault that refusals 1 to 7 and 23 name, in the published order,
/// but bit 3 with n = 3.
static FAULTS: [Fault; 38] = [
    fault(1, 0, "empty", |d, _| d.ending = Ending::Keep(0)),
    fault(1, 0, "bit 0 clear", |d, _| d.map &= !1),
    fault(1, 0, "bit 4 set", |d, _| d.map |= 1 << 4),
    fault(1, 0, "bit 5 set", |d, _| d.map |= 1 << 5),
    fault(1, 0, "bit 6 set", |d, _| d.map |= 1 << 6),
    fault(1, 0, "bit 7 set", |d, _| d.map |= 1 << 7),
    fault(2, 1, "one byte", |d, _| d.ending = Ending::Keep(1)),
    fault(2, 1, "two bytes", |d, _| d.ending = Ending::Keep(2)),
    fault(3, 2, "count 0", |d, _| d.n = 0),
    fault(3, 2, "count 2", |d, _| d.n = 2),
    fault(3, 2, "count 1025", |d, _| d.n = 1025),
    fault(3, 2, "count 65535", |d, _| d.n = u16::MAX),
    fault(4, 3, "pairs bit clear", |d, _| d.map &= !2),
    fault(4, 3, "pairs bit of a triangle", |d, _| d.n = 3),
    fault(2, 4, "a byte short", |d, _| d.ending = Ending::Drop(1)),
    fault(2, 4, "a pair short", |d, _| d.ending = Ending::Drop(4)),
    fault(2, 4, "a byte over", |d, _| d.ending = Ending::Add(1)),
    fault(2, 4, "a pair over", |d, _| d.ending = Ending::Add(4)),
    fault(2, 4, "three bytes", |d, _| d.ending = Ending::Keep(3)),
    fault(2, 4, "bit 2 flipped", |d, _| d.map ^= 4),
    fault(2, 4, "bit 3 flipped", |d, _| d.map ^= ANGLES_BIT),
    fault(2, 4, "two bytes short", |d, _| d.ending = Ending::Drop(2)),
    fault(2, 4, "two bytes over", |d, _| d.ending = Ending::Add(2)),
    fault(5, 5, "a side", |d, random| {
        let a = random.below(usize::from(d.n) - 1) as Corner;
        replace(d, (a, a + 1), random)
    }),
    fault(5, 5, "a side, higher first", |d, random| {
        let a = random.below(usize::from(d.n) - 1) as Corner;
        replace(d, (a + 1, a), random)
    }),
    fault(5, 5, "the root", |d, random| {
        replace(d, (0, d.n - 1), random)
    }),
    fault(5, 5, "the root, higher first", |d, random| {
        replace(d, (d.n - 1, 0), random)
    }),
    fault(5, 5, "equal corners", |d, random| {
        let a = random.below(usize::from(d.n)) as Corner;
        replace(d, (a, a), random)
    }),
    fault(5, 5, "second corner n", |d, random| {
        replace(d, (1, d.n), random)
    }),
    fault(5, 5, "first corner n", |d, random| {
        replace(d, (d.n, 2), random)
    }),
    fault(5, 5, "corner 65535", |d, random| {
        replace(d, (u16::MAX, 5), random)
    }),
    fault(6, 6, "repeated", |d, random| {
        let (from, to) = (d.take(random), d.take(random));
        d.fields.pairs[to] = d.fields.pairs[from];
    }),
    fault(6, 6, "repeated the other way round", |d, random| {
        let (from, to) = (d.take(random), d.take(random));
        let (a, b) = d.fields.pairs[from];
        d.fields.pairs[to] = (b, a);
    }),
    fault(7, 7, "crossing", |d, random| {
        let (kept, place) = (d.take(random), d.take(random));
        let pairs = d.fields.pairs.iter().copied();
        let stands: Vec<Pair> = pairs.map(lower_first).collect();
        loop {
            let a = random.below(usize::from(d.n)) as Corner;
            let b = random.below(usize::from(d.n)) as Corner;
            let pair = lower_first((a, b));
            if is_diagonal(d.n, pair) && !stands.contains(&pair) && cross(pair, stands[kept]) {
                d.fields.pairs[place] = (a, b);
                return;
            }
        }
    }),
    fault(23, 8, "an angle of 1,801", |d, random| {
        bend(d, 1801, random)
    }),
    fault(23, 8, "an angle of -1,801", |d, random| {
        bend(d, -1801, random)
    }),
    fault(23, 8, "an angle of 32,767", |d, random| {
        bend(d, 32767, random)
    }),
    fault(23, 8, "an angle of -32,768", |d, random| {
        bend(d, -32768, random)
    }),
];

/// Gives one of the draft's pairs, or several, the angle, and the draft angles if it
/// has none.
fn bend(draft: &mut Draft, angle: Angle, random: &mut Random) {
    draft.map |= ANGLES_BIT;
    let count = draft.fields.pairs.len();
    let any = || (0..count).map(|_| any_angle(random)).collect();
    let angles = draft.fields.angles.get_or_insert_with(any);
    for _ in 0..=random.below(3) {
        let place = match random.below(4) {
            0 => 0,
            1 => count - 1,
            _ => random.below(count),
        };
        angles[place] = angle;
    }
}

/// Puts `pair` in the place of one of the draft's.
fn replace(draft: &mut Draft, pair: Pair, random: &mut Random) {
    let place = draft.take(random);
    draft.fields.pairs[place] = pair;
}

/// A draft with the faults done to it, the first one last so that it stands.
fn spoiled(first: &Fault, second: Option<&Fault>, random: &mut Random) -> Vec<u8> {
    let mut draft = Draft::new(random);
    if let Some(second) = second {
        (second.spoil)(&mut draft, random);
    }
    (first.spoil)(&mut draft, random);
    draft.bytes()
}

/// Sheets of the part, which has at least eight pairs, one with each fault, and the
/// numbers that are due.
pub fn spoiled_sheets(part: &Part, random: &mut Random) -> Vec<(u16, Vec<u8>)> {
    let spoiled = |fault: &Fault| {
        let mut draft = Draft::of(part, random);
        (fault.spoil)(&mut draft, random);
        (fault.number, draft.bytes())
    };
    FAULTS.iter().map(spoiled).collect()
}

/// Calls `gives` on sheets with the fault: by itself with outputs long and short.
fn alone(fault: &Fault, gives: &impl Fn(u16, &[u8], usize) -> Outcome) -> Outcome {
    let mut random = Random::new(21);
    (0..60).try_for_each(|round| {
        let lent = if round < 40 { ENOUGH } else { round - 40 };
        gives(fault.number, &spoiled(fault, None, &mut random), lent)
    })
}

/// The same on sheets that have a later fault besides.
fn before(first: &Fault, second: &Fault, gives: &impl Fn(u16, &[u8], usize) -> Outcome) -> Outcome {
    let mut random = Random::new(22);
    (0..10).try_for_each(|_| {
        let sheet = spoiled(first, Some(second), &mut random);
        gives(first.number, &sheet, ENOUGH)
    })
}

/// The faults that are tested for after `first`.
fn later(first: &Fault) -> impl Iterator<Item = &'static Fault> {
    let rank = first.rank;
    FAULTS.iter().filter(move |second| second.rank > rank)
}

/// Tests of an operation that reads a sheet, one for each fault and one for each
/// two. `gives` calls the operation with a sheet and an output of a length, and
/// compares it with the number that it should give.
pub fn refusals_in_twos(
    tests: &mut Tests,
    operation: &str,
    gives: impl Fn(u16, &[u8], usize) -> Outcome,
) {
    for first in &FAULTS {
        let name = format!("{operation}: {} {}", first.number, first.name);
        tests.test(&name, || alone(first, &gives));
        for second in later(first) {
            let name = format!("{name} before {} {}", second.number, second.name);
            tests.test(&name, || before(first, second, &gives));
        }
    }
}

/// The same inputs, with one test for each fault that comes first.
pub fn refusals(tests: &mut Tests, operation: &str, gives: impl Fn(u16, &[u8], usize) -> Outcome) {
    for first in &FAULTS {
        let name = format!("{operation}: {} {}", first.number, first.name);
        tests.test(&name, || {
            alone(first, &gives)?;
            later(first).try_for_each(|second| before(first, second, &gives))
        });
    }
}
