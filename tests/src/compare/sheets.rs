//! Sheets to feed the operations: valid ones in every kind of order, with bit 2
//! and without, with angles and without, and damage.

use bend_tests::fields::Fields;
use bend_tests::part::{Angle, Corner, Pair, Part};
use bend_tests::random::Random;
use bend_tests::shapes::{part, SHAPES};
use bend_tests::sheet::{Skipped, ANGLES_BIT, LONGEST};

/// How the pairs of a valid sheet are ordered.
#[derive(Clone, Copy, Debug)]
pub enum Order {
    Ascending,
    Descending,
    Shuffled,
    Swapped,
    ShuffledAndSwapped,
}

pub const ORDERS: [Order; 5] = [
    Order::Ascending,
    Order::Descending,
    Order::Shuffled,
    Order::Swapped,
    Order::ShuffledAndSwapped,
];

/// The part's pairs in the given order, each with its angle if there are any;
/// swapped ones have any corner first. Without bit 2.
pub fn ordered(part: &Part, order: Order, random: &mut Random) -> Fields {
    let mut places: Vec<usize> = (0..part.diagonals.len()).collect();
    match order {
        Order::Ascending | Order::Swapped => {}
        Order::Descending => places.reverse(),
        Order::Shuffled | Order::ShuffledAndSwapped => random.shuffle(&mut places),
    }
    let mut pairs: Vec<Pair> = places.iter().map(|&i| part.diagonals[i]).collect();
    if matches!(order, Order::Swapped | Order::ShuffledAndSwapped) {
        for pair in &mut pairs {
            if random.coin() {
                *pair = (pair.1, pair.0);
            }
        }
    }
    let listed = |angles: &Vec<Angle>| places.iter().map(|&i| angles[i]).collect();
    Fields {
        n: part.n,
        pairs,
        skipped: None,
        angles: part.angles.as_ref().map(listed),
    }
}

/// Where the pairs end on the sheet of a part with `n` corners.
pub fn pairs_end(n: Corner) -> usize {
    3 + 4 * usize::from(n - 3)
}

/// The length of the normal sheet of a part with `n` corners that comes from one
/// with angles, or from one without.
pub fn length_of(n: Corner, angled: bool) -> usize {
    pairs_end(n) + if angled { 2 * usize::from(n - 3) } else { 0 }
}

/// More bytes than any sheet has.
pub const ENOUGH: usize = LONGEST + 100;

/// Any four bytes of bit 2.
pub fn any_four(random: &mut Random) -> Skipped {
    match random.below(4) {
        0 => [0; 4],
        1 => [255; 4],
        _ => (random.bits() as u32).to_be_bytes(),
    }
}

/// Any angle that is allowed, often one of the edges.
pub fn any_angle(random: &mut Random) -> Angle {
    match random.below(8) {
        0 => 0,
        1 => -1800,
        2 => 1800,
        3 => random.between(0, 2) as Angle - 1,
        _ => random.between(0, 3600) as Angle - 1800,
    }
}

/// The part with angles, now and then all of them 0; a triangle as it is.
pub fn any_angled(part: Part, random: &mut Random) -> Part {
    if part.n == 3 {
        return part;
    }
    let flat = random.below(12) == 0;
    let angle = |_| if flat { 0 } else { any_angle(random) };
    let angles: Vec<Angle> = part.diagonals.iter().map(angle).collect();
    part.angled(&angles)
}

/// The part with angles or without.
pub fn maybe_angled(part: Part, random: &mut Random) -> Part {
    if random.coin() {
        any_angled(part, random)
    } else {
        part
    }
}

/// The part without angles, and with them if it is no triangle.
pub fn both_kinds(part: &Part, random: &mut Random) -> Vec<Part> {
    let mut kinds = vec![part.clone(), any_angled(part.clone(), random)];
    kinds.truncate(if part.n == 3 { 1 } else { 2 });
    kinds
}

/// A random valid part with `n` corners, with angles or without.
pub fn any_part(n: Corner, random: &mut Random) -> Part {
    let shape = *random.pick(&SHAPES);
    let part = part(shape, n, random);
    maybe_angled(part, random)
}

/// The part's sheet in a random order, with bit 2 and its bytes if there are any.
pub fn any_order(part: &Part, skipped: Option<Skipped>, random: &mut Random) -> Vec<u8> {
    let order = *random.pick(&ORDERS);
    let fields = ordered(part, order, random);
    Fields { skipped, ..fields }.bytes()
}

/// The part's sheet in a random order, mostly with bit 2.
pub fn any_sheet(part: &Part, random: &mut Random) -> Vec<u8> {
    let skipped = (random.below(3) > 0).then(|| any_four(random));
    any_order(part, skipped, random)
}

/// The part's sheets with the pairs in order, without bit 2 and with it, without
/// angles and, if it is no triangle, with them.
pub fn without_and_with(part: &Part) -> Vec<Vec<u8>> {
    let mut sheets = Vec::new();
    for part in both_kinds(&Part::new(part.n, &part.diagonals), &mut Random::new(1)) {
        for skipped in [None, Some([0, 0, 0, 9])] {
            let fields = Fields::of(&part);
            sheets.push(Fields { skipped, ..fields }.bytes());
        }
    }
    sheets
}

/// Whether bit 3 of the sheet stands.
pub fn has_angles(sheet: &[u8]) -> bool {
    sheet[0] & ANGLES_BIT != 0
}

/// One way to damage bytes at random, with its name.
type Damage = (&'static str, fn(&mut Vec<u8>, &mut Random));

pub const DAMAGES: [Damage; 6] = [
    ("a bit flipped", |bytes, random| {
        let place = random.below(bytes.len());
        bytes[place] ^= 1 << random.below(8);
    }),
    ("a byte replaced", |bytes, random| {
        let place = random.below(bytes.len());
        bytes[place] = random.byte();
    }),
    ("a byte inserted", |bytes, random| {
        bytes.insert(random.below(bytes.len() + 1), random.byte());
    }),
    ("a byte removed", |bytes, random| {
        bytes.remove(random.below(bytes.len()));
    }),
    ("two bytes exchanged", |bytes, random| {
        let (one, other) = (random.below(bytes.len()), random.below(bytes.len()));
        bytes.swap(one, other);
    }),
    ("several bytes replaced", |bytes, random| {
        for _ in 0..random.between(2, 6) {
            let place = random.below(bytes.len());
            bytes[place] = random.byte();
        }
    }),
];
