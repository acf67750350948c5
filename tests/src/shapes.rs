//! Parts to test with: all small ones, and random large ones of several shapes.
//! Follows "The part" of document 01.

use crate::part::{Angle, Corner, Pair, Part};
use crate::random::Random;

/// How the triangles of a random part lie.
#[derive(Clone, Copy, Debug, PartialEq, Eq)]
pub enum Shape {
    /// All diagonals at one corner.
    Fan,
    /// One strip, its diagonals going to and fro.
    Zigzag,
    /// Every piece halved.
    Balanced,
    /// Every piece split at a corner drawn evenly.
    Split,
    /// One strip, each triangle on a side at random.
    Chain,
    /// A strip with triangles and small pieces left standing beside it.
    Caterpillar,
    /// Two corners cut off every piece before it is halved: many levels.
    Deep,
    /// A few runs of fans, strips and halved pieces within each other.
    Mixed,
}

pub const SHAPES: [Shape; 8] = [
    Shape::Fan,
    Shape::Zigzag,
    Shape::Balanced,
    Shape::Split,
    Shape::Chain,
    Shape::Caterpillar,
    Shape::Deep,
    Shape::Mixed,
];

/// The diagonals of a part of 11 corners with pieces hung on row 1 and on row 2D,
/// which no known part of document 01 has: 2 levels, 4 umbrellas, 1 stem.
pub const HUNG: [Pair; 8] = [
    (0, 3),
    (0, 9),
    (1, 3),
    (3, 6),
    (3, 9),
    (4, 6),
    (6, 8),
    (6, 9),
];

/// The diagonals of a part of 12 corners with two pieces hung beside each other, of
/// which the first alone has a stem: 2 levels, 3 umbrellas, 1 stem. By document 01's
/// places no bar lies on row 1, and on row 3 bars of the first piece only.
pub const SIDE_BY_SIDE: [Pair; 9] = [
    (0, 6),
    (0, 10),
    (1, 3),
    (1, 5),
    (1, 6),
    (3, 5),
    (6, 8),
    (6, 10),
    (8, 10),
];

/// A part of the shape with `n` corners, half of them turned round the outline.
pub fn part(shape: Shape, n: Corner, random: &mut Random) -> Part {
    let mut pairs = Vec::new();
    let mut pieces = vec![(0, n - 1, shape, 0)];
    while let Some((u, v, shape, step)) = pieces.pop() {
        if u + 1 == v {
            continue;
        }
        if (u, v) != (0, n - 1) {
            pairs.push((u, v));
        }
        let shape = match shape {
            Shape::Mixed if random.below(8) == 0 => *random.pick(&SHAPES),
            other => other,
        };
        let c = apex(shape, u, v, step, random);
        pieces.push((u, c, shape, step + 1));
        pieces.push((c, v, shape, step + 1));
    }
    let turn = if random.coin() {
        0
    } else {
        random.below(usize::from(n)) as Corner
    };
    rotated(&Part::new(n, &pairs), turn)
}

/// The third corner of the triangle at the root edge of the piece (u,v).
fn apex(shape: Shape, u: Corner, v: Corner, step: usize, random: &mut Random) -> Corner {
    let span = usize::from(v - u);
    let ends = |low: bool| if low { u + 1 } else { v - 1 };
    match shape {
        Shape::Fan => v - 1,
        Shape::Zigzag => ends(step.is_multiple_of(2)),
        Shape::Balanced => u + (v - u) / 2,
        Shape::Split | Shape::Mixed => u + random.between(1, span - 1) as Corner,
        Shape::Chain => ends(random.coin()),
        Shape::Caterpillar => {
            let away = random.between(1, (span - 1).min(4)) as Corner;
            if random.coin() {
                u + away
            } else {
                v - away
            }
        }
        Shape::Deep if step % 3 == 2 || span < 4 => u + (v - u) / 2,
        Shape::Deep => ends(step.is_multiple_of(3)),
    }
}

/// The part of 2^(levels+1) - 1 corners that has the levels and no stem: a triangle,
/// or two at one corner and behind them two such parts, of one level less, side by
/// side.
pub fn tight(levels: u16) -> Part {
    let mut pairs = Vec::new();
    let root = tight_piece(0, levels, true, &mut pairs);
    pairs.retain(|&pair| pair != (0, root));
    Part::new(root + 1, &pairs)
}

/// Adds the edges of the piece (u,v) that `tight` speaks of, its triangles at u or
/// else at v, and gives v.
fn tight_piece(u: Corner, levels: u16, low: bool, pairs: &mut Vec<Pair>) -> Corner {
    let mut v = u + 2;
    if levels > 1 {
        v = tight_pieces(u + 1, levels - 1, pairs) + 1;
        pairs.push(if low { (u, v - 1) } else { (u + 1, v) });
    }
    pairs.push((u, v));
    v
}

/// Adds the edges of the piece (u,v) with two tight ones side by side, which has no
/// more levels than each of them, and gives v.
fn tight_pieces(u: Corner, levels: u16, pairs: &mut Vec<Pair>) -> Corner {
    let between = tight_piece(u, levels, true, pairs);
    let v = tight_piece(between, levels, false, pairs);
    pairs.push((u, v));
    v
}

/// A part of 2 or more levels whose stem passes between two pieces of one level less,
/// hung on row 1 and on row 2D: bars of the one lie on every odd row, by document
/// 01's places, and of the other on every even row but 0.
pub fn tall(levels: u16) -> Part {
    let mut pairs = Vec::new();
    let end = tight_pieces(1, levels - 1, &mut pairs);
    let last = tight_pieces(end + 1, levels - 1, &mut pairs);
    pairs.extend([(1, end + 1), (1, last), (0, last)]);
    Part::new(last + 2, &pairs)
}

/// The part with every corner's number raised by `turn`, round the outline.
pub fn rotated(part: &Part, turn: Corner) -> Part {
    let n = part.n;
    let pairs: Vec<Pair> = part
        .diagonals
        .iter()
        .map(|&(a, b)| ((a + turn) % n, (b + turn) % n))
        .collect();
    Part::new(n, &pairs)
}

/// The part without angles and, unless it is a triangle, with different ones, none 0.
pub fn kinds(part: &Part) -> Vec<Part> {
    let angles: Vec<Angle> = (1..part.n as Angle - 2).collect();
    let mut kinds = vec![part.clone(), part.clone().angled(&angles)];
    kinds.truncate(if part.n == 3 { 1 } else { 2 });
    kinds
}

/// Every part with `n` corners.
pub fn all_parts(n: Corner) -> Vec<Part> {
    inside(0, n - 1)
        .iter()
        .map(|pairs| Part::new(n, pairs))
        .collect()
}

/// Every way to cut the piece (u,v) into triangles, as the diagonals inside it.
fn inside(u: Corner, v: Corner) -> Vec<Vec<Pair>> {
    if u + 1 == v {
        return vec![Vec::new()];
    }
    let mut ways = Vec::new();
    for c in u + 1..v {
        let edges = [(u, c), (c, v)].into_iter().filter(|(a, b)| a + 1 < *b);
        let diagonals: Vec<Pair> = edges.collect();
        for left in inside(u, c) {
            for right in inside(c, v) {
                ways.push([&diagonals[..], &left, &right].concat());
            }
        }
    }
    ways
}

#[cfg(test)]
mod tests {
    use super::*;

    #[test]
    fn all_small_parts_are_there_once() {
        for (n, count) in (3..).zip([1, 2, 5, 14, 42, 132, 429]) {
            let mut parts = all_parts(n);
            assert!(parts.iter().all(Part::is_valid));
            parts.sort_by(|one, other| one.diagonals.cmp(&other.diagonals));
            parts.dedup();
            assert_eq!(parts.len(), count);
        }
    }

    #[test]
    fn tight_and_tall_parts_are_valid() {
        for levels in 1..=9 {
            let tight = tight(levels);
            assert!(tight.is_valid() && tight.n == (2 << levels) - 1);
        }
        assert!((2..=8).map(tall).all(|part| part.is_valid()));
        assert!(Part::new(11, &HUNG).is_valid());
        assert!(Part::new(12, &SIDE_BY_SIDE).is_valid());
    }

    #[test]
    fn random_parts_are_valid() {
        let mut random = Random::new(1);
        for shape in SHAPES {
            for n in (3..40).chain([200, 1023, 1024]) {
                assert!(part(shape, n, &mut random).is_valid(), "{shape:?} {n}");
            }
        }
    }
}
