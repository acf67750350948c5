//! The three edits, on parts and on sheets.
//! Follows "The plain part and demand 3" of document 01, and the edits under
//! "Operations and their refusals". By request (xi) "a turned diagonal starts at 0,
//! as does the diagonal of an added corner .., and an angle is dropped when its
//! diagonal becomes a side. .. A result has bit 3 exactly when a sheet it comes from
//! has and its own n is over 3."

use crate::answer::{Refusal, Written};
use crate::part::{is_side, lower_first, Corner, Pair, Part, FEWEST, MOST};
use crate::sheet::{read, write_normal};

/// An edit and its numbers, which may be of any size.
#[derive(Clone, Copy, Debug, PartialEq, Eq)]
pub enum Edit {
    /// Add a corner on a side.
    Add { side: u64 },
    /// Take off a corner.
    TakeOff { corner: u64 },
    /// Turn the diagonal (a,b), named in either order.
    Turn { a: u64, b: u64 },
}

/// The number as a corner of a part with `n` corners, or as a side of it.
fn below(n: Corner, number: u64) -> Result<Corner, Refusal> {
    if number < u64::from(n) {
        Ok(number as Corner)
    } else {
        Err(Refusal::OutOfRange)
    }
}

/// The diagonal between a and b, named in either order, or why it can be neither turned
/// nor cut: 9 and 13.
pub fn diagonal(part: &Part, a: u64, b: u64) -> Result<Pair, Refusal> {
    let pair = lower_first((below(part.n, a)?, below(part.n, b)?));
    if part.has(pair) {
        Ok(pair)
    } else {
        Err(Refusal::Lacking)
    }
}

impl Edit {
    /// Does the edit to the part. A refused edit changes nothing.
    pub fn apply(self, part: &mut Part) -> Result<(), Refusal> {
        match self {
            Edit::Add { side } => {
                let i = below(part.n, side)?;
                if part.n == MOST {
                    return Err(Refusal::Full);
                }
                add(part, i);
            }
            Edit::TakeOff { corner } => {
                let k = below(part.n, corner)?;
                if part.n == FEWEST {
                    return Err(Refusal::Triangle);
                }
                if part.diagonals.iter().any(|&(a, b)| a == k || b == k) {
                    return Err(Refusal::NotAnEar);
                }
                take_off(part, k);
            }
            Edit::Turn { a, b } => turn(part, diagonal(part, a, b)?),
        }
        Ok(())
    }
}

/// A new corner i+1 on side i, which becomes a diagonal.
fn add(part: &mut Part, i: Corner) {
    let root = part.n - 1;
    let up = |corner: Corner| corner + Corner::from(corner > i);
    for (a, b) in &mut part.diagonals {
        (*a, *b) = (up(*a), up(*b));
    }
    part.n += 1;
    enter(part, if i == root { (0, i) } else { (i, i + 2) });
}

/// Corner k goes, and with it the diagonal between its two neighbours.
fn take_off(part: &mut Part, k: Corner) {
    let n = part.n;
    leave(part, lower_first(((k + n - 1) % n, (k + 1) % n)));
    let down = |corner: Corner| corner - Corner::from(corner > k);
    for (a, b) in &mut part.diagonals {
        (*a, *b) = (down(*a), down(*b));
    }
    part.n -= 1;
    if part.n == FEWEST {
        part.angles = None;
    }
}

/// The diagonal leaves; the two corners joined to both its ends enter as a pair.
fn turn(part: &mut Part, (a, b): Pair) {
    leave(part, (a, b));
    let (near_a, near_b) = (joined_to(part, a), joined_to(part, b));
    let mut common = (0..part.n).filter(|&x| near_a[usize::from(x)] && near_b[usize::from(x)]);
    let (low, high) = (common.next(), common.next());
    let pair = low.zip(high).expect("a diagonal lies in two triangles");
    assert_eq!(common.next(), None);
    enter(part, pair);
}

/// For each corner, whether a side or a diagonal joins it to `corner`.
fn joined_to(part: &Part, corner: Corner) -> Vec<bool> {
    let mut joined: Vec<bool> = (0..part.n)
        .map(|x| is_side(part.n, lower_first((x, corner))))
        .collect();
    for &(a, b) in &part.diagonals {
        if a == corner {
            joined[usize::from(b)] = true;
        }
        if b == corner {
            joined[usize::from(a)] = true;
        }
    }
    joined
}

/// A new diagonal, whose angle starts at 0.
fn enter(part: &mut Part, diagonal: Pair) {
    let place = part.diagonals.partition_point(|&other| other < diagonal);
    part.diagonals.insert(place, diagonal);
    if let Some(angles) = &mut part.angles {
        angles.insert(place, 0);
    }
}

/// The diagonal goes, and its angle with it.
fn leave(part: &mut Part, diagonal: Pair) {
    let place = part.diagonals.binary_search(&diagonal);
    let place = place.expect("the diagonal is there");
    part.diagonals.remove(place);
    if let Some(angles) = &mut part.angles {
        angles.remove(place);
    }
}

/// An edit of a sheet: refusals 1 to 7 and 23, then the edit's own, and 8 last.
pub fn edit_sheet(sheet: &[u8], edit: Edit, out: &mut [u8]) -> Written {
    let mut part = read(sheet)?;
    edit.apply(&mut part)?;
    write_normal(&part, out)
}

#[cfg(test)]
mod tests {
    use super::*;
    use crate::shapes::all_parts;

    fn after(part: &Part, edit: Edit) -> Result<Part, Refusal> {
        let mut part = part.clone();
        edit.apply(&mut part).map(|()| part)
    }

    #[test]
    fn known_parts() {
        let turned = after(&Part::new(4, &[(0, 2)]), Edit::Turn { a: 2, b: 0 });
        assert_eq!(turned, Ok(Part::new(4, &[(1, 3)])));
        let again = after(&turned.unwrap(), Edit::Turn { a: 1, b: 3 });
        assert_eq!(again, Ok(Part::new(4, &[(0, 2)])));
        let fan: Vec<Pair> = (2..1022).map(|b| (0, b)).collect();
        let more = after(&Part::new(1023, &fan), Edit::Add { side: 1022 }).unwrap();
        assert!(more.n == 1024 && more.is_valid());
        assert_eq!(after(&more, Edit::Add { side: 0 }), Err(Refusal::Full));
    }

    #[test]
    fn angles_of_known_edits() {
        let square = Part::new(4, &[(0, 2)]).angled(&[450]);
        let turned = after(&square, Edit::Turn { a: 2, b: 0 }).unwrap();
        assert_eq!(turned, Part::new(4, &[(1, 3)]).angled(&[0]));
        let again = after(&turned, Edit::Turn { a: 1, b: 3 });
        assert_eq!(again, Ok(Part::new(4, &[(0, 2)]).angled(&[0])));
        let fan = |n: Corner| Part::new(n, &(2..n - 1).map(|b| (0, b)).collect::<Vec<_>>());
        let pentagon = fan(5).angled(&[10, -20]);
        for (edit, n, pairs, angles) in [
            // side 0 becomes (0,2), the others move up; the root becomes (0,4)
            (
                Edit::Add { side: 0 },
                6,
                &[(0, 2), (0, 3), (0, 4)][..],
                &[0, 10, -20][..],
            ),
            (
                Edit::Add { side: 2 },
                6,
                &[(0, 2), (0, 4), (2, 4)],
                &[10, -20, 0],
            ),
            (
                Edit::Add { side: 4 },
                6,
                &[(0, 2), (0, 3), (0, 4)],
                &[10, -20, 0],
            ),
            // (0,2) or (0,3) becomes a side
            (Edit::TakeOff { corner: 1 }, 4, &[(0, 2)], &[-20]),
            (Edit::TakeOff { corner: 4 }, 4, &[(0, 2)], &[10]),
            (Edit::Turn { a: 0, b: 2 }, 5, &[(0, 3), (1, 3)], &[-20, 0]),
            (Edit::Turn { a: 3, b: 0 }, 5, &[(0, 2), (2, 4)], &[10, 0]),
        ] {
            let expected = Part::new(n, pairs).angled(angles);
            assert_eq!(after(&pentagon, edit), Ok(expected), "{edit:?}");
        }
        assert_eq!(
            after(&pentagon, Edit::Turn { a: 1, b: 3 }),
            Err(Refusal::Lacking)
        );
        // not remembered through a triangle, and none appear
        let triangle = after(&square, Edit::TakeOff { corner: 1 }).unwrap();
        assert_eq!(triangle, fan(3));
        assert_eq!(after(&triangle, Edit::Add { side: 2 }), Ok(fan(4)));
    }

    /// Each diagonal of the result has the angle that it had under its old numbers,
    /// or 0 if it was none.
    #[test]
    fn angles_stay_with_their_diagonals() {
        for part in (4..=8).flat_map(all_parts) {
            let angles: Vec<i16> = (1..=part.n as i16 - 3).collect();
            let part = part.angled(&angles);
            let check = |edit: Edit, old: &dyn Fn(Corner) -> Corner| {
                let Ok(edited) = after(&part, edit) else {
                    return;
                };
                let had = |&(a, b): &Pair| {
                    let place = part.diagonals.binary_search(&(old(a), old(b)));
                    place.map_or(0, |place| angles[place])
                };
                let expected: Vec<i16> = edited.diagonals.iter().map(had).collect();
                assert_eq!(edited.angles, (edited.n > 3).then_some(expected));
                assert!(edited.is_valid());
            };
            for k in 0..part.n {
                let corner = u64::from(k);
                let added = |x: Corner| x - Corner::from(x > k);
                check(Edit::Add { side: corner }, &added);
                let taken_off = |x: Corner| x + Corner::from(x >= k);
                check(Edit::TakeOff { corner }, &taken_off);
            }
            for &(a, b) in &part.diagonals {
                let (a, b) = (b.into(), a.into());
                check(Edit::Turn { a, b }, &|x| x);
            }
        }
    }

    #[test]
    fn edits_keep_parts_valid_and_can_be_undone() {
        for part in (3..=8).flat_map(all_parts) {
            for side in 0..u64::from(part.n) {
                let more = after(&part, Edit::Add { side }).unwrap();
                assert!(more.is_valid());
                let back = after(&more, Edit::TakeOff { corner: side + 1 });
                assert_eq!(back.as_ref(), Ok(&part));
            }
            for &(a, b) in &part.diagonals {
                let (a, b) = (u64::from(a), u64::from(b));
                let turned = after(&part, Edit::Turn { a, b }).unwrap();
                assert!(turned.is_valid() && turned != part);
                let new = turned.diagonals.iter().find(|&&d| !part.has(d)).unwrap();
                let (a, b) = (u64::from(new.0), u64::from(new.1));
                assert_eq!(after(&turned, Edit::Turn { a: b, b: a }), Ok(part.clone()));
            }
            for corner in 0..u64::from(part.n) {
                if let Ok(less) = after(&part, Edit::TakeOff { corner }) {
                    assert!(less.is_valid() && less.n == part.n - 1);
                }
            }
        }
    }
}
