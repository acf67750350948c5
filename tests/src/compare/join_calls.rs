//! Calls of Join: the library's `bend_join` beside the model, on two sheets, and on one
//! of them with the other held.

use super::calls::Call;
use super::checks::{hex, must_be, same_bytes, same_writing, Outcome};
use super::sheets::{any_sheet, length_of, ENOUGH};
use crate::library;
use bend_tests::join::join_sheets;
use bend_tests::part::{Corner, Part};
use bend_tests::random::Random;
use std::fmt;
use std::hint::black_box;

/// Both sides on two sheets, which may be one slice, with `lent` bytes of output.
pub fn same(first: &[u8], second: &[u8], side: u64, lent: usize) -> Outcome {
    let kept = second.to_vec();
    let outcome = same_writing(
        first,
        lent,
        |first, out| library::join(first, second, side as usize, out),
        |first, out| join_sheets(first, &kept, side, out),
    );
    let stayed = || {
        let outcome = same_bytes(first, black_box(second), &kept);
        outcome.map_err(|failure| failure.after("second sheet changed,"))
    };
    let outcome = outcome.and_then(|()| stayed());
    outcome.map_err(|failure| failure.after(&format!("{} on side {side} of", hex(&kept))))
}

/// Both sides, and the number that the test was made to get.
pub fn gives(number: u16, first: &[u8], second: &[u8], side: u64, lent: usize) -> Outcome {
    let answer = library::join(first, second, side as usize, &mut vec![0; lent]);
    must_be(number, answer, first)
        .map_err(|failure| failure.after(&format!("{} on side {side} of", hex(second))))?;
    same(first, second, side, lent)
}

/// The library writes this result and no byte more, or refuses by 8 if it is too long
/// for the room.
pub fn writes(first: &[u8], second: &[u8], side: u64, room: usize, result: &[u8]) -> Outcome {
    Half {
        place: Place::First,
        other: second,
        side,
        number: 0,
    }
    .writes(first, room, result)
}

/// What the library writes, at its length.
pub fn joined(first: &[u8], second: &[u8], side: u64) -> Vec<u8> {
    let mut out = vec![0; ENOUGH];
    let answer = library::join(first, second, side as usize, &mut out);
    out.truncate((answer >> 16) as usize);
    out
}

/// Sheets of both parts in any order, with and without bit 2: the number due, and the
/// model's answer and bytes.
pub fn any_sheets(
    first: &Part,
    second: &Part,
    side: u64,
    lent: usize,
    random: &mut Random,
) -> Outcome {
    let angled = first.angles.is_some() || second.angles.is_some();
    let number = number_due(first.n, second.n, side, angled, lent);
    let (first, second) = (any_sheet(first, random), any_sheet(second, random));
    gives(number, &first, &second, side, lent)
}

/// The number for two valid sheets of `n` and `m` corners: "9 also for the root side,
/// 10 when more than 1,024 corners would result, then 8", which counts angles if either
/// sheet has them.
pub fn number_due(n: Corner, m: Corner, side: u64, angled: bool, lent: usize) -> u16 {
    match n + m - 2 {
        _ if side >= u64::from(n - 1) => 9,
        1025.. => 10,
        corners if lent < length_of(corners, angled) => 8,
        _ => 0,
    }
}

/// Which of the two sheets a call of `Half` is given.
#[derive(Clone, Copy, Debug, PartialEq, Eq)]
pub enum Place {
    First,
    Second,
}

/// A call on one sheet, with the other one and the side held.
#[derive(Clone, Copy)]
pub struct Half<'a> {
    place: Place,
    other: &'a [u8],
    side: u64,
    /// The number for a valid sheet and an output that is long enough.
    number: u16,
}

impl<'a> Half<'a> {
    /// The call for a sheet of the part beside another part's, on one of the sides that
    /// can be taken, and the length of its result.
    pub fn of(part: &Part, place: Place, other: &Part, sheet: &'a [u8]) -> (Half<'a>, usize) {
        let (n, m) = match place {
            Place::First => (part.n, other.n),
            Place::Second => (other.n, part.n),
        };
        let half = Half {
            place,
            other: sheet,
            side: u64::from((n / 2 + m) % (n - 1)),
            number: if n + m - 2 > 1024 { 10 } else { 0 },
        };
        let angled = part.angles.is_some() || other.angles.is_some();
        (half, length_of(n + m - 2, angled))
    }

    /// The first sheet and the second.
    fn both<'b>(&self, sheet: &'b [u8]) -> (&'b [u8], &'b [u8])
    where
        'a: 'b,
    {
        match self.place {
            Place::First => (sheet, self.other),
            Place::Second => (self.other, sheet),
        }
    }
}

impl fmt::Debug for Half<'_> {
    fn fmt(&self, f: &mut fmt::Formatter) -> fmt::Result {
        let (place, side, other) = (self.place, self.side, hex(self.other));
        write!(f, "{place:?}, side {side}, the other {other}")
    }
}

impl Call for Half<'_> {
    fn by_library(self, sheet: &[u8], out: &mut [u8]) -> u64 {
        let (first, second) = self.both(sheet);
        library::join(first, second, self.side as usize, out)
    }

    fn same(self, sheet: &[u8], lent: usize) -> Outcome {
        let (first, second) = self.both(sheet);
        same(first, second, self.side, lent)
    }

    fn on_valid(self, lent: usize, room: usize) -> u16 {
        match self.number {
            0 if lent < room => 8,
            number => number,
        }
    }
}
