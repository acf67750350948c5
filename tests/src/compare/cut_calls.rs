//! Calls of Cut: the library's `bend_cut` beside the model, with both outputs, and with
//! one of them while the other is long enough.

use super::any_edits::HUGE;
use super::calls::Call;
use super::checks::{must_be, same_bytes, same_writings, Outcome};
use super::sheets::{any_sheet, length_of, ENOUGH};
use crate::library;
use bend_tests::cut::cut_sheet;
use bend_tests::edit::Edit;
use bend_tests::edit_list::Lending;
use bend_tests::part::{Corner, Pair, Part};
use bend_tests::random::Random;

/// The two numbers that name the diagonal, in either order; they may be any.
pub type Ends = (u64, u64);

/// The numbers of the pair, in this order.
pub fn ends((a, b): Pair) -> Ends {
    (a.into(), b.into())
}

/// Adds words on the cut to a failure.
fn told(outcome: Outcome, ends: Ends) -> Outcome {
    outcome.map_err(|failure| failure.after(&format!("cut at {ends:?},")))
}

/// The library's answer; the outputs are for the inner part and the rest.
fn by_library(sheet: &[u8], (a, b): Ends, outputs: [&mut [u8]; 2]) -> u64 {
    library::cut(sheet, a as usize, b as usize, outputs)
}

/// Both sides on one sheet, with these bytes of output for the inner part and the rest.
pub fn same(sheet: &[u8], ends: Ends, lent: [usize; 2]) -> Outcome {
    let outcome = same_writings(
        sheet,
        lent,
        |sheet, outputs| by_library(sheet, ends, outputs),
        |sheet, outputs| cut_sheet(sheet, ends.0, ends.1, outputs),
    );
    told(outcome, ends)
}

/// Both sides, and the number that the test was made to get.
pub fn gives(number: u16, sheet: &[u8], ends: Ends, lent: [usize; 2]) -> Outcome {
    let [mut inner, mut rest] = lent.map(|length| vec![0; length]);
    let answer = by_library(sheet, ends, [&mut inner, &mut rest]);
    told(must_be(number, answer, sheet), ends)?;
    same(sheet, ends, lent)
}

/// The library writes these two results and no byte more, or refuses by 8 and writes
/// nothing if either is too long for its room.
pub fn writes(sheet: &[u8], ends: Ends, rooms: [usize; 2], results: [&[u8]; 2]) -> Outcome {
    let mut outputs = rooms.map(|room| vec![0x5a; room]);
    let mut expected = outputs.clone();
    let mut due = 8;
    if rooms[0] >= results[0].len() && rooms[1] >= results[1].len() {
        due = 0;
        for (place, result) in results.into_iter().enumerate() {
            expected[place][..result.len()].copy_from_slice(result);
            due |= (result.len() as u64) << [16, 32][place];
        }
    }
    let answer = by_library(sheet, ends, outputs.each_mut().map(|bytes| &mut bytes[..]));
    let outcome = same_bytes(sheet, &answer.to_be_bytes(), &due.to_be_bytes())
        .and_then(|()| same_bytes(sheet, &outputs.concat(), &expected.concat()));
    told(outcome, ends)?;
    same(sheet, ends, rooms)
}

/// What the library writes, each at its length: the inner part and the rest.
pub fn halves(sheet: &[u8], ends: Ends) -> [Vec<u8>; 2] {
    let [mut inner, mut rest] = [(); 2].map(|()| vec![0; ENOUGH]);
    let answer = by_library(sheet, ends, [&mut inner, &mut rest]);
    inner.truncate((answer >> 16 & 0xffff) as usize);
    rest.truncate((answer >> 32 & 0xffff) as usize);
    [inner, rest]
}

/// The pair, or the same with the higher corner first.
pub fn either_way((a, b): Pair, random: &mut Random) -> Pair {
    if random.coin() {
        (a, b)
    } else {
        (b, a)
    }
}

/// Mostly a diagonal of the part, named in either order, else any two numbers.
pub fn any_ends(part: &Part, random: &mut Random) -> Ends {
    if part.n > 3 && random.below(6) > 0 {
        let diagonal = *random.pick(&part.diagonals);
        return ends(either_way(diagonal, random));
    }
    let mut any = || match random.below(8) {
        0 => *random.pick(&HUGE),
        1 => part.n.into(),
        _ => random.below(part.n.into()) as u64,
    };
    (any(), any())
}

/// A sheet of the part in any order, with and without bit 2: the number due, and the
/// model's answer and bytes.
pub fn any_order(part: &Part, ends: Ends, lent: [usize; 2], random: &mut Random) -> Outcome {
    let sheet = any_sheet(part, random);
    gives(number_due(part, ends, lent), &sheet, ends, lent)
}

/// The number for a valid sheet of the part: "9: a or b >= n; 13: the part lacks it", and
/// "8 if either output is too short", which counts angles.
pub fn number_due(part: &Part, (a, b): Ends, lent: [usize; 2]) -> u16 {
    let n = u64::from(part.n);
    let named = |&diagonal: &Pair| [(a, b), (b, a)].contains(&ends(diagonal));
    if a >= n || b >= n {
        return 9;
    }
    if !part.diagonals.iter().any(named) {
        return 13;
    }
    let needed = lengths(part, (a, b));
    if lent[0] < needed[0] || lent[1] < needed[1] {
        return 8;
    }
    0
}

/// The lengths of both results if the numbers name a diagonal of the part.
pub fn lengths(part: &Part, (a, b): Ends) -> [usize; 2] {
    let angled = part.angles.is_some();
    corners(part, (a, b)).map(|n| length_of(n, angled))
}

/// The corners of the inner part, which has a, b and those between, and of the rest, which
/// lacks those between.
fn corners(part: &Part, (a, b): Ends) -> [Corner; 2] {
    let between = a.abs_diff(b) as Corner - 1;
    [between + 2, part.n - between]
}

/// Which of the two outputs a call of `Watched` is given.
#[derive(Clone, Copy, Debug, PartialEq, Eq)]
pub enum Output {
    Inner,
    Rest,
}

/// A call that is given one of the outputs; the other is long enough.
#[derive(Clone, Copy, Debug)]
pub struct Watched {
    output: Output,
    ends: Ends,
    /// The length of the other output.
    other: usize,
    /// The number for a valid sheet and an output that is long enough.
    number: u16,
}

impl Watched {
    /// The calls for a part along the diagonals that the edits would turn, or would not
    /// find, either output watched, with the length of its result. A triangle has no
    /// diagonal to turn; it is asked for its root.
    pub fn calls(part: &Part, edits: &[Lending]) -> Vec<(Watched, usize)> {
        let turned = |&(edit, _): &Lending| match edit {
            Edit::Turn { a, b } => Some((a, b)),
            _ => None,
        };
        let mut all: Vec<Ends> = edits.iter().filter_map(turned).collect();
        if all.is_empty() {
            all.push((0, u64::from(part.n) - 1));
        }
        let both =
            |ends| [Output::Inner, Output::Rest].map(|output| Watched::of(part, ends, output));
        all.into_iter().flat_map(both).collect()
    }

    fn of(part: &Part, ends: Ends, output: Output) -> (Watched, usize) {
        let number = number_due(part, ends, [ENOUGH; 2]);
        let place = output as usize;
        let (mut other, mut room) = (9, 9);
        if number == 0 {
            other = length_of(corners(part, ends)[1 - place], true);
            room = lengths(part, ends)[place];
        }
        let watched = Watched {
            output,
            ends,
            other,
            number,
        };
        (watched, room)
    }
}

impl Call for Watched {
    /// The library's answer with the length of this output alone.
    fn by_library(self, sheet: &[u8], out: &mut [u8]) -> u64 {
        let mut other = vec![0; self.other];
        let (outputs, from) = match self.output {
            Output::Inner => ([out, &mut other], 16),
            Output::Rest => ([&mut other[..], out], 32),
        };
        let answer = by_library(sheet, self.ends, outputs);
        answer & 0xffff | (answer >> from & 0xffff) << 16
    }

    fn same(self, sheet: &[u8], lent: usize) -> Outcome {
        let lengths = match self.output {
            Output::Inner => [lent, self.other],
            Output::Rest => [self.other, lent],
        };
        same(sheet, self.ends, lengths)
    }

    fn on_valid(self, lent: usize, room: usize) -> u16 {
        match self.number {
            0 if lent < room => 8,
            number => number,
        }
    }
}
