//! An encoded list of edits, run over two buffers.
//! The edits follow "The plain part and demand 3" of document 01; the encoding,
//! its refusals and the use of the buffers follow the comments of
//! crates/edit_list/specs/Script.antt and src/lib.rt.

use crate::edit::{edit_sheet, Edit};

/// The bytes of one encoded edit: its kind and three numbers of four bytes.
pub const EDIT: usize = 13;

/// An edit with the length of the output that it lends.
pub type Lending = (Edit, u32);

/// Where the sheet left lies.
#[derive(Clone, Copy, Debug, PartialEq, Eq)]
pub enum Place {
    First = 0,
    Front = 1,
    Back = 2,
}

/// What a run gives: the place and the length of the sheet left, or a refusal.
pub type Ran = Result<(Place, usize), u16>;

/// The list in bytes. `spare` is the second number of edits that have one only.
pub fn encoded(list: &[Lending], spare: u32) -> Vec<u8> {
    let mut bytes = Vec::new();
    for &(edit, room) in list {
        let (kind, a, b) = match edit {
            Edit::Add { side } => (0, side as u32, spare),
            Edit::TakeOff { corner } => (1, corner as u32, spare),
            Edit::Turn { a, b } => (2, a as u32, b as u32),
        };
        bytes.push(kind);
        for number in [a, b, room] {
            bytes.extend(number.to_be_bytes());
        }
    }
    bytes
}

/// An edit from its bytes, or none if its kind is unknown.
fn decoded(bytes: &[u8]) -> Option<Lending> {
    let number = |at: usize| {
        let four = bytes[at..at + 4].try_into().expect("four bytes");
        u32::from_be_bytes(four)
    };
    let (a, b) = (number(1).into(), number(5).into());
    let edit = match bytes[0] {
        0 => Edit::Add { side: a },
        1 => Edit::TakeOff { corner: a },
        2 => Edit::Turn { a, b },
        _ => return None,
    };
    Some((edit, number(9)))
}

/// The edits of a list, or its refusal by 32 or 33.
pub fn edits(list: &[u8]) -> Result<Vec<Lending>, u16> {
    if !list.len().is_multiple_of(EDIT) {
        return Err(32);
    }
    list.chunks(EDIT)
        .map(|edit| decoded(edit).ok_or(33))
        .collect()
}

/// Runs the list. Each edit reads the sheet that the last taken one wrote, or
/// the first sheet, and writes the buffer in which that sheet does not lie; its
/// number goes to `numbers`.
pub fn run(
    first: &[u8],
    list: &[u8],
    front: &mut [u8],
    back: &mut [u8],
    numbers: &mut [u8],
) -> Ran {
    let list = edits(list)?;
    if numbers.len() < 2 * list.len() {
        return Err(34);
    }
    let least = front.len().min(back.len());
    if list.iter().any(|&(_, room)| room as usize > least) {
        return Err(35);
    }
    let mut place = Place::First;
    let mut left = first.to_vec();
    for ((edit, room), number) in list.into_iter().zip(numbers.chunks_exact_mut(2)) {
        let (to, buffer) = match place {
            Place::First | Place::Back => (Place::Front, &mut *front),
            Place::Front => (Place::Back, &mut *back),
        };
        let lent = &mut buffer[..room as usize];
        let answer = match edit_sheet(&left, edit, lent) {
            Ok(length) => {
                place = to;
                left = lent[..length].to_vec();
                0
            }
            Err(refusal) => refusal.number(),
        };
        number.copy_from_slice(&answer.to_be_bytes());
    }
    Ok((place, left.len()))
}
