//! The plain part, and lists of edits.
//! Follows "The plain part and demand 3" of document 01. By request (xii) "the rule
//! .. that a number is kept lapses, and the plain part keeps none"; by request (xi)
//! it "keeps bit 3 and the angles by these same rules, and its 8 counts them".

use crate::answer::Refusal;
use crate::edit::Edit;
use crate::part::Part;
use crate::sheet::{length, normal, read};

/// The plain part: what the edit rules give, fed nothing but the edits and the
/// lengths of the outputs lent. It keeps n, the set of diagonals and their angles,
/// if there are any.
#[derive(Clone, Debug)]
pub struct PlainPart {
    pub part: Part,
    first_sheet: Vec<u8>,
    taken: usize,
}

impl PlainPart {
    pub fn new(first_sheet: &[u8]) -> Result<PlainPart, Refusal> {
        Ok(PlainPart {
            part: read(first_sheet)?,
            first_sheet: first_sheet.to_vec(),
            taken: 0,
        })
    }

    /// One edit with `lent` bytes of output; gives its number.
    pub fn edit(&mut self, edit: Edit, lent: usize) -> u16 {
        let mut edited = self.part.clone();
        match edit.apply(&mut edited) {
            Err(refusal) => refusal.number(),
            Ok(()) if lent < length(&edited) => Refusal::OutputShort.number(),
            Ok(()) => {
                self.part = edited;
                self.taken += 1;
                0
            }
        }
    }

    /// The sheet left after the list: the first one, bit 2 and all, if no edit was
    /// taken.
    pub fn sheet(&self) -> Vec<u8> {
        if self.taken == 0 {
            self.first_sheet.clone()
        } else {
            normal(&self.part)
        }
    }
}

#[cfg(test)]
mod tests {
    use super::*;

    #[test]
    fn the_first_sheet_is_left_with_bit_2_until_an_edit_is_taken() {
        let first = [5, 0, 3, 0, 0, 0, 9];
        let mut plain = PlainPart::new(&first).unwrap();
        let add = Edit::Add { side: 0 };
        for (lent, number, left) in [
            (6, 8, &first[..]),
            (7, 0, &[3, 0, 4, 0, 0, 0, 2]),
            (10, 8, &[3, 0, 4, 0, 0, 0, 2]),
            (11, 0, &[3, 0, 5, 0, 0, 0, 2, 0, 0, 0, 3]),
        ] {
            assert_eq!(plain.edit(add, lent), number);
            assert_eq!(plain.sheet(), left);
        }
    }

    #[test]
    fn refusal_8_counts_the_angles() {
        let first = [11, 0, 4, 0, 2, 0, 0, 1, 194];
        let mut plain = PlainPart::new(&first).unwrap();
        let (add, take_off) = (Edit::Add { side: 3 }, Edit::TakeOff { corner: 4 });
        let added = [11, 0, 5, 0, 0, 0, 2, 0, 0, 0, 3, 1, 194, 0, 0];
        let square = [11, 0, 4, 0, 0, 0, 2, 1, 194];
        for (edit, lent, number, left) in [
            (add, 14, 8, &first[..]),
            (add, 15, 0, &added),
            (take_off, 8, 8, &added),
            (take_off, 9, 0, &square),
            (Edit::Turn { a: 0, b: 2 }, 8, 8, &square),
            (
                Edit::Turn { a: 0, b: 2 },
                9,
                0,
                &[11, 0, 4, 0, 1, 0, 3, 0, 0],
            ),
            (
                Edit::TakeOff { corner: 0 },
                2,
                8,
                &[11, 0, 4, 0, 1, 0, 3, 0, 0],
            ),
            (Edit::TakeOff { corner: 0 }, 3, 0, &[1, 0, 3]),
            (Edit::Add { side: 0 }, 7, 0, &[3, 0, 4, 0, 0, 0, 2]),
        ] {
            assert_eq!(plain.edit(edit, lent), number, "{edit:?} {lent}");
            assert_eq!(plain.sheet(), left);
        }
    }
}
