//! Lists of edits from a first sheet, with what the papers say that they leave.

use super::any_edits::any_edit;
use super::checks::{same_bytes, Failure, Outcome};
use bend_tests::edit_list::{edits, encoded, Lending};
use bend_tests::part::{Corner, Part};
use bend_tests::plain_part::PlainPart;
use bend_tests::random::Random;
use bend_tests::sheet;

/// What a list gives: the number of each edit, and the sheet left.
pub type Left = (Vec<u16>, Vec<u8>);

/// Runs a list from a first sheet by the library, beside the model.
pub type Run = fn(&[u8], &[Lending]) -> Result<Left, Failure>;

/// A failure unless the list gives these numbers and leaves this sheet.
pub fn leaves(run: Run, first: &[u8], list: &[Lending], numbers: &[u16], sheet: &[u8]) -> Outcome {
    let (found, left) = run(first, list)?;
    same_numbers(first, &found, numbers)?;
    same_bytes(first, &left, sheet)
}

/// A failure unless the library's numbers are the expected ones.
pub fn same_numbers(first: &[u8], library: &[u16], expected: &[u16]) -> Outcome {
    let bytes = |numbers: &[u16]| -> Vec<u8> {
        let each = numbers.iter().flat_map(|number| number.to_be_bytes());
        each.collect()
    };
    same_bytes(first, &bytes(library), &bytes(expected))
}

/// An edit that is refused: the part cannot take it, or its output is too short.
fn any_refused(part: &Part, random: &mut Random) -> Lending {
    let encoded = encoded(&[(any_edit(part, random), 0)], 0);
    let (edit, _) = edits(&encoded).expect("an encoded edit")[0];
    let mut edited = part.clone();
    let room = match edit.apply(&mut edited) {
        Err(_) => random.below(sheet::length(part) + 9),
        Ok(()) if random.coin() => sheet::length(&edited) - 1,
        Ok(()) => random.below(sheet::length(&edited)),
    };
    (edit, room as u32)
}

/// A list from a first sheet that grows beside its plain part.
pub struct Growing<'a> {
    first: &'a [u8],
    pub plain: PlainPart,
    list: Vec<Lending>,
    numbers: Vec<u16>,
}

impl<'a> Growing<'a> {
    pub fn new(first: &'a [u8]) -> Growing<'a> {
        let plain = PlainPart::new(first).expect("a valid sheet");
        let (list, numbers) = (Vec::new(), Vec::new());
        Growing {
            first,
            plain,
            list,
            numbers,
        }
    }

    fn push(&mut self, (edit, room): Lending) -> u16 {
        let number = self.plain.edit(edit, room as usize);
        self.list.push((edit, room));
        self.numbers.push(number);
        number
    }

    /// A few edits that are refused.
    pub fn refuse(&mut self, random: &mut Random) {
        for _ in 0..random.below(5) {
            let lending = any_refused(&self.plain.part, random);
            assert_ne!(self.push(lending), 0, "{lending:?} is refused");
        }
    }

    /// An edit that is taken.
    pub fn take(&mut self, lending: Lending) {
        assert_eq!(self.push(lending), 0, "{lending:?} is taken");
    }

    /// A failure unless the list gives the plain part's numbers and leaves this sheet.
    pub fn leaves(&self, run: Run, sheet: &[u8]) -> Outcome {
        leaves(run, self.first, &self.list, &self.numbers, sheet)
    }
}

/// The size of the part in a round: mostly small, the largest at times.
pub fn size(round: usize, random: &mut Random) -> Corner {
    let n = match round % 50 {
        0 => random.between(1022, 1024),
        1 => random.between(31, 1021),
        _ => random.between(3, 30),
    };
    n as Corner
}
