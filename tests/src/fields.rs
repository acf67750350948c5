//! A sheet's fields, for sheets in any order, right ones and wrong ones.
//! Follows "The sheet" of document 01, and requests (xi) and (xii).

use crate::part::{Angle, Corner, Pair, Part};
use crate::sheet::{Skipped, ANGLES_BIT, COUNT_BIT, PAIRS_BIT, SKIPPED_BIT};

/// The fields of a sheet, to be written as they are: the pairs in this order, the
/// bytes of bit 2 and the angles if there are any. Nothing is checked.
#[derive(Clone, Debug)]
pub struct Fields {
    pub n: Corner,
    pub pairs: Vec<Pair>,
    pub skipped: Option<Skipped>,
    pub angles: Option<Vec<Angle>>,
}

impl Fields {
    /// Those of the part's normal sheet.
    pub fn of(part: &Part) -> Fields {
        Fields {
            n: part.n,
            pairs: part.diagonals.clone(),
            skipped: None,
            angles: part.angles.clone(),
        }
    }

    /// The sheet, field by field in the order of their bits.
    pub fn bytes(&self) -> Vec<u8> {
        let mut sheet = vec![COUNT_BIT];
        sheet.extend(self.n.to_be_bytes());
        if self.n > 3 {
            sheet[0] |= PAIRS_BIT;
        }
        for (a, b) in &self.pairs {
            sheet.extend([a.to_be_bytes(), b.to_be_bytes()].concat());
        }
        if let Some(bytes) = self.skipped {
            sheet[0] |= SKIPPED_BIT;
            sheet.extend(bytes);
        }
        if let Some(angles) = &self.angles {
            sheet[0] |= ANGLES_BIT;
            sheet.extend(angles.iter().flat_map(|angle| angle.to_be_bytes()));
        }
        sheet
    }
}
