//! Sheets: reading with refusals, normal order, and Set in order.
//! Follows "The sheet" of document 01, and "Set in order" under "Operations
//! and their refusals". Request (xii) rules where document 01 has a part number:
//! "New sheets are written without bit 2. A sheet that still has it is read and
//! its four bytes are skipped, the result has none." Request (xi) adds angles:
//! "bit 3 stands for signed angles, two bytes each in two's complement, .. one for
//! each pair in the listed order; setting in order moves each with its pair."

use crate::answer::{Refusal, Written};
use crate::fields::Fields;
use crate::part::{any_cross_ascending, is_diagonal, lower_first, sort, sort_with_angles};
use crate::part::{Angle, Corner, Pair, Part, ANGLES, FEWEST, MOST};

/// The bits of the map byte; bit 2 is read and never written.
pub const COUNT_BIT: u8 = 1;
pub const PAIRS_BIT: u8 = 2;
pub const SKIPPED_BIT: u8 = 4;
pub const ANGLES_BIT: u8 = 8;
const UNUSED_BITS: u8 = !(COUNT_BIT | PAIRS_BIT | SKIPPED_BIT | ANGLES_BIT);

/// The bytes of the longest sheet, which has bits 0 to 3, and of the longest that
/// is written.
pub const LONGEST: usize = 6133;
pub const LONGEST_WRITTEN: usize = 6129;

/// The bytes of bit 2, which stand behind the pairs and may be any.
pub type Skipped = [u8; 4];

/// A corner from two bytes, the high one first.
fn corner(bytes: &[u8]) -> Corner {
    Corner::from_be_bytes([bytes[0], bytes[1]])
}

/// An angle from two bytes, the high one first.
fn angle(bytes: &[u8]) -> Angle {
    Angle::from_be_bytes([bytes[0], bytes[1]])
}

/// Reads a sheet, or gives the first refusal that applies.
pub fn read(sheet: &[u8]) -> Result<Part, Refusal> {
    let map = *sheet.first().ok_or(Refusal::MapByte)?;
    if map & COUNT_BIT == 0 || map & UNUSED_BITS != 0 {
        return Err(Refusal::MapByte);
    }
    if sheet.len() < 3 {
        return Err(Refusal::SheetLength);
    }
    let n = corner(&sheet[1..3]);
    if !(FEWEST..=MOST).contains(&n) {
        return Err(Refusal::CornerCount);
    }
    if (map & PAIRS_BIT != 0) != (n > 3) {
        return Err(Refusal::PairsBit);
    }
    let pairs = usize::from(n - 3);
    let pairs_end = 3 + 4 * pairs;
    let skipped_end = pairs_end + if map & SKIPPED_BIT != 0 { 4 } else { 0 };
    let has_angles = map & ANGLES_BIT != 0;
    if sheet.len() != skipped_end + if has_angles { 2 * pairs } else { 0 } {
        return Err(Refusal::SheetLength);
    }
    let mut diagonals: Vec<Pair> = sheet[3..pairs_end]
        .chunks_exact(4)
        .map(|pair| lower_first((corner(pair), corner(&pair[2..]))))
        .collect();
    if !diagonals.iter().all(|&pair| is_diagonal(n, pair)) {
        return Err(Refusal::NoDiagonal);
    }
    let block = sheet[skipped_end..].chunks_exact(2).map(angle);
    let mut angles: Option<Vec<Angle>> = has_angles.then(|| block.collect());
    match &mut angles {
        None => sort(&mut diagonals),
        Some(angles) => sort_with_angles(&mut diagonals, angles),
    }
    if diagonals.windows(2).any(|two| two[0] == two[1]) {
        return Err(Refusal::Repeated);
    }
    if any_cross_ascending(&diagonals) {
        return Err(Refusal::Crossing);
    }
    let allowed = |angles: &Vec<Angle>| n > 3 && angles.iter().all(|angle| ANGLES.contains(angle));
    if !angles.iter().all(allowed) {
        return Err(Refusal::Angle);
    }
    Ok(Part {
        n,
        diagonals,
        angles,
    })
}

/// The length of the part's normal sheet, which refusal 8 counts.
pub fn length(part: &Part) -> usize {
    let angles = part.angles.as_ref().map_or(0, Vec::len);
    3 + 4 * part.diagonals.len() + 2 * angles
}

/// The part's sheet in normal order, put at the start of the lent output.
pub fn write_normal(part: &Part, out: &mut [u8]) -> Written {
    let length = length(part);
    let lent = out.get_mut(..length).ok_or(Refusal::OutputShort)?;
    lent[0] = COUNT_BIT | if part.n > 3 { PAIRS_BIT } else { 0 };
    lent[1..3].copy_from_slice(&part.n.to_be_bytes());
    let (pairs, block) = lent[3..].split_at_mut(4 * part.diagonals.len());
    for (bytes, &(a, b)) in pairs.chunks_exact_mut(4).zip(&part.diagonals) {
        bytes[..2].copy_from_slice(&a.to_be_bytes());
        bytes[2..].copy_from_slice(&b.to_be_bytes());
    }
    if let Some(angles) = &part.angles {
        for (bytes, angle) in block.chunks_exact_mut(2).zip(angles) {
            bytes.copy_from_slice(&angle.to_be_bytes());
        }
        lent[0] |= ANGLES_BIT;
    }
    Ok(length)
}

/// The part's sheet in normal order.
pub fn normal(part: &Part) -> Vec<u8> {
    let mut sheet = vec![0; length(part)];
    write_normal(part, &mut sheet).expect("the sheet has its own length");
    sheet
}

/// A sheet without angles, with the pairs as given and with bit 2 and its bytes if
/// there are any. Nothing is checked.
pub fn with_pairs(n: Corner, pairs: &[Pair], skipped: Option<Skipped>) -> Vec<u8> {
    let fields = Fields {
        n,
        pairs: pairs.to_vec(),
        skipped,
        angles: None,
    };
    fields.bytes()
}

/// Set in order: a sheet to its normal sheet.
pub fn set_in_order(sheet: &[u8], out: &mut [u8]) -> Written {
    write_normal(&read(sheet)?, out)
}

#[cfg(test)]
mod tests {
    use super::*;

    fn refused(n: Corner, pairs: &[Pair]) -> Option<u16> {
        read(&with_pairs(n, pairs, None)).err().map(Refusal::number)
    }

    #[test]
    fn known_parts() {
        assert_eq!(refused(5, &[(0, 2), (1, 3)]), Some(7));
        assert_eq!(refused(5, &[(0, 2), (2, 0)]), Some(6));
        assert_eq!(refused(5, &[(0, 4), (1, 3)]), Some(5));
        assert_eq!(read(&[1, 0, 2]), Err(Refusal::CornerCount));
        assert_eq!(read(&[3, 4, 1]), Err(Refusal::CornerCount));
        assert_eq!(read(&[1, 0, 3]), Ok(Part::new(3, &[])));
    }

    #[test]
    fn normal_order() {
        for skipped in [None, Some([1, 2, 3, 4])] {
            let sheet = with_pairs(6, &[(4, 2), (4, 0), (0, 2)], skipped);
            let mut out = [9; 17];
            assert_eq!(set_in_order(&sheet, &mut out), Ok(15));
            let normal = [3, 0, 6, 0, 0, 0, 2, 0, 0, 0, 4, 0, 2, 0, 4, 9, 9];
            assert_eq!(out, normal);
            let mut short = [9; 14];
            assert_eq!(set_in_order(&sheet, &mut short), Err(Refusal::OutputShort));
            assert_eq!(short, [9; 14]);
        }
    }

    #[test]
    fn bit_2_is_read_and_its_bytes_are_skipped() {
        for byte in 0..=255 {
            assert_eq!(read(&[5, 0, 3, byte, 0, 0, 9]), Ok(Part::new(3, &[])));
        }
        let square = Part::new(4, &[(0, 2)]);
        assert_eq!(read(&[7, 0, 4, 0, 2, 0, 0, 0, 1, 0, 3]), Ok(square));
        let length = Err(Refusal::SheetLength);
        assert_eq!(read(&[5, 0, 3]), length);
        assert_eq!(read(&[5, 0, 3, 0, 0, 0]), length);
        assert_eq!(read(&[5, 0, 3, 0, 0, 0, 9, 0]), length);
        assert_eq!(read(&[1, 0, 3, 0, 0, 0, 9]), length);
        assert_eq!(read(&[7, 0, 3, 0, 0, 0, 9]), Err(Refusal::PairsBit));
        assert_eq!(read(&[4, 0, 3, 0, 0, 0, 9]), Err(Refusal::MapByte));
        assert_eq!(read(&[21, 0, 3, 0, 0, 0, 9]), Err(Refusal::MapByte));
    }

    #[test]
    fn angles_move_with_their_pairs() {
        // (4,2) 30.0 degrees, (4,0) -0.1, (0,2) -180.0
        let sheet = [
            &[11, 0, 6, 0, 4, 0, 2, 0, 4, 0, 0, 0, 0, 0, 2][..],
            &[1, 44, 255, 255, 248, 248],
        ]
        .concat();
        let normal = [
            &[11, 0, 6, 0, 0, 0, 2, 0, 0, 0, 4, 0, 2, 0, 4][..],
            &[248, 248, 255, 255, 1, 44, 9],
        ]
        .concat();
        let mut out = [9; 22];
        assert_eq!(set_in_order(&sheet, &mut out), Ok(21));
        assert_eq!(out[..], normal);
        let mut numbered = sheet.clone();
        numbered[0] = 15;
        numbered.splice(15..15, [8, 8, 8, 8]);
        out.fill(9);
        assert_eq!(set_in_order(&numbered, &mut out), Ok(21));
        assert_eq!(out[..], normal);
        let short = &mut [9; 20];
        assert_eq!(set_in_order(&sheet, short), Err(Refusal::OutputShort));
        assert_eq!(short, &[9; 20]);
        assert_eq!(set_in_order(&normal[..21], &mut out), Ok(21));
    }

    #[test]
    fn bit_3_stays_where_all_angles_are_0() {
        let sheet = [11, 0, 4, 0, 1, 0, 3, 0, 0];
        let part = Part::new(4, &[(1, 3)]).angled(&[0]);
        assert_eq!(read(&sheet), Ok(part.clone()));
        assert_eq!(normal(&part), sheet);
        assert_ne!(read(&sheet), read(&[3, 0, 4, 0, 1, 0, 3]));
    }

    #[test]
    fn refusal_23() {
        let number = |sheet: &[u8]| read(sheet).err().map(Refusal::number);
        assert_eq!(number(&[9, 0, 3]), Some(23));
        assert_eq!(number(&[13, 0, 3, 0, 0, 0, 0]), Some(23));
        assert_eq!(number(&[9, 0, 3, 0, 0]), Some(2));
        assert_eq!(number(&[13, 0, 3]), Some(2));
        assert_eq!(number(&[11, 0, 3]), Some(4));
        assert_eq!(number(&[9, 0, 4, 0, 0]), Some(4));
        // no angle, half of one, and one too many
        assert_eq!(number(&[11, 0, 4, 0, 0, 0, 2]), Some(2));
        assert_eq!(number(&[11, 0, 4, 0, 0, 0, 2, 0]), Some(2));
        assert_eq!(number(&[11, 0, 4, 0, 0, 0, 2, 0, 0, 0, 0]), Some(2));
        for (high, low, expected) in [
            (0x07, 0x08, None),
            (0x07, 0x09, Some(23)),
            (0xf8, 0xf8, None),
            (0xf8, 0xf7, Some(23)),
            (0x7f, 0xff, Some(23)),
            (0x80, 0x00, Some(23)),
            (0xff, 0xff, None),
        ] {
            let square = |diagonal| [11, 0, 4, 0, 0, 0, diagonal, high, low];
            assert_eq!(number(&square(2)), expected);
            assert_eq!(number(&square(3)), Some(5));
            let pentagon = |a, b| [11, 0, 5, 0, 0, 0, 2, 0, a, 0, b, high, low, 0, 0];
            assert_eq!(number(&pentagon(0, 3)), expected);
            assert_eq!(number(&pentagon(2, 0)), Some(6));
            assert_eq!(number(&pentagon(1, 3)), Some(7));
        }
    }

    #[test]
    fn the_longest_sheets() {
        let fan: Vec<Pair> = (2..1023).map(|b| (0, b)).collect();
        let part = Part::new(1024, &fan).angled(&[-900; 1021]);
        assert_eq!(normal(&part).len(), LONGEST_WRITTEN);
        let skipped = Some([1, 2, 3, 4]);
        let fields = Fields::of(&part);
        let sheet = Fields { skipped, ..fields }.bytes();
        assert_eq!(sheet.len(), LONGEST);
        assert_eq!(read(&sheet), Ok(part));
    }
}
