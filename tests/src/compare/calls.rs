//! Calls of an operation on any sheet, and the number that is due for a sheet.

use super::checks::{hex, must_be, same_bytes, Failure, Outcome};
use super::sheets::pairs_end;
use bend_tests::part::Corner;
use std::fmt::Debug;

/// A call of an operation on any sheet.
pub trait Call: Copy + Debug {
    /// The library's answer.
    fn by_library(self, sheet: &[u8], out: &mut [u8]) -> u64;

    /// Both sides on one sheet with `lent` bytes of output.
    fn same(self, sheet: &[u8], lent: usize) -> Outcome;

    /// The number for a valid sheet with `lent` bytes of output, of which the result
    /// needs `room`.
    fn on_valid(self, lent: usize, room: usize) -> u16 {
        if lent < room {
            8
        } else {
            0
        }
    }

    /// The number for the sheet of a part with `n` corners, as `number_due` has it, and
    /// an output of the length that the result needs.
    fn due(self, n: Corner, sheet: &[u8], room: usize) -> u16 {
        match number_due(n, sheet) {
            0 => self.on_valid(room, room),
            number => number,
        }
    }

    /// Both sides, and the number that the test was made to get.
    fn gives(self, number: u16, sheet: &[u8], lent: usize) -> Outcome {
        must_be(number, self.by_library(sheet, &mut vec![0; lent]), sheet)
            .map_err(|failure| failure.after(&format!("{self:?} with {lent} bytes, on")))?;
        self.same(sheet, lent)
    }

    /// The library writes this result and no byte more, or refuses by 8 if it is too
    /// long for the room.
    fn writes(self, sheet: &[u8], room: usize, result: &[u8]) -> Outcome {
        let mut out = vec![0x5a; room];
        let answer = self.by_library(sheet, &mut out);
        let mut expected = vec![0x5a; room];
        let due = match expected.get_mut(..result.len()) {
            None => 8,
            Some(start) => {
                start.copy_from_slice(result);
                (result.len() as u64) << 16
            }
        };
        same_bytes(sheet, &answer.to_be_bytes(), &due.to_be_bytes())?;
        same_bytes(sheet, &out, &expected)?;
        self.same(sheet, room)
    }

    /// Both sides on each sheet, and the library's answer and output on all of
    /// them the same.
    fn alike(self, sheets: &[Vec<u8>], lent: usize) -> Outcome {
        let answered = |sheet: &[u8]| {
            let mut out = vec![0x5a; lent];
            (self.by_library(sheet, &mut out), out)
        };
        let first = answered(&sheets[0]);
        for sheet in sheets {
            self.same(sheet, lent)?;
            let found = answered(sheet);
            if found != first {
                let told = |(answer, out): &(u64, Vec<u8>)| format!("{answer:#x}, {}", hex(out));
                return Err(Failure {
                    input: format!("{self:?} with {lent} bytes, on {}", hex(sheet)),
                    library: told(&found),
                    model: format!("{}, as on {}", told(&first), hex(&sheets[0])),
                });
            }
        }
        Ok(())
    }
}

/// The number for the sheet of a part with `n` corners that has got another map
/// byte, another length or other bytes behind the pairs: "1: empty, bit 0 clear",
/// or one of bits 4 to 7 set. "2: under 3 bytes. .. 4: bit 1 disagrees with n. 2:
/// length not exact", of which the four bytes of bit 2 count. 23, last: an angle
/// outside -1,800 to 1,800, or bit 3 with n = 3.
fn number_due(n: Corner, sheet: &[u8]) -> u16 {
    let angles = 2 * usize::from(n - 3);
    let behind_pairs = match (sheet.first(), n) {
        (None | Some(0 | 2 | 4 | 6 | 8 | 10 | 12 | 14 | 16..), _) => return 1,
        _ if sheet.len() < 3 => return 2,
        (Some(1 | 9), 3) | (Some(3), 4..) => 0,
        (Some(5 | 13), 3) | (Some(7), 4..) => 4,
        (Some(11), 4..) => angles,
        (Some(15), 4..) => 4 + angles,
        _ => return 4,
    };
    if sheet.len() != pairs_end(n) + behind_pairs {
        return 2;
    }
    // two bytes: 0 to 1,800, or -1,800 to -1
    let allowed =
        |two: &[u8]| matches!(256 * u32::from(two[0]) + u32::from(two[1]), 0..=1800 | 63736..);
    match sheet[0] {
        1..=7 => 0,
        _ if n > 3 && sheet[sheet.len() - angles..].chunks(2).all(allowed) => 0,
        _ => 23,
    }
}
