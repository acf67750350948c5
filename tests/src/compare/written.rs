//! Sheets that the library wrote: it sets in order, plans and draws them.

#[cfg(feature = "normalize")]
use super::checks::must_be;
use super::checks::{same_bytes, Outcome};
#[cfg(any(feature = "normalize", feature = "plan"))]
use crate::library;
#[cfg(all(feature = "plan", feature = "draw"))]
use bend_tests::draw::chart;
use bend_tests::part::Part;
#[cfg(all(feature = "plan", feature = "draw"))]
use bend_tests::plan::Pieces;
use bend_tests::sheet::normal;

/// The sheet that the library wrote is the part's in normal order, so that setting it in
/// order changes nothing; its plan and its chart are the part's.
pub fn is_sheet_of(part: &Part, written: &[u8]) -> Outcome {
    same_bytes(written, written, &normal(part))?;
    #[cfg(feature = "normalize")]
    {
        let mut out = vec![0; written.len()];
        must_be(0, library::normalize(written, &mut out), written)?;
        same_bytes(written, &out, written)?;
    }
    #[cfg(all(feature = "plan", feature = "draw"))]
    {
        let plan = Pieces::of(part).plan();
        super::plan::gives(written, Ok(plan.counts))?;
        super::draw::draws(written, &chart(part, &plan))?;
    }
    Ok(())
}

/// The levels that the library gives for the sheet.
#[cfg(feature = "plan")]
pub fn levels(sheet: &[u8]) -> u64 {
    library::plan(sheet) >> 16 & 0xffff
}
