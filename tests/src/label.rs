//! Drawing on a label: the same drawing with a limit of rows.
//! Follows request (ii) of document 02: "One customer prints on labels of fifteen
//! rows. The printer calls the same drawing with its own limit. .. Refusal 19, label
//! calls only: the chart has more than fifteen rows; after 7 and before 8", by request
//! (xi) after 23 as well. By request (v) "the label's limit counts closed rows".

use crate::answer::{Refusal, Written};
use crate::chart::{Bar, Chart};
use crate::draw::{chart_of, write_with_bars};
use crate::sheet;

/// The rows of a label.
pub const LABEL_ROWS: u16 = 15;

/// The chart of the sheet's part, unless it has more rows than a label.
fn chart_on_label(sheet: &[u8]) -> Result<Chart, Refusal> {
    let chart = chart_of(&sheet::read(sheet)?);
    if chart.rows > LABEL_ROWS {
        return Err(Refusal::LabelRows);
    }
    Ok(chart)
}

/// Draw on a label: a sheet to its chart's bytes.
pub fn draw_label(sheet: &[u8], out: &mut [u8]) -> Written {
    chart_on_label(sheet)?.write(out)
}

/// Draw on a label with the bar list: if either is too short, neither is written.
pub fn draw_label_with_bars(sheet: &[u8], out: &mut [u8], bars: &mut [Bar]) -> Written {
    write_with_bars(&chart_on_label(sheet)?, out, bars)
}

#[cfg(test)]
mod tests {
    use super::*;
    use crate::label_parts::{fewest, with_rows};
    use crate::part::Part;

    /// The number with an output and a list of these lengths, and whether both stayed.
    fn number(sheet: &[u8], lent: usize, room: usize) -> (u16, bool) {
        let bar = Bar {
            row: 7,
            left: 7,
            right: 7,
        };
        let (mut out, mut bars) = (vec![7; lent], vec![bar; room]);
        let answer = draw_label_with_bars(sheet, &mut out, &mut bars);
        let stayed = out == vec![7; lent] && bars == vec![bar; room];
        (answer.map_or_else(Refusal::number, |_| 0), stayed)
    }

    #[test]
    fn nineteen_before_eight_and_after_the_sheet() {
        let refused = sheet::normal(&with_rows(8, 1, 16).angled(&[0; 509]));
        for (lent, room) in [(20_000, 1024), (0, 1024), (20_000, 0), (0, 0)] {
            assert_eq!(number(&refused, lent, room), (19, true));
        }
        let mut bent = refused.clone();
        bent[refused.len() - 2] = 0x80;
        assert_eq!(number(&bent, 0, 0), (23, true));
        assert_eq!(number(&refused[1..], 0, 0), (1, true));
        assert_eq!(number(&refused[..2000], 0, 0), (2, true));

        let part = with_rows(8, 0, 15);
        let (taken, length) = (sheet::normal(&part), chart_of(&part).length());
        assert_eq!(number(&taken, length, 511), (0, false));
        assert_eq!(number(&taken, length - 1, 511), (8, true));
        assert_eq!(number(&taken, length, 510), (8, true));
    }

    /// The chart as drawn, the limit apart.
    #[test]
    fn a_label_has_the_bytes_of_the_tape() {
        for part in [Part::new(3, &[]), fewest(8), with_rows(7, 2, 15)] {
            let chart = chart_of(&part);
            let mut out = vec![0; chart.length()];
            let answer = draw_label(&sheet::normal(&part), &mut out);
            assert_eq!((answer, out), (Ok(chart.length()), chart.bytes()));
        }
    }
}
