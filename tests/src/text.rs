//! A chart in words, as `unbend` prints it: the line of the part that it shows,
//! in the chart's own rows and columns, the bar of each corner, and every stroke
//! from left to right, as decision 24 of docs/DECISIONS.md describes it.

use crate::chart::{Chart, Stroke};
use crate::plan::Pieces;
use crate::reader;

/// The text of a chart's bytes.
pub fn text(bytes: &[u8]) -> String {
    let part = match reader::read(bytes) {
        Ok(part) => part,
        Err(refusal) => return format!("refused {}\n", refusal.number()),
    };
    let chart = Chart::from_bytes(bytes).expect("a chart that was read");
    let counts = Pieces::of(&part).counts();
    let mut text = format!(
        "part - corners {} levels {} umbrellas {} stems {} rows {} columns {}\n",
        part.n, counts.levels, counts.umbrellas, counts.stems, chart.rows, chart.columns
    );
    for (corner, bar) in chart.bars.iter().enumerate() {
        let (row, left, right) = (bar.row, bar.left, bar.right);
        text += &format!("corner {corner} row {row} columns {left} to {right}\n");
    }
    let mut strokes: Vec<&Stroke> = chart.strokes.iter().collect();
    strokes.sort_by_key(|stroke| match stroke.column {
        Some(column) => (column, false),
        None => (gap(&chart, stroke).0, true),
    });
    for stroke in strokes {
        let place = match stroke.column {
            Some(column) => format!("line {column}"),
            None => {
                let (from, to) = gap(&chart, stroke);
                format!("level {from} to {to}")
            }
        };
        let side = stroke.b == stroke.a + 1 || (stroke.a == 0 && stroke.b == part.n - 1);
        let kind = if side { "side" } else { "bend" };
        text += &format!("{place} corners {} {} {kind}\n", stroke.a, stroke.b);
    }
    text
}

/// The last column of a level stroke's left bar, and the first of its right bar.
fn gap(chart: &Chart, stroke: &Stroke) -> (u16, u16) {
    let one = chart.bars[usize::from(stroke.a)];
    let other = chart.bars[usize::from(stroke.b)];
    if one.right < other.left {
        (one.right, other.left)
    } else {
        (other.right, one.left)
    }
}

#[cfg(test)]
mod tests {
    use super::*;
    use crate::draw::chart_of;
    use crate::part::Part;

    /// Document 01's chart of the triangle, with the empty row 1: handed in, it tells
    /// its own rows. The triangle is drawn with 2.
    #[test]
    fn the_triangle() {
        let placed = [
            0, 3, 0, 2, 0, 3, 0, 0, 0, 0, 0, 0, 0, 2, 0, 0, 0, 1, 0, 0, 0, 1, 0, 1, 1, 0, 0, 0, 1,
            0, 0, 0, 0, 0, 0, 2, 1, 0, 1, 0, 2, 0, 1,
        ];
        let words = "part - corners 3 levels 1 umbrellas 1 stems 0 rows 3 columns 2\n\
            corner 0 row 0 columns 0 to 0\n\
            corner 1 row 2 columns 0 to 1\n\
            corner 2 row 0 columns 1 to 1\n\
            line 0 corners 0 1 side\n\
            level 0 to 1 corners 0 2 side\n\
            line 1 corners 1 2 side\n";
        assert_eq!(text(&placed), words);
        assert_eq!(text(&placed[1..]), "refused 14\n");
        let closed = words.replace("rows 3", "rows 2").replace("row 2", "row 1");
        assert_eq!(text(&chart_of(&Part::new(3, &[])).bytes()), closed);
    }
}
