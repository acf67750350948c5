//! Charts and their bytes. Follows "The chart's bytes" of document 01.

use crate::answer::{Refusal, Written};
use crate::part::{Corner, FEWEST, MOST};

/// A corner's bar: its row, and its first and last column.
#[derive(Clone, Copy, Debug, PartialEq, Eq)]
pub struct Bar {
    pub row: u16,
    pub left: u16,
    pub right: u16,
}

/// An edge as drawn: upright in a column, or level.
#[derive(Clone, Copy, Debug, PartialEq, Eq)]
pub struct Stroke {
    pub a: Corner,
    pub b: Corner,
    pub column: Option<u16>,
}

/// A chart: a bar for each corner, a stroke for each edge.
#[derive(Clone, Debug, PartialEq, Eq)]
pub struct Chart {
    pub rows: u16,
    pub columns: u16,
    pub bars: Vec<Bar>,
    pub strokes: Vec<Stroke>,
}

impl Chart {
    /// The length of the chart's bytes.
    pub fn length(&self) -> usize {
        let uprights = self.strokes.iter().filter(|stroke| stroke.column.is_some());
        6 + 6 * self.bars.len() + 5 * self.strokes.len() + 2 * uprights.count()
    }

    /// Puts the chart's bytes at the start of the lent output.
    pub fn write(&self, out: &mut [u8]) -> Written {
        let length = self.length();
        let mut rest = out.get_mut(..length).ok_or(Refusal::OutputShort)?;
        put(&mut rest, self.rows.to_be_bytes());
        put(&mut rest, self.columns.to_be_bytes());
        put(&mut rest, (self.bars.len() as u16).to_be_bytes());
        for bar in &self.bars {
            put(&mut rest, bar.row.to_be_bytes());
            put(&mut rest, bar.left.to_be_bytes());
            put(&mut rest, bar.right.to_be_bytes());
        }
        for stroke in &self.strokes {
            put(&mut rest, [u8::from(stroke.column.is_some())]);
            put(&mut rest, stroke.a.to_be_bytes());
            put(&mut rest, stroke.b.to_be_bytes());
            if let Some(column) = stroke.column {
                put(&mut rest, column.to_be_bytes());
            }
        }
        Ok(length)
    }

    /// The chart's bytes.
    pub fn bytes(&self) -> Vec<u8> {
        let mut bytes = vec![0; self.length()];
        self.write(&mut bytes)
            .expect("the chart has its own length");
        bytes
    }

    /// The chart in the bytes, or refusal 14: a wrong length, a corner count out
    /// of range, or one of bits 1 to 7.
    pub fn from_bytes(bytes: &[u8]) -> Result<Chart, Refusal> {
        let mut rest = bytes;
        let (rows, columns, n) = (number(&mut rest)?, number(&mut rest)?, number(&mut rest)?);
        if !(FEWEST..=MOST).contains(&n) {
            return Err(Refusal::ChartForm);
        }
        let bars = (0..n)
            .map(|_| {
                Ok(Bar {
                    row: number(&mut rest)?,
                    left: number(&mut rest)?,
                    right: number(&mut rest)?,
                })
            })
            .collect::<Result<_, _>>()?;
        let strokes = (0..2 * n - 3)
            .map(|_| stroke(&mut rest))
            .collect::<Result<_, _>>()?;
        if !rest.is_empty() {
            return Err(Refusal::ChartForm);
        }
        Ok(Chart {
            rows,
            columns,
            bars,
            strokes,
        })
    }
}

/// Puts bytes at the front and leaves what follows them.
fn put<const N: usize>(rest: &mut &mut [u8], bytes: [u8; N]) {
    let (front, after) = std::mem::take(rest).split_at_mut(N);
    front.copy_from_slice(&bytes);
    *rest = after;
}

/// Takes a number of two bytes from the front.
fn number(rest: &mut &[u8]) -> Result<u16, Refusal> {
    let (bytes, after) = rest.split_first_chunk().ok_or(Refusal::ChartForm)?;
    *rest = after;
    Ok(u16::from_be_bytes(*bytes))
}

/// Takes a stroke from the front.
fn stroke(rest: &mut &[u8]) -> Result<Stroke, Refusal> {
    let (&map, after) = rest.split_first().ok_or(Refusal::ChartForm)?;
    *rest = after;
    if map > 1 {
        return Err(Refusal::ChartForm);
    }
    Ok(Stroke {
        a: number(rest)?,
        b: number(rest)?,
        column: if map == 1 { Some(number(rest)?) } else { None },
    })
}

#[cfg(test)]
mod tests {
    use super::*;

    #[test]
    fn bytes_and_back() {
        let bar = |row, left, right| Bar { row, left, right };
        let stroke = |a, b, column| Stroke { a, b, column };
        let chart = Chart {
            rows: 258,
            columns: 65535,
            bars: vec![bar(1, 2, 3), bar(4, 5, 6), bar(7, 8, 9)],
            strokes: vec![
                stroke(1, 2, None),
                stroke(0, 9, Some(4)),
                stroke(0, 0, None),
            ],
        };
        let bytes = chart.bytes();
        assert_eq!(bytes.len(), chart.length());
        assert_eq!(Chart::from_bytes(&bytes), Ok(chart));
        for length in 0..bytes.len() {
            assert_eq!(Chart::from_bytes(&bytes[..length]), Err(Refusal::ChartForm));
        }
    }
}
