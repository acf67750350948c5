//! Drawing a part: the places of bars and uprights, sentence by sentence.
//! Follows "The chart's places" of document 01, and "Draw" under "Operations
//! and their refusals". By request (v) the chart drawn is the placed one, closed up.

use crate::answer::{Refusal, Written};
use crate::chart::{Bar, Chart, Stroke};
use crate::neighbours::Neighbours;
use crate::part::{lower_first, Corner, Part};
use crate::plan::{Letter, Pieces, Plan};
use crate::sheet;

/// Where a piece lies in the chart.
#[derive(Clone, Copy)]
struct Frame {
    /// The chart's row that is the piece's row 0.
    row: u16,
    /// Whether the piece goes downwards from there.
    downwards: bool,
    /// The leftmost column.
    first: u16,
    /// Whether it is reversed left to right.
    reversed: bool,
}

impl Frame {
    /// The chart's row that is the given row of the piece.
    fn row(&self, row: u16) -> u16 {
        if self.downwards {
            self.row + row
        } else {
            self.row - row
        }
    }
}

/// How many columns the piece's drawing takes.
fn columns(plan: &Plan) -> u16 {
    let (u, v) = plan.piece;
    v - u - 1 + plan.counts.umbrellas + plan.counts.stems
}

/// A chart in the making.
struct Drawing {
    neighbours: Neighbours,
    bars: Vec<Option<Bar>>,
    /// The column of each upright, by the place of its edge.
    uprights: Vec<Option<u16>>,
}

/// The filling of a piece's columns, one after another, from one of its ends.
struct Filling<'a> {
    plan: &'a Plan,
    frame: Frame,
    /// Columns from the left, or else from the right.
    rightwards: bool,
    /// The columns that are filled.
    filled: u16,
}

impl Filling<'_> {
    /// Takes the next columns and gives the leftmost of them.
    fn take(&mut self, count: u16) -> u16 {
        let before = self.filled;
        self.filled += count;
        if self.rightwards {
            self.frame.first + before
        } else {
            self.frame.first + columns(self.plan) - self.filled
        }
    }
}

impl Drawing {
    /// Sees to it that the corner's bar lies on the row and covers the column.
    fn cover(&mut self, corner: Corner, row: u16, column: u16) {
        let bar = self.bars[usize::from(corner)].get_or_insert(Bar {
            row,
            left: column,
            right: column,
        });
        assert_eq!(bar.row, row, "a corner has one row");
        bar.left = bar.left.min(column);
        bar.right = bar.right.max(column);
    }

    /// The next column, upright between two corners on rows of the piece.
    fn upright(&mut self, filling: &mut Filling, one: (Corner, u16), other: (Corner, u16)) {
        let column = filling.take(1);
        for (corner, row) in [one, other] {
            self.cover(corner, filling.frame.row(row), column);
        }
        let place = self.neighbours.place(lower_first((one.0, other.0)));
        assert_eq!(self.uprights[place].replace(column), None);
    }

    /// The piece hung on a row between two corners, if there is one.
    fn hang(&mut self, filling: &mut Filling, behind: Corner, ahead: Corner, row: u16) {
        let Some(plan) = filling.plan.hung(lower_first((behind, ahead))) else {
            return;
        };
        let first = filling.take(columns(plan));
        let left = if filling.rightwards { behind } else { ahead };
        let frame = Frame {
            row: filling.frame.row(row),
            // From row 1 like the piece itself, from its last row against it.
            downwards: filling.frame.downwards == (row == 1),
            first,
            reversed: left == behind.max(ahead),
        };
        self.piece(plan, frame);
    }

    /// Draws a piece by its umbrella.
    fn piece(&mut self, plan: &Plan, frame: Frame) {
        let (u, v) = plan.piece;
        let bottom = 2 * plan.counts.levels;
        let mut rim = self.neighbours.between(u, u, v).to_vec();
        let c = *rim.last().expect("the piece is not empty");
        rim.extend(self.neighbours.between(v, c, v));
        let place = |corner: Corner| rim.binary_search(&corner).expect("a corner of the rim");
        let mut i = place(c);
        let k = rim.len() - 1;
        let mut s = plan.stem.as_ref().map(|stem| place(stem.gate.0));

        // If the first gate lies before c: from the right, all exchanged.
        let exchanged = s.is_some_and(|s| s < i);
        let (mut near, mut far) = (u, v);
        if exchanged {
            (near, far) = (v, u);
            rim.reverse();
            i = k - i;
            s = s.map(|s| k - 1 - s);
        }
        let mut filling = Filling {
            plan,
            frame,
            rightwards: frame.reversed == exchanged,
            filled: 0,
        };

        for t in 0..=s.unwrap_or(k) {
            if t > 0 {
                self.hang(&mut filling, rim[t - 1], rim[t], bottom);
            }
            if t <= i {
                self.upright(&mut filling, (rim[t], bottom), (near, 0));
            }
            if t >= i {
                self.upright(&mut filling, (rim[t], bottom), (far, 0));
            }
        }
        if let Some(s) = s {
            for t in (s + 1..=k).rev() {
                if t < k {
                    self.hang(&mut filling, rim[t + 1], rim[t], 1);
                }
                self.upright(&mut filling, (rim[t], 1), (far, 0));
            }
            self.stem(&mut filling, rim[s], rim[s + 1], exchanged);
        }
        assert_eq!(filling.filled, columns(plan));

        // u's bar starts in the first column and v's ends in the last.
        let last = frame.first + columns(plan) - 1;
        let (left, right) = if frame.reversed { (v, u) } else { (u, v) };
        self.cover(left, frame.row(0), frame.first);
        self.cover(right, frame.row(0), last);
    }

    /// Draws the stem from its first gate, which joins `p` on the last row and
    /// `q` on row 1. If all is exchanged, `p` is the higher corner of the gate.
    fn stem(&mut self, filling: &mut Filling, mut p: Corner, mut q: Corner, exchanged: bool) {
        let plan = filling.plan;
        let bottom = 2 * plan.counts.levels;
        let word = plan.stem.iter().flat_map(|stem| &stem.word);
        self.upright(filling, (p, bottom), (q, 1));
        for letter in word {
            let x = self.neighbours.third_corner(lower_first((p, q)));
            let keeps_p = match letter {
                Letter::E => p.abs_diff(x) == 1,
                Letter::L => !exchanged,
                Letter::R => exchanged,
            };
            if keeps_p {
                self.hang(filling, q, x, 1);
                q = x;
            } else {
                self.hang(filling, p, x, bottom);
                p = x;
            }
            self.upright(filling, (p, bottom), (q, 1));
        }
    }
}

/// The chart of the plan, which is one of the whole part, by document 01's places:
/// rows 0 to 2D, those without a bar among them.
pub fn placed(part: &Part, plan: &Plan) -> Chart {
    let neighbours = Neighbours::of(part);
    let mut drawing = Drawing {
        bars: vec![None; usize::from(part.n)],
        uprights: vec![None; neighbours.places()],
        neighbours,
    };
    let frame = Frame {
        row: 0,
        downwards: true,
        first: 0,
        reversed: false,
    };
    drawing.piece(plan, frame);
    let strokes = drawing
        .neighbours
        .edges()
        .map(|(place, (a, b))| Stroke {
            a,
            b,
            column: drawing.uprights[place],
        })
        .collect();
    Chart {
        rows: 2 * plan.counts.levels + 1,
        columns: columns(plan),
        bars: drawing.bars.into_iter().flatten().collect(),
        strokes,
    }
}

/// The chart of the plan drawn, by document 01's places.
pub fn placed_of(part: &Part) -> Chart {
    placed(part, &Pieces::of(part).plan())
}

/// The chart of the plan: after everything is placed it is closed up.
pub fn chart(part: &Part, plan: &Plan) -> Chart {
    placed(part, plan).closed()
}

/// The chart of the part, by the plan drawn.
pub fn chart_of(part: &Part) -> Chart {
    chart(part, &Pieces::of(part).plan())
}

/// Draw: a sheet to its chart's bytes.
pub fn draw_sheet(sheet: &[u8], out: &mut [u8]) -> Written {
    chart_of(&sheet::read(sheet)?).write(out)
}

/// Draw with the bar list: the chart's bytes, and its bars from the start of
/// the list. If either is too short, neither is written.
pub fn draw_with_bars(sheet: &[u8], out: &mut [u8], bars: &mut [Bar]) -> Written {
    write_with_bars(&chart_of(&sheet::read(sheet)?), out, bars)
}

/// Writes a chart's bytes and its bars, or neither.
pub fn write_with_bars(chart: &Chart, out: &mut [u8], bars: &mut [Bar]) -> Written {
    let first = bars
        .get_mut(..chart.bars.len())
        .ok_or(Refusal::OutputShort)?;
    let length = chart.write(out)?;
    first.copy_from_slice(&chart.bars);
    Ok(length)
}
