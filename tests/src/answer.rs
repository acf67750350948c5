//! Refusals and their numbers.
//! Follows "Operations and their refusals" of document 01; by request (xi) "refusal
//! 1 now covers bits 4 to 7", and there is refusal 23; by request (ii) there is 19; by
//! request (i) there are 9 and 10 of two joined parts; by request (iii) 8 and 13 of a part
//! that is cut.

/// Why an operation refuses; the value is the number that it gives.
#[derive(Clone, Copy, Debug, PartialEq, Eq, PartialOrd, Ord)]
#[repr(u16)]
pub enum Refusal {
    /// The sheet is empty, or its map byte lacks bit 0 or has one of bits 4 to 7.
    MapByte = 1,
    /// The sheet is under 3 bytes, or not as long as its fields, the bytes of bit 2
    /// and the angles among them.
    SheetLength = 2,
    /// The corner count is outside 3 to 1,024.
    CornerCount = 3,
    /// Bit 1 of the map byte disagrees with the corner count.
    PairsBit = 4,
    /// Some pair is no diagonal.
    NoDiagonal = 5,
    /// A pair is repeated.
    Repeated = 6,
    /// Two diagonals cross.
    Crossing = 7,
    /// The output is shorter than the result, or one of two outputs.
    OutputShort = 8,
    /// A number that an edit names is too high; the side to join on is the root or none;
    /// of two cells that the nearest bar is asked for, one lies outside the chart or
    /// they lie in no row or column.
    OutOfRange = 9,
    /// The part has 1,024 corners and can take no more; two joined would have more.
    Full = 10,
    /// The part is a triangle and can lose no corner.
    Triangle = 11,
    /// A diagonal ends at the corner to be taken off.
    NotAnEar = 12,
    /// The part lacks the diagonal to be turned or cut.
    Lacking = 13,
    /// The chart's length, corner count or a map byte is wrong.
    ChartForm = 14,
    /// A bar breaks its rule.
    Bar = 15,
    /// A stroke's corners or order are wrong, or its bars do not fit.
    Stroke = 16,
    /// An upright passes through the gap of a level stroke.
    Gap = 17,
    /// The strokes lack a side, or diagonals cross.
    NotAPart = 18,
    /// The chart has more than fifteen rows and is to be drawn on a label.
    LabelRows = 19,
    /// An angle is outside -1,800 to 1,800, or bit 3 stands with 3 corners.
    Angle = 23,
}

impl Refusal {
    /// The number that the operation gives.
    pub fn number(self) -> u16 {
        self as u16
    }
}

/// What an operation that writes gives: the length of its result, or a refusal.
pub type Written = Result<usize, Refusal>;

/// The same of an operation with two outputs: the lengths of both results.
pub type WrittenTwo = Result<[usize; 2], Refusal>;
