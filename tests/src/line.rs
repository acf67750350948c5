//! The program's log line. Follows "Operations and their refusals" and the first
//! of the "Known parts" of document 01, request (xii): "the log prints `-` always",
//! and request (v): the rows are those of the chart drawn.

use crate::draw::chart;
use crate::plan::Pieces;
use crate::sheet;

/// The line that the program prints for a sheet, without its end of line.
pub fn line(sheet: &[u8]) -> String {
    let part = match sheet::read(sheet) {
        Ok(part) => part,
        Err(refusal) => return format!("refused {}", refusal.number()),
    };
    let plan = Pieces::of(&part).plan();
    let counts = plan.counts;
    format!(
        "part - corners {} levels {} umbrellas {} stems {} rows {} columns {}",
        part.n,
        counts.levels,
        counts.umbrellas,
        counts.stems,
        chart(&part, &plan).rows,
        part.n - 2 + counts.umbrellas + counts.stems
    )
}

#[cfg(test)]
mod tests {
    use super::*;
    use crate::part::{Corner, Pair};
    use crate::shapes::{HUNG, SIDE_BY_SIDE};

    #[test]
    fn known_parts() {
        let triangle = "part - corners 3 levels 1 umbrellas 1 stems 0 rows 2 columns 2";
        assert_eq!(line(&[1, 0, 3]), triangle);
        assert_eq!(line(&[5, 0, 3, 255, 255, 255, 255]), triangle);
        assert_eq!(line(&[5, 0, 3]), "refused 2");
        assert_eq!(line(&[9, 0, 3]), "refused 23");
        assert_eq!(line(&[1, 0, 2]), "refused 3");
        assert_eq!(line(&[]), "refused 1");
        let square = "part - corners 4 levels 1 umbrellas 1 stems 0 rows 2 columns 3";
        assert_eq!(line(&[3, 0, 4, 0, 0, 0, 2]), square);
        assert_eq!(line(&[11, 0, 4, 0, 0, 0, 2, 248, 248]), square);
    }

    /// Of as many levels, a part has more rows with a stem, or with pieces hung on
    /// row 1 and on row 2D.
    #[test]
    fn rows_of_known_parts() {
        let known: [(Corner, &[Pair], &str); 6] = [
            (
                5,
                &[(0, 3), (1, 3)],
                "1 umbrellas 1 stems 1 rows 3 columns 5",
            ),
            (
                5,
                &[(1, 4), (1, 3)],
                "1 umbrellas 1 stems 1 rows 3 columns 5",
            ),
            (
                6,
                &[(0, 2), (2, 4), (0, 4)],
                "1 umbrellas 1 stems 1 rows 3 columns 6",
            ),
            (
                7,
                &[(0, 5), (1, 5), (1, 3), (3, 5)],
                "2 umbrellas 2 stems 0 rows 3 columns 7",
            ),
            (11, &HUNG, "2 umbrellas 4 stems 1 rows 5 columns 14"),
            (12, &SIDE_BY_SIDE, "2 umbrellas 3 stems 1 rows 4 columns 14"),
        ];
        for (n, pairs, words) in known {
            let line = line(&sheet::with_pairs(n, pairs, None));
            assert_eq!(line, format!("part - corners {n} levels {words}"));
        }
    }
}
