//! Rows without bars: a chart closed up.
//! Follows request (v) of document 02: "A chart leaves out each row without one and
//! closes up." A row goes exactly if no bar of the whole chart lies on it.

use crate::chart::{Bar, Chart};
use std::collections::BTreeSet;

impl Chart {
    /// The rows on which bars lie, each once, ascending.
    fn rows_of_bars(&self) -> Vec<u16> {
        let rows: BTreeSet<u16> = self.bars.iter().map(|bar| bar.row).collect();
        rows.into_iter().collect()
    }

    /// The chart closed up: of its rows those that carry a bar, in their order, so
    /// that a bar's row is its row's place among them. Columns and strokes stay.
    pub fn closed(&self) -> Chart {
        let kept = self.rows_of_bars();
        let place = |bar: &Bar| kept.binary_search(&bar.row).expect("the bar's row is kept");
        let bars = self.bars.iter().map(|bar| Bar {
            row: place(bar) as u16,
            ..*bar
        });
        Chart {
            // a bar past the rows, in a chart that is not true, stays past them
            rows: kept.partition_point(|&row| row < self.rows) as u16,
            columns: self.columns,
            bars: bars.collect(),
            strokes: self.strokes.clone(),
        }
    }

    /// Whether no bar lies on one of the chart's rows.
    pub fn has_empty_row(&self) -> bool {
        (0..self.rows).any(|row| self.bars.iter().all(|bar| bar.row != row))
    }
}

#[cfg(test)]
mod tests {
    use super::*;
    use crate::changes::{changed, cut_back, stretched, strewn};
    use crate::draw::{chart_of, placed, placed_of};
    use crate::part::{Corner, Part};
    use crate::plan::{Counts, Pieces};
    use crate::random::Random;
    use crate::reader::read;
    use crate::search::plans;
    use crate::shapes::{all_parts, part, tall, tight, HUNG, SHAPES, SIDE_BY_SIDE};
    use crate::truth::{is_true, part_shown};

    /// A chart as placed, closed, drawn otherwise, or of bars strewn at random, often
    /// with empty rows put in, and often with a wrong number.
    fn any_chart(random: &mut Random) -> Chart {
        let n = random.between(3, 14) as Corner;
        let part = part(*random.pick(&SHAPES), n, random);
        let mut chart = match random.below(6) {
            0 => placed_of(&part),
            1 => cut_back(&placed_of(&part)),
            2 => chart_of(&part),
            _ => strewn(random.between(3, 7), random),
        };
        if random.coin() {
            chart = stretched(&chart, 3, random);
        }
        chart = changed(&chart, random);
        if random.below(12) == 0 {
            chart.rows = random.below(12) as u16;
        }
        chart
    }

    /// Whether every bar lies on one of the chart's rows.
    fn within_rows(chart: &Chart) -> bool {
        chart.bars.iter().all(|bar| bar.row < chart.rows)
    }

    /// Whether every stroke names corners of the chart.
    fn names_corners(chart: &Chart) -> bool {
        let n = chart.bars.len() as Corner;
        chart
            .strokes
            .iter()
            .all(|stroke| stroke.a.max(stroke.b) < n)
    }

    /// Rows 0, 2, 3, 5 and 7 of eight carry no bar.
    #[test]
    fn closed_by_hand() {
        let mut chart = chart_of(&Part::new(5, &[(0, 2), (0, 3)]));
        let rows = |chart: &Chart| -> Vec<u16> { chart.bars.iter().map(|bar| bar.row).collect() };
        chart.rows = 8;
        for (bar, row) in chart.bars.iter_mut().zip([4, 1, 6, 1, 4]) {
            bar.row = row;
        }
        assert!(chart.has_empty_row() && !chart.closed().has_empty_row());
        assert_eq!(chart.closed().rows, 3);
        assert_eq!(rows(&chart.closed()), [1, 0, 2, 0, 1]);
    }

    #[test]
    fn closing_moves_rows_alone() {
        let mut random = Random::new(21);
        let mut seen = [[0; 2]; 2];
        for _ in 0..30_000 {
            let chart = any_chart(&mut random);
            let closed = chart.closed();
            assert!(!closed.has_empty_row(), "{chart:?}");
            assert_eq!(closed.closed(), closed);
            assert_eq!(closed.columns, chart.columns);
            assert_eq!(closed.strokes, chart.strokes);
            assert_eq!(closed.bytes().len(), chart.bytes().len());
            let bars = || chart.bars.iter().zip(&closed.bars);
            assert!(bars().all(|(old, new)| (old.left, old.right) == (new.left, new.right)));
            // any two bars lie on one row, or one above the other, as before
            for (old, new) in bars() {
                let alike = |(other_old, other_new): (&Bar, &Bar)| {
                    old.row.cmp(&other_old.row) == new.row.cmp(&other_new.row)
                };
                assert!(bars().all(alike), "{chart:?}");
            }
            let (within, empty) = (within_rows(&chart), chart.has_empty_row());
            assert_eq!(within_rows(&closed), within);
            assert_eq!(closed.rows < chart.rows, empty);
            if within {
                assert_eq!(closed != chart, empty);
            }
            seen[usize::from(within)][usize::from(empty)] += 1;
        }
        assert!(seen.iter().flatten().all(|&count| count > 100), "{seen:?}");
    }

    #[test]
    fn a_closed_chart_shows_what_the_chart_shows() {
        let mut random = Random::new(22);
        let mut seen = [0; 19];
        for _ in 0..40_000 {
            let chart = any_chart(&mut random);
            let closed = chart.closed();
            let shown = part_shown(&chart);
            assert_eq!(part_shown(&closed), shown, "{chart:?}");
            assert_eq!(read(&chart.bytes()), shown);
            assert_eq!(read(&closed.bytes()), shown);
            if names_corners(&chart) {
                assert_eq!(is_true(&closed), is_true(&chart));
            }
            if chart.has_empty_row() {
                seen[shown.map_or_else(|refusal| usize::from(refusal.number()), |_| 0)] += 1;
            }
        }
        let expected = [0, 15, 16, 17, 18];
        assert!(
            expected.iter().all(|&number| seen[number] > 100),
            "{seen:?}"
        );
    }

    /// What holds of the rows of every plan's chart: two a level and one more as
    /// placed, which is the ceiling when closed; one a level and one more is the
    /// floor, met if there is no stem; 2 exactly for one umbrella without a stem.
    fn check_rows(counts: Counts, placed: &Chart) {
        let closed = placed.closed();
        let Counts {
            levels,
            umbrellas,
            stems,
        } = counts;
        assert_eq!(placed.rows, 2 * levels + 1);
        assert!(within_rows(placed) && !closed.has_empty_row());
        assert!(levels < closed.rows && closed.rows <= 2 * levels + 1);
        assert!(stems > 0 || closed.rows == levels + 1);
        assert_eq!(closed.rows == 2, umbrellas == 1 && stems == 0);
    }

    #[test]
    fn rows_of_the_charts_drawn() {
        let mut random = Random::new(23);
        let mut parts: Vec<Part> = (3..=9).flat_map(all_parts).collect();
        parts.extend((1..=9).map(tight).chain((2..=8).map(tall)));
        for round in 0..800 {
            let n = random.between(10, if round < 600 { 100 } else { 1024 });
            parts.push(part(SHAPES[round % SHAPES.len()], n as Corner, &mut random));
        }
        for part in parts {
            let (placed, drawn) = (placed_of(&part), chart_of(&part));
            check_rows(Pieces::of(&part).counts(), &placed);
            assert_eq!(drawn, placed.closed());
            assert_eq!(read(&placed.bytes()), Ok(part.clone()));
            assert_eq!(read(&drawn.bytes()), Ok(part));
        }
    }

    #[test]
    fn rows_of_the_charts_of_any_plan() {
        for part in (3..=8).flat_map(all_parts) {
            for plan in plans(&part, (0, part.n - 1)) {
                check_rows(plan.counts, &placed(&part, &plan));
            }
        }
    }

    /// The levels of the part, the rows of its chart as placed, and as drawn.
    fn levels_and_rows(part: &Part) -> (u16, u16, u16) {
        let levels = Pieces::of(part).counts().levels;
        (levels, placed_of(part).rows, chart_of(part).rows)
    }

    #[test]
    fn floor_and_ceiling_are_reached() {
        for levels in 1..=9 {
            let rows = levels_and_rows(&tight(levels));
            assert_eq!(rows, (levels, 2 * levels + 1, levels + 1));
        }
        for levels in 2..=8 {
            let rows = levels_and_rows(&tall(levels));
            assert_eq!(rows, (levels, 2 * levels + 1, 2 * levels + 1));
        }
        assert_eq!(levels_and_rows(&Part::new(11, &HUNG)), (2, 5, 5));
        assert_eq!(levels_and_rows(&Part::new(12, &SIDE_BY_SIDE)), (2, 5, 4));
    }
}
