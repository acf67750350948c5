//! Writes charts and their texts, NAME.chart and NAME.text, into the folder that
//! the argument names: parts of 3 to 1,024 corners as drawn, as placed with their
//! empty rows, mirrored, upside down, stretched, cut back and renumbered, and some
//! with a byte replaced. Every run writes the same charts.

use bend_tests::changes::{cut_back, mirrored, rotated, stretched, upside_down};
use bend_tests::draw::{chart_of, placed_of};
use bend_tests::part::Corner;
use bend_tests::random::Random;
use bend_tests::shapes::{part, SHAPES};
use bend_tests::text::text;
use std::path::Path;

const SIZES: [Corner; 10] = [3, 4, 5, 7, 9, 13, 24, 60, 301, 1024];

fn main() -> std::io::Result<()> {
    let folder = std::env::args().nth(1).expect("a folder to write to");
    let mut random = Random::new(9);
    for shape in SHAPES {
        for n in SIZES {
            let part = part(shape, n, &mut random);
            let drawn = chart_of(&part);
            let turn = random.below(usize::from(n));
            let wide = stretched(&drawn, if n < 400 { 9 } else { 1 }, &mut random);
            let chart = match random.below(7) {
                0 => drawn,
                1 => mirrored(&wide),
                2 => upside_down(&drawn),
                3 => wide,
                4 => cut_back(&wide),
                5 => placed_of(&part),
                _ => rotated(&drawn, turn, random.coin()),
            };
            let mut bytes = chart.bytes();
            if random.below(12) == 0 {
                let at = random.below(bytes.len());
                bytes[at] = random.byte();
            }
            let file = Path::new(&folder).join(format!("{shape:?}_{n}"));
            std::fs::write(file.with_extension("text"), text(&bytes))?;
            std::fs::write(file.with_extension("chart"), bytes)?;
        }
    }
    Ok(())
}
