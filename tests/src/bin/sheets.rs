//! Writes 200 sheets, NAME.sheet, into the folder that the argument names: parts of
//! 3 to 1,024 corners in eight shapes, their pairs in any order, with and without
//! bit 2, with and without angles, and some with a byte replaced. Beside each lie the
//! line and, unless it is refused, the chart that are due, NAME.line and NAME.chart.
//! Every run writes the same sheets.

use bend_tests::draw::chart_of;
use bend_tests::fields::Fields;
use bend_tests::line::line;
use bend_tests::part::{Angle, Corner};
use bend_tests::random::Random;
use bend_tests::shapes::{part, SHAPES};
use bend_tests::sheet;
use std::path::Path;

/// The sizes of each shape's parts; the last of them gets a byte replaced.
const SIZES: [Corner; 25] = [
    3, 4, 5, 6, 7, 8, 9, 12, 17, 23, 31, 48, 64, 100, 127, 200, 333, 512, 700, 900, 1022, 1023,
    1024, 5, 40,
];
const DAMAGED: usize = 2;

fn main() -> std::io::Result<()> {
    let folder = std::env::args().nth(1).expect("a folder to write to");
    let mut random = Random::new(7);
    for shape in SHAPES {
        for (place, n) in SIZES.into_iter().enumerate() {
            let mut fields = Fields::of(&part(shape, n, &mut random));
            random.shuffle(&mut fields.pairs);
            fields.skipped = random.coin().then(|| (random.bits() as u32).to_be_bytes());
            if n > 3 && random.coin() {
                let angle = |_| random.between(0, 3600) as Angle - 1800;
                fields.angles = Some(fields.pairs.iter().map(angle).collect());
            }
            let mut bytes = fields.bytes();
            if place >= SIZES.len() - DAMAGED {
                let at = random.below(bytes.len());
                bytes[at] = random.byte();
            }
            let file = Path::new(&folder).join(format!("{shape:?}_{place:02}_{n}"));
            std::fs::write(file.with_extension("line"), line(&bytes) + "\n")?;
            if let Ok(part) = sheet::read(&bytes) {
                std::fs::write(file.with_extension("chart"), chart_of(&part).bytes())?;
            }
            std::fs::write(file.with_extension("sheet"), bytes)?;
        }
    }
    Ok(())
}
