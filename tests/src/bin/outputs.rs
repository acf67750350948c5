//! Writes what the library answers to the sheets of the folder that the argument
//! names, and to the sheets of parts that the comparison plans and draws: a line for
//! each call of Plan, Set in order, Draw, and Read a chart on the chart drawn; behind
//! these, on charts drawn, for calls of the nearest bar; then for Draw on a label; then for
//! Join; at the end for Cut. (Draw with the bar list and the log line are no exports for C.)
//!
//! A line has the sheet's digest (for Join that of both and the side, for Cut with the two
//! corners), the operation, the number and the values of the answer and, if the operation
//! writes, a digest of the lent bytes and of those round them. Every run writes the same
//! lines, so that two libraries can be compared.

// The comparison's own sheets; `Tests` below stands for its tests.
#[allow(dead_code)]
#[path = "../compare/checks.rs"]
mod checks;
#[allow(dead_code)]
#[path = "../compare/groups.rs"]
mod groups;
#[allow(dead_code)]
#[path = "../library.rs"]
mod library;
#[allow(dead_code)]
#[path = "../compare/sheets.rs"]
mod sheets;

use bend_tests::draw::chart_of;
use bend_tests::label_parts::{any_fewest, with_rows, EITHER_SIDE};
use bend_tests::part::Part;
use bend_tests::random::Random;
use bend_tests::shapes::{all_parts, part, Shape, HUNG, SHAPES};
use bend_tests::sheet::{normal, LONGEST};
use checks::{guarded, inside, Outcome};
use sheets::{any_sheet, both_kinds, maybe_angled};
use std::path::Path;
use std::{env, fs, io};

/// More bytes than any chart has.
const CHART: usize = 20_500;

pub struct Tests;

impl Tests {
    /// Writes the name, then the lines of the sheets.
    pub fn test(&mut self, name: &str, run: impl FnOnce() -> Outcome) {
        println!("{name}");
        assert!(run().is_ok(), "nothing is compared");
    }
}

/// FNV-1a of 64 bits.
fn digest(bytes: &[u8]) -> u64 {
    bytes.iter().fold(0xcbf2_9ce4_8422_2325, |hash, &byte| {
        (hash ^ u64::from(byte)).wrapping_mul(0x0100_0000_01b3)
    })
}

/// Writes the line of an operation that writes, and gives what it wrote. `sheet` is
/// the sheet's digest.
fn written(
    sheet: u64,
    operation: &str,
    lent: usize,
    call: impl FnOnce(&mut [u8]) -> u64,
) -> Vec<u8> {
    let mut bytes = guarded(lent);
    let answer = call(inside(&mut bytes));
    let (number, length) = (answer & 0xffff, answer >> 16);
    let output = digest(&bytes);
    println!("{sheet:016x} {operation} {number} {length} {output:016x}");
    let result = inside(&mut bytes).iter().copied();
    result.take(length as usize).collect()
}

/// The lines of a sheet.
fn answers(sheet: &[u8]) -> Outcome {
    let name = digest(sheet);
    let plan = library::plan(sheet);
    let [number, levels, umbrellas, stems] = [0, 16, 32, 48].map(|from| plan >> from & 0xffff);
    println!("{name:016x} plan {number} {levels} {umbrellas} {stems}");
    written(name, "normalize", LONGEST, |out| {
        library::normalize(sheet, out)
    });
    let chart = written(name, "draw", CHART, |out| library::draw(sheet, out));
    written(name, "read_chart", LONGEST, |out| {
        library::read_chart(&chart, out)
    });
    Ok(())
}

/// The sheets of the folder, by their names.
fn samples(tests: &mut Tests, folder: &Path) -> io::Result<()> {
    let files = fs::read_dir(folder)?.map(|file| file.map(|file| file.path()));
    let mut files = files.collect::<io::Result<Vec<_>>>()?;
    files.retain(|file| file.extension().is_some_and(|end| end == "sheet"));
    files.sort();
    for file in files {
        let sheet = fs::read(&file)?;
        let name = file.file_name().unwrap_or_default().to_string_lossy();
        tests.test(&name, || answers(&sheet));
    }
    Ok(())
}

/// The sheets on which the operation is compared; `seed` is the first of its seeds.
fn compared(tests: &mut Tests, operation: &str, seed: u64) {
    let of_a_part = |_: &Part, sheet: &[u8]| answers(sheet);
    groups::small_parts(tests, operation, "as compared", seed, of_a_part);
    groups::shaped_parts(tests, operation, "as compared", seed + 1, of_a_part);
    groups::large_parts(tests, operation, [seed + 2, seed + 5], answers);
    groups::bit_2_angles_and_order(tests, operation, seed + 4, of_a_part);
}

/// Parts with as many corners as a number of levels needs, and with one less.
fn deep_parts(tests: &mut Tests) {
    tests.test("2^(levels+1) - 1 corners and one less", || {
        let mut random = Random::new(104);
        let sizes = (3..=10).flat_map(|power| [(1 << power) - 2, (1 << power) - 1]);
        for n in sizes.flat_map(|n| [n; 20]) {
            let part = part(Shape::Deep, n, &mut random);
            answers(&any_sheet(&part, &mut random))?;
        }
        Ok(())
    });
}

/// The nearest bar from the ends of each bar of a chart, to either side and up and
/// down as far as the chart goes: the cells, the number, and the corner and one.
fn nearest_bars(part: &Part) {
    let chart = chart_of(part);
    let bytes = chart.bytes();
    let name = digest(&bytes);
    let (last_row, last_column) = (chart.rows - 1, chart.columns - 1);
    for bar in &chart.bars {
        let (row, left, right) = (bar.row, bar.left, bar.right);
        let sideways = [(left, row, 0), (right, row, last_column)];
        let up_and_down = [(left, 0, left), (right, last_row, right)];
        for (column, to_row, to_column) in sideways.into_iter().chain(up_and_down) {
            let first = (usize::from(row), usize::from(column));
            let second = (usize::from(to_row), usize::from(to_column));
            let answer = library::nearest_bar(&bytes, first, second);
            let (number, found) = (answer & 0xffff, answer >> 16);
            println!(
                "{name:016x} nearest_bar {row} {column} {to_row} {to_column} {number} {found}"
            );
        }
    }
}

/// Draw on a label, for small parts, parts of every shape, and parts on either side of
/// the limit: with an output that is long enough, and with none.
fn labels(tests: &mut Tests) {
    tests.test("on a label", || {
        let mut random = Random::new(106);
        let mut parts: Vec<Part> = (3..=6).flat_map(all_parts).collect();
        for n in [40, 300, 1023, 1024] {
            parts.extend(SHAPES.map(|shape| part(shape, n, &mut random)));
        }
        parts.extend(EITHER_SIDE.map(|(levels, more, rows)| with_rows(levels, more, rows)));
        parts.extend((0..200).map(|_| any_fewest(8, 500, &mut random)));
        for part in parts {
            let sheet = any_sheet(&part, &mut random);
            for lent in [CHART, 0] {
                let call = |out: &mut [u8]| library::draw_label(&sheet, out);
                written(digest(&sheet), "draw_label", lent, call);
            }
        }
        Ok(())
    });
}

/// The line of Join.
fn join_line(first: &[u8], second: &[u8], side: u64, lent: usize) {
    let name = digest(&[first, second, &side.to_be_bytes()].concat());
    let call = |out: &mut [u8]| library::join(first, second, side as usize, out);
    written(name, "join", lent, call);
}

/// Join, for small parts on every side and the root, and for parts of every shape of up
/// to 1,024 corners together, and over: with an output that is long enough, and with
/// none.
fn joins(tests: &mut Tests) {
    tests.test("joined", || {
        let mut random = Random::new(107);
        let small: Vec<Part> = (3..=5).flat_map(all_parts).collect();
        for (first, second) in small.iter().flat_map(|a| small.iter().map(move |b| (a, b))) {
            for side in 0..u64::from(first.n) {
                for first in both_kinds(first, &mut random) {
                    for second in both_kinds(second, &mut random) {
                        let first = any_sheet(&first, &mut random);
                        let second = any_sheet(&second, &mut random);
                        join_line(&first, &second, side, LONGEST);
                    }
                }
            }
        }
        for (n, m) in [
            (20, 30),
            (300, 5),
            (7, 600),
            (513, 513),
            (1023, 3),
            (1024, 3),
        ] {
            for (one, other) in SHAPES.iter().flat_map(|&a| SHAPES.map(|b| (a, b))) {
                let first = maybe_angled(part(one, n, &mut random), &mut random);
                let second = maybe_angled(part(other, m, &mut random), &mut random);
                let first = any_sheet(&first, &mut random);
                let second = any_sheet(&second, &mut random);
                let side = random.below(usize::from(n)) as u64;
                for lent in [LONGEST, 0] {
                    join_line(&first, &second, side, lent);
                }
            }
        }
        Ok(())
    });
}

/// The line of Cut.
fn cut_line(sheet: &[u8], (a, b): (u64, u64), lent: [usize; 2]) {
    let name = digest(&[sheet, &a.to_be_bytes(), &b.to_be_bytes()].concat());
    let mut outputs = lent.map(guarded);
    let both = outputs.each_mut().map(|bytes| inside(bytes));
    let answer = library::cut(sheet, a as usize, b as usize, both);
    let [number, inner, rest] = [answer & 0xffff, answer >> 16 & 0xffff, answer >> 32];
    let output = digest(&outputs.concat());
    println!("{name:016x} cut {number} {inner} {rest} {output:016x}");
}

/// Cut, for small parts at every two numbers up to n, and for parts of every shape along
/// some of their diagonals: with outputs that are long enough, and with either empty.
fn cuts(tests: &mut Tests) {
    tests.test("cut", || {
        let mut random = Random::new(108);
        for part in (3..=6).flat_map(all_parts) {
            let n = u64::from(part.n);
            for (a, b) in (0..=n).flat_map(|a| (0..=n).map(move |b| (a, b))) {
                for part in both_kinds(&part, &mut random) {
                    cut_line(&any_sheet(&part, &mut random), (a, b), [LONGEST; 2]);
                }
            }
        }
        for (n, shape) in [20, 300, 1024]
            .into_iter()
            .flat_map(|n| SHAPES.map(|s| (n, s)))
        {
            let part = maybe_angled(part(shape, n, &mut random), &mut random);
            let sheet = any_sheet(&part, &mut random);
            for _ in 0..20 {
                let &(a, b) = random.pick(&part.diagonals);
                for lent in [[LONGEST; 2], [0, LONGEST], [LONGEST, 0]] {
                    cut_line(&sheet, (b.into(), a.into()), lent);
                }
            }
        }
        Ok(())
    });
}

fn main() -> io::Result<()> {
    let folder = env::args().nth(1).expect("a folder of sheets");
    let tests = &mut Tests;
    samples(tests, Path::new(&folder))?;
    tests.test("pieces hung on row 1 and on row 2D", || {
        answers(&normal(&Part::new(11, &HUNG)))
    });
    compared(tests, "plan", 101);
    compared(tests, "draw", 201);
    deep_parts(tests);
    tests.test("the nearest bar", || {
        let mut random = Random::new(105);
        let large = [40, 300].map(|n| SHAPES.map(|shape| part(shape, n, &mut random)));
        let parts = (3..=6)
            .flat_map(all_parts)
            .chain(large.into_iter().flatten());
        parts.for_each(|part| nearest_bars(&part));
        Ok(())
    });
    labels(tests);
    joins(tests);
    cuts(tests);
    Ok(())
}
