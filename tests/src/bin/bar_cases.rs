//! Writes calls of Draw with the bar list, on the tape or on a label, and what they
//! must answer, to two files: the standard input and output of the program in
//! `bars.sh`.
//!
//! A call is 0 for the tape or 1 for a label, the length of the output, that of the
//! list of records and that of the sheet, in two bytes each, and the sheet. An answer
//! is the number, the length and the count of bars, in two bytes each; then the output
//! with `BEHIND` more bytes, and the records with `BEHIND` more, six bytes each.

use bend_tests::answer::Written;
use bend_tests::chart::Bar;
use bend_tests::draw::{chart_of, draw_with_bars};
use bend_tests::fields::Fields;
use bend_tests::label::draw_label_with_bars;
use bend_tests::label_parts::with_rows;
use bend_tests::part::{Corner, Part};
use bend_tests::random::Random;
use bend_tests::shapes::{all_parts, part, tall, tight, Shape, SHAPES, SIDE_BY_SIDE};
use bend_tests::sheet::{read, Skipped};
use std::{env, fs};

/// What every lent byte is before the call.
const BEFORE: u8 = 0xee;
/// How many bytes, and records, behind those lent must stay.
const BEHIND: usize = 4;

#[derive(Default)]
struct Cases {
    on_label: bool,
    calls: Vec<u8>,
    answers: Vec<u8>,
}

/// The bytes of bit 2.
const SKIPPED: Skipped = [0, 1, 0, 3];

fn put(bytes: &mut Vec<u8>, number: usize) {
    bytes.extend(u16::try_from(number).expect("two bytes").to_be_bytes());
}

impl Cases {
    fn draw(&self, sheet: &[u8], out: &mut [u8], bars: &mut [Bar]) -> Written {
        if self.on_label {
            draw_label_with_bars(sheet, out, bars)
        } else {
            draw_with_bars(sheet, out, bars)
        }
    }

    /// A call with an output of `lent` bytes and a list of `room` records.
    fn add(&mut self, sheet: &[u8], lent: usize, room: usize) {
        put(&mut self.calls, usize::from(self.on_label));
        put(&mut self.calls, lent);
        put(&mut self.calls, room);
        put(&mut self.calls, sheet.len());
        self.calls.extend(sheet);

        let untouched = u16::from_be_bytes([BEFORE; 2]);
        let untouched = Bar {
            row: untouched,
            left: untouched,
            right: untouched,
        };
        let mut out = vec![BEFORE; lent + BEHIND];
        let mut bars = vec![untouched; room + BEHIND];
        let answer = self.draw(sheet, &mut out[..lent], &mut bars[..room]);
        let (number, length) = match answer {
            Ok(length) => (0, length),
            Err(refusal) => (refusal.number(), 0),
        };
        let count = match answer {
            Ok(_) => usize::from(read(sheet).expect("a sheet").n),
            Err(_) => 0,
        };
        put(&mut self.answers, usize::from(number));
        put(&mut self.answers, length);
        put(&mut self.answers, count);
        self.answers.extend(out);
        for bar in bars {
            for number in [bar.row, bar.left, bar.right] {
                put(&mut self.answers, usize::from(number));
            }
        }
    }

    /// The part's sheet, with neither bit 2 nor angles, with either and with both:
    /// each with both outputs long enough, and by turns with one too short. Then the
    /// last of these sheets a byte short, and with an angle out of range.
    fn add_part(&mut self, part: &Part) {
        let [none, four] = [None, Some(SKIPPED)];
        let kinds = [(none, false), (four, false), (none, true), (four, true)];
        let sheets = kinds.map(|(four, angled)| sheet(part, four, angled && part.n > 3));
        let (length, n) = (chart_of(part).length(), usize::from(part.n));
        let lengths = [
            (length, n),
            (length + 3, n + 2),
            (length, n),
            (length, n + 1),
            (length - 1, n),
            (length, n - 1),
            (0, n),
            (length, 0),
        ];
        for (sheet, (lent, room)) in sheets.iter().cycle().zip(lengths) {
            self.add(sheet, lent, room);
        }
        let last = &sheets[3];
        self.add(&last[..last.len() - 1], length, n);
        if n > 3 {
            let mut bent = last.clone();
            bent[last.len() - 2] = 0x80;
            self.add(&bent, length, n);
        }
    }
}

/// The part's sheet in normal order, but with bit 2 if there are four bytes; its
/// angles are -180 degrees, -179.9 and so on.
fn sheet(part: &Part, skipped: Option<Skipped>, angled: bool) -> Vec<u8> {
    let fields = Fields::of(part);
    let angles = angled.then(|| (-1800..).take(fields.pairs.len()).collect());
    let with = Fields {
        skipped,
        angles,
        ..fields
    };
    with.bytes()
}

/// All parts of up to 6 corners.
fn small(cases: &mut Cases) {
    let parts = (3..=6).flat_map(all_parts);
    parts.for_each(|part| cases.add_part(&part));
}

/// A part of each shape, and parts of which all, some and none of the rows that may be
/// empty are.
fn shapes(cases: &mut Cases) {
    let mut random = Random::new(301);
    for shape in SHAPES {
        let n = random.between(7, 40) as Corner;
        cases.add_part(&part(shape, n, &mut random));
    }
    for part in [tight(3), Part::new(12, &SIDE_BY_SIDE), tall(2)] {
        cases.add_part(&part);
    }
}

/// A part of 1,024 corners, whose sheet has bit 2 and angles: the longest there is. And
/// one of 1,023 in 10 rows, where document 01 places 19.
fn large(cases: &mut Cases) {
    for part in [part(Shape::Mixed, 1024, &mut Random::new(302)), tight(9)] {
        let (length, n) = (chart_of(&part).length(), usize::from(part.n));
        cases.add(&sheet(&part, Some(SKIPPED), true), length, n);
    }
}

/// A part of 512 corners in 16 rows and one of 511 in 15, on either side of the label's
/// limit, with neither output too short, and with either.
fn limit(cases: &mut Cases) {
    for (more, rows) in [(1, 16), (0, 15)] {
        let part = with_rows(8, more, rows);
        let (length, n) = (chart_of(&part).length(), usize::from(part.n));
        for (lent, room) in [(length, n), (length - 1, n), (length, n - 1)] {
            cases.add(&sheet(&part, None, false), lent, room);
        }
    }
}

fn main() {
    let words: Vec<String> = env::args().skip(1).collect();
    let [on, which, calls, answers] = words.as_slice() else {
        panic!("usage: bar_cases tape|label small|shapes|large|limit CALLS ANSWERS");
    };
    let mut cases = Cases {
        on_label: on == "label",
        ..Cases::default()
    };
    // each few enough for the interpreter's ten million steps
    match which.as_str() {
        "small" => small(&mut cases),
        "shapes" => shapes(&mut cases),
        "large" => large(&mut cases),
        "limit" => limit(&mut cases),
        _ => panic!("neither small nor shapes nor large nor limit: {which}"),
    }
    fs::write(calls, cases.calls).expect("the file of the calls");
    fs::write(answers, cases.answers).expect("the file of the answers");
}
