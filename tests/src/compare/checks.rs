//! Calling the library and the model side by side, and what is told if they
//! differ.

use bend_tests::answer::{Refusal, Written};
use std::fmt::Write;
use std::hint::black_box;

/// A test that went wrong: its first failing input and the two answers.
pub struct Failure {
    pub input: String,
    pub library: String,
    pub model: String,
}

impl Failure {
    /// The same failure, with words before its input.
    pub fn after(mut self, words: &str) -> Failure {
        self.input = format!("{words} {}", self.input);
        self
    }
}

pub type Outcome = Result<(), Failure>;

/// The bytes before and after the lent output that the library must not touch.
const GUARD: usize = 16;

/// What fills the lent output, and the guards, before a call.
fn filling(i: usize) -> u8 {
    (i * 151 + 89) as u8 ^ (i >> 8) as u8
}

/// An output to lend, filled, with the bytes before and after it.
pub fn guarded(lent: usize) -> Vec<u8> {
    (0..lent + 2 * GUARD).map(filling).collect()
}

/// The output itself.
pub fn inside(bytes: &mut [u8]) -> &mut [u8] {
    let end = bytes.len() - GUARD;
    &mut bytes[GUARD..end]
}

/// The model's answer as the library packs it: the length of one result or, of two, 16
/// bits each.
pub fn packed<const N: usize>(answer: Result<[usize; N], Refusal>) -> u64 {
    match answer {
        Ok(lengths) => {
            let placed = |(place, length)| (length as u64) << (16 * place);
            (1..).zip(lengths).map(placed).sum()
        }
        Err(refusal) => u64::from(refusal.number()),
    }
}

/// Calls the library and the model on the same input with `lent` bytes of
/// output each. They must agree on the answer and on every byte afterwards;
/// the input and the bytes round the output must stay as they were.
pub fn same_writing(
    input: &[u8],
    lent: usize,
    library: impl FnOnce(&[u8], &mut [u8]) -> u64,
    model: impl FnOnce(&[u8], &mut [u8]) -> Written,
) -> Outcome {
    same_writings(
        input,
        [lent],
        |input, [out]| library(input, out),
        |input, [out]| model(input, out).map(|length| [length]),
    )
}

/// The same with several outputs.
pub fn same_writings<const N: usize>(
    input: &[u8],
    lent: [usize; N],
    library: impl FnOnce(&[u8], [&mut [u8]; N]) -> u64,
    model: impl FnOnce(&[u8], [&mut [u8]; N]) -> Result<[usize; N], Refusal>,
) -> Outcome {
    let mut by_library = lent.map(guarded);
    let mut by_model = by_library.clone();
    let kept_input = input.to_vec();
    let answer = library(input, by_library.each_mut().map(|bytes| inside(bytes)));
    let input = black_box(input);
    let outputs = by_model.each_mut().map(|bytes| inside(bytes));
    let expected = packed(model(&kept_input, outputs));
    if answer == expected && by_library == by_model && input == kept_input {
        return Ok(());
    }
    let mut library = told(answer, &by_library);
    let around = |bytes: &Vec<u8>| [&bytes[..GUARD], &bytes[bytes.len() - GUARD..]].concat();
    if by_library.each_ref().map(around) != by_model.each_ref().map(around) {
        library += ", bytes outside the output changed";
    }
    if input != kept_input {
        library += ", input changed";
    }
    let lengths = lent.map(|length| length.to_string()).join(" and ");
    Err(Failure {
        input: format!("{} with {lengths} bytes of output", hex(&kept_input)),
        library,
        model: told(expected, &by_model),
    })
}

/// An answer in words, with the outputs, of which each has its length in 16 bits.
fn told<const N: usize>(answer: u64, outputs: &[Vec<u8>; N]) -> String {
    let mut text = format!("answer {answer:#x}, number {}", answer & 0xffff);
    for (place, bytes) in outputs.iter().enumerate() {
        let length = answer >> (16 + 16 * place) & 0xffff;
        let output = hex(&bytes[GUARD..bytes.len() - GUARD]);
        let _ = write!(text, ", length {length}, output {output}");
    }
    text
}

/// The bytes in hexadecimal, or `-` for none.
pub fn hex(bytes: &[u8]) -> String {
    if bytes.is_empty() {
        return "-".to_string();
    }
    bytes.iter().fold(String::new(), |mut text, byte| {
        let _ = write!(text, "{byte:02x}");
        text
    })
}

/// Turns a number that is not the one this test was made to get into a failure.
pub fn must_be(number: u16, answer: u64, input: &[u8]) -> Outcome {
    if answer & 0xffff == u64::from(number) {
        return Ok(());
    }
    Err(Failure {
        input: hex(input),
        library: format!("number {}", answer & 0xffff),
        model: format!("number {number}, by the published order"),
    })
}

/// A failure unless the library's bytes are the expected ones.
pub fn same_bytes(input: &[u8], library: &[u8], expected: &[u8]) -> Outcome {
    if library == expected {
        return Ok(());
    }
    Err(Failure {
        input: hex(input),
        library: hex(library),
        model: hex(expected),
    })
}

/// Runs the checks with a stack of 1 MiB, as a desktop program may have it.
pub fn on_a_small_stack(checks: impl FnOnce() -> Outcome + Send + 'static) -> Outcome {
    std::thread::Builder::new()
        .stack_size(1 << 20)
        .spawn(checks)
        .and_then(|thread| thread.join().map_err(|_| std::io::ErrorKind::Other.into()))
        .expect("the thread runs to its end")
}
