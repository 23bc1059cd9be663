//! textwrap's optimal fit behind a C function. Its penalties are its own, so only its time is compared.
use std::cell::RefCell;
use textwrap::core::Fragment;
use textwrap::wrap_algorithms::{wrap_optimal_fit, Penalties};

/// A word with the space after it, which textwrap counts apart.
#[derive(Debug)]
struct Word(f64);

impl Fragment for Word {
    fn width(&self) -> f64 {
        self.0 - 1.0
    }

    fn whitespace_width(&self) -> f64 {
        1.0
    }

    fn penalty_width(&self) -> f64 {
        0.0
    }
}

thread_local! {
    // Kept between calls, so that no memory is allocated for the words.
    static WORDS: RefCell<Vec<Word>> = RefCell::new(Vec::new());
}

/// The number of lines of the optimal fit.
///
/// # Safety
/// `lengths` begins `n` numbers.
#[no_mangle]
pub unsafe extern "C" fn textwrap_lines(lengths: *const u32, n: usize, width: u32) -> u64 {
    let lengths = std::slice::from_raw_parts(lengths, n);
    WORDS.with(|words| {
        let mut words = words.borrow_mut();
        words.clear();
        words.extend(lengths.iter().map(|&length| Word(f64::from(length))));
        wrap_optimal_fit(&words, &[f64::from(width)], &Penalties::new()).map_or(0, |lines| lines.len() as u64)
    })
}
