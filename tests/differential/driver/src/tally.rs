//! What a comparison found: cases, differences, and the first few inputs that differ.

use std::fmt;

const SHOWN: usize = 5;

#[derive(Default)]
pub struct Tally {
    cases: u64,
    differences: u64,
    shown: Vec<String>,
}

impl Tally {
    /// Counts one case. The answers are compared word by word; `input` is asked for only where
    /// they differ.
    pub fn compare(&mut self, rust: &[u64], library: &[u64], input: impl FnOnce() -> String) {
        self.cases += 1;
        if rust == library {
            return;
        }
        self.differences += 1;
        if self.shown.len() < SHOWN {
            self.shown.push(format!(
                "{}: Rust {}, library {}",
                input(),
                hex(rust),
                hex(library)
            ));
        }
    }

    pub fn agrees(&self) -> bool {
        self.differences == 0
    }
}

impl fmt::Display for Tally {
    fn fmt(&self, f: &mut fmt::Formatter) -> fmt::Result {
        write!(f, "{} cases, {} differences", self.cases, self.differences)?;
        for line in &self.shown {
            write!(f, "\n  {line}")?;
        }
        Ok(())
    }
}

/// Words as 16 hex digits each, separated by single spaces.
pub fn hex(words: &[u64]) -> String {
    let words: Vec<String> = words.iter().map(|w| format!("{w:016x}")).collect();
    words.join(" ")
}

/// The bits of a float, with one NaN for all of them.
pub fn bits(x: f64) -> u64 {
    if x.is_nan() {
        0x7ff8_0000_0000_0000
    } else {
        x.to_bits()
    }
}

/// The hex digits of a float's bits, with one NaN for all of them.
pub fn hex_floats(values: &[f64]) -> String {
    hex(&values.iter().map(|&x| bits(x)).collect::<Vec<_>>())
}
