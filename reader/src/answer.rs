//! The answer text.

use std::fmt::Write;

use lanegravel_binding::Question;

use crate::found::{Evidence, Facts, Finding, Found, Marked, Ruling, Table};
use crate::rect::Rect;

/// The number of the first question that was missed.
#[derive(Debug, Clone, Copy, PartialEq)]
pub struct Refused(pub u32);

impl From<Question> for Refused {
    fn from(question: Question) -> Self {
        Refused(question.number())
    }
}

/// A refusal, unless the number is 0.
pub fn accepted(number: u32) -> Result<(), Refused> {
    match number {
        0 => Ok(()),
        missed => Err(Refused(missed)),
    }
}

/// How floats are written.
#[derive(Debug, Clone, Copy, Default, PartialEq)]
pub enum Floats {
    /// The 16 hex digits of the bits.
    #[default]
    Bits,
    /// The shortest decimal that reads back as the same float.
    Decimal,
}

/// The lines of an answer.
#[derive(Debug, Default)]
pub struct Text {
    lines: String,
    floats: Floats,
}

impl Text {
    pub fn new(floats: Floats) -> Self {
        Text {
            lines: String::new(),
            floats,
        }
    }

    /// The whole answer: these lines, or the refusal.
    pub fn whole(&self, outcome: Result<(), Refused>) -> String {
        match outcome {
            Ok(()) => format!("lanegravel-answer 1\naccepted\n{}end\n", self.lines),
            Err(Refused(number)) => format!("lanegravel-answer 1\nrefused {number}\nend\n"),
        }
    }

    /// The lines alone.
    pub fn lines(&self) -> &str {
        &self.lines
    }

    /// A line of whole numbers.
    pub fn numbers(&mut self, key: &str, numbers: &[u32]) {
        self.begin(key);
        numbers.iter().for_each(|number| self.whole_number(*number));
        self.end();
    }

    /// A line that says how many there are of something.
    pub fn count(&mut self, key: &str, count: usize) {
        self.begin(key);
        self.whole_number(count);
        self.end();
    }

    /// The line of a list: its count, and its entries.
    pub fn list(&mut self, key: &str, entries: &[u32]) {
        self.begin(key);
        self.whole_number(entries.len());
        entries.iter().for_each(|entry| self.whole_number(*entry));
        self.end();
    }

    /// How many sets there are, and the members of each.
    pub fn sets(&mut self, key: &str, sets: &[Vec<u32>]) {
        self.count(&format!("{key}s"), sets.len());
        sets.iter().for_each(|set| self.list(key, set));
    }

    pub fn sum(&mut self, sum: f64) {
        self.begin("sum");
        self.float(sum);
        self.end();
    }

    /// The line of a raster: its length, and its hash in place of its bytes.
    pub fn raster(&mut self, key: &str, bytes: &[u8]) {
        let (count, hash) = (bytes.len(), fnv1a(bytes));
        self.lines += &format!("{key} {count} {hash:016x}\n");
    }

    /// Where a levelled corner lies on the page, or outside it.
    pub fn place(&mut self, x: i64, y: i64) {
        self.lines += &format!("place {x} {y}\n");
    }

    pub fn rulings(&mut self, rulings: &[Ruling]) {
        self.count("rulings", rulings.len());
        for ruling in rulings {
            self.record("ruling", ruling.rect, &[ruling.direction]);
            self.float(ruling.contrast);
            self.end();
        }
    }

    pub fn tables(&mut self, tables: &[Table]) {
        self.count("tables", tables.len());
        for table in tables {
            let facts = [table.rows, table.columns, table.rulings];
            self.record("table", table.rect, &facts);
            self.float(table.share);
            self.end();
        }
    }

    pub fn boxes(&mut self, boxes: &[Marked]) {
        self.count("boxes", boxes.len());
        for marked in boxes {
            self.record("box", marked.rect, &[marked.mark]);
            self.float(marked.coverage);
            self.end();
        }
    }

    /// Everything that was found on a page, and the closed sets where they were asked for.
    pub fn found(&mut self, found: &Found) {
        self.raster("levelled", &found.levelled);
        self.rulings(&found.rulings);
        self.count("printed", found.printed.len());
        self.count("faint", found.faint.len());
        self.tables(&found.tables);
        self.list("free", &found.free);
        self.boxes(&found.boxes);
        self.count("grids", found.grids.len());
        for grid in &found.grids {
            self.list("grid", &grid.members);
        }
        self.numbers("counts", &found.counts());
        self.count("findings", found.findings.len());
        for finding in &found.findings {
            self.finding(finding);
        }
        if let Some(sets) = &found.sets {
            self.sets("pieceset", &sets.pieces);
            self.sets("printedset", &sets.printed);
            self.sets("boxset", &sets.boxes);
            self.count("readingorders", found.grids.len());
            for grid in &found.grids {
                self.list("readingorder", &grid.reading);
            }
        }
    }

    /// A finding with the facts that its kind has, and its evidence.
    fn finding(&mut self, finding: &Finding) {
        self.begin("finding");
        self.whole_number(finding.facts.kind());
        finding
            .rect
            .iter()
            .for_each(|side| self.whole_number(*side));
        self.float(finding.log_odds);
        match finding.facts {
            Facts::Table {
                rows,
                columns,
                rulings,
            } => self.facts(&[rows, columns, rulings]),
            Facts::FreeRules {
                horizontal,
                vertical,
                longest,
            } => self.facts(&[horizontal, vertical, longest]),
            Facts::Grid { boxes, ticked } => self.facts(&[boxes, ticked]),
            Facts::Fold { direction, length } => {
                self.whole_number(direction);
                self.float(length);
            }
        }
        self.end();
        self.evidence(&finding.first);
        finding
            .second
            .iter()
            .for_each(|second| self.evidence(second));
    }

    fn facts(&mut self, facts: &[u32]) {
        facts.iter().for_each(|fact| self.whole_number(*fact));
    }

    fn evidence(&mut self, evidence: &Evidence) {
        self.begin("evidence");
        self.float(evidence.value);
        self.float(evidence.threshold);
        self.float(evidence.llr);
        self.end();
    }

    fn record(&mut self, key: &str, rect: Rect, facts: &[u32]) {
        self.begin(key);
        rect.iter().chain(facts).for_each(|n| self.whole_number(*n));
    }

    fn begin(&mut self, key: &str) {
        self.lines += key;
    }

    fn end(&mut self) {
        self.lines.push('\n');
    }

    fn whole_number(&mut self, number: impl std::fmt::Display) {
        // Writing to a string cannot fail.
        let _ = write!(self.lines, " {number}");
    }

    /// All NaNs are written as one, since their bits mean nothing. A float that is not finite has no
    /// decimal, and keeps its digits.
    fn float(&mut self, x: f64) {
        let bits = if x.is_nan() {
            0x7ff8_0000_0000_0000
        } else {
            x.to_bits()
        };
        let _ = match self.floats {
            Floats::Decimal if x.is_finite() => write!(self.lines, " {x:?}"),
            _ => write!(self.lines, " {bits:016x}"),
        };
    }
}

/// FNV-1a of 64 bits.
fn fnv1a(bytes: &[u8]) -> u64 {
    bytes.iter().fold(0xcbf2_9ce4_8422_2325, |hash, byte| {
        (hash ^ u64::from(*byte)).wrapping_mul(0x100_0000_01b3)
    })
}

#[cfg(test)]
mod tests {
    use super::{Floats, Text, fnv1a};
    use crate::values;

    #[test]
    fn hashes_that_are_published() {
        assert_eq!(fnv1a(b""), 0xcbf2_9ce4_8422_2325);
        assert_eq!(fnv1a(b"a"), 0xaf63_dc4c_8601_ec8c);
        assert_eq!(fnv1a(b"foobar"), 0x8594_4171_f739_67e8);
    }

    #[test]
    fn every_float_reads_back_from_its_decimal() {
        let mut bits: u64 = 1;
        for _ in 0..100_000 {
            bits = bits.wrapping_mul(0x9e37_79b9_7f4a_7c15).wrapping_add(1);
            let x = f64::from_bits(bits);
            let mut text = Text::new(Floats::Decimal);
            text.sum(x);
            let word = text.lines().trim_start_matches("sum ").trim_end();
            let read = values::float(word.as_bytes()).expect("a float");
            assert!(read.to_bits() == bits || x.is_nan(), "{bits:016x} {word}");
        }
    }
}
