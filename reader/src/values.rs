//! What a word can be: a whole number, a float, bytes in hex.

use std::str::FromStr;

use crate::text::show;

/// A type of whole numbers, with the words that messages have for its values.
pub trait Whole: FromStr {
    const VALUES: &'static str;
}

impl Whole for u16 {
    const VALUES: &'static str = "a whole number from 0 to 65535";
}

impl Whole for u32 {
    const VALUES: &'static str = "an unsigned whole number of 32 bits";
}

impl Whole for i32 {
    const VALUES: &'static str = "a signed whole number of 32 bits";
}

impl Whole for usize {
    const VALUES: &'static str = "an unsigned whole number of 64 bits";
}

/// Decimal digits, behind a minus where the type has a sign. A plus, which std takes, is refused.
pub fn whole<T: Whole>(word: &[u8]) -> Result<T, String> {
    str::from_utf8(word)
        .ok()
        .filter(|digits| !digits.starts_with('+'))
        .and_then(|digits| digits.parse().ok())
        .ok_or_else(|| format!("{} is not {}", show(word), T::VALUES))
}

/// A float: exactly 16 lowercase hex digits are its 64 bits, anything else is a decimal number.
pub fn float(word: &[u8]) -> Result<f64, String> {
    if word.len() == 16 && word.iter().all(|digit| is_hex(*digit)) {
        let value = |digit: &u8| u64::from(hex_value(*digit));
        let bits = word.iter().fold(0, |bits, digit| bits << 4 | value(digit));
        return Ok(f64::from_bits(bits));
    }
    decimal(word).ok_or_else(|| {
        let float = "is not a float: 16 lowercase hex digits, or a decimal number";
        format!("{} {float}", show(word))
    })
}

/// `-1.5e-3` and the like, rounded to the nearest float. The names of infinities and NaNs, a plus in
/// front and a point without a digit beside it, which std takes, are refused.
fn decimal(word: &[u8]) -> Option<f64> {
    let digits = word.strip_prefix(b"-").unwrap_or(word);
    let is_digit = |byte: Option<&u8>| byte.is_some_and(u8::is_ascii_digit);
    let point = digits.iter().position(|byte| *byte == b'.');
    let of_form = is_digit(digits.first())
        && is_digit(digits.last())
        && point.is_none_or(|point| is_digit(digits.get(point + 1)));
    let text = str::from_utf8(word).ok().filter(|_| of_form)?;
    text.parse().ok()
}

fn is_hex(byte: u8) -> bool {
    byte.wrapping_sub(b'0') < 10 || byte.wrapping_sub(b'a') < 6
}

/// The value of a lowercase hex digit.
fn hex_value(digit: u8) -> u8 {
    (digit & 15) + 9 * (digit >> 6)
}

/// Bytes in hex, as their digits come in.
pub struct Hex {
    count: usize,
    most: usize,
    bytes: Vec<u8>,
    /// How many digits there have been.
    pub digits: usize,
    /// The first digit of a byte whose second one is still to come.
    half: Option<u8>,
}

impl Hex {
    /// So many bytes are said to come; one more than `most` is held at most.
    pub fn announced(count: usize, most: usize) -> Self {
        Hex {
            count,
            most: most.saturating_add(1),
            bytes: Vec::new(),
            digits: 0,
            half: None,
        }
    }

    /// Takes in the digits that stand at the front, and says how many there are.
    pub fn take(&mut self, there: &[u8]) -> usize {
        let there = &there[..digits_in_front(there)];
        self.digits += there.len();
        let mut rest = there;
        if let (Some(first), Some((second, after))) = (self.half, rest.split_first()) {
            self.hold(&[first, *second]);
            (self.half, rest) = (None, after);
        }
        self.hold(rest);
        if !rest.len().is_multiple_of(2) {
            self.half = rest.last().copied();
        }
        there.len()
    }

    /// Holds the bytes of these digits, as far as there is room for them.
    fn hold(&mut self, digits: &[u8]) {
        let (pairs, _) = digits.as_chunks();
        let room = self.most - self.bytes.len();
        let pairs = &pairs[..pairs.len().min(room)];
        if self.bytes.is_empty() && !pairs.is_empty() {
            // Where there is no such room, the count may be wrong: the bytes will show.
            let _ = self.bytes.try_reserve_exact(self.count.min(self.most));
        }
        self.bytes.extend(pairs.iter().map(byte));
    }

    /// The bytes, once all digits are there.
    pub fn whole(self) -> Result<Vec<u8>, String> {
        if !self.digits.is_multiple_of(2) || self.digits / 2 != self.count {
            let (count, digits) = (self.count, self.digits);
            return Err(format!(
                "{count} bytes announced, {digits} hex digits there"
            ));
        }
        Ok(self.bytes)
    }
}

/// The byte of two digits, both turned into their values at once.
fn byte(pair: &[u8; 2]) -> u8 {
    let pair = u16::from_le_bytes(*pair);
    let values = (pair & 0x0f0f) + 9 * (pair >> 6 & 0x0101);
    (values << 4 | values >> 8) as u8
}

/// How many hex digits stand before the first byte that is none. Whole blocks are asked at once, which
/// the compiler turns into vector code.
fn digits_in_front(there: &[u8]) -> usize {
    let all_hex = |block: &&[u8; 64]| block.iter().fold(true, |all, byte| all & is_hex(*byte));
    let (blocks, _) = there.as_chunks::<64>();
    let whole = 64 * blocks.iter().take_while(all_hex).count();
    let rest = there[whole..].iter();
    whole + rest.take_while(|byte| is_hex(**byte)).count()
}

#[cfg(test)]
mod tests {
    use super::{Hex, float};

    fn bits(word: &str) -> Option<u64> {
        float(word.as_bytes()).ok().map(f64::to_bits)
    }

    #[test]
    fn sixteen_hex_digits_are_bits() {
        assert_eq!(bits("3ff0000000000000"), Some(1.0f64.to_bits()));
        assert_eq!(bits("1234567890123456"), Some(0x1234_5678_9012_3456));
        assert_eq!(bits("12345678e0123456"), Some(0x1234_5678_e012_3456));
        assert_eq!(bits("ffffffffffffffff"), Some(u64::MAX));
    }

    #[test]
    fn anything_else_is_a_decimal() {
        for (word, value) in [
            ("0", 0.0),
            ("-0", -0.0),
            ("0.1", 0.1),
            ("-1.5e-3", -0.0015),
            ("2E2", 200.0),
            ("1e+2", 100.0),
            ("123456789012345", 123_456_789_012_345.0),
            ("1234567890123456.0", 1_234_567_890_123_456.0),
            ("1e999", f64::INFINITY),
            ("1e-999", 0.0),
            ("0.1000000000000000055511151231257827", 0.1),
            ("9007199254740993.0", 9_007_199_254_740_992.0),
        ] {
            assert_eq!(bits(word), Some(value.to_bits()), "{word}");
        }
    }

    #[test]
    fn words_that_are_no_float() {
        for word in [
            "inf",
            "nan",
            "-inf",
            "infinity",
            "+1",
            "1.",
            ".5",
            "-",
            "-.5",
            "1e",
            "0x1",
            "1,5",
            "1_000",
            "7FF8000000000000",
            "--1",
            "1e5.0",
            "1.e5",
        ] {
            assert_eq!(bits(word), None, "{word}");
        }
    }

    #[test]
    fn digits_come_in_parts_of_any_length() {
        let digits = "00112233445566778899aabbccddeeff".repeat(9);
        for part in 1..70 {
            let mut hex = Hex::announced(144, 1000);
            for part in digits.as_bytes().chunks(part) {
                assert_eq!(hex.take(part), part.len());
            }
            let bytes = hex.whole().expect("all are there");
            let expected: Vec<u8> = (0..144).map(|k| k % 16 * 17).collect();
            assert_eq!(bytes, expected, "in parts of {part}");
        }
    }

    #[test]
    fn no_more_is_held_than_may_be() {
        let mut hex = Hex::announced(144, 10);
        assert_eq!(hex.take(&[b'f'; 288]), 288);
        assert_eq!(hex.whole().map(|bytes| bytes.len()), Ok(11));
    }

    #[test]
    fn digits_end_at_any_other_byte() {
        for end in [b' ', b'\n', b'g', b'`', b'/', b':', b'F', 0xff, 0] {
            for place in [0, 1, 63, 64, 65, 127, 128, 200] {
                let mut there = vec![b'a'; 201];
                there[place] = end;
                assert_eq!(Hex::announced(9, 9).take(&there), place, "{end} at {place}");
            }
        }
    }
}
