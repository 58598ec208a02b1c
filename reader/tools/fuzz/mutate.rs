//! Small changes to texts and pictures.

use std::ops::Range;

use lanegravel_reader::example::random::Random;

/// Words that stand at an end of something.
const WORDS: [&str; 40] = [
    "0",
    "1",
    "-1",
    "2",
    "3",
    "4",
    "255",
    "4096",
    "4097",
    "8192",
    "8193",
    "65535",
    "65536",
    "16385",
    "67108864",
    "2147483647",
    "2147483648",
    "4294967295",
    "4294967296",
    "18446744073709551615",
    "7ff0000000000000",
    "fff8000000000000",
    "8000000000000000",
    "0010000000000000",
    "1e999",
    "-0.0",
    "0.1",
    "nan",
    "inf",
    "end",
    "page",
    "settings form.settings",
    "gray_file scan.pgm",
    "ink_file scan.pbm",
    "room levelled",
    "room boxes",
    "room findings",
    "#",
    "\n",
    " ",
];

/// One of them, or two, with a few changes.
pub fn mutated(random: &mut Random, of: &[Vec<u8>]) -> Vec<u8> {
    let mut text = of[random.below(of.len() as u32) as usize].clone();
    if random.once_in(8) {
        text.extend(&of[random.below(of.len() as u32) as usize]);
    }
    for _ in 0..random.below(6) {
        change(random, &mut text);
    }
    text
}

fn change(random: &mut Random, text: &mut Vec<u8>) {
    if text.is_empty() {
        return;
    }
    let place = random.below(text.len() as u32) as usize;
    let most = 1 << random.below(12);
    let length = (random.below(most) as usize).min(text.len() - place);
    match random.below(9) {
        0 => text[place] ^= 1 << random.below(8),
        1 => drop(text.drain(place..place + length)),
        2 => {
            let part = text[place..place + length].to_vec();
            text.splice(place..place, part);
        }
        3 => text.truncate(place),
        4 | 5 => {
            let word = word_around(text, place);
            let new = WORDS[random.below(40) as usize].bytes();
            text.splice(word, new);
        }
        6 => drop(text.drain(line_around(text, place))),
        7 => {
            let line: Vec<u8> = text.drain(line_around(text, place)).collect();
            let to = line_around(text, random.below(text.len() as u32 + 1) as usize).start;
            text.splice(to..to, line);
        }
        _ => {
            let word = word_around(text, place);
            let digits = format!("{}", random.bits() >> random.below(64));
            text.splice(word, digits.bytes());
        }
    }
}

fn around(text: &[u8], place: usize, ends: fn(&u8) -> bool) -> (usize, usize) {
    let start = text[..place]
        .iter()
        .rposition(ends)
        .map_or(0, |end| end + 1);
    let end = text[place..]
        .iter()
        .position(ends)
        .map_or(text.len(), |end| place + end);
    (start, end)
}

fn word_around(text: &[u8], place: usize) -> Range<usize> {
    let (start, end) = around(text, place, |byte| matches!(byte, b' ' | b'\n'));
    start..end
}

/// The line, its newline included.
fn line_around(text: &[u8], place: usize) -> Range<usize> {
    let (start, end) = around(text, place, |byte| *byte == b'\n');
    start..(end + 1).min(text.len())
}
