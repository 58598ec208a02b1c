//! A page text to try the reader with: a questionnaire of A4, drawn from a seed and scanned a little
//! askew.

mod form;
mod letters;
pub mod random;
mod sheet;

use std::fmt::Write;

use crate::settings::COUNT_SETTINGS;
use random::Random;
use sheet::{PAPER, Sheet, XHEIGHT};

/// Its lines have one value each.
const SETTINGS: &str = include_str!("../../../examples/form.settings");

/// A4 in 150ths of an inch.
const PAGE: [usize; 2] = [1240, 1754];

/// The page text of the form with this seed, at 150 dpi.
pub fn text(seed: u64) -> String {
    text_at(seed, 1)
}

/// The same form at so many times 150 dpi.
pub fn text_at(seed: u64, scale: u32) -> String {
    let mut random = Random(seed);
    let [width, height] = PAGE.map(|side| side * scale as usize);
    let slope = slope(&mut random);
    let shear = drift(width, slope);
    let rows = height + widest(&shear);
    let shear_x = drift(rows, -slope);
    let mut sheet = Sheet::new(scale, width + widest(&shear_x), rows, random);
    form::draw(&mut sheet);
    scan(&mut sheet);
    let mut text = head(seed, &sheet, width, height);
    list(&mut text, "shear", &shear);
    list(&mut text, "shear_x", &shear_x);
    list(&mut text, "pieces", &sheet.pieces);
    list(&mut text, "glyphs", &sheet.glyphs);
    let page = unlevelled(&sheet, &shear, &shear_x, height);
    bytes(&mut text, "gray", &page);
    bytes(&mut text, "ink", &sheet.ink);
    text + "end\n"
}

/// Up to a third of a degree either way, and never straight.
fn slope(random: &mut Random) -> f64 {
    let steep = 0.002 + 0.004 * random.part();
    if random.once_in(2) { steep } else { -steep }
}

/// How far each place moves, from 0 on.
fn drift(count: usize, slope: f64) -> Vec<i32> {
    let places = (0..count).map(|k| (k as f64 * slope).round() as i32);
    let least = places.clone().min().unwrap_or(0);
    places.map(|place| place - least).collect()
}

fn widest(drift: &[i32]) -> usize {
    drift.iter().copied().max().unwrap_or(0) as usize
}

/// What the scanner makes of the drawing: edges soft, light that falls off to the sides, and noise.
fn scan(sheet: &mut Sheet) {
    let (width, height) = (sheet.width, sheet.height);
    soften(&mut sheet.gray, 1);
    soften(&mut sheet.gray, width);
    for y in 0..height {
        let down = y as f64 / height as f64 - 0.5;
        for x in 0..width {
            let across = x as f64 / width as f64 - 0.5;
            let light = 8.0 - 40.0 * across * across - 16.0 * down * down;
            let noise = sheet.random.bits();
            let noise = (noise & 7) as f64 + (noise >> 3 & 7) as f64 - 7.0;
            let grey = f64::from(sheet.gray[y * width + x]) + light + 0.6 * noise;
            sheet.gray[y * width + x] = grey.round().clamp(0.0, 255.0) as u8;
        }
    }
}

/// Each place half its own grey and a quarter of either neighbour's, which lie so far apart.
fn soften(gray: &mut [u8], apart: usize) {
    let sharp = gray.to_vec();
    let at = |place: usize| u16::from(*sharp.get(place).unwrap_or(&PAPER));
    for (place, grey) in gray.iter_mut().enumerate() {
        let beside = at(place.wrapping_sub(apart)) + at(place + apart);
        *grey = ((2 * at(place) + beside + 2) / 4) as u8;
    }
}

/// The page as it lay in the scanner.
fn unlevelled(sheet: &Sheet, shear: &[i32], shear_x: &[i32], height: usize) -> Vec<u8> {
    let mut page = Vec::with_capacity(shear.len() * height);
    for y in 0..height {
        for (x, down) in shear.iter().enumerate() {
            let row = y + *down as usize;
            page.push(sheet.gray[row * sheet.width + x + shear_x[row] as usize]);
        }
    }
    page
}

/// Everything but the long lines. Floats are written as bits, so that any reader of page texts takes
/// them, with the decimal beside them in a comment.
fn head(seed: u64, sheet: &Sheet, width: usize, height: usize) -> String {
    let (scale, (w, h)) = (sheet.scale, (sheet.width, sheet.height));
    let mut text = format!(
        "# A form of A4 at {dpi} dpi, a little askew, drawn by ./lanegravel --example {seed}\n\
         lanegravel-page 1\npage {width} {height}\nlevelled {w} {h}\ndpi {dpi}\n",
        dpi = 150 * scale
    );
    float(&mut text, "xheight", f64::from(XHEIGHT * scale));
    let lines = SETTINGS.lines().filter(|line| !line.starts_with('#'));
    for (key, value) in lines.filter_map(|line| line.rsplit_once(' ')) {
        let name = key.trim_start_matches("setting ");
        match value.parse() {
            Ok(x) if !COUNT_SETTINGS.contains(&name) => float(&mut text, key, x),
            _ => text += &format!("{key} {value}\n"),
        }
    }
    text
}

fn float(text: &mut String, key: &str, x: f64) {
    *text += &format!("# {key} {x:?}\n{key} {:016x}\n", x.to_bits());
}

fn list<T: std::fmt::Display>(text: &mut String, key: &str, entries: &[T]) {
    // Writing to a string cannot fail.
    let _ = write!(text, "{key} {}", entries.len());
    for entry in entries {
        let _ = write!(text, " {entry}");
    }
    text.push('\n');
}

fn bytes(text: &mut String, key: &str, bytes: &[u8]) {
    const DIGITS: &[u8; 16] = b"0123456789abcdef";
    let digit = |value: u8| char::from(DIGITS[usize::from(value)]);
    let _ = write!(text, "{key} {} ", bytes.len());
    text.reserve(2 * bytes.len() + 1);
    for byte in bytes {
        text.push(digit(byte >> 4));
        text.push(digit(byte & 15));
    }
    text.push('\n');
}
