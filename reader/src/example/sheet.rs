//! A sheet that is drawn on: the levelled grey, the ink, and the pieces and glyph boxes of what was
//! drawn. Coordinates are in 150ths of an inch.

use super::letters::{ADVANCE, columns};
use super::random::Random;
use crate::rect::{Rect, around};

pub const PAPER: u8 = 234;
/// The height of small letters of size 2, which the form is set in.
pub const XHEIGHT: u32 = 10;

pub struct Sheet {
    /// Pixels for each 150th of an inch.
    pub scale: u32,
    /// In pixels.
    pub width: usize,
    pub height: usize,
    pub gray: Vec<u8>,
    pub ink: Vec<u8>,
    /// Rectangles in pixels, four numbers each.
    pub pieces: Vec<u32>,
    pub glyphs: Vec<u32>,
    pub random: Random,
}

impl Sheet {
    pub fn new(scale: u32, width: usize, height: usize, random: Random) -> Self {
        Sheet {
            scale,
            width,
            height,
            gray: vec![PAPER; width * height],
            ink: vec![0; width * height],
            pieces: Vec::new(),
            glyphs: Vec::new(),
            random,
        }
    }

    /// A pixel of ink, or none where it would lie outside.
    fn dot(&mut self, x: i64, y: i64, grey: u8) {
        let inside = (0..self.width as i64).contains(&x) && (0..self.height as i64).contains(&y);
        if inside {
            let place = y as usize * self.width + x as usize;
            self.gray[place] = grey;
            self.ink[place] = 1;
        }
    }

    fn fill(&mut self, [x0, y0, x1, y1]: Rect, grey: u8) {
        for y in y0..=y1 {
            for x in x0..=x1 {
                self.dot(x.into(), y.into(), grey);
            }
        }
    }

    /// Words from their left upper corner, each letter a glyph box, in dots of this size.
    pub fn write(&mut self, x: u32, y: u32, size: u32, words: &str) {
        let dot = size * self.scale;
        for (k, letter) in (0..).zip(words.chars()) {
            let left = x * self.scale + k * ADVANCE * dot;
            self.letter(left, y * self.scale, dot, columns(letter));
        }
    }

    fn letter(&mut self, left: u32, top: u32, dot: u32, columns: [u8; 5]) {
        let grey = 45 + self.random.below(30) as u8;
        let dots = (0..5).flat_map(|x| (0..8).map(move |y| (x, y)));
        let set = dots.filter(|(x, y)| columns[*x as usize] >> y & 1 == 1);
        let mut glyph: Option<Rect> = None;
        for (x, y) in set {
            let (x0, y0) = (left + x * dot, top + y * dot);
            let rect = [x0, y0, x0 + dot - 1, y0 + dot - 1];
            self.fill(rect, grey);
            glyph = Some(glyph.map_or(rect, |glyph| around(glyph, rect)));
        }
        self.glyphs.extend(glyph.into_iter().flatten());
    }

    /// A printed rule in pieces with gaps that are bridged, and once in a while one that is not.
    pub fn rule(&mut self, from: u32, to: u32, at: u32, horizontal: bool) {
        let [from, to, at] = [from, to, at].map(|place| place * self.scale);
        let thick = 2 * self.scale;
        let mut start = from;
        while start < to {
            let length = (to - from) / 5 + self.random.below((to - from) / 2 + 1);
            let end = if to - start < length + 20 * self.scale {
                to
            } else {
                start + length
            };
            let low = at + self.random.below(self.scale + 1);
            self.piece(start, end, low, low + thick - 1, horizontal);
            let gap = if self.random.once_in(16) { 14 } else { 2 };
            start = end + gap * self.scale + self.random.below(6 * self.scale);
        }
    }

    fn piece(&mut self, from: u32, to: u32, low: u32, high: u32, horizontal: bool) {
        let rect = if horizontal {
            [from, low, to, high]
        } else {
            [low, from, high, to]
        };
        let grey = 60 + self.random.below(25) as u8;
        self.fill(rect, grey);
        self.pieces.extend(rect);
    }

    /// A fold across the sheet: a little darker than the paper, without ink, in a few long pieces.
    pub fn fold(&mut self, from: u32, to: u32, at: u32) {
        let [from, to, at] = [from, to, at].map(|place| place * self.scale);
        let darker = 14 + self.random.below(6) as u8;
        for y in at..at + 3 * self.scale {
            let row = y as usize * self.width;
            for grey in &mut self.gray[row + from as usize..=row + to as usize] {
                *grey = grey.saturating_sub(darker);
            }
        }
        let mut start = from;
        while start < to {
            let end = (start + (to - from) / 4 + self.random.below((to - from) / 4)).min(to);
            self.pieces
                .extend([start, at, end, at + 3 * self.scale - 1]);
            start = end + 2 + self.random.below(6 * self.scale);
        }
    }

    /// An answer box with this mark in it; the glyph box holds both.
    pub fn answer_box(&mut self, x: u32, y: u32, side: u32, mark: Mark) {
        let scale = self.scale;
        let [x, y, side] = [x, y, side].map(|place| place * scale);
        let [x1, y1, edge] = [x + side - 1, y + side - 1, 2 * scale - 1];
        let grey = 55 + self.random.below(20) as u8;
        self.fill([x, y, x1, y + edge], grey);
        self.fill([x, y1 - edge, x1, y1], grey);
        self.fill([x, y, x + edge, y1], grey);
        self.fill([x1 - edge, y, x1, y1], grey);
        let frame = [x, y, x1, y1];
        let drawn = match mark {
            Mark::None => frame,
            Mark::Cross => self.cross(frame),
            Mark::Tick => self.tick(frame),
        };
        self.glyphs.extend(around(frame, drawn));
    }

    /// Two strokes that stay inside the frame.
    fn cross(&mut self, [x0, y0, x1, y1]: Rect) -> Rect {
        let [left, top, right, bottom] = [x0 + 4, y0 + 4, x1 - 4, y1 - 4].map(f64::from);
        let first = self.stroke(&[(left, top), (right, bottom)]);
        let second = self.stroke(&[(right, top), (left, bottom)]);
        around(first, second)
    }

    /// A tick whose long arm may leave the frame at its upper right.
    fn tick(&mut self, [x0, y0, x1, y1]: Rect) -> Rect {
        let side = f64::from(x1 - x0);
        let out = f64::from(self.random.below(5) * self.scale);
        let (x, y) = (f64::from(x0), f64::from(y0));
        self.stroke(&[
            (x + 0.2 * side, y + 0.55 * side),
            (x + 0.42 * side, y + 0.8 * side),
            (f64::from(x1) + out - 2.0, f64::from(y0) - out + 2.0),
        ])
        .map(|place| place.min(x1.max(y1) + 9 * self.scale))
    }

    /// A pen's way through these places, in pixels, and the rectangle around it.
    fn stroke(&mut self, places: &[(f64, f64)]) -> Rect {
        let wide = i64::from(2 * self.scale);
        let grey = 40 + self.random.below(40) as u8;
        let mut drawn: Option<Rect> = None;
        for ends in places.windows(2) {
            let ((x0, y0), (x1, y1)) = (ends[0], ends[1]);
            let steps = (x1 - x0).abs().max((y1 - y0).abs()).ceil().max(1.0);
            for step in 0..=steps as u32 {
                let part = f64::from(step) / steps;
                let x = (x0 + part * (x1 - x0)).round() as i64 - wide / 2;
                let y = (y0 + part * (y1 - y0)).round() as i64 - wide / 2;
                for (dx, dy) in (0..wide).flat_map(|dx| (0..wide).map(move |dy| (dx, dy))) {
                    self.dot(x + dx, y + dy, grey);
                }
                let [x0, y0] = [x, y].map(|place| place.max(0) as u32);
                let rect = [x0, y0, x0 + wide as u32 - 1, y0 + wide as u32 - 1];
                drawn = Some(drawn.map_or(rect, |drawn| around(drawn, rect)));
            }
        }
        self.inside(drawn.unwrap_or([0; 4]))
    }

    /// Handwriting: one line of loops, which is one glyph box.
    pub fn handwriting(&mut self, x: u32, y: u32, width: u32, height: u32) {
        let [x, y, width, height] = [x, y, width, height].map(|n| f64::from(n * self.scale));
        let mut places = Vec::new();
        let (mut along, mut turn) = (0.0, 0.0f64);
        let mut tall = 0.5;
        while along < width {
            places.push((
                x + along + 0.12 * height * turn.cos(),
                y + height * (0.5 - 0.5 * tall * turn.sin()),
            ));
            turn += 0.5;
            along += height * (0.035 + 0.03 * self.random.part());
            if self.random.once_in(13) {
                tall = 0.4 + 0.6 * self.random.part();
            }
        }
        let glyph = self.stroke(&places);
        self.glyphs.extend(glyph);
    }

    /// A blot: a disc with a rim that is not round.
    pub fn blot(&mut self, x: u32, y: u32, radius: f64) {
        let (x, y) = (i64::from(x * self.scale), i64::from(y * self.scale));
        let radius = radius * f64::from(self.scale);
        let grey = 50 + self.random.below(40) as u8;
        let (turn, lobes) = (
            6.3 * self.random.part(),
            f64::from(self.random.between(2, 5)),
        );
        let reach = (1.4 * radius) as i64 + 1;
        let mut glyph: Option<Rect> = None;
        for dy in -reach..=reach {
            for dx in -reach..=reach {
                let angle = (dy as f64).atan2(dx as f64);
                let rim = radius * (1.0 + 0.2 * (lobes * angle + turn).sin());
                let (px, py) = (x + dx, y + dy);
                let inside = px >= 0 && py >= 0 && ((dx * dx + dy * dy) as f64) <= rim * rim;
                if inside && (px as usize) < self.width && (py as usize) < self.height {
                    self.dot(px, py, grey);
                    let rect = [px as u32, py as u32, px as u32, py as u32];
                    glyph = Some(glyph.map_or(rect, |glyph| around(glyph, rect)));
                }
            }
        }
        self.glyphs.extend(glyph.into_iter().flatten());
    }

    /// The ring of a cup, too light to be ink.
    pub fn ring(&mut self, x: u32, y: u32, radius: u32) {
        let [x, y, radius] = [x, y, radius].map(|n| f64::from(n * self.scale));
        let wide = 5.0 * f64::from(self.scale);
        for (k, grey) in self.gray.iter_mut().enumerate() {
            let (dx, dy) = ((k % self.width) as f64 - x, (k / self.width) as f64 - y);
            let off = ((dx * dx + dy * dy).sqrt() - radius).abs() / wide;
            if off < 1.0 {
                *grey = grey.saturating_sub((16.0 * (1.0 - off * off)) as u8);
            }
        }
    }

    /// The part of a rectangle that is on the sheet.
    fn inside(&self, [x0, y0, x1, y1]: Rect) -> Rect {
        let (right, bottom) = (self.width as u32 - 1, self.height as u32 - 1);
        [x0.min(right), y0.min(bottom), x1.min(right), y1.min(bottom)]
    }
}

/// What is drawn into an answer box.
#[derive(Clone, Copy, PartialEq)]
pub enum Mark {
    None,
    Cross,
    Tick,
}
