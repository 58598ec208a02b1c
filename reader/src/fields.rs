//! The keyed lines between a text's first line and its `end`, for pages and calls alike.

use std::collections::BTreeMap;
use std::io::BufRead;

use lanegravel_binding::settings::RulingsParams;

use crate::files::{Context, Picture};
use crate::kinds::Kind;
use crate::settings::{self, SettingsFile};
use crate::text::{Lines, show};
use crate::{Failure, limits};

/// The sides of a picture, of any size: question 1 is the library's.
#[derive(Debug, Default, Clone, Copy, PartialEq)]
pub struct Sides {
    pub width: usize,
    pub height: usize,
}

impl Sides {
    pub fn places(self) -> usize {
        self.width.saturating_mul(self.height)
    }
}

/// What the lines of a text say. A field whose line the text's kind doesn't have stays empty.
#[derive(Debug, Default)]
pub struct Fields {
    pub page: Sides,
    pub levelled: Sides,
    pub dpi: u16,
    pub xheight: f64,
    pub shear: Vec<i32>,
    pub shear_x: Vec<i32>,
    pub pieces: Vec<u32>,
    pub glyphs: Vec<u32>,
    pub rulings: Vec<u32>,
    pub directions: Vec<u32>,
    pub boxes: Vec<u32>,
    pub rects: Vec<u32>,
    pub settings: RulingsParams,
    pub llr_clip: f64,
    pub group_cap: f64,
    pub gray: Vec<u8>,
    pub ink: Vec<u8>,
    pub raster: Vec<u8>,
    pub values: Vec<f64>,
    pub rooms: BTreeMap<String, usize>,
}

impl Fields {
    /// Takes in the line with this key, whose other words follow.
    pub fn set<R: BufRead>(&mut self, key: &str, line: &mut Lines<R>) -> Result<(), Failure> {
        match key.split_once(' ').unwrap_or((key, "")) {
            ("setting", name) => settings::set(&mut self.settings, name, line)?,
            ("room", name) => {
                self.rooms.insert(name.into(), line.whole()?);
            }
            ("page", _) => self.page = sides(line)?,
            ("levelled", _) => self.levelled = sides(line)?,
            ("dpi", _) => self.dpi = line.whole()?,
            ("xheight", _) => self.xheight = line.float()?,
            ("shear", _) => self.shear = line.wholes(limits::SIDE)?,
            ("shear_x", _) => self.shear_x = line.wholes(limits::SIDE)?,
            ("pieces", _) => self.pieces = line.wholes(4 * limits::PIECES)?,
            ("glyphs", _) => self.glyphs = line.wholes(4 * limits::GLYPHS)?,
            ("rulings", _) => self.rulings = line.wholes(4 * limits::PIECES)?,
            ("directions", _) => self.directions = line.wholes(limits::PIECES)?,
            ("boxes", _) => self.boxes = line.wholes(4 * limits::GLYPHS)?,
            ("rects", _) => self.rects = rectangles(line)?,
            ("llr_clip", _) => self.llr_clip = line.float()?,
            ("group_cap", _) => self.group_cap = line.float()?,
            ("gray", _) => self.gray = line.bytes(limits::PLACES)?,
            ("ink", _) => self.ink = line.bytes(limits::PLACES)?,
            ("raster", _) => self.raster = line.bytes(limits::PLACES)?,
            ("values", _) => self.values = line.few_floats(limits::VALUES)?,
            _ => return Err(line.malformed("unknown line")),
        }
        line.finish()
    }

    /// How much is lent under this name: what its line says, or else what is asked.
    pub fn room(&self, name: &str, asked: usize) -> usize {
        *self.rooms.get(name).unwrap_or(&asked)
    }
}

fn sides<R: BufRead>(line: &mut Lines<R>) -> Result<Sides, Failure> {
    Ok(Sides {
        width: line.whole()?,
        height: line.whole()?,
    })
}

/// One rectangle or more. No question asks that of `map`, so here the form does.
fn rectangles<R: BufRead>(line: &mut Lines<R>) -> Result<Vec<u32>, Failure> {
    let numbers = line.few_wholes(4 * limits::RECTS)?;
    if numbers.is_empty() || !numbers.len().is_multiple_of(4) {
        let count = numbers.len();
        return Err(line.malformed(format!("{count} numbers are not whole rectangles")));
    }
    Ok(numbers)
}

/// The lines of a text of one kind that have been read so far.
struct Reading<'a> {
    kind: &'a Kind,
    context: &'a Context,
    fields: Fields,
    /// Each key with its line's number.
    seen: BTreeMap<String, usize>,
    /// The settings file that the text names.
    settings: Option<SettingsFile>,
    pictures: Vec<Picture>,
}

impl Reading<'_> {
    /// Takes in the line with this key, whose other words follow.
    fn take<R: BufRead>(&mut self, key: String, line: &mut Lines<R>) -> Result<(), Failure> {
        if !self.kind.has(&key) {
            let (kind, key) = (self.kind.name, show(key.as_bytes()));
            return Err(line.malformed(format!("{kind} has no line {key}")));
        }
        let given = key.strip_suffix("_file").unwrap_or(&key);
        if let Some(first) = self.seen.insert(given.into(), line.number()) {
            let message = format!("a second line `{given}`, after line {first}");
            return Err(line.malformed(message));
        }
        let taken = match &key[..] {
            "settings" => self.name_settings(line),
            "gray_file" | "ink_file" | "raster_file" => self.name_picture(&key, line),
            _ => self.fields.set(&key, line),
        };
        taken.map_err(|failure| failure.within(&key))
    }

    fn name_settings<R: BufRead>(&mut self, line: &mut Lines<R>) -> Result<(), Failure> {
        let name = file_name(line)?;
        let file = SettingsFile::open(&self.context.folder.join(&name), &name);
        let file = file.map_err(|failure| line.malformed(failure.to_string()))?;
        self.settings = Some(file);
        Ok(())
    }

    fn name_picture<R: BufRead>(&mut self, key: &str, line: &mut Lines<R>) -> Result<(), Failure> {
        self.pictures.push(Picture {
            key: key.into(),
            line: line.number(),
            name: file_name(line)?,
        });
        Ok(())
    }

    /// What the lines say, once all are there.
    fn end<R: BufRead>(mut self, lines: &Lines<R>) -> Result<Fields, Failure> {
        let file = self.settings.as_ref().or(self.context.settings.as_ref());
        let mut missing = Vec::new();
        for key in self.kind.required() {
            if self.seen.contains_key(&key) {
                continue;
            }
            match file {
                Some(file) if file.give(&key, &mut self.fields) => {}
                Some(file) if settings::may_give(&key) => {
                    missing.push(format!("{key} (not in {} either)", file.name));
                }
                _ => missing.push(key),
            }
        }
        if !missing.is_empty() {
            let missing = missing.join(", ");
            return Err(lines.malformed(format!("missing before `end`: {missing}")));
        }
        for picture in &self.pictures {
            picture.read(&self.context.folder, &mut self.fields)?;
        }
        Ok(self.fields)
    }
}

/// What a line is known by: its first word, and for a setting or a room the name that follows.
pub fn key<R: BufRead>(line: &mut Lines<R>) -> Result<String, Failure> {
    let mut key = line.word()?.to_vec();
    if matches!(&key[..], b"setting" | b"room") {
        key.push(b' ');
        key.extend(line.word()?);
    }
    Ok(String::from_utf8_lossy(&key).into_owned())
}

/// The name of a file, which may have spaces in it.
fn file_name<R: BufRead>(line: &mut Lines<R>) -> Result<String, Failure> {
    let name = String::from_utf8_lossy(line.rest()?).into_owned();
    if name.is_empty() || name.len() > crate::text::MOST_CHARACTERS {
        return Err(line.malformed(format!("{} names no file", show(name.as_bytes()))));
    }
    Ok(name)
}

/// Reads the lines of a text of this kind, to its `end`.
pub fn read<R: BufRead>(
    lines: &mut Lines<R>,
    kind: &Kind,
    context: &Context,
) -> Result<Fields, Failure> {
    let mut reading = Reading {
        kind,
        context,
        fields: Fields::default(),
        seen: BTreeMap::new(),
        settings: None,
        pictures: Vec::new(),
    };
    while lines.next_line()? {
        let key = key(lines)?;
        if key == "end" && lines.ended() {
            return reading.end(lines);
        }
        reading.take(key, lines)?;
    }
    Err(lines.malformed("the input ends before the text's `end`"))
}
