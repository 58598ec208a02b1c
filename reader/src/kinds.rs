//! The kinds of texts: a page, and each of the smaller calls.

use std::io::BufRead;

use crate::Failure;
use crate::answer::{Refused, Text};
use crate::boxes::{boxes, grids};
use crate::fields::Fields;
use crate::levelling::{Scan, level, map, unlevel};
use crate::rulings::{segments, sum, tables};
use crate::settings;
use crate::text::{Lines, show};

/// One kind of text: the lines that it has, and what answers it.
pub struct Kind {
    /// What messages call it.
    pub name: &'static str,
    /// Its lines, each exactly once, in any order.
    pub keys: &'static [&'static str],
    /// Whether the 30 `setting` lines stand among them.
    pub settings: bool,
    /// The `room` lines that may stand among them, each at most once.
    pub rooms: &'static [&'static str],
    pub asked: Asked,
}

/// What a text asks for: a page, a call that writes the lines of its answer, or one that brings back the
/// page as scanned.
pub enum Asked {
    Page,
    Call(fn(Fields, &mut Text) -> Result<(), Refused>),
    Scan(fn(Fields) -> Result<Scan, Refused>),
}

impl Kind {
    pub fn has(&self, key: &str) -> bool {
        match key.split_once(' ') {
            Some(("room", name)) => self.rooms.contains(&name),
            Some((_, name)) => self.settings && settings::names().any(|known| known == name),
            None => match key {
                "settings" => self.settings,
                "gray_file" | "ink_file" | "raster_file" => {
                    self.keys.contains(&key.trim_end_matches("_file"))
                }
                _ => self.keys.contains(&key),
            },
        }
    }

    /// The keys of the lines that the text must have.
    pub fn required(&self) -> impl Iterator<Item = String> {
        let settings = settings::names().filter(|_| self.settings);
        let keys = self.keys.iter().map(|key| key.to_string());
        keys.chain(settings.map(|name| format!("setting {name}")))
    }
}

const PAGE: Kind = Kind {
    name: "page",
    keys: &[
        "page",
        "levelled",
        "dpi",
        "xheight",
        "shear",
        "shear_x",
        "pieces",
        "glyphs",
        "llr_clip",
        "group_cap",
        "gray",
        "ink",
    ],
    settings: true,
    rooms: &[
        "levelled",
        "rulings",
        "tables",
        "boxes",
        "findings",
        "index_pieces",
        "index_glyphs",
    ],
    asked: Asked::Page,
};

const CALLS: [Kind; 8] = [
    Kind {
        name: "call level",
        keys: &["page", "levelled", "shear", "shear_x", "gray"],
        settings: false,
        rooms: &["levelled"],
        asked: Asked::Call(level),
    },
    Kind {
        name: "call unlevel",
        keys: &["page", "levelled", "shear", "shear_x", "raster"],
        settings: false,
        rooms: &["page"],
        asked: Asked::Scan(unlevel),
    },
    Kind {
        name: "call segments",
        keys: &["levelled", "xheight", "pieces", "raster"],
        settings: true,
        rooms: &["rulings", "index_pieces"],
        asked: Asked::Call(segments),
    },
    Kind {
        name: "call tables",
        keys: &["xheight", "rulings", "directions"],
        settings: true,
        rooms: &["tables", "index_pieces"],
        asked: Asked::Call(tables),
    },
    Kind {
        name: "call boxes",
        keys: &["levelled", "dpi", "xheight", "glyphs", "ink"],
        settings: true,
        rooms: &["boxes"],
        asked: Asked::Call(boxes),
    },
    Kind {
        name: "call grids",
        keys: &["xheight", "boxes"],
        settings: true,
        rooms: &["index_glyphs"],
        asked: Asked::Call(grids),
    },
    Kind {
        name: "call map",
        keys: &["page", "levelled", "shear", "shear_x", "rects"],
        settings: false,
        rooms: &[],
        asked: Asked::Call(map),
    },
    Kind {
        name: "call sum",
        keys: &["values"],
        settings: false,
        rooms: &[],
        asked: Asked::Call(sum),
    },
];

/// The kind of the text that begins here; none at the end of the input.
pub fn next<R: BufRead>(lines: &mut Lines<R>) -> Result<Option<&'static Kind>, Failure> {
    if !lines.next_line()? {
        return Ok(None);
    }
    match lines.rest()? {
        b"lanegravel-page 1" => Ok(Some(&PAGE)),
        b"lanegravel-call 1" => named(lines).map(Some),
        other => {
            let begins = "a text begins `lanegravel-page 1` or `lanegravel-call 1`";
            let message = format!("{begins}, not {}", show(other));
            Err(lines.malformed(message))
        }
    }
}

/// The call that the next line names.
fn named<R: BufRead>(lines: &mut Lines<R>) -> Result<&'static Kind, Failure> {
    if !lines.next_line()? {
        return Err(lines.malformed("the input ends before the text's `call`"));
    }
    let line = lines.rest()?;
    let known = CALLS.iter().find(|call| call.name.as_bytes() == line);
    let quoted = show(line);
    known.ok_or_else(|| lines.malformed(format!("the second line names a call, not {quoted}")))
}
