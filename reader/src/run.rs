//! One run of the reader: every text answered in turn.

use std::fs::File;
use std::io::{BufRead, BufWriter, Write};
use std::path::{Path, PathBuf};

use crate::answer::{Floats, Refused, Text};
use crate::failure::Failure;
use crate::fields::{self, Fields};
use crate::files::Context;
use crate::found::Found;
use crate::kinds::{self, Asked, Kind};
use crate::levelling::Scan;
use crate::progress::Progress;
use crate::text::Lines;
use crate::{netpbm, page, picture, report};

/// What is written of each text.
#[derive(Debug, Default, PartialEq)]
pub struct Wanted {
    /// In the answer to a page, the closed sets too.
    pub sets: bool,
    pub floats: Floats,
    /// For people, in place of the answer text.
    pub report: bool,
    /// The file of the first page's picture, and of its levelled raster.
    pub picture: Option<PathBuf>,
    pub levelled: Option<PathBuf>,
    /// The file of the first page that is brought back from its levelled raster.
    pub scan: Option<PathBuf>,
}

pub struct Run<W> {
    output: W,
    wanted: Wanted,
    /// How many texts are answered, and how many of them were pages, or asked for a scan.
    texts: usize,
    pages: usize,
    scans: usize,
    progress: Progress,
}

impl<W: Write> Run<W> {
    pub fn new(output: W, wanted: Wanted) -> Self {
        Run {
            output,
            wanted,
            texts: 0,
            pages: 0,
            scans: 0,
            progress: Progress::new(),
        }
    }

    /// Answers each text of the input in turn. An answer is written whole and handed on at once, so a
    /// failure leaves the answers before it and nothing of its own.
    pub fn answer_all(&mut self, input: impl BufRead, context: &Context) -> Result<(), Failure> {
        let mut lines = Lines::new(input);
        let mut kind = kinds::next(&mut lines)?;
        if kind.is_none() {
            return Err(lines.malformed("the input has no text"));
        }
        while let Some(asked) = kind {
            let fields = fields::read(&mut lines, asked, context)?;
            let answer = self.answer(asked, fields)?;
            let written = self.output.write_all(answer.as_bytes());
            let written = written.and_then(|()| self.output.flush());
            written.map_err(Failure::Output)?;
            self.progress.texts(self.texts);
            kind = kinds::next(&mut lines)?;
        }
        Ok(())
    }

    /// To be called after the last input, whatever came of it.
    pub fn end(&mut self) {
        self.progress.end();
    }

    fn answer(&mut self, kind: &Kind, fields: Fields) -> Result<String, Failure> {
        self.texts += 1;
        match kind.asked {
            Asked::Page => self.answer_page(fields),
            Asked::Call(call) => Ok(self.answer_call(kind, |text| call(fields, text))),
            Asked::Scan(call) => {
                let scan = call(fields);
                self.write_scan(scan.as_ref().ok())?;
                let line = |text: &mut Text| scan.map(|scan| text.raster("page", &scan.bytes));
                Ok(self.answer_call(kind, line))
            }
        }
    }

    fn answer_call(
        &mut self,
        kind: &Kind,
        call: impl FnOnce(&mut Text) -> Result<(), Refused>,
    ) -> String {
        if self.wanted.report {
            let mut text = Text::new(Floats::Decimal);
            let outcome = call(&mut text).map(|()| text.lines());
            return report::call(self.texts, kind.name, outcome);
        }
        let mut text = Text::new(self.wanted.floats);
        let outcome = call(&mut text);
        self.exact(&text, outcome)
    }

    fn answer_page(&mut self, fields: Fields) -> Result<String, Failure> {
        self.pages += 1;
        let outcome = page::page(fields, self.wanted.sets);
        if let Ok(found) = &outcome {
            self.draw(found)?;
        }
        if self.wanted.report {
            return Ok(report::page(self.texts, outcome.as_ref()));
        }
        let mut text = Text::new(self.wanted.floats);
        let outcome = outcome.map(|found| text.found(&found));
        Ok(self.exact(&text, outcome))
    }

    /// The answer text; whoever watches is told what a refusal's number means.
    fn exact(&mut self, text: &Text, outcome: Result<(), Refused>) -> String {
        if let Err(Refused(number)) = outcome {
            self.progress.refused(self.texts, number);
        }
        text.whole(outcome)
    }

    /// Writes the page's picture and its levelled raster, where they are wanted.
    fn draw(&self, found: &Found) -> Result<(), Failure> {
        if let Some(path) = &self.wanted.picture {
            write_file(&numbered(path, self.pages), |out| {
                out.write_all(picture::svg(found, self.pages).as_bytes())
            })?;
        }
        if let Some(path) = &self.wanted.levelled {
            write_file(&numbered(path, self.pages), |out| {
                netpbm::write_gray(out, found.levelled_sides, &found.levelled)
            })?;
        }
        Ok(())
    }

    /// Writes the page that was brought back, where it is wanted; a refused text has none, and counts.
    fn write_scan(&mut self, scan: Option<&Scan>) -> Result<(), Failure> {
        self.scans += 1;
        let (Some(path), Some(scan)) = (&self.wanted.scan, scan) else {
            return Ok(());
        };
        write_file(&numbered(path, self.scans), |out| {
            netpbm::write_gray(out, scan.sides, &scan.bytes)
        })
    }
}

/// The first file is the one that was named; the second one has -2 before its ending.
fn numbered(path: &Path, number: usize) -> PathBuf {
    if number == 1 {
        return path.into();
    }
    let mut name = path.file_stem().unwrap_or_default().to_owned();
    name.push(format!("-{number}"));
    if let Some(ending) = path.extension() {
        name.push(".");
        name.push(ending);
    }
    path.with_file_name(name)
}

fn write_file(
    path: &Path,
    content: impl FnOnce(&mut BufWriter<File>) -> std::io::Result<()>,
) -> Result<(), Failure> {
    let write = || {
        let mut out = BufWriter::new(File::create(path)?);
        content(&mut out)?;
        out.flush()
    };
    write().map_err(|error| Failure::from(error).of_file(path.to_string_lossy()))
}
