//! The pages of the replayed sample: small ones, so that a program without a heap can hold them.

use lanegravel_binding::boxes::BoxesLists;
use lanegravel_binding::grids::GridsLists;
use lanegravel_binding::segments::SegmentsLists;
use lanegravel_binding::settings::RulingsParams;
use lanegravel_binding::tables::TablesLists;

use crate::owned::{GlyphsPage, PiecesPage};
use crate::random::Random;
use crate::replay::Sample;
use crate::tally::bits;
use crate::{aligned, boxes, grids, masks, params, pieces, ruled, segments, tables};

/// How many pages of each call there are, accepted and spoilt ones by turns of three.
const PAGES: usize = 48;

/// The most that the program has room for: numbers of rectangles, directions, and here of pixels.
const RECTS: usize = 64;
const DIRECTIONS: usize = 20;
const PIXELS: usize = 200;

/// Room for as many records as `RECTS` has.
const ROOM: usize = RECTS / 4;

/// Words in hex, each behind a space.
#[derive(Default)]
pub struct Line(pub String);

impl Line {
    pub fn word(&mut self, word: u64) {
        self.0 += &format!(" {word:x}");
    }

    pub fn wholes(&mut self, list: &[u32]) {
        list.iter().for_each(|&x| self.word(x.into()));
    }

    pub fn floats(&mut self, list: &[f64]) {
        list.iter().for_each(|&x| self.word(bits(x)));
    }

    pub fn list(&mut self, list: &[u32]) {
        self.word(list.len() as u64);
        self.wholes(list);
    }

    /// The number of a call and what it is given by value.
    pub fn call(number: u64, [w, h, dpi]: [usize; 3], xheight: f64, p: &RulingsParams) -> Self {
        let mut line = Line(format!("{number:x} {w:x} {h:x} {dpi:x}"));
        let mut p = *p;
        line.floats(&[xheight]);
        line.floats(&params::floats(&mut p).map(|x| *x));
        line.wholes(&params::counts(&mut p).map(|x| *x));
        line
    }

    /// The lists that every call has, each empty where it has none.
    pub fn lists(mut self, rects: &[u32], directions: &[u32], bytes: &[u8]) -> String {
        self.list(rects);
        self.list(directions);
        self.list(&bytes.iter().map(|&x| x.into()).collect::<Vec<_>>());
        self.0
    }
}

pub fn add_segments(sample: &mut Sample, random: &mut Random) {
    let mut added = 0;
    while added < PAGES {
        let mut page = pieces::small(random);
        if added % 3 == 2 {
            segments::spoil(random, &mut page);
        }
        if page.raster.len() > PIXELS || page.pieces.len() > RECTS {
            continue;
        }
        let picture = [page.width, page.height, 0];
        let call = Line::call(5, picture, page.xheight, &page.params);
        let call = call.lists(&page.pieces, &[], &page.raster);
        sample.add_line(&call, &rulings(&page).0);
        added += 1;
    }
}

/// The number, the count, then list after list.
fn rulings(page: &PiecesPage) -> Line {
    let mut line = Line::default();
    let lent = SegmentsLists::with_room(ROOM, ROOM);
    let number = segments::question(page, &lent);
    line.word(number.into());
    if number != 0 {
        line.word(0);
        return line;
    }
    let (count, l) = segments::accepted(page, &lent);
    line.word(count as u64);
    line.wholes(&l.rects[..4 * count]);
    line.wholes(&l.directions[..count]);
    line.floats(&l.contrasts[..count]);
    line.wholes(&l.ends[..count]);
    line.wholes(&l.members[..page.pieces.len() / 4]);
    line
}

pub fn add_tables(sample: &mut Sample, random: &mut Random) {
    let mut added = 0;
    while added < PAGES {
        let mut page = ruled::page(random);
        if added % 3 == 2 {
            ruled::spoil(random, &mut page);
        }
        if page.rects.len() > RECTS || page.directions.len() > DIRECTIONS {
            continue;
        }
        let call = Line::call(6, [0, 0, 0], page.xheight, &page.p);
        let call = call.lists(&page.rects, &page.directions, &[]);
        sample.add_line(&call, &found(&page).0);
        added += 1;
    }
}

/// The number and the tables, list by list, the free list, the sets.
fn found(page: &ruled::Page) -> Line {
    let mut line = Line::default();
    let number = ruled::question(page, true);
    line.word(number.into());
    if number != 0 {
        line.wholes(&[0, 0, 0]);
        return line;
    }
    let ([sets, tables, free], l) = tables::wanted(page, &TablesLists::with_room(ROOM, ROOM));
    line.word(tables as u64);
    line.wholes(&l.numbers[..tables]);
    line.wholes(&l.bounds[..4 * tables]);
    line.wholes(&l.rows[..tables]);
    line.wholes(&l.columns[..tables]);
    line.wholes(&l.rulings[..tables]);
    line.floats(&l.shares[..tables]);
    line.list(&l.free[..free]);
    line.list(&l.ends[..sets]);
    line.wholes(&l.members[..page.directions.len()]);
    line
}

/// Every third page has a box at least.
pub fn add_boxes(sample: &mut Sample, random: &mut Random) {
    let mut added = 0;
    while added < PAGES {
        let mut page = masks::small(random);
        if added % 3 == 2 {
            boxes::spoil(random, &mut page);
        }
        if page.ink.len() > PIXELS || page.glyphs.len() > RECTS {
            continue;
        }
        let answer = marked(&page).0;
        if added % 3 == 0 && answer == " 0 0" {
            continue;
        }
        let picture = [page.width, page.height, page.dpi.into()];
        let call = Line::call(7, picture, page.xheight, &page.params);
        let call = call.lists(&page.glyphs, &[], &page.ink);
        sample.add_line(&call, &answer);
        added += 1;
    }
}

/// The number, the count, then list after list.
fn marked(page: &GlyphsPage) -> Line {
    let mut line = Line::default();
    let lent = BoxesLists::with_room(ROOM);
    let number = boxes::question(page, &lent);
    line.word(number.into());
    if number != 0 {
        line.word(0);
        return line;
    }
    let (count, l) = boxes::accepted(page, &lent);
    line.word(count as u64);
    line.wholes(&l.rects[..4 * count]);
    line.wholes(&l.marks[..count]);
    line.floats(&l.coverages[..count]);
    line
}

pub fn add_grids(sample: &mut Sample, random: &mut Random) {
    let mut added = 0;
    while added < PAGES {
        let mut page = aligned::small(random);
        if added % 3 == 2 {
            aligned::spoil(random, &mut page);
        }
        if page.rects.len() > RECTS {
            continue;
        }
        let call = Line::call(8, [0, 0, 0], page.xheight, &page.p);
        let call = call.lists(&page.rects, &[], &[]);
        sample.add_line(&call, &grouped(&page).0);
        added += 1;
    }
}

/// The number, the set numbers of the grids and the ends of the sets, the members, the reading order.
fn grouped(page: &aligned::Page) -> Line {
    let mut line = Line::default();
    let number = aligned::question(page, true);
    line.word(number.into());
    if number != 0 {
        line.wholes(&[0, 0]);
        return line;
    }
    let n = page.rects.len() / 4;
    let ([sets, grids], l) = grids::wanted(page, &GridsLists::with_room(ROOM));
    line.list(&l.numbers[..grids]);
    line.list(&l.ends[..sets]);
    line.wholes(&l.members[..n]);
    line.wholes(&l.reading[..n]);
    line
}
