//! The stored calls of `detect`: tiny pages, each kind of finding in its turn; each question missed alone,
//! in each of the things that it asks; and pages that miss several, or none after all.

use std::io;
use std::path::Path;

use lanegravel_binding::detect::DetectAnswer;
use lanegravel_binding::workspace::Workspace;

use crate::owned::WholePage;
use crate::random::Random;
use crate::refusals::{self, MISSES, question, room_met, workspace};
use crate::replay::Sample;
use crate::replay_pages::Line;
use crate::whole::wanted;
use crate::{pages, params};

/// How many pages there are that miss no question, by turns one for each kind of finding and one of any,
/// and how many that are spoilt up to three times.
const ACCEPTED: usize = 200;
const SPOILT: usize = 24;

/// The most that the program has room for: numbers of rectangles, entries of a table, and here pixels.
const RECTS: usize = 64;
const ENTRIES: usize = 64;
const PIXELS: usize = 150;

/// What every byte of the levelled raster is before the call.
const LENT: u8 = 7;

/// Writes the pages below `dir` and returns how many there are.
pub fn write(dir: &Path) -> io::Result<usize> {
    let mut sample = Sample::default();
    let random = &mut Random::new(1);
    for k in 0..ACCEPTED {
        let page = drawn(random, (k % 5 < 4).then_some(16 + k as u32 % 5));
        add(&mut sample, &page, places(&page));
    }
    for (_, miss) in MISSES {
        let mut page = drawn(random, Some(18));
        let room = places(&page);
        miss(&mut page);
        if fits(&page, room) {
            add(&mut sample, &page, room);
        }
    }
    let page = drawn(random, Some(16));
    add(&mut sample, &page, places(&page) - 1);
    add(&mut sample, &page, places(&page) + 1);
    for _ in 0..SPOILT {
        let mut page = drawn(random, None);
        let room = places(&page);
        for _ in 0..=random.below(3) {
            refusals::spoil(random, &mut page);
        }
        add(&mut sample, &page, room);
    }
    sample.write(dir)
}

fn add(sample: &mut Sample, page: &WholePage, room: usize) {
    let (answer, lists) = answered(page, room);
    sample.add_line(&call(page, room), &line(&answer, &lists, page));
}

/// A page that the program has room for, with pieces and glyph boxes, and with a finding of this kind.
fn drawn(random: &mut Random, kind: Option<u32>) -> WholePage {
    loop {
        let page = pages::tiny(random);
        let lists = [&page.pieces, &page.glyphs];
        let tables = page.shear.len().min(page.shear_x.len());
        if !fits(&page, places(&page)) || tables < 2 || lists.iter().any(|list| list.is_empty()) {
            continue;
        }
        let (answer, lists) = answered(&page, places(&page));
        let kinds = &lists.findings.kinds[..answer.findings];
        if kind.is_none_or(|kind| kinds.contains(&kind)) {
            return page;
        }
    }
}

fn places(page: &WholePage) -> usize {
    page.width * page.height
}

fn fits(page: &WholePage, room: usize) -> bool {
    page.pieces.len() <= RECTS
        && page.glyphs.len() <= RECTS
        && page.shear.len().max(page.shear_x.len()) <= ENTRIES
        && page.gray.len().max(page.ink.len()).max(room) <= PIXELS
}

/// The answer, and the lists after it.
fn answered(page: &WholePage, room: usize) -> (DetectAnswer, Workspace) {
    let mut lent = workspace(page);
    lent.levelled = vec![LENT; room];
    match question(page, room_met(page, &mut lent)) {
        0 => wanted(page, &lent),
        number => {
            let refused = DetectAnswer {
                number,
                ..DetectAnswer::default()
            };
            (refused, lent)
        }
    }
}

/// What is given by value, then the lists, and how many bytes are lent.
fn call(page: &WholePage, room: usize) -> String {
    let sides = [page.page_width, page.page_height, page.width, page.height];
    let mut line = Line("d".into());
    let mut p = page.params;
    sides.iter().for_each(|&n| line.word(n as u64));
    line.word(page.dpi.into());
    line.floats(&[page.xheight]);
    line.floats(&params::floats(&mut p).map(|x| *x));
    line.wholes(&params::counts(&mut p).map(|x| *x));
    line.floats(&[page.fusion.llr_clip, page.fusion.group_cap]);
    for table in [&page.shear, &page.shear_x] {
        line.list(&table.iter().map(|&x| x as u32).collect::<Vec<_>>());
    }
    for bytes in [&page.gray, &page.ink] {
        line.list(&bytes.iter().map(|&x| x.into()).collect::<Vec<_>>());
    }
    line.list(&page.pieces);
    line.list(&page.glyphs);
    line.word(room as u64);
    line.0
}

/// The number and the counts, every byte of the levelled raster, then list after list.
fn line(a: &DetectAnswer, l: &Workspace, page: &WholePage) -> String {
    let mut line = Line::default();
    line.word(a.number.into());
    let counts = [a.rulings, a.printed, a.faint, a.tables, a.boxes, a.grids];
    let others = [a.findings, a.printed_sets, a.free, a.box_sets];
    for count in counts.into_iter().chain(others) {
        line.word(count as u64);
    }
    line.wholes(&l.levelled.iter().map(|&x| x.into()).collect::<Vec<_>>());
    let pieces = if a.number == 0 {
        page.pieces.len() / 4
    } else {
        0
    };
    line.wholes(&l.rects[..4 * a.rulings]);
    line.wholes(&l.directions[..a.rulings]);
    line.floats(&l.contrasts[..a.rulings]);
    line.wholes(&l.piece_ends[..a.rulings]);
    line.wholes(&l.piece_members[..pieces]);
    line.wholes(&l.printed[..a.printed]);
    line.wholes(&l.faint[..a.faint]);
    line.wholes(&l.printed_ends[..a.printed_sets]);
    line.wholes(&l.printed_members[..a.printed]);
    line.wholes(&l.table_numbers[..a.tables]);
    line.wholes(&l.bounds[..4 * a.tables]);
    line.wholes(&l.rows[..a.tables]);
    line.wholes(&l.columns[..a.tables]);
    line.wholes(&l.rulings[..a.tables]);
    line.floats(&l.shares[..a.tables]);
    line.wholes(&l.free[..a.free]);
    line.wholes(&l.boxes[..4 * a.boxes]);
    line.wholes(&l.marks[..a.boxes]);
    line.floats(&l.coverages[..a.boxes]);
    line.wholes(&l.box_ends[..a.box_sets]);
    line.wholes(&l.box_members[..a.boxes]);
    line.wholes(&l.reading[..a.boxes]);
    line.wholes(&l.grid_numbers[..a.grids]);
    findings(&mut line, a.findings, l);
    line.0
}

fn findings(line: &mut Line, count: usize, l: &Workspace) {
    let f = &l.findings;
    line.wholes(&f.rects[..4 * count]);
    for list in [&f.kinds, &f.a, &f.b, &f.c] {
        line.wholes(&list[..count]);
    }
    let first = [&f.first_values, &f.first_thresholds, &f.first_llrs];
    let second = [&f.second_values, &f.second_thresholds, &f.second_llrs];
    line.floats(&f.log_odds[..count]);
    for list in first.into_iter().chain(second) {
        line.floats(&list[..count]);
    }
    line.floats(&f.lengths[..count]);
}
