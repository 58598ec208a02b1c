//! A page: everything of it in one call.

use lanegravel_binding as library;
use lanegravel_binding::workspace::Room;
use lanegravel_binding::{FusionParams, Page, Workspace};

use crate::answer::Refused;
use crate::fields::Fields;
use crate::found::{Evidence, Facts, Finding, Found, Grid, Marked, Ruling, Sets, Table};
use crate::levelling::{MOST_BYTES, Map};
use crate::limits::{GLYPHS, PIECES};

/// The library's answer to a page, with the closed sets or without.
pub fn page(fields: Fields, sets: bool) -> Result<Found, Refused> {
    let mut lent = Workspace::with_room(&room(&fields));
    let found = lent.detect_as_lent(&given(&fields))?;
    let mut answer = Found {
        page: fields.page,
        levelled_sides: fields.levelled,
        dpi: fields.dpi,
        levelled: Vec::new(),
        map: Map::new(fields.page, fields.levelled, fields.shear, fields.shear_x),
        gray: fields.gray,
        rulings: found.rulings().map(ruling).collect(),
        printed: found.printed().to_vec(),
        faint: found.faint().to_vec(),
        tables: found.tables().map(table).collect(),
        free: found.free().to_vec(),
        boxes: found.boxes().map(marked).collect(),
        grids: found.grids().map(grid).collect(),
        findings: found.findings().map(finding).collect(),
        sets: sets.then(|| closed_sets(found)),
    };
    answer.levelled = std::mem::take(&mut lent.levelled);
    Ok(answer)
}

/// What is lent, and no more than any accepted page can use.
fn room(fields: &Fields) -> Room {
    let (pieces, glyphs) = (fields.pieces.len() / 4, fields.glyphs.len() / 4);
    let lent = |name, asked, most| fields.room(name, asked).min(most);
    Room {
        levelled: lent("levelled", fields.levelled.places(), MOST_BYTES),
        rulings: lent("rulings", pieces, PIECES),
        tables: lent("tables", pieces, PIECES),
        boxes: lent("boxes", glyphs, GLYPHS),
        findings: lent("findings", pieces + glyphs, PIECES + GLYPHS),
        index_pieces: lent("index_pieces", pieces, PIECES),
        index_glyphs: lent("index_glyphs", glyphs, GLYPHS),
    }
}

fn given(fields: &Fields) -> Page<'_> {
    Page {
        page_width: fields.page.width,
        page_height: fields.page.height,
        width: fields.levelled.width,
        height: fields.levelled.height,
        dpi: fields.dpi,
        xheight: fields.xheight,
        params: fields.settings,
        fusion: FusionParams {
            llr_clip: fields.llr_clip,
            group_cap: fields.group_cap,
        },
        gray: &fields.gray,
        ink: &fields.ink,
        shear: &fields.shear,
        shear_x: &fields.shear_x,
        pieces: &fields.pieces,
        glyphs: &fields.glyphs,
    }
}

fn ruling(r: library::Ruling) -> Ruling {
    Ruling {
        rect: r.rect,
        direction: r.direction.number(),
        contrast: r.contrast,
    }
}

fn table(t: library::Table) -> Table {
    Table {
        rect: t.rect,
        rows: t.rows,
        columns: t.columns,
        rulings: t.rulings,
        share: t.share,
    }
}

fn marked(b: library::AnswerBox) -> Marked {
    Marked {
        rect: b.rect,
        mark: b.ticked.into(),
        coverage: b.coverage,
    }
}

fn grid(g: library::Grid) -> Grid {
    Grid {
        members: g.members.to_vec(),
        reading: g.reading.to_vec(),
    }
}

/// A finding with the facts that its kind has.
fn finding(f: library::Finding) -> Finding {
    let facts = match f {
        library::Finding::Table {
            rows,
            columns,
            rulings,
            ..
        } => Facts::Table {
            rows,
            columns,
            rulings,
        },
        library::Finding::FreeRules {
            horizontal,
            vertical,
            longest,
            ..
        } => Facts::FreeRules {
            horizontal,
            vertical,
            longest,
        },
        library::Finding::Grid { boxes, ticked, .. } => Facts::Grid { boxes, ticked },
        library::Finding::Fold {
            direction, length, ..
        } => Facts::Fold {
            direction: direction.number(),
            length,
        },
    };
    Finding {
        rect: f.rect(),
        log_odds: f.log_odds(),
        first: evidence(&f.evidence()[0]),
        second: f.evidence().get(1).map(evidence),
        facts,
    }
}

fn evidence(e: &library::Evidence) -> Evidence {
    Evidence {
        value: e.value,
        threshold: e.threshold,
        llr: e.llr,
    }
}

fn closed_sets(found: library::Found) -> Sets {
    let counts = found.counts();
    let pieces = (0..counts.rulings).map(|set| found.piece_set(set).to_vec());
    let printed = (0..counts.printed_sets).map(|set| found.printed_set(set).to_vec());
    let boxes = (0..counts.box_sets).map(|set| found.box_set(set).to_vec());
    Sets {
        pieces: pieces.collect(),
        printed: printed.collect(),
        boxes: boxes.collect(),
    }
}
