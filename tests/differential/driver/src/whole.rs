//! What an accepted page must answer, list by list: from the Rust's stages and from `detect_with`.

use lanegravel_binding::boxes::BoxesLists;
use lanegravel_binding::detect::DetectAnswer;
use lanegravel_binding::findings::FindingLists;
use lanegravel_binding::grids::GridsLists;
use lanegravel_binding::segments::SegmentsLists;
use lanegravel_binding::tables::TablesLists;
use lanegravel_binding::workspace::Workspace;
use pagetriage::pixel::rulings;
use pagetriage::schema::{Evidence, Finding, Kind};
use serde_json::{Number, Value};

use crate::findings::argument_behind;
use crate::owned::{GlyphsPage, PiecesPage, WholePage};
use crate::rust_layout;
use crate::{aligned, boxes, grids, params, ruled, segments, tables};

/// The answer, and the lists as they must be. Where an evidence number is not finite, 15, and of the
/// lists only the levelled raster means anything.
pub fn wanted(page: &WholePage, before: &Workspace) -> (DetectAnswer, Workspace) {
    let mut answer = DetectAnswer::default();
    let mut l = before.clone();
    l.levelled = rust_layout::whole(page).level_gray(&page.gray);
    want_rulings(page, &mut answer, &mut l);
    want_printed(page, &mut answer, &mut l);
    want_tables(page, &mut answer, &mut l);
    want_boxes(page, &mut answer, &mut l);
    want_grids(page, &mut answer, &mut l);
    if !want_findings(page, &mut answer, &mut l) {
        answer = DetectAnswer {
            number: 15,
            ..DetectAnswer::default()
        };
    }
    (answer, l)
}

fn want_rulings(page: &WholePage, answer: &mut DetectAnswer, l: &mut Workspace) {
    let given = PiecesPage {
        width: page.width,
        height: page.height,
        xheight: page.xheight,
        raster: l.levelled.clone(),
        pieces: page.pieces.clone(),
        params: page.params,
    };
    let lists = SegmentsLists {
        rects: l.rects.clone(),
        directions: l.directions.clone(),
        contrasts: l.contrasts.clone(),
        members: l.piece_members.clone(),
        ends: l.piece_ends.clone(),
        ..SegmentsLists::with_room(0, 0)
    };
    let (count, written) = segments::accepted(&given, &lists);
    answer.rulings = count;
    l.rects = written.rects;
    l.directions = written.directions;
    l.contrasts = written.contrasts;
    l.piece_members = written.members;
    l.piece_ends = written.ends;
}

/// The Rust parts the rulings by this comparison.
fn want_printed(page: &WholePage, answer: &mut DetectAnswer, l: &mut Workspace) {
    let rulings = 0..answer.rulings as u32;
    let dark = |k: &u32| l.contrasts[*k as usize] >= page.params.rule_min_contrast;
    let (printed, faint): (Vec<u32>, Vec<u32>) = rulings.partition(dark);
    l.printed[..printed.len()].copy_from_slice(&printed);
    l.faint[..faint.len()].copy_from_slice(&faint);
    (answer.printed, answer.faint) = (printed.len(), faint.len());
}

fn want_tables(page: &WholePage, answer: &mut DetectAnswer, l: &mut Workspace) {
    let printed = &l.printed[..answer.printed];
    let rect = |&k: &u32| [0, 1, 2, 3].map(|c| l.rects[4 * k as usize + c]);
    let given = ruled::Page {
        xheight: page.xheight,
        p: page.params,
        rects: printed.iter().flat_map(rect).collect(),
        directions: printed.iter().map(|&k| l.directions[k as usize]).collect(),
    };
    let lists = TablesLists {
        members: l.printed_members.clone(),
        ends: l.printed_ends.clone(),
        numbers: l.table_numbers.clone(),
        bounds: l.bounds.clone(),
        rows: l.rows.clone(),
        columns: l.columns.clone(),
        rulings: l.rulings.clone(),
        shares: l.shares.clone(),
        free: l.free.clone(),
        ..TablesLists::with_room(0, 0)
    };
    let ([sets, tables, free], written) = tables::wanted(&given, &lists);
    (answer.printed_sets, answer.tables, answer.free) = (sets, tables, free);
    l.printed_members = written.members;
    l.printed_ends = written.ends;
    l.table_numbers = written.numbers;
    l.bounds = written.bounds;
    l.rows = written.rows;
    l.columns = written.columns;
    l.rulings = written.rulings;
    l.shares = written.shares;
    l.free = written.free;
}

fn want_boxes(page: &WholePage, answer: &mut DetectAnswer, l: &mut Workspace) {
    let given = GlyphsPage {
        width: page.width,
        height: page.height,
        dpi: page.dpi,
        xheight: page.xheight,
        ink: page.ink.clone(),
        glyphs: page.glyphs.clone(),
        params: page.params,
    };
    let lists = BoxesLists {
        rects: l.boxes.clone(),
        marks: l.marks.clone(),
        coverages: l.coverages.clone(),
    };
    let (count, written) = boxes::accepted(&given, &lists);
    answer.boxes = count;
    l.boxes = written.rects;
    l.marks = written.marks;
    l.coverages = written.coverages;
}

fn want_grids(page: &WholePage, answer: &mut DetectAnswer, l: &mut Workspace) {
    let given = aligned::Page {
        xheight: page.xheight,
        p: page.params,
        rects: l.boxes[..4 * answer.boxes].to_vec(),
    };
    let lists = GridsLists {
        members: l.box_members.clone(),
        ends: l.box_ends.clone(),
        reading: l.reading.clone(),
        numbers: l.grid_numbers.clone(),
        ..GridsLists::with_room(0)
    };
    let ([sets, grids], written) = grids::wanted(&given, &lists);
    (answer.box_sets, answer.grids) = (sets, grids);
    l.box_members = written.members;
    l.box_ends = written.ends;
    l.reading = written.reading;
    l.grid_numbers = written.numbers;
}

/// The findings of `detect_with`, each with its log odds; false where it stops at a number that is not
/// finite. Its six counts are held against those of the stages.
fn want_findings(page: &WholePage, answer: &mut DetectAnswer, l: &mut Workspace) -> bool {
    let layout = rust_layout::whole(page);
    let (p, fusion) = (
        params::rust(&page.params),
        params::rust_fusion(&page.fusion),
    );
    let run = || rulings::detect_with(&layout, &page.gray, page.dpi, &p, &fusion);
    let (given, Ok(found)) = libm::watch_exp(run) else {
        return false;
    };
    let stages = [
        ("segments", answer.rulings),
        ("printed_rules", answer.printed),
        ("faint_segments", answer.faint),
        ("tables", answer.tables),
        ("boxes", answer.boxes),
        ("box_grids", answer.grids),
    ];
    let counted = |(name, count): &(&str, usize)| found.features[*name] == *count as f64;
    assert!(
        stages.iter().all(counted),
        "the Rust counts {:?}",
        found.features
    );
    answer.findings = found.findings.len();
    for (k, finding) in found.findings.iter().enumerate() {
        let log_odds = argument_behind(finding.confidence, &given);
        put(finding, log_odds, k, &mut l.findings);
    }
    true
}

/// The finding at its place, as document 01 has the facts of its kind; what a kind doesn't have is 0.
fn put(finding: &Finding, log_odds: f64, k: usize, l: &mut FindingLists) {
    let whole = |name: &str| match finding.attributes[name] {
        Value::Number(Number::Whole(n)) => n as u32,
        ref other => panic!("{name} is {other:?}"),
    };
    let [a, b, c] = match finding.kind {
        Kind::Table => ["rows", "cols", "segments"].map(whole),
        Kind::RulingLines => ["horizontal", "vertical", "longest_px"].map(whole),
        Kind::CheckboxGrid => [whole("boxes"), whole("checked"), 0],
        _ => [vertical(finding), 0, 0],
    };
    l.rects[4 * k..4 * k + 4].copy_from_slice(&finding.bbox.expect("every finding has one"));
    (l.kinds[k], l.a[k], l.b[k], l.c[k]) = (finding.kind as u32, a, b, c);
    l.log_odds[k] = log_odds;
    let [first, second] = [0, 1].map(|e| evidence(finding.evidence.get(e)));
    [l.first_values[k], l.first_thresholds[k], l.first_llrs[k]] = first;
    [l.second_values[k], l.second_thresholds[k], l.second_llrs[k]] = second;
    l.lengths[k] = match finding.attributes.get("length_in") {
        Some(Value::Number(Number::Float(length))) => *length,
        _ => 0.0,
    };
}

fn vertical(fold: &Finding) -> u32 {
    (fold.attributes["orientation"] == Value::String("vertical".into())).into()
}

fn evidence(e: Option<&Evidence>) -> [f64; 3] {
    e.map_or([0.0; 3], |e| {
        [e.value, e.threshold.expect("a threshold"), e.llr]
    })
}
