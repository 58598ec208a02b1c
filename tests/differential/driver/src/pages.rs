//! Tiny whole pages for the comparison of `detect`: pieces and glyph boxes of every kind, and settings
//! at the limits of what stands on the page.

use lanegravel_binding::settings::{FusionParams, RulingsParams};
use pagetriage::pixel::rulings;
use pagetriage::schema::{Finding, Kind};

use crate::layout::table;
use crate::owned::{GlyphsPage, PiecesPage, WholePage};
use crate::random::Random;
use crate::rust_layout::whole;
use crate::values::near;
use crate::{masks, params, pieces};

/// Bounds of the log odds that miss no question.
pub const FUSION: FusionParams = FusionParams {
    llr_clip: 4.0,
    group_cap: 6.0,
};

/// A page of up to 24 by 24 that misses no question.
pub fn tiny(random: &mut Random) -> WholePage {
    let mut page = drawn(random);
    settings(random, &mut page);
    for _ in 0..random.below(4) {
        tighten(random, &mut page);
    }
    page
}

/// As many pieces and as many glyph boxes as there may be, on a picture of 128 by 128.
pub fn crowded(random: &mut Random) -> WholePage {
    let marks = masks::crowded(random, 16_384);
    let mut rules = PiecesPage {
        xheight: marks.xheight,
        pieces: pieces::crowded(random, 4_096).pieces,
        ..pieces::picture(random, marks.width, marks.height)
    };
    rules.params.merge_across_xh = random.pick(&[0.0, 0.2]);
    rules.params.merge_gap_xh = random.pick(&[0.0, 0.2]);
    let (shear, shear_x) = (table(random, 125, 2), table(random, 128, 3));
    let mut page = composed(rules, marks, 126, shear, shear_x);
    settings(random, &mut page);
    page
}

/// A picture with one of the largest sides, and a page that is little smaller.
pub fn long(random: &mut Random) -> WholePage {
    let rules = pieces::large(random);
    let mut marks = masks::blank(rules.width, rules.height);
    marks.xheight = rules.xheight;
    masks::scatter(random, &mut marks);
    let shear = table(random, rules.width - 5, 4);
    let shear_x = table(random, rules.height, 5);
    let height = rules.height - 4;
    let mut page = composed(rules, marks, height, shear, shear_x);
    settings(random, &mut page);
    page
}

/// Pieces and glyph boxes in a picture, and tables that move a page into it.
fn drawn(random: &mut Random) -> WholePage {
    let (page_width, page_height) = (side(random), side(random));
    let padding = random.pick(&[1, 3, 6]);
    let (down, across) = (random.below(padding), random.below(padding));
    let (width, height) = (page_width + across as usize, page_height + down as usize);
    let xheight = random.pick(&[0.25, 1.0, 1.0, 2.5, 4.0, 10.0, 4_096.0]);
    let mut rules = PiecesPage {
        xheight,
        ..pieces::picture(random, width, height)
    };
    if random.below(3) == 0 {
        pieces::scatter(random, &mut rules);
    } else {
        lattice(random, &mut rules);
    }
    shade(random, &mut rules);
    let mut marks = GlyphsPage {
        xheight,
        ..masks::blank(width, height)
    };
    masks::scatter(random, &mut marks);
    let shear = table(random, page_width, down as usize);
    let shear_x = table(random, height, across as usize);
    composed(rules, marks, page_height, shear, shear_x)
}

fn side(random: &mut Random) -> usize {
    1 + random.below(24) as usize
}

/// The page whose levelled picture has these pieces and these glyph boxes, and its grey where a pixel
/// of the page goes.
pub fn composed(
    rules: PiecesPage,
    marks: GlyphsPage,
    page_height: usize,
    shear: Vec<i32>,
    shear_x: Vec<i32>,
) -> WholePage {
    let page_width = shear.len();
    let mut gray = Vec::with_capacity(page_width * page_height);
    for y in 0..page_height {
        for (x, &by) in shear.iter().enumerate() {
            let row = y + by as usize;
            gray.push(rules.raster[row * rules.width + x + shear_x[row] as usize]);
        }
    }
    WholePage {
        page_width,
        page_height,
        width: rules.width,
        height: rules.height,
        dpi: marks.dpi,
        xheight: rules.xheight,
        params: RulingsParams {
            merge_across_xh: rules.params.merge_across_xh,
            merge_gap_xh: rules.params.merge_gap_xh,
            ..marks.params
        },
        fusion: FUSION,
        gray,
        ink: marks.ink,
        shear,
        shear_x,
        pieces: rules.pieces,
        glyphs: marks.glyphs,
    }
}

/// Up to four lines each way that reach each other or miss by little.
fn lattice(random: &mut Random, page: &mut PiecesPage) {
    page.params.merge_across_xh = random.pick(&[0.0, 0.5, 1.0]) / page.xheight.max(1.0);
    page.params.merge_gap_xh = random.pick(&[0.0, 1.0, 3.0]) / page.xheight.max(1.0);
    let (right, bottom) = (page.width as u32 - 1, page.height as u32 - 1);
    let fewest = random.pick(&[0, 2]);
    for _ in 0..fewest + random.below(5 - fewest) {
        for [from, low, to, high] in line(random, right, bottom) {
            page.pieces.extend([from, low, to, high]);
        }
    }
    for _ in 0..fewest + random.below(5 - fewest) {
        for [from, low, to, high] in line(random, bottom, right) {
            page.pieces.extend([low, from, high, to]);
        }
    }
}

/// A line from nearly 0 to nearly `last` somewhere across, whole or in two pieces: along from, across
/// from, along to, across to.
fn line(random: &mut Random, last: u32, across: u32) -> Vec<[u32; 4]> {
    let low = random.below(u64::from(across) + 1) as u32;
    let high = (low + random.below(2) as u32).min(across);
    let from = (random.below(4) as u32).min(last);
    let to = last - (random.below(4) as u32).min(last - from);
    let cut = from + random.below(u64::from(to - from) + 1) as u32;
    let next = cut + 1 + random.below(4) as u32;
    if random.below(3) == 0 && next <= to {
        vec![[from, low, cut, high], [next, low, to, high]]
    } else {
        vec![[from, low, to, high]]
    }
}

/// The paper as it is, or light; each piece as it is, dark, faint or of any grey, or all dark.
fn shade(random: &mut Random, page: &mut PiecesPage) {
    let paper = random.below(3);
    if paper > 0 {
        page.raster
            .fill_with(|| 255 - random.below(20 * paper - 19) as u8);
    }
    let kinds = random.pick(&[1, 4]);
    for k in 0..page.pieces.len() / 4 {
        let grey = match random.below(kinds) {
            0 => random.below(100) as u8,
            1 => 225 + random.below(30) as u8,
            2 => random.bits() as u8,
            _ => continue,
        };
        let [x0, y0, x1, y1] = [0, 1, 2, 3].map(|c| page.pieces[4 * k + c] as usize);
        for y in y0..=y1 {
            page.raster[y * page.width + x0..=y * page.width + x1].fill(grey);
        }
    }
}

/// The settings of tables, grids and findings, each usual or at a limit of its questions.
fn settings(random: &mut Random, page: &mut WholePage) {
    let unit = page.xheight.max(1.0);
    let coefs = [0.0, -0.0, 0.5, 0.5, -0.4, 2.0, 1e6, -1e6];
    let caps = [0.0, -0.0, 1.0, 3.0, 100.0, -2.0, 1e6];
    let priors = [0.0, -0.0, -1.0, 0.5, 1e6, -1e6];
    let p = &mut page.params;
    p.rule_min_contrast = random.pick(&[-1e6, -40.0, 0.0, 10.0, 40.0, 40.0, 1e6]);
    p.fold_min_length_in = random.pick(&[0.0, -0.0, 0.01, 0.1, 1.0, 20.0]);
    p.join_tol_xh = random.pick(&[0.0, 0.5, 1.0, 2.0, 1e6]) / unit;
    p.line_cluster_xh = random.pick(&[0.0, 0.5, 1.0, 2.0, 1e6]) / unit;
    p.grid_align_xh = random.pick(&[0.0, 0.25, 0.5, 3.0, 1e6]) / unit;
    p.table_min_horizontal = random.pick(&[1, 1, 2, 2, 3, u32::MAX]);
    p.table_min_vertical = random.pick(&[1, 1, 2, 2, 3, u32::MAX]);
    p.min_free_rules = random.pick(&[1, 1, 2, 3, u32::MAX]);
    p.grid_min_boxes = random.pick(&[2, 2, 2, 3, u32::MAX]);
    for coef in [
        &mut p.table_cells_coef,
        &mut p.table_junction_coef,
        &mut p.free_rules_coef,
        &mut p.grid_coef,
    ] {
        *coef = random.pick(&coefs);
    }
    for cap in [
        &mut p.table_cells_cap,
        &mut p.free_rules_cap,
        &mut p.grid_cap,
    ] {
        *cap = random.pick(&caps);
    }
    for prior in [
        &mut p.table_prior,
        &mut p.free_rules_prior,
        &mut p.grid_prior,
    ] {
        *prior = random.pick(&priors);
    }
    let bounds = [0.0, -0.0, 0.5, 1.0, 4.0, 1e6];
    page.fusion.llr_clip = random.pick(&bounds);
    page.fusion.group_cap = random.pick(&bounds);
}

/// Moves a setting to a value of the page that it is held against, or beside it.
fn tighten(random: &mut Random, page: &mut WholePage) {
    let layout = whole(page);
    let p = params::rust(&page.params);
    if random.below(3) == 0 {
        let segments = rulings::segments(&layout, &layout.level_gray(&page.gray), &p);
        if !segments.is_empty() {
            let s = random.pick(&segments);
            let inches = f64::from(s.length()) / f64::from(page.dpi);
            if random.below(2) == 0 {
                page.params.rule_min_contrast = near(random, s.contrast);
            } else {
                page.params.fold_min_length_in = near(random, inches).max(0.0);
            }
        }
        return;
    }
    let fusion = params::rust_fusion(&page.fusion);
    let found = rulings::detect_with(&layout, &page.gray, page.dpi, &p, &fusion);
    let findings = found.map_or(Vec::new(), |found| found.findings);
    if !findings.is_empty() {
        let k = random.below(findings.len() as u64) as usize;
        tighten_by(random, page, &findings[k]);
    }
}

/// The same, by what one finding has.
fn tighten_by(random: &mut Random, page: &mut WholePage, finding: &Finding) {
    let sum: f64 = finding.evidence.iter().map(|e| e.llr).sum();
    let first = &finding.evidence[0];
    let count = first.value as u32 + random.below(2) as u32;
    let p = &mut page.params;
    match (random.below(5), finding.kind) {
        (0, _) => page.fusion.llr_clip = near(random, first.llr.abs()).clamp(0.0, 1e6),
        (1, _) => page.fusion.group_cap = near(random, sum.abs()).clamp(0.0, 1e6),
        (2, Kind::Table) => p.table_cells_cap = near(random, first.value),
        (2, Kind::RulingLines) => p.free_rules_cap = near(random, first.value),
        (2, Kind::CheckboxGrid) => p.grid_cap = near(random, first.value),
        (3, Kind::Table) => p.table_prior = near(random, -sum).clamp(-1e6, 1e6),
        (3, Kind::RulingLines) => p.free_rules_prior = near(random, -sum).clamp(-1e6, 1e6),
        (3, Kind::CheckboxGrid) => p.grid_prior = near(random, -sum).clamp(-1e6, 1e6),
        (_, Kind::Table) => p.table_min_vertical += 1,
        (_, Kind::RulingLines) => p.min_free_rules = count,
        (_, Kind::CheckboxGrid) => p.grid_min_boxes = count.max(2),
        _ => {}
    }
}
