//! The Rust's layout, by its public fields.

use pagetriage::pixel::layout::{GlyphBox, Layout, Rect};

use crate::owned::{GlyphsPage, LayoutPage, WholePage};

/// A page for levelling.
pub fn layout(page: &LayoutPage) -> Layout {
    Layout {
        width: page.width,
        height: page.height,
        page_width: page.page_width,
        page_height: page.page_height,
        shear: page.shear.clone(),
        shear_x: page.shear_x.clone(),
        ..blank()
    }
}

/// A levelled picture with rule pieces, four numbers each.
pub fn with_rules(width: usize, height: usize, xheight: f64, pieces: &[u32]) -> Layout {
    Layout {
        width,
        height,
        page_width: width,
        page_height: height,
        xheight,
        rules: pieces.chunks_exact(4).map(rect).collect(),
        ..blank()
    }
}

/// A levelled picture with its ink mask and glyph boxes, four numbers each.
pub fn with_glyphs(page: &GlyphsPage) -> Layout {
    Layout {
        width: page.width,
        height: page.height,
        page_width: page.width,
        page_height: page.height,
        xheight: page.xheight,
        ink: page.ink.clone(),
        glyphs: page.glyphs.chunks_exact(4).map(glyph).collect(),
        ..blank()
    }
}

/// A whole page.
pub fn whole(page: &WholePage) -> Layout {
    Layout {
        width: page.width,
        height: page.height,
        page_width: page.page_width,
        page_height: page.page_height,
        shear: page.shear.clone(),
        shear_x: page.shear_x.clone(),
        xheight: page.xheight,
        ink: page.ink.clone(),
        glyphs: page.glyphs.chunks_exact(4).map(glyph).collect(),
        rules: page.pieces.chunks_exact(4).map(rect).collect(),
        ..blank()
    }
}

fn glyph(r: &[u32]) -> GlyphBox {
    GlyphBox {
        bbox: rect(r),
        area: 0,
        line: None,
    }
}

/// The rectangle of four numbers.
pub fn rect(r: &[u32]) -> Rect {
    Rect {
        x0: r[0],
        y0: r[1],
        x1: r[2],
        y1: r[3],
    }
}

fn blank() -> Layout {
    Layout {
        width: 0,
        height: 0,
        page_width: 0,
        page_height: 0,
        skew_deg: 0.0,
        shear: Vec::new(),
        shear_x: Vec::new(),
        xheight: 1.0,
        glyph_count: 0,
        glyph_ink_pixels: 0,
        ink_pixels: 0,
        lines: Vec::new(),
        glyphs: Vec::new(),
        ink: Vec::new(),
        blocks: Vec::new(),
        rules: Vec::new(),
        graphics: Vec::new(),
        columns: Vec::new(),
    }
}
