//! What the lines of a text say.

use lanegravel_reader::fields::{Fields, read};
use lanegravel_reader::files::Context;
use lanegravel_reader::kinds;
use lanegravel_reader::settings::{COUNT_SETTINGS, FLOAT_SETTINGS};
use lanegravel_reader::text::Lines;

use crate::run::page;

/// The fields of a page with these lines.
fn fields(lines: &[String]) -> Fields {
    let text = lines.join("\n") + "\n";
    let mut lines = Lines::new(text.as_bytes());
    let page = kinds::next(&mut lines).ok().flatten().expect("a page");
    let fields = read(&mut lines, page, &Context::default());
    fields.unwrap_or_else(|failure| panic!("{failure}"))
}

#[test]
fn each_line_fills_its_field() {
    let fields = fields(&page());
    assert_eq!((fields.page.width, fields.page.height), (2, 1));
    assert_eq!((fields.levelled.width, fields.levelled.height), (2, 2));
    assert_eq!((fields.dpi, fields.xheight), (300, 20.0));
    assert_eq!((fields.llr_clip, fields.group_cap), (4.0, 6.0));
    assert_eq!((fields.shear, fields.shear_x), (vec![0, 1], vec![0, -1]));
    assert_eq!((fields.pieces, fields.glyphs), (vec![0, 0, 1, 1], vec![]));
    assert_eq!(fields.gray, [0x0a, 0xff]);
    assert_eq!(fields.ink, [0, 1, 0, 0]);
    assert!(fields.rooms.is_empty());
}

#[test]
fn each_setting_has_its_place() {
    let mut lines = page();
    for (place, name) in FLOAT_SETTINGS.iter().enumerate() {
        lines[13 + place] = format!("setting {name} {:016x}", (place as f64).to_bits());
    }
    for (place, name) in COUNT_SETTINGS.iter().enumerate() {
        lines[38 + place] = format!("setting {name} {place}");
    }
    let p = fields(&lines).settings;
    let floats = [
        p.merge_across_xh,
        p.merge_gap_xh,
        p.rule_min_contrast,
        p.fold_min_length_in,
        p.join_tol_xh,
        p.line_cluster_xh,
        p.table_prior,
        p.table_cells_coef,
        p.table_cells_cap,
        p.table_junction_coef,
        p.free_rules_prior,
        p.free_rules_coef,
        p.free_rules_cap,
        p.box_min_xh,
        p.box_min_in,
        p.box_max_xh,
        p.box_overshoot_fraction,
        p.box_aspect_tol,
        p.box_edge_coverage,
        p.box_max_inner_ink,
        p.box_checked_ink,
        p.grid_align_xh,
        p.grid_prior,
        p.grid_coef,
        p.grid_cap,
    ];
    assert_eq!(floats.map(|x| x as usize), std::array::from_fn(|i| i));
    let counts = [
        p.table_min_horizontal,
        p.table_min_vertical,
        p.min_free_rules,
        p.box_tolerance_px,
        p.grid_min_boxes,
    ];
    assert_eq!(counts, [0, 1, 2, 3, 4]);
}

#[test]
fn the_ends_of_each_type_fit() {
    let mut lines = page();
    lines[1] = "page 18446744073709551615 0".into();
    lines[3] = "dpi 65535".into();
    lines[4] = "xheight ffffffffffffffff".into();
    lines[5] = "shear 2 -2147483648 2147483647".into();
    lines[7] = "pieces 3 4294967295 000 0".into();
    lines[42] = "setting grid_min_boxes 4294967295".into();
    lines.insert(1, "room findings 18446744073709551615".into());
    let fields = fields(&lines);
    assert_eq!((fields.page.width, fields.page.height), (usize::MAX, 0));
    assert_eq!(fields.dpi, u16::MAX);
    assert_eq!(fields.xheight.to_bits(), u64::MAX);
    assert_eq!(fields.shear, [i32::MIN, i32::MAX]);
    assert_eq!(fields.pieces, [u32::MAX, 0, 0]);
    assert_eq!(fields.settings.grid_min_boxes, u32::MAX);
    assert_eq!(fields.rooms["findings"], usize::MAX);
}

#[test]
fn floats_are_bits_or_decimals() {
    let mut lines = page();
    lines[4] = "xheight 20".into();
    lines[9] = "llr_clip -1.5e-3".into();
    lines[13] = "setting merge_across_xh 0.1".into();
    let fields = fields(&lines);
    assert_eq!((fields.xheight, fields.llr_clip), (20.0, -0.0015));
    assert_eq!(fields.settings.merge_across_xh, 0.1);
}

#[test]
fn lists_are_held_to_one_entry_past_their_limit() {
    let mut lines = page();
    lines[5] = format!("shear 10000{}", " 1".repeat(10_000));
    lines[7] = format!("pieces 20000{}", " 1".repeat(20_000));
    lines[8] = format!("glyphs 70000{}", " 1".repeat(70_000));
    let fields = fields(&lines);
    assert_eq!(fields.shear.len(), 8_193);
    assert_eq!(fields.pieces.len(), 16_385);
    assert_eq!(fields.glyphs.len(), 65_537);
}
