//! The calls as C has them, each a function of the same name over slices. A missed question comes back as
//! its number, and what a call is lent is given list by list; include/lanegravel.h says what each holds.

use std::marker::PhantomData;

use crate::boxes::BoxesAnswer;
use crate::detect::DetectAnswer;
use crate::findings::FindingAtAnswer;
use crate::grids::BoxGridsAnswer;
use crate::layout::{RectToPageAnswer, ToPageAnswer};
use crate::segments::SegmentsAnswer;
use crate::sets::MembersOfAnswer;
use crate::settings::{FusionParams, RulingsParams};
use crate::tables::TablesAnswer;

/// Declares C calls. For C a slice is a pointer and a count; everything else goes over as it is.
macro_rules! calls {
    ($($name:ident($($parameter:tt)*) -> $answer:ty;)*) => {
        $(calls!(@ $name -> $answer; () () () $($parameter)*,);)*
    };
    (@ $name:ident -> $answer:ty; ($($ours:tt)*) ($($c:tt)*) ($($given:tt)*)
        $list:ident: &[$entry:ty], $($rest:tt)*) => {
        calls!(@ $name -> $answer; ($($ours)* $list: &[$entry],)
            ($($c)* _: *const $entry, _: usize,)
            ($($given)* $list.as_ptr(), $list.len(),) $($rest)*);
    };
    (@ $name:ident -> $answer:ty; ($($ours:tt)*) ($($c:tt)*) ($($given:tt)*)
        $list:ident: &mut [$entry:ty], $($rest:tt)*) => {
        calls!(@ $name -> $answer; ($($ours)* $list: &mut [$entry],)
            ($($c)* _: *mut $entry, _: usize,)
            ($($given)* $list.as_mut_ptr(), $list.len(),) $($rest)*);
    };
    (@ $name:ident -> $answer:ty; ($($ours:tt)*) ($($c:tt)*) ($($given:tt)*)
        $value:ident: $type:ty, $($rest:tt)*) => {
        calls!(@ $name -> $answer; ($($ours)* $value: $type,)
            ($($c)* _: $type,) ($($given)* $value,) $($rest)*);
    };
    (@ $name:ident -> $answer:ty; ($($ours:tt)*) ($($c:tt)*) ($($given:tt)*)) => {
        #[allow(clippy::too_many_arguments)]
        pub fn $name($($ours)*) -> $answer {
            unsafe extern "C" {
                fn $name($($c)*) -> $answer;
            }
            // SAFETY: as lib.rs says.
            unsafe { $name($($given)*) }
        }
    };
}

/// A list as `lanegravel_detect` is lent it.
#[repr(C)]
pub struct Lent<'a, T> {
    entries: *mut T,
    count: usize,
    list: PhantomData<&'a mut [T]>,
}

impl<'a, T> Lent<'a, T> {
    pub fn new(list: &'a mut [T]) -> Self {
        Lent {
            entries: list.as_mut_ptr(),
            count: list.len(),
            list: PhantomData,
        }
    }
}

calls! {
    lanegravel_pairwise_sum(values: &[f64]) -> f64;
    lanegravel_round_output(x: f64) -> f64;
    lanegravel_rounded_product(a: f64, b: f64) -> i64;
    lanegravel_round(x: f64) -> f64;

    lanegravel_members_of(members: &[u32], ends: &[u32], count: usize, set: usize) -> MembersOfAnswer;

    lanegravel_validate(p: RulingsParams) -> u32;
    lanegravel_validate_fusion(f: FusionParams) -> u32;

    lanegravel_level_gray(
        page_width: usize, page_height: usize, width: usize, height: usize,
        gray: &[u8], shear: &[i32], shear_x: &[i32], out: &mut [u8]
    ) -> u32;
    lanegravel_unlevel(
        page_width: usize, page_height: usize, width: usize, height: usize,
        levelled: &[u8], shear: &[i32], shear_x: &[i32], out: &mut [u8]
    ) -> u32;
    lanegravel_to_page(
        page_width: usize, page_height: usize, width: usize, height: usize,
        shear: &[i32], shear_x: &[i32], x: u32, y: u32
    ) -> ToPageAnswer;
    lanegravel_rect_to_page(
        page_width: usize, page_height: usize, width: usize, height: usize,
        shear: &[i32], shear_x: &[i32], x0: u32, y0: u32, x1: u32, y1: u32
    ) -> RectToPageAnswer;

    lanegravel_segments(
        raster: &[u8], width: usize, height: usize, xheight: f64, pieces: &[u32], p: RulingsParams,
        rects: &mut [u32], directions: &mut [u32], contrasts: &mut [f64],
        members: &mut [u32], ends: &mut [u32], parents: &mut [u32], listed: &mut [u32],
        listed_ends: &mut [u32], work: &mut [u32], keys: &mut [u64]
    ) -> SegmentsAnswer;

    lanegravel_tables(
        xheight: f64, p: RulingsParams, rects: &[u32], directions: &[u32],
        members: &mut [u32], ends: &mut [u32], numbers: &mut [u32], bounds: &mut [u32],
        rows: &mut [u32], columns: &mut [u32], rulings: &mut [u32], shares: &mut [f64],
        free: &mut [u32], chosen: &mut [u32], parents: &mut [u32], work: &mut [u32],
        keys: &mut [u64]
    ) -> TablesAnswer;

    lanegravel_boxes(
        width: usize, height: usize, dpi: u16, xheight: f64, ink: &[u8], glyphs: &[u32],
        p: RulingsParams, rects: &mut [u32], marks: &mut [u32], coverages: &mut [f64]
    ) -> BoxesAnswer;

    lanegravel_box_grids(
        xheight: f64, p: RulingsParams, rects: &[u32], members: &mut [u32], ends: &mut [u32],
        reading: &mut [u32], numbers: &mut [u32], parents: &mut [u32], work: &mut [u32],
        keys: &mut [u64]
    ) -> BoxGridsAnswer;

    lanegravel_log_odds(prior: f64, llrs: &[f64], group_cap: f64) -> f64;
    lanegravel_finding_at(
        rects: &[u32], kinds: &[u32], a: &[u32], b: &[u32], c: &[u32], log_odds: &[f64],
        first_values: &[f64], first_thresholds: &[f64], first_llrs: &[f64],
        second_values: &[f64], second_thresholds: &[f64], second_llrs: &[f64],
        lengths: &[f64], count: usize, i: usize
    ) -> FindingAtAnswer;

    lanegravel_detect(
        page_width: usize, page_height: usize, width: usize, height: usize, dpi: u16, xheight: f64,
        p: RulingsParams, f: FusionParams, gray: &[u8], ink: &[u8], shear: &[i32], shear_x: &[i32],
        pieces: &[u32], glyphs: &[u32],
        levelled: &mut [Lent<u8>; 1], rects: &mut [Lent<u32>; 2], tags: &mut [Lent<u32>; 2],
        values: &mut [Lent<f64>; 3], chosen: &mut [Lent<u32>; 2], rest: &mut [Lent<u32>; 2],
        members: &mut [Lent<u32>; 3], ends: &mut [Lent<u32>; 3], numbers: &mut [Lent<u32>; 2],
        bounds: &mut [Lent<u32>; 1], rows: &mut [Lent<u32>; 1], columns: &mut [Lent<u32>; 1],
        rulings: &mut [Lent<u32>; 1], page: &mut [Lent<u32>; 1], facts: &mut [Lent<u32>; 4],
        scores: &mut [Lent<f64>; 8], parents: &mut [Lent<u32>; 2], order: &mut [Lent<u32>; 2],
        listed: &mut [Lent<u32>; 1], listed_ends: &mut [Lent<u32>; 1], keys: &mut [Lent<u64>; 1],
        box_keys: &mut [Lent<u64>; 1]
    ) -> DetectAnswer;
}
