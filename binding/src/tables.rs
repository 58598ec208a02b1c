//! The call about tables.

use crate::lists::{answer, lists};
use crate::raw;
use crate::settings::RulingsParams;

answer! {
    TablesAnswer {
        /// How many closed sets of rulings there are.
        sets: usize,
        tables: usize,
        /// How many rulings are in no table.
        free: usize,
    }
}

lists! {
    /// What the call is lent: the lists that it answers in, then its work lists.
    TablesLists(tables: usize, index: usize) {
        members: [u32; index],
        ends: [u32; index],
        numbers: [u32; tables],
        bounds: [u32; 4 * tables],
        rows: [u32; tables],
        columns: [u32; tables],
        rulings: [u32; tables],
        shares: [f64; tables],
        free: [u32; index],
        chosen: [u32; index],
        parents: [u32; index],
        work: [u32; index],
        keys: [u64; index],
    }
}

/// Finds the tables among rulings: four numbers each in `rects`, and 0 for horizontal or 1 for vertical
/// in `directions`.
pub fn tables(
    xheight: f64,
    p: &RulingsParams,
    rects: &[u32],
    directions: &[u32],
    l: &mut TablesLists,
) -> TablesAnswer {
    raw::lanegravel_tables(
        xheight,
        *p,
        rects,
        directions,
        &mut l.members,
        &mut l.ends,
        &mut l.numbers,
        &mut l.bounds,
        &mut l.rows,
        &mut l.columns,
        &mut l.rulings,
        &mut l.shares,
        &mut l.free,
        &mut l.chosen,
        &mut l.parents,
        &mut l.work,
        &mut l.keys,
    )
}
