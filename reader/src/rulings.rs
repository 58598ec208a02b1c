//! The calls about rulings, `segments` and `tables`, and `sum`.

use lanegravel_binding::floats;
use lanegravel_binding::segments::{self, Page, SegmentsLists};
use lanegravel_binding::sets::members_of;
use lanegravel_binding::tables::{self, TablesLists};

use crate::answer::{Refused, Text, accepted};
use crate::fields::Fields;
use crate::found::{Ruling, Table};
use crate::limits::PIECES;

pub fn segments(fields: Fields, text: &mut Text) -> Result<(), Refused> {
    let pieces = fields.pieces.len() / 4;
    let room = |name| fields.room(name, pieces).min(PIECES);
    let mut lent = SegmentsLists::with_room(room("rulings"), room("index_pieces"));
    let page = Page {
        width: fields.levelled.width,
        height: fields.levelled.height,
        xheight: fields.xheight,
        raster: &fields.raster,
        pieces: &fields.pieces,
        params: fields.settings,
    };
    let answer = segments::segments(&page, &mut lent);
    accepted(answer.number)?;
    let (rects, _) = lent.rects.as_chunks();
    let ruling = |k: usize| Ruling {
        rect: rects[k],
        direction: lent.directions[k],
        contrast: lent.contrasts[k],
    };
    text.rulings(&(0..answer.count).map(ruling).collect::<Vec<_>>());
    let ends = &lent.ends[..answer.count];
    text.sets("pieceset", &all_sets(&lent.members, ends));
    Ok(())
}

pub fn tables(fields: Fields, text: &mut Text) -> Result<(), Refused> {
    let rulings = fields.rulings.len() / 4;
    let room = |name| fields.room(name, rulings).min(PIECES);
    let mut lent = TablesLists::with_room(room("tables"), room("index_pieces"));
    let answer = tables::tables(
        fields.xheight,
        &fields.settings,
        &fields.rulings,
        &fields.directions,
        &mut lent,
    );
    accepted(answer.number)?;
    let (bounds, _) = lent.bounds.as_chunks();
    let table = |k: usize| Table {
        rect: bounds[k],
        rows: lent.rows[k],
        columns: lent.columns[k],
        rulings: lent.rulings[k],
        share: lent.shares[k],
    };
    text.tables(&(0..answer.tables).map(table).collect::<Vec<_>>());
    text.list("free", &lent.free[..answer.free]);
    let ends = &lent.ends[..answer.sets];
    text.sets("printedset", &all_sets(&lent.members, ends));
    Ok(())
}

pub fn sum(fields: Fields, text: &mut Text) -> Result<(), Refused> {
    text.sum(floats::pairwise_sum(&fields.values));
    Ok(())
}

/// Every set of a listing.
pub fn all_sets(members: &[u32], ends: &[u32]) -> Vec<Vec<u32>> {
    let set = |set| members_of(members, ends, ends.len(), set).to_vec();
    (0..ends.len()).map(set).collect()
}
