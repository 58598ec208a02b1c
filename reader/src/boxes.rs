//! The calls about boxes: `boxes` and `grids`.

use lanegravel_binding::boxes::{self, BoxesLists, Page};
use lanegravel_binding::grids::{self, GridsLists};
use lanegravel_binding::sets::members_of;

use crate::answer::{Refused, Text, accepted};
use crate::fields::Fields;
use crate::found::Marked;
use crate::limits::GLYPHS;
use crate::rulings::all_sets;

pub fn boxes(fields: Fields, text: &mut Text) -> Result<(), Refused> {
    let room = fields.room("boxes", fields.glyphs.len() / 4);
    let mut lent = BoxesLists::with_room(room.min(GLYPHS));
    let page = Page {
        width: fields.levelled.width,
        height: fields.levelled.height,
        dpi: fields.dpi,
        xheight: fields.xheight,
        ink: &fields.ink,
        glyphs: &fields.glyphs,
        params: fields.settings,
    };
    let answer = boxes::boxes(&page, &mut lent);
    accepted(answer.number)?;
    let (rects, _) = lent.rects.as_chunks();
    let marked = |k: usize| Marked {
        rect: rects[k],
        mark: lent.marks[k],
        coverage: lent.coverages[k],
    };
    text.boxes(&(0..answer.count).map(marked).collect::<Vec<_>>());
    Ok(())
}

pub fn grids(fields: Fields, text: &mut Text) -> Result<(), Refused> {
    let room = fields.room("index_glyphs", fields.boxes.len() / 4);
    let mut lent = GridsLists::with_room(room.min(GLYPHS));
    let answer = grids::box_grids(fields.xheight, &fields.settings, &fields.boxes, &mut lent);
    accepted(answer.number)?;
    let ends = &lent.ends[..answer.sets];
    let numbers = &lent.numbers[..answer.grids];
    let named = |members: &[u32]| -> Vec<Vec<u32>> {
        let set = |set: &u32| members_of(members, ends, ends.len(), *set as usize).to_vec();
        numbers.iter().map(set).collect()
    };
    text.sets("grid", &named(&lent.members));
    text.sets("boxset", &all_sets(&lent.members, ends));
    text.sets("readingorder", &named(&lent.reading));
    Ok(())
}
