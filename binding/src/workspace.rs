//! The lists that a page is read into.

use crate::detect::{self, Page, detect_with};
use crate::findings::FindingLists;
use crate::found::Found;
use crate::lists::lists;
use crate::question::Question;
use crate::{LONGEST_SIDE, MOST_GLYPHS, MOST_PIECES};

/// How much is lent: bytes of the levelled raster, records, and entries of the index, member and work
/// lists for pieces and rulings and of those for boxes.
#[derive(Clone, Copy, Debug)]
pub struct Room {
    pub levelled: usize,
    pub rulings: usize,
    pub tables: usize,
    pub boxes: usize,
    pub findings: usize,
    pub index_pieces: usize,
    pub index_glyphs: usize,
}

impl Room {
    /// What question 14 asks for so many pieces, so many glyph boxes and a levelled picture of so many
    /// places.
    pub fn exact(pieces: usize, glyphs: usize, places: usize) -> Self {
        Room {
            levelled: places,
            rulings: pieces,
            tables: pieces,
            boxes: glyphs,
            findings: pieces + glyphs,
            index_pieces: pieces,
            index_glyphs: glyphs,
        }
    }

    /// What a page needs. One that misses a question before 14 needs no more than the largest page, and
    /// has as many ink bytes as places or misses question 3.
    pub fn for_page(page: &Page) -> Self {
        Room::exact(
            (page.pieces.len() / 4).min(MOST_PIECES),
            (page.glyphs.len() / 4).min(MOST_GLYPHS),
            page.ink.len().min(LONGEST_SIDE * LONGEST_SIDE),
        )
    }
}

lists! {
    /// Owns the lists that a page is read into, to be used again for page after page: they grow to what the
    /// largest page needs and stay. They are named as in include/lanegravel.h, which says what each holds;
    /// [`Found`] reads them.
    Workspace(room: &Room) {
        levelled: [u8; room.levelled],
        rects: [u32; 4 * room.rulings],
        directions: [u32; room.rulings],
        contrasts: [f64; room.rulings],
        printed: [u32; room.index_pieces],
        faint: [u32; room.index_pieces],
        bounds: [u32; 4 * room.tables],
        rows: [u32; room.tables],
        columns: [u32; room.tables],
        rulings: [u32; room.tables],
        shares: [f64; room.tables],
        free: [u32; room.index_pieces],
        boxes: [u32; 4 * room.boxes],
        marks: [u32; room.boxes],
        coverages: [f64; room.boxes],
        reading: [u32; room.index_glyphs],
        piece_members: [u32; room.index_pieces],
        printed_members: [u32; room.index_pieces],
        box_members: [u32; room.index_glyphs],
        piece_ends: [u32; room.index_pieces],
        printed_ends: [u32; room.index_pieces],
        box_ends: [u32; room.index_glyphs],
        table_numbers: [u32; room.tables],
        grid_numbers: [u32; room.index_glyphs],
    }
    and {
        findings: FindingLists(room.findings),
        work: WorkLists(room.index_pieces, room.index_glyphs),
    }
}

lists! {
    /// The work lists: of free content after an accepted page.
    WorkLists(pieces: usize, glyphs: usize) {
        parents: [u32; pieces],
        listed: [u32; pieces],
        listed_ends: [u32; pieces],
        order: [u32; pieces],
        keys: [u64; pieces],
        box_parents: [u32; glyphs],
        box_order: [u32; glyphs],
        box_keys: [u64; glyphs],
    }
}

impl Workspace {
    /// No room yet; `detect` makes it.
    pub fn new() -> Self {
        Workspace::default()
    }

    /// Reads a page. Makes room first where the page needs more than any page before it, and allocates
    /// nothing where it doesn't.
    pub fn detect(&mut self, page: &Page) -> Result<Found<'_>, Question> {
        let room = Room::for_page(page);
        self.make_room(&room);
        let answer = detect_with(page, self, room.levelled).accepted()?;
        Ok(Found::new(self, answer, room.levelled))
    }

    /// Reads a page into the lists as they are, which question 14 may find too short.
    pub fn detect_as_lent(&mut self, page: &Page) -> Result<Found<'_>, Question> {
        let answer = detect::detect(page, self).accepted()?;
        Ok(Found::new(self, answer, self.levelled.len()))
    }
}
