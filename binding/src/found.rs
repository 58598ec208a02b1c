//! What an accepted page left in its workspace, record by record.

use crate::detect::DetectAnswer;
use crate::findings::{Finding, finding};
use crate::sets::members_of;
use crate::workspace::Workspace;

/// Which way a ruling or a fold goes.
#[derive(Clone, Copy, Debug, PartialEq, Eq)]
#[repr(u32)]
pub enum Direction {
    Horizontal = 0,
    Vertical = 1,
}

impl Direction {
    pub(crate) fn numbered(number: u32) -> Self {
        match number {
            0 => Direction::Horizontal,
            _ => Direction::Vertical,
        }
    }

    /// 0 for horizontal and 1 for vertical.
    pub fn number(self) -> u32 {
        self as u32
    }
}

/// A ruling. Rectangles are x0, y0, x1, y1, both ends inside; this one is levelled.
#[derive(Clone, Copy, Debug, PartialEq)]
pub struct Ruling {
    pub rect: [u32; 4],
    pub direction: Direction,
    /// The paper beside it less the darkest across it.
    pub contrast: f64,
}

/// A table.
#[derive(Clone, Copy, Debug, PartialEq)]
pub struct Table<'w> {
    /// Its number among the closed sets of printed rulings.
    pub set: usize,
    /// Levelled.
    pub rect: [u32; 4],
    pub rows: u32,
    pub columns: u32,
    pub rulings: u32,
    /// Joined ends over all ends.
    pub share: f64,
    /// Its rulings, as places among the printed, ascending.
    pub members: &'w [u32],
}

/// An answer box.
#[derive(Clone, Copy, Debug, PartialEq)]
pub struct AnswerBox {
    /// Its frame, levelled.
    pub rect: [u32; 4],
    pub ticked: bool,
    /// Its edge coverage.
    pub coverage: f64,
}

/// A grid of answer boxes.
#[derive(Clone, Copy, Debug, PartialEq)]
pub struct Grid<'w> {
    /// Its number among the closed sets of boxes.
    pub set: usize,
    /// Its boxes, ascending.
    pub members: &'w [u32],
    /// Its boxes by y0, then x0, then index.
    pub reading: &'w [u32],
}

/// What was found on a page, as it stands in the lists of its workspace.
#[derive(Clone, Copy, Debug)]
pub struct Found<'w> {
    lists: &'w Workspace,
    counts: DetectAnswer,
    places: usize,
}

impl<'w> Found<'w> {
    pub(crate) fn new(lists: &'w Workspace, counts: DetectAnswer, places: usize) -> Self {
        Found {
            lists,
            counts,
            places,
        }
    }

    /// How many there are of everything.
    pub fn counts(self) -> DetectAnswer {
        self.counts
    }

    /// The lists themselves. Each may be longer than what was found.
    pub fn lists(self) -> &'w Workspace {
        self.lists
    }

    /// The levelled raster, row by row.
    pub fn levelled(self) -> &'w [u8] {
        &self.lists.levelled[..self.places]
    }

    /// By y0, x0, y1, x1, then by smallest piece.
    pub fn rulings(self) -> impl ExactSizeIterator<Item = Ruling> + 'w {
        let l = self.lists;
        (0..self.counts.rulings).map(|k| Ruling {
            rect: rect(&l.rects, k),
            direction: Direction::numbered(l.directions[k]),
            contrast: l.contrasts[k],
        })
    }

    /// The printed rulings, as places among the rulings.
    pub fn printed(self) -> &'w [u32] {
        &self.lists.printed[..self.counts.printed]
    }

    /// The faint rulings, as places among the rulings.
    pub fn faint(self) -> &'w [u32] {
        &self.lists.faint[..self.counts.faint]
    }

    /// By the smallest of their rulings.
    pub fn tables(self) -> impl ExactSizeIterator<Item = Table<'w>> + 'w {
        let l = self.lists;
        (0..self.counts.tables).map(move |k| {
            let set = l.table_numbers[k] as usize;
            Table {
                set,
                rect: rect(&l.bounds, k),
                rows: l.rows[k],
                columns: l.columns[k],
                rulings: l.rulings[k],
                share: l.shares[k],
                members: self.printed_set(set),
            }
        })
    }

    /// The rulings in no table, as places among the printed, set by set.
    pub fn free(self) -> &'w [u32] {
        &self.lists.free[..self.counts.free]
    }

    /// In the order of their glyph boxes.
    pub fn boxes(self) -> impl ExactSizeIterator<Item = AnswerBox> + 'w {
        let l = self.lists;
        (0..self.counts.boxes).map(|k| AnswerBox {
            rect: rect(&l.boxes, k),
            ticked: l.marks[k] == 1,
            coverage: l.coverages[k],
        })
    }

    /// By the smallest of their boxes.
    pub fn grids(self) -> impl ExactSizeIterator<Item = Grid<'w>> + 'w {
        let numbers = &self.lists.grid_numbers[..self.counts.grids];
        numbers.iter().map(move |&number| Grid {
            set: number as usize,
            members: self.box_set(number as usize),
            reading: self.reading_order(number as usize),
        })
    }

    /// By y0, x0 and kind.
    pub fn findings(self) -> impl ExactSizeIterator<Item = Finding> + 'w {
        let (lists, count) = (&self.lists.findings, self.counts.findings);
        (0..count).map(move |k| finding(lists, count, k).expect("a page's findings are all there"))
    }

    /// The pieces of one ruling, ascending. An empty list for a number past the last, here and below.
    pub fn piece_set(self, ruling: usize) -> &'w [u32] {
        let l = self.lists;
        members_of(&l.piece_members, &l.piece_ends, self.counts.rulings, ruling)
    }

    /// One of the `printed_sets` closed sets of printed rulings, as places among the printed.
    pub fn printed_set(self, set: usize) -> &'w [u32] {
        let (l, count) = (self.lists, self.counts.printed_sets);
        members_of(&l.printed_members, &l.printed_ends, count, set)
    }

    /// One of the `box_sets` closed sets of boxes.
    pub fn box_set(self, set: usize) -> &'w [u32] {
        let l = self.lists;
        members_of(&l.box_members, &l.box_ends, self.counts.box_sets, set)
    }

    /// The same by y0, then x0, then index.
    pub fn reading_order(self, set: usize) -> &'w [u32] {
        let l = self.lists;
        members_of(&l.reading, &l.box_ends, self.counts.box_sets, set)
    }
}

fn rect(numbers: &[u32], k: usize) -> [u32; 4] {
    numbers.as_chunks().0[k]
}
