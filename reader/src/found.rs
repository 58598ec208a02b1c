//! What was found on a page, in the reader's own types: the answer text, the report and the picture
//! are all written from these.

use crate::fields::Sides;
use crate::levelling::Map;
use crate::rect::{Rect, around};

/// A ruling: its levelled rectangle, 0 for horizontal and 1 for vertical, and its contrast.
#[derive(Debug, Clone, Copy)]
pub struct Ruling {
    pub rect: Rect,
    pub direction: u32,
    pub contrast: f64,
}

/// A table: its levelled rectangle and its facts.
#[derive(Debug, Clone, Copy)]
pub struct Table {
    pub rect: Rect,
    pub rows: u32,
    pub columns: u32,
    pub rulings: u32,
    /// Joined ends over all ends.
    pub share: f64,
}

/// A box: its levelled frame, 1 where it is ticked, and its edge coverage.
#[derive(Debug, Clone, Copy)]
pub struct Marked {
    pub rect: Rect,
    pub mark: u32,
    pub coverage: f64,
}

/// A grid: its boxes ascending, and in reading order.
#[derive(Debug, Clone)]
pub struct Grid {
    pub members: Vec<u32>,
    pub reading: Vec<u32>,
}

#[derive(Debug, Clone, Copy)]
pub struct Evidence {
    pub value: f64,
    pub threshold: f64,
    pub llr: f64,
}

/// The facts of a finding, by its kind.
#[derive(Debug, Clone, Copy)]
pub enum Facts {
    Table {
        rows: u32,
        columns: u32,
        rulings: u32,
    },
    FreeRules {
        horizontal: u32,
        vertical: u32,
        longest: u32,
    },
    Grid {
        boxes: u32,
        ticked: u32,
    },
    Fold {
        direction: u32,
        length: f64,
    },
}

impl Facts {
    /// Document 01's number.
    pub fn kind(&self) -> u32 {
        match self {
            Facts::Table { .. } => 16,
            Facts::FreeRules { .. } => 17,
            Facts::Grid { .. } => 18,
            Facts::Fold { .. } => 19,
        }
    }
}

/// A finding: its rectangle on the page, its log odds, its facts and its evidence.
#[derive(Debug, Clone, Copy)]
pub struct Finding {
    pub rect: Rect,
    pub log_odds: f64,
    pub facts: Facts,
    pub first: Evidence,
    pub second: Option<Evidence>,
}

/// The closed sets.
#[derive(Debug)]
pub struct Sets {
    pub pieces: Vec<Vec<u32>>,
    pub printed: Vec<Vec<u32>>,
    pub boxes: Vec<Vec<u32>>,
}

/// An accepted page and all that was found on it.
#[derive(Debug)]
pub struct Found {
    pub page: Sides,
    pub levelled_sides: Sides,
    pub dpi: u16,
    pub gray: Vec<u8>,
    pub levelled: Vec<u8>,
    /// The way from the levelled picture back to the page.
    pub map: Map,
    pub rulings: Vec<Ruling>,
    /// Places among the rulings.
    pub printed: Vec<u32>,
    /// Places among the rulings.
    pub faint: Vec<u32>,
    pub tables: Vec<Table>,
    /// Places among the printed rulings.
    pub free: Vec<u32>,
    pub boxes: Vec<Marked>,
    pub grids: Vec<Grid>,
    pub findings: Vec<Finding>,
    /// Where they were asked for.
    pub sets: Option<Sets>,
}

impl Found {
    /// Rulings, printed, faint, tables, boxes, grids.
    pub fn counts(&self) -> [u32; 6] {
        [
            self.rulings.len(),
            self.printed.len(),
            self.faint.len(),
            self.tables.len(),
            self.boxes.len(),
            self.grids.len(),
        ]
        .map(|count| count as u32)
    }

    /// The free rulings.
    pub fn free_rulings(&self) -> impl Iterator<Item = &Ruling> {
        let printed = self.free.iter().map(|k| self.printed[*k as usize]);
        printed.map(|k| &self.rulings[k as usize])
    }

    /// The boxes of a grid, in reading order.
    pub fn read_out<'a>(&'a self, grid: &'a Grid) -> impl Iterator<Item = &'a Marked> {
        grid.reading.iter().map(|k| &self.boxes[*k as usize])
    }

    /// The grid that each finding of a grid was made from, in the findings' order: both are sorted by
    /// the top and the left of the page rectangle, grids of equal ones standing as they were.
    pub fn grids_as_found(&self) -> Vec<&Grid> {
        let mut grids: Vec<&Grid> = self.grids.iter().collect();
        grids.sort_by_cached_key(|grid| {
            let boxes = grid.members.iter().map(|k| self.boxes[*k as usize].rect);
            let [x0, y0, ..] = self.map.on_page(boxes.fold(EMPTY, around));
            (y0, x0)
        });
        grids
    }
}

/// What lies inside every rectangle.
const EMPTY: Rect = [u32::MAX, u32::MAX, 0, 0];
