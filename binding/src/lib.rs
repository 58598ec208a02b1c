//! Lanegravel for Rust: finds ruled tables and answer boxes on a scanned questionnaire.
//!
//! A [`Page`] borrows what it is given, a [`Workspace`] owns the lists that a page is read into and is used
//! again for the next one, and [`Found`] reads what was found from there. A page that can't be read misses a
//! [`Question`].
//!
//! ```
//! use lanegravel_binding::{Finding, FusionParams, Page, Question, RulingsParams, Workspace};
//!
//! // a square of four rules on a white page, which needs no levelling
//! let pieces = [[2, 2, 17, 2], [2, 17, 17, 17], [2, 2, 2, 17], [17, 2, 17, 17]];
//! let mut gray = vec![255; 20 * 20];
//! for [x0, y0, x1, y1] in pieces {
//!     for (x, y) in (y0..=y1).flat_map(|y| (x0..=x1).map(move |x| (x, y))) {
//!         gray[20 * y as usize + x as usize] = 0;
//!     }
//! }
//! let page = Page {
//!     page_width: 20,
//!     page_height: 20,
//!     width: 20,
//!     height: 20,
//!     dpi: 100,
//!     xheight: 4.0,
//!     params: RulingsParams {
//!         rule_min_contrast: 40.0,
//!         join_tol_xh: 0.5,
//!         table_min_horizontal: 2,
//!         table_min_vertical: 2,
//!         min_free_rules: 1,
//!         grid_min_boxes: 2,
//!         ..RulingsParams::default()
//!     },
//!     fusion: FusionParams { llr_clip: 4.0, group_cap: 6.0 },
//!     gray: &gray,
//!     ink: &[0; 20 * 20],
//!     shear: &[0; 20],
//!     shear_x: &[0; 20],
//!     pieces: pieces.as_flattened(),
//!     glyphs: &[],
//! };
//!
//! let mut workspace = Workspace::new();
//! let found = workspace.detect(&page)?;
//! for finding in found.findings() {
//!     match finding {
//!         Finding::Table { rect, rows, columns, .. } => {
//!             assert_eq!((rect, rows, columns), ([2, 2, 17, 17], 1, 1));
//!         }
//!         other => panic!("only a table was drawn: {other:?}"),
//!     }
//! }
//! assert_eq!(found.findings().len(), 1);
//!
//! let refused = workspace.detect(&Page { dpi: 0, ..page });
//! assert_eq!(refused.err(), Some(Question::Scale));
//! # Ok::<(), Question>(())
//! ```
//!
//! The calls about a part of a page are in the modules that follow, and as C has them in [`raw`]. The build
//! script links the static library, and says how to build it where it isn't there.
//!
//! Every call is safe to make with any values: a list's pointer is aligned and not null, also where the
//! list is empty; it goes with its own count; what it points to lives through the call; and lists that are
//! written overlap nothing, since Rust lends each of them once. As in C, a call relies on the float
//! environment that a program starts in.

pub mod boxes;
pub mod detect;
pub mod findings;
pub mod floats;
pub mod found;
pub mod grids;
pub mod layout;
mod lists;
pub mod question;
pub mod raw;
pub mod segments;
pub mod sets;
pub mod settings;
pub mod tables;
pub mod testing;
pub mod workspace;

pub use detect::Page;
pub use findings::{Evidence, Finding};
pub use found::{AnswerBox, Direction, Found, Grid, Ruling, Table};
pub use question::Question;
pub use settings::{FusionParams, RulingsParams};
pub use workspace::Workspace;

/// The most rule pieces, the most glyph boxes and the longest side that a page may have.
pub const MOST_PIECES: usize = 4096;
pub const MOST_GLYPHS: usize = 16_384;
pub const LONGEST_SIDE: usize = 8192;
