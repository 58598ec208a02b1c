//! The reader over Lanegravel's static library: texts in, answers out (docs/FORMAT.md). The library
//! decides every question put to a page; nothing here does.

pub mod answer;
mod boxes;
pub mod card;
pub mod example;
mod failure;
pub mod fields;
pub mod files;
pub mod found;
pub mod kinds;
mod levelling;
pub mod limits;
pub mod netpbm;
pub mod options;
pub mod page;
pub mod picture;
mod progress;
mod rect;
pub mod report;
mod rulings;
pub mod run;
pub mod settings;
pub mod text;
pub mod values;

pub use failure::Failure;
