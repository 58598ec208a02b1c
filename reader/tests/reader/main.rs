//! The reader over whole texts.

mod answers;
mod fields;
mod lines;
mod pages;
mod run;
mod values;
