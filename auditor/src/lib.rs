//! What a reader of the contracts has to believe, from the sources: names are resolved by their `use`
//! lines, and a name that can't be resolved is an error.

pub mod antt;
pub mod check;
pub mod docs;
pub mod expressions;
pub mod header;
pub mod kit;
pub mod known;
pub mod lex;
pub mod log;
pub mod order;
pub mod patterns;
pub mod print;
pub mod problem;
pub mod project;
pub mod reach;
pub mod resolve;
pub mod rt;
pub mod uses;
pub mod walk;
pub mod words;
