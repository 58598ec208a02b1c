//! Stands for error.rs: the kinds of error that the Rust at hand makes.

#[derive(Debug, Clone, PartialEq)]
pub enum Error {
    InvalidInput(String),
    InvalidParams(String),
    NonFinite(String),
}

pub type Result<T> = std::result::Result<T, Error>;
