//! Stands for serde: the two derives, and the one trait that a bound names. Never run.

pub use derive::{Deserialize, Serialize};

pub trait Serialize {}

impl<T> Serialize for T {}
