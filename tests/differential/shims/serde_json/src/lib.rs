//! Stands for serde_json. The values are kept whole, so that a comparison can read the attributes
//! of a finding; the writers are never run.

use std::collections::BTreeMap;

pub type Map<K, V> = BTreeMap<K, V>;

#[derive(Debug, Clone, PartialEq)]
pub enum Value {
    Null,
    Bool(bool),
    Number(Number),
    String(String),
    Array(Vec<Value>),
    Object(Map<String, Value>),
}

#[derive(Debug, Clone, Copy, PartialEq)]
pub enum Number {
    Whole(u64),
    Float(f64),
}

impl Number {
    pub fn from_f64(x: f64) -> Option<Self> {
        x.is_finite().then_some(Self::Float(x))
    }

    pub fn is_f64(&self) -> bool {
        matches!(self, Self::Float(_))
    }

    pub fn as_f64(&self) -> Option<f64> {
        match self {
            Self::Whole(n) => Some(*n as f64),
            Self::Float(x) => Some(*x),
        }
    }
}

impl From<bool> for Value {
    fn from(b: bool) -> Self {
        Self::Bool(b)
    }
}

impl From<u64> for Value {
    fn from(n: u64) -> Self {
        Self::Number(Number::Whole(n))
    }
}

/// A number that JSON can't hold becomes null, as in serde_json.
impl From<f64> for Value {
    fn from(x: f64) -> Self {
        Number::from_f64(x).map_or(Self::Null, Self::Number)
    }
}

impl From<&str> for Value {
    fn from(s: &str) -> Self {
        Self::String(s.to_owned())
    }
}

impl From<Vec<Value>> for Value {
    fn from(items: Vec<Value>) -> Self {
        Self::Array(items)
    }
}

impl From<Map<String, Value>> for Value {
    fn from(map: Map<String, Value>) -> Self {
        Self::Object(map)
    }
}

pub fn to_value<T>(_value: &T) -> Result<Value, String> {
    unimplemented!("no comparison writes JSON")
}

pub fn to_string<T>(_value: &T) -> Result<String, String> {
    unimplemented!("no comparison writes JSON")
}

pub fn to_string_pretty<T>(_value: &T) -> Result<String, String> {
    unimplemented!("no comparison writes JSON")
}
