//! Stands for schemars: the names that the making of a JSON schema needs. Never run.

pub use derive::JsonSchema;
use serde_json::{Map, Value};

pub struct Schema;

impl Schema {
    pub fn as_object_mut(&mut self) -> Option<&mut Map<String, Value>> {
        None
    }
}

pub mod transform {
    use super::Schema;

    pub trait Transform {
        fn transform(&mut self, schema: &mut Schema);
    }

    pub fn transform_subschemas<T: Transform>(_transform: &mut T, _schema: &mut Schema) {}
}

pub mod generate {
    use super::{Schema, transform::Transform};

    pub struct SchemaSettings;

    impl SchemaSettings {
        pub fn draft2020_12() -> Self {
            Self
        }

        pub fn with_transform<T: Transform>(self, _transform: T) -> Self {
            self
        }

        pub fn into_generator(self) -> Self {
            self
        }

        pub fn into_root_schema_for<T>(self) -> Schema {
            Schema
        }
    }
}
