//! The Rust that Lanegravel follows, compiled as it stands from the folder that LANEGRAVEL_RUST
//! names, with shims for the files that are not there (build.rs lays both out as one tree).

/// Settings of a detector that is not at hand: the type that params.rs names. Never run.
macro_rules! absent_settings {
    ($name:ident) => {
        #[derive(Debug, Clone, PartialEq)]
        pub struct $name;

        impl $name {
            pub fn validate(&self) -> crate::error::Result<()> {
                Ok(())
            }
        }
    };
}

include!(concat!(env!("OUT_DIR"), "/tree/src/crate.rs"));
