// The modules of the Rust's lib.rs that are at hand or named.

pub mod error;
pub mod math;
pub mod params;
pub mod pixel;
pub mod schema;

pub mod fusion {
    pub mod scorer;

    pub mod calibration {
        absent_settings!(CalibrationParams);
    }
    pub mod consistency {
        absent_settings!(ConsistencyParams);
    }
    pub mod document {
        absent_settings!(DocumentParams);
    }
    pub mod page_type {
        absent_settings!(PageTypeParams);
    }
    pub mod plan {
        absent_settings!(PlanParams);
    }
}

pub mod prepare {
    absent_settings!(PrepareParams);
}

pub mod structural {
    pub mod types {
        /// Named by a schema that is never made.
        pub struct StructureReport;
    }
}
