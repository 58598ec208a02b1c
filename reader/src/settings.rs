//! The 30 settings of a page, by name, and files of them.

use std::collections::BTreeMap;
use std::fs::File;
use std::io::{BufRead, BufReader};
use std::path::Path;

use lanegravel_binding::settings::RulingsParams;

use crate::Failure;
use crate::fields::{self, Fields};
use crate::text::{Lines, show};

/// The names of the float settings and of the count settings, in the writer's order, and how each
/// is taken in, copied and written.
macro_rules! settings {
    (floats { $($float:ident)* } counts { $($count:ident)* }) => {
        pub const FLOAT_SETTINGS: [&str; 25] = [$(stringify!($float)),*];
        pub const COUNT_SETTINGS: [&str; 5] = [$(stringify!($count)),*];

        /// Takes in the value of the setting that has this name.
        pub fn set<R: BufRead>(
            p: &mut RulingsParams,
            name: &str,
            line: &mut Lines<R>,
        ) -> Result<(), Failure> {
            match name {
                $(stringify!($float) => p.$float = line.float()?,)*
                $(stringify!($count) => p.$count = line.whole()?,)*
                _ => {}
            }
            Ok(())
        }

        /// Gives the setting of this name the value that it has in the other settings.
        fn copy(p: &mut RulingsParams, name: &str, from: &RulingsParams) {
            match name {
                $(stringify!($float) => p.$float = from.$float,)*
                $(stringify!($count) => p.$count = from.$count,)*
                _ => {}
            }
        }
    };
}

settings! {
    floats {
        merge_across_xh
        merge_gap_xh
        rule_min_contrast
        fold_min_length_in
        join_tol_xh
        line_cluster_xh
        table_prior
        table_cells_coef
        table_cells_cap
        table_junction_coef
        free_rules_prior
        free_rules_coef
        free_rules_cap
        box_min_xh
        box_min_in
        box_max_xh
        box_overshoot_fraction
        box_aspect_tol
        box_edge_coverage
        box_max_inner_ink
        box_checked_ink
        grid_align_xh
        grid_prior
        grid_coef
        grid_cap
    }
    counts {
        table_min_horizontal
        table_min_vertical
        min_free_rules
        box_tolerance_px
        grid_min_boxes
    }
}

/// All names, in the writer's order.
pub fn names() -> impl Iterator<Item = &'static str> {
    FLOAT_SETTINGS.into_iter().chain(COUNT_SETTINGS)
}

/// Whether a settings file may have the line with this key.
pub fn may_give(key: &str) -> bool {
    match key.split_once(' ') {
        Some(("setting", name)) => names().any(|known| known == name),
        _ => matches!(key, "llr_clip" | "group_cap"),
    }
}

/// A file of `setting` lines, `llr_clip` and `group_cap`, each at most once: what a text doesn't say
/// itself is taken from it.
#[derive(Debug)]
pub struct SettingsFile {
    /// As it was given.
    pub name: String,
    fields: Fields,
    seen: BTreeMap<String, usize>,
}

impl SettingsFile {
    pub fn open(path: &Path, name: &str) -> Result<Self, Failure> {
        let read = File::open(path).map_err(Failure::from);
        let read = read.and_then(|file| SettingsFile::read(BufReader::new(file), name));
        read.map_err(|failure| failure.of_file(name))
    }

    pub fn read(input: impl BufRead, name: &str) -> Result<Self, Failure> {
        let mut file = SettingsFile {
            name: name.into(),
            fields: Fields::default(),
            seen: BTreeMap::new(),
        };
        let mut lines = Lines::new(input);
        while lines.next_line()? {
            let key = fields::key(&mut lines)?;
            if !may_give(&key) {
                let key = show(key.as_bytes());
                return Err(lines.malformed(format!("a settings file has no line {key}")));
            }
            if let Some(first) = file.seen.insert(key.clone(), lines.number()) {
                let message = format!("a second line `{key}`, after line {first}");
                return Err(lines.malformed(message));
            }
            let taken = file.fields.set(&key, &mut lines);
            taken.map_err(|failure| failure.within(&key))?;
        }
        Ok(file)
    }

    /// Gives the line with this key to a text, if it is there.
    pub fn give(&self, key: &str, to: &mut Fields) -> bool {
        match key {
            "llr_clip" => to.llr_clip = self.fields.llr_clip,
            "group_cap" => to.group_cap = self.fields.group_cap,
            _ => {
                let name = key.strip_prefix("setting ").unwrap_or_default();
                copy(&mut to.settings, name, &self.fields.settings);
            }
        }
        self.seen.contains_key(key)
    }
}
