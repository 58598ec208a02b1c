//! The files that a text names beside its own lines.

use std::fs::File;
use std::io::BufReader;
use std::path::{Path, PathBuf};

use crate::Failure;
use crate::fields::Fields;
use crate::netpbm;
use crate::settings::SettingsFile;

/// Where a text stands, and what it is given from outside.
#[derive(Debug, Default)]
pub struct Context {
    /// The folder that the names of files begin at.
    pub folder: PathBuf,
    /// The settings file of a text that names none.
    pub settings: Option<SettingsFile>,
}

/// A line `gray_file`, `ink_file` or `raster_file`. The file is read at the text's `end`, when its sides
/// are known.
pub struct Picture {
    pub key: String,
    pub line: usize,
    pub name: String,
}

impl Picture {
    pub fn read(&self, folder: &Path, fields: &mut Fields) -> Result<(), Failure> {
        let read = self.fill(folder, fields);
        read.map_err(|message| Failure::Malformed {
            line: self.line,
            message: format!("{}: {}: {message}", self.key, self.name),
        })
    }

    fn fill(&self, folder: &Path, fields: &mut Fields) -> Result<(), String> {
        let file = File::open(folder.join(&self.name)).map_err(|error| error.to_string())?;
        let mut file = BufReader::with_capacity(1 << 16, file);
        match &self.key[..] {
            "gray_file" => fields.gray = netpbm::gray(&mut file, fields.page)?,
            "raster_file" => fields.raster = netpbm::gray(&mut file, fields.levelled)?,
            _ => fields.ink = netpbm::ink(&mut file, fields.levelled)?,
        }
        Ok(())
    }
}
