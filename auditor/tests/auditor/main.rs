//! Tests of the auditor, over texts and over small repositories of their own.

mod documents;
mod files;
mod logs;
mod reaching;
mod sources;
mod walking;

use std::fs;
use std::path::PathBuf;
use std::sync::atomic::{AtomicUsize, Ordering};

use lanegravel_audit::project::Project;

/// A repository with these files, gone again at the end.
pub struct Repository(pub PathBuf);

impl Repository {
    pub fn new(files: &[(&str, &str)]) -> Repository {
        static COUNT: AtomicUsize = AtomicUsize::new(0);
        let number = COUNT.fetch_add(1, Ordering::Relaxed);
        let name = format!("auditor-{}-{number}", std::process::id());
        let root = std::env::temp_dir().join(name);
        for (path, text) in files {
            let path = root.join(path);
            fs::create_dir_all(path.parent().expect("a file has a folder")).expect("a folder");
            fs::write(path, text).expect("a file");
        }
        Repository(root)
    }

    pub fn project(&self) -> Project {
        Project::read(&self.0).unwrap_or_else(|problem| panic!("{problem}"))
    }
}

impl Drop for Repository {
    fn drop(&mut self) {
        let _ = fs::remove_dir_all(&self.0);
    }
}
