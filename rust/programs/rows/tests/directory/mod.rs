//! Temporary directories of tests, which are deleted after use. Tests create links only in such directories, since `rt ci` rejects
//! links in a checkout.

use std::fs;
use std::ops::Deref;
use std::path::{Path, PathBuf};

/// A directory that is deleted with its contents when the value is dropped.
pub struct Directory(PathBuf);

impl Directory {
    /// Creates an empty directory below the folder that Cargo reserves for tests.
    pub fn new(group: &str, name: &str) -> Directory {
        let path = Path::new(env!("CARGO_TARGET_TMPDIR"))
            .join(group)
            .join(name);
        let _ = fs::remove_dir_all(&path);
        fs::create_dir_all(&path).expect("the directory can be made");
        Directory(path)
    }
}

impl Deref for Directory {
    type Target = Path;

    fn deref(&self) -> &Path {
        &self.0
    }
}

impl Drop for Directory {
    fn drop(&mut self) {
        let _ = fs::remove_dir_all(&self.0);
    }
}
