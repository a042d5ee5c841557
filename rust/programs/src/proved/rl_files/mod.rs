// Rendered from crates/rl_files/src/lib.rt by tools/render, which erases contracts: change that file, and render again.
//! Trees of files: directories with the files in them. Reads files, walks through directories, and replaces files.

mod glob;
mod host;
mod memory;
mod path_list;
mod path_texts;
mod replace;
mod tree;
mod visible;
mod walk;
mod whole_file;

pub use crate::rl_files::glob::is_excluded;
pub use crate::rl_files::host::{Host, LONGEST};
pub use crate::rl_files::memory::{
    MemoryDirectory, MemoryFile, MemoryReplacement, MemoryReplacements, MemoryTree, Unwritable,
};
pub use crate::rl_files::path_list::{Unread, push_listed_paths};
pub use crate::rl_files::path_texts::{escaped_non_utf8_path, path_text};
pub use crate::rl_files::replace::Replace;
pub use crate::rl_files::tree::{PathError, Tree};
pub use crate::rl_files::visible::{make_visible, push_visible, visible_text};
pub use crate::rl_files::walk::{Selection, Visit, Walk, WalkEntry, WalkError};
pub use crate::rl_writing::{is_control_invisible_or_bidi, is_invisible_or_bidi};
