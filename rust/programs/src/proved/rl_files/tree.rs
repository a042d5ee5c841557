// Rendered from crates/rl_files/src/tree.rt by tools/render, which erases contracts: change that file, and render again.
//! A trait for trees of files. It returns the bytes of a file, and the names in a directory.

use crate::rattle_std::prelude::{Vec};
use crate::rattle_std::alloc::Allocator;
use crate::rattle_std::fmt;

#[derive(Clone, Copy)]
pub enum PathError {
    NotFound,
    PermissionDenied,
    IsADirectory,
    NotADirectory,
    PathTooLong,
    PathNotUtf8,
    GivenNotUtf8,
    NotUtf8(usize),
    TooLong,
    OutOfMemory,
    NotAFile,
    Changed,
    NoRoom,
    ReadOnly,
    DirectoryDenied,
    OwnerChanges,
    HardLinks,
    RightsChange,
    NamesTaken,
    ReadFailed,
    WriteFailed,
}

impl fmt::Display for PathError {
    fn fmt(&self, f: &mut fmt::Formatter<'_>) -> fmt::Result {
        match self {
            PathError::NotFound => write!(f, "no such file or directory"),
            PathError::PermissionDenied => write!(f, "permission denied"),
            PathError::IsADirectory => write!(f, "is a directory"),
            PathError::NotADirectory => write!(f, "not a directory"),
            PathError::PathTooLong => write!(f, "path too long"),
            PathError::PathNotUtf8 => write!(f, "skipped a path that is not UTF-8"),
            PathError::GivenNotUtf8 => write!(f, "the path is not UTF-8"),
            PathError::NotUtf8(at) => write!(f, "not UTF-8 at byte {at}"),
            PathError::TooLong => write!(f, "longer than 1 GiB"),
            PathError::OutOfMemory => write!(f, "out of memory"),
            PathError::NotAFile => write!(f, "not a regular file"),
            PathError::Changed => write!(f, "changed since it was read"),
            PathError::NoRoom => write!(f, "no space left"),
            PathError::ReadOnly => write!(f, "read-only file system"),
            PathError::DirectoryDenied => write!(f, "no permission to write in its directory"),
            PathError::OwnerChanges => write!(f, "its owner or group would change"),
            PathError::HardLinks => write!(f, "has other hard links"),
            PathError::RightsChange => {
                write!(f, "its permissions or access control list could change")
            }
            PathError::NamesTaken => {
                write!(
                    f,
                    "its temporary names `.rl_scan-0` to `.rl_scan-99` are in use"
                )
            }
            PathError::ReadFailed => write!(f, "read failed"),
            PathError::WriteFailed => write!(f, "write failed"),
        }
    }
}

pub trait Tree {
    fn bytes<A: Allocator>(&self, alloc: A, path: &str) -> Result<Vec<u8, A>, PathError>;

    fn any_bytes<A: Allocator>(&self, alloc: A, path: &str) -> Result<Vec<u8, A>, PathError> {
        self.bytes(alloc, path)
    }

    fn names<A: Allocator + Copy>(
        &self,
        alloc: A,
        path: &str,
    ) -> Result<Vec<Vec<u8, A>, A>, PathError>;
}
