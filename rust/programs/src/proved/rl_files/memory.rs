// Rendered from crates/rl_files/src/memory.rt by tools/render, which erases contracts: change that file, and render again.
//! Files and directories in memory.

use crate::rattle_std::prelude::{String, Vec};
use crate::rl_files::replace::Replace;
use crate::rl_files::tree::{PathError, Tree};
use crate::rattle_std::alloc::{AllocError, Allocator, Global};

#[derive(Clone, Copy)]
pub struct MemoryFile<'a> {
    pub path: &'a str,
    pub bytes: Result<&'a [u8], PathError>,
}

#[derive(Clone, Copy)]
pub struct MemoryDirectory<'a> {
    pub path: &'a str,
    pub names: Result<&'a [&'a [u8]], PathError>,
}

#[derive(Clone, Copy)]
pub struct MemoryTree<'a> {
    pub files: &'a [MemoryFile<'a>],
    pub directories: &'a [MemoryDirectory<'a>],
}

fn find_file<'a>(files: &[MemoryFile<'a>], path: &str) -> Result<&'a [u8], PathError> {
    let mut rest = files;
    while let [file, after @ ..] = rest {
        if file.path == path {
            return file.bytes;
        }
        rest = after;
    }
    Err(PathError::NotFound)
}

fn find_directory<'a>(
    directories: &[MemoryDirectory<'a>],
    path: &str,
) -> Result<&'a [&'a [u8]], PathError> {
    let mut rest = directories;
    while let [directory, after @ ..] = rest {
        if directory.path == path {
            return directory.names;
        }
        rest = after;
    }
    Err(PathError::NotADirectory)
}

fn copy_bytes<A: Allocator>(alloc: A, bytes: &[u8]) -> Result<Vec<u8, A>, AllocError> {
    let mut copy = Vec::new(alloc);
    copy.extend_from_slice(bytes)?;
    Ok(copy)
}

fn copy_names<A: Allocator + Copy>(
    alloc: A,
    names: &[&[u8]],
) -> Result<Vec<Vec<u8, A>, A>, AllocError> {
    let mut copy = Vec::new(alloc);
    let mut rest = names;
    while let [name, after @ ..] = rest {
        copy.push(copy_bytes(alloc, name)?)?;
        rest = after;
    }
    Ok(copy)
}

impl Tree for MemoryTree<'_> {
    fn bytes<A: Allocator>(&self, alloc: A, path: &str) -> Result<Vec<u8, A>, PathError> {
        match find_file(self.files, path) {
            Ok(bytes) => match copy_bytes(alloc, bytes) {
                Ok(copy) => Ok(copy),
                Err(_) => Err(PathError::OutOfMemory),
            },
            Err(why) => Err(why),
        }
    }

    fn names<A: Allocator + Copy>(
        &self,
        alloc: A,
        path: &str,
    ) -> Result<Vec<Vec<u8, A>, A>, PathError> {
        match find_directory(self.directories, path) {
            Ok(names) => match copy_names(alloc, names) {
                Ok(copy) => Ok(copy),
                Err(_) => Err(PathError::OutOfMemory),
            },
            Err(why) => Err(why),
        }
    }
}

#[derive(Clone, Copy)]
pub struct Unwritable<'a> {
    pub path: &'a str,
    pub why: PathError,
}

pub struct MemoryReplacement<A: Allocator = Global> {
    pub path: String<A>,
    pub old: Vec<u8, A>,
    pub new: Vec<u8, A>,
}

pub struct MemoryReplacements<'a, A: Allocator = Global> {
    pub alloc: A,
    pub unwritable: &'a [Unwritable<'a>],
    pub handed: Vec<MemoryReplacement<A>, A>,
}

fn find_unwritable(unwritable: &[Unwritable<'_>], path: &str) -> Option<PathError> {
    let mut rest = unwritable;
    while let [first, after @ ..] = rest {
        if first.path == path {
            return Some(first.why);
        }
        rest = after;
    }
    None
}

fn copy_replacement<A: Allocator + Copy>(
    alloc: A,
    path: &str,
    old: &[u8],
    new: &[u8],
) -> Result<MemoryReplacement<A>, AllocError> {
    Ok(MemoryReplacement {
        path: String::from_str(alloc, path)?,
        old: copy_bytes(alloc, old)?,
        new: copy_bytes(alloc, new)?,
    })
}

impl<B: Allocator + Copy> Replace for MemoryReplacements<'_, B> {
    fn replace<A: Allocator + Copy>(
        &mut self,
        alloc: A,
        path: &str,
        old: &[u8],
        new: &[u8],
    ) -> Result<(), PathError> {
        if let Some(why) = find_unwritable(self.unwritable, path) {
            return Err(why);
        }
        let Ok(copy) = copy_replacement(self.alloc, path, old, new) else {
            return Err(PathError::OutOfMemory);
        };
        match self.handed.push(copy) {
            Ok(()) => Ok(()),
            Err(_) => Err(PathError::OutOfMemory),
        }
    }
}
