// Rendered from crates/rl_files/src/walk.rt by tools/render, which erases contracts: change that file, and render again.
//! Walks through directories: determines the files to read, and their order.

use crate::rattle_std::prelude::{String, Vec};
use crate::rl_files::glob::{ends_in_slash, is_excluded};
use crate::rl_files::path_texts::{escaped, escaped_non_utf8_path};
use crate::rl_files::tree::{PathError, Tree};
use crate::rattle_std::alloc::{AllocError, Allocator, Global};
use crate::rattle_std::fmt;

const TURNS: u32 = u32::MAX;

#[derive(Clone, Copy)]
pub struct Selection<'a> {
    pub all: bool,
    pub extensions: &'a [&'a str],
    pub excludes: &'a [&'a str],
}

pub enum WalkEntry<A: Allocator = Global> {
    Directory(Option<usize>, String<A>),
    File(String<A>),
    BadPath(String<A>, PathError),
}

pub enum Visit<A: Allocator = Global> {
    File(String<A>),
    Failed(String<A>, PathError),
}

#[derive(Clone, Copy)]
pub enum WalkError {
    OutOfMemory,
    TooManyDirectories,
}

impl fmt::Display for WalkError {
    fn fmt(&self, f: &mut fmt::Formatter<'_>) -> fmt::Result {
        match self {
            WalkError::OutOfMemory => write!(f, "out of memory"),
            WalkError::TooManyDirectories => write!(f, "too many directories"),
        }
    }
}

pub struct Walk<A: Allocator = Global> {
    pending: Vec<WalkEntry<A>, A>,
}

fn has_extension(extension: &str, name: &[u8]) -> bool {
    let ending = extension.as_bytes();
    name.ends_with(ending) && name[..name.len() - ending.len()].ends_with(b".".as_slice())
}

fn has_one_of(extensions: &[&str], name: &[u8]) -> bool {
    let mut rest = extensions;
    while let [extension, after @ ..] = rest {
        if has_extension(extension, name) {
            return true;
        }
        rest = after;
    }
    false
}

fn are_of_package<A: Allocator>(names: &[Vec<u8, A>]) -> bool {
    let mut rest = names;
    while let [name, after @ ..] = rest {
        if name.as_slice() == b"Cargo.toml".as_slice() {
            return true;
        }
        rest = after;
    }
    false
}

fn is_left_out(in_package: bool, name: &[u8]) -> bool {
    name.starts_with(b".".as_slice()) || in_package && name == b"target/".as_slice()
}

fn are_letters(bytes: &[u8]) -> bool {
    bytes.iter().all(|b| b.is_ascii_alphabetic())
}

fn has_letter_extension(name: &[u8]) -> bool {
    let mut rest = bytes_from(name, 1);
    while let [byte, after @ ..] = rest {
        if *byte == b'.' && are_letters(after) {
            return true;
        }
        rest = after;
    }
    false
}

fn is_utf8(bytes: &[u8]) -> bool {
    crate::rattle_std::str::from_utf8(bytes).is_ok()
}

fn may_be_directory(name: &[u8]) -> bool {
    !is_utf8(name) && !has_letter_extension(name)
}

fn is_wanted(selection: Selection<'_>, in_package: bool, name: &[u8]) -> bool {
    (selection.all || !is_left_out(in_package, name))
        && (ends_in_slash(name) || has_one_of(selection.extensions, name) || may_be_directory(name))
}

pub(crate) fn path_in<A: Allocator>(
    alloc: A,
    directory: &str,
    name: &[u8],
) -> Result<Vec<u8, A>, AllocError> {
    let mut path = Vec::new(alloc);
    path.extend_from_slice(directory.as_bytes())?;
    if !ends_in_slash(directory.as_bytes()) {
        path.extend_from_slice(b"/".as_slice())?;
    }
    path.extend_from_slice(name)?;
    Ok(path)
}

fn is_given(from: Option<usize>) -> bool {
    from.is_none()
}

fn argument_len(from: Option<usize>, path: &str) -> usize {
    match from {
        Some(from) => from,
        None if ends_in_slash(path.as_bytes()) => path.len(),
        None => path.len() + 1,
    }
}

fn bytes_from(bytes: &[u8], from: usize) -> &[u8] {
    if from > bytes.len() {
        return &bytes[bytes.len()..];
    }
    &bytes[from..]
}

fn is_pruned(selection: Selection<'_>, from: usize, path: &[u8]) -> bool {
    is_excluded(selection.excludes, bytes_from(path, from))
}

fn pending_of<A: Allocator>(alloc: A, from: usize, path: &[u8]) -> Result<WalkEntry<A>, AllocError> {
    let text = match crate::rattle_std::str::from_utf8(path) {
        Ok(text) => String::from_str(alloc, text)?,
        Err(_) => {
            return Ok(WalkEntry::BadPath(escaped(alloc, path)?, PathError::PathNotUtf8));
        }
    };
    if ends_in_slash(path) {
        return Ok(WalkEntry::Directory(Some(from), text));
    }
    Ok(WalkEntry::File(text))
}

fn entry_given<A: Allocator>(alloc: A, path: String<A>) -> Result<WalkEntry<A>, AllocError> {
    if let Some(shown) = escaped_non_utf8_path(path.as_str()) {
        let path = String::from_str(alloc, shown)?;
        return Ok(WalkEntry::BadPath(path, PathError::GivenNotUtf8));
    }
    Ok(WalkEntry::Directory(None, path))
}

impl<A: Allocator> Walk<A> {
    fn new(alloc: A) -> Walk<A> {
        Walk {
            pending: Vec::new(alloc),
        }
    }

    fn push(&mut self, pending: WalkEntry<A>) -> Result<(), AllocError> {
        self.pending.push(pending)?;
        Ok(())
    }

    fn push_given(&mut self, alloc: A, path: String<A>) -> Result<(), AllocError> {
        let entry = entry_given(alloc, path)?;
        self.push(entry)
    }

    pub fn of_paths(alloc: A, paths: &mut Vec<String<A>, A>) -> Result<Walk<A>, AllocError>
    where
        A: Copy, {
        let mut walk = Walk::new(alloc);
        while let Some(path) = paths.pop() {
            walk.push_given(alloc, path)?;
        }
        Ok(walk)
    }

    fn take(&mut self) -> Option<WalkEntry<A>> {
        self.pending.pop()
    }

    fn push_name(
        &mut self,
        alloc: A,
        selection: Selection<'_>,
        in_package: bool,
        from: usize,
        directory: &str,
        name: &[u8],
    ) -> Result<(), AllocError>
    where
        A: Copy, {
        if !is_wanted(selection, in_package, name) {
            return Ok(());
        }
        let path = path_in(alloc, directory, name)?;
        if is_pruned(selection, from, path.as_slice()) {
            return Ok(());
        }
        let pending = pending_of(alloc, from, path.as_slice())?;
        self.push(pending)
    }

    fn push_names(
        &mut self,
        alloc: A,
        selection: Selection<'_>,
        from: usize,
        directory: &str,
        names: &mut Vec<Vec<u8, A>, A>,
    ) -> Result<(), AllocError>
    where
        A: Copy, {
        let in_package = are_of_package(names.as_slice());
        while let Some(name) = names.pop() {
            self.push_name(
                alloc,
                selection,
                in_package,
                from,
                directory,
                name.as_slice(),
            )?;
        }
        Ok(())
    }

    fn enter(
        &mut self,
        alloc: A,
        selection: Selection<'_>,
        from: usize,
        directory: &str,
        names: &mut Vec<Vec<u8, A>, A>,
    ) -> Result<(), AllocError>
    where
        A: Copy, {
        names.sort_unstable();
        self.push_names(alloc, selection, from, directory, names)?;
        Ok(())
    }

    pub fn next<T: Tree>(
        &mut self,
        alloc: A,
        selection: Selection<'_>,
        tree: &T,
    ) -> Result<Option<Visit<A>>, WalkError>
    where
        A: Copy, {
        for _ in 0..TURNS {
            let Some(pending) = self.take() else {
                return Ok(None);
            };
            match pending {
                WalkEntry::File(path) => return Ok(Some(Visit::File(path))),
                WalkEntry::BadPath(path, why) => return Ok(Some(Visit::Failed(path, why))),
                WalkEntry::Directory(from, path) => match tree.names(alloc, path.as_str()) {
                    Ok(mut names) => {
                        let base = argument_len(from, path.as_str());
                        match self.enter(alloc, selection, base, path.as_str(), &mut names) {
                            Ok(()) => {}
                            Err(_) => return Err(WalkError::OutOfMemory),
                        }
                    }
                    Err(PathError::NotADirectory) if is_given(from) => {
                        return Ok(Some(Visit::File(path)));
                    }
                    Err(why) => return Ok(Some(Visit::Failed(path, why))),
                },
            }
        }
        Err(WalkError::TooManyDirectories)
    }
}
