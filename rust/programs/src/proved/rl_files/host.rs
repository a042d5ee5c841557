// Rendered from crates/rl_files/src/host.rt by tools/render, which erases contracts: change that file, and render again.
//! Files of the operating system.

use crate::rattle_std::prelude::{Alloc, Drop, Input, String, Vec};
use crate::rl_files::replace::Replace;
use crate::rl_files::tree::{PathError, Tree};
use crate::rl_files::walk::path_in;
use crate::rl_files::whole_file::replace_file;
use crate::rattle_std::alloc::{AllocError, Allocator};
use crate::rattle_std::fs::{File, OpenFile};
use crate::rattle_std::io::{BufRead, BufReader, ErrorKind, Read};
use crate::rattle_std::rt::Files;
use crate::rattle_std::{fs, io};

pub const LONGEST: u64 = 1 << 30;

pub(crate) const PIECE: usize = 4096;

pub(crate) const TURNS: u32 = u32::MAX;

const FIRST_TEST: usize = 256 * 1024;

#[derive(Clone, Copy)]
pub struct Host<'r, R> {
    pub rt: &'r R,
}

pub(crate) fn error_of(kind: ErrorKind) -> PathError {
    match kind {
        ErrorKind::NotFound => PathError::NotFound,
        ErrorKind::PermissionDenied => PathError::PermissionDenied,
        ErrorKind::IsADirectory => PathError::IsADirectory,
        ErrorKind::NotADirectory => PathError::NotADirectory,
        ErrorKind::InvalidFilename => PathError::PathTooLong,
        ErrorKind::OutOfMemory => PathError::OutOfMemory,
        _ => PathError::ReadFailed,
    }
}

fn invalid_at(bytes: &[u8]) -> Option<usize> {
    match crate::rattle_std::str::from_utf8(bytes) {
        Err(error) if bytes.len() - error.valid_up_to() >= 4 => Some(error.valid_up_to()),
        _ => None,
    }
}

fn why_stopped(bytes: &[u8], is_text: bool, due: usize) -> Option<PathError> {
    if bytes.len() as u64 > LONGEST {
        return Some(PathError::TooLong);
    }
    if !is_text || bytes.len() < due {
        return None;
    }
    match invalid_at(bytes) {
        Some(at) => Some(PathError::NotUtf8(at)),
        None => None,
    }
}

fn next_test(due: usize, len: usize) -> usize {
    if len < due {
        return due;
    }
    len.saturating_mul(64)
}

pub(crate) fn read_all<A: Allocator, R: Read + Drop>(
    alloc: A,
    mut reader: R,
    is_text: bool,
    room: usize,
) -> Result<Vec<u8, A>, PathError> {
    let Ok(mut bytes) = Vec::with_capacity(alloc, room) else {
        return Err(PathError::OutOfMemory);
    };
    let mut piece = [0_u8; PIECE];
    let mut due = FIRST_TEST;
    for _ in 0..TURNS {
        match reader.read(&mut piece) {
            Ok(0) => return Ok(bytes),
            Ok(count) => {
                if bytes.extend_from_slice(&piece[..count]).is_err() {
                    return Err(PathError::OutOfMemory);
                }
                if let Some(why) = why_stopped(bytes.as_slice(), is_text, due) {
                    return Err(why);
                }
                due = next_test(due, bytes.len());
            }
            Err(e) if e.kind() == ErrorKind::Interrupted => {}
            Err(e) => return Err(error_of(e.kind())),
        }
    }
    Err(PathError::ReadFailed)
}

pub(crate) fn read_file<A: Allocator, R: Files>(
    rt: &R,
    alloc: A,
    path: &str,
    is_text: bool,
) -> Result<Vec<u8, A>, PathError> {
    let file = match File::open(rt, path) {
        Ok(file) => file,
        Err(e) => return Err(error_of(e.kind())),
    };
    let room = match file.metadata() {
        Ok(about) if about.len() > LONGEST => return Err(PathError::TooLong),
        Ok(about) => (about.len() as usize).min(FIRST_TEST),
        Err(_) => 0,
    };
    read_all(alloc, file, is_text, room)
}

fn read_path<A: Allocator, R: Files + Input>(
    rt: &R,
    alloc: A,
    path: &str,
    is_text: bool,
) -> Result<Vec<u8, A>, PathError> {
    if path == "-" {
        return read_all(alloc, rt.reader(), is_text, 0);
    }
    read_file(rt, alloc, path, is_text)
}

fn with_slash<A: Allocator>(alloc: A, path: &str) -> Result<String<A>, AllocError> {
    let mut directory = String::from_str(alloc, path)?;
    if !path.is_empty() && !path.as_bytes().ends_with(b"/".as_slice()) {
        directory.push('/')?;
    }
    Ok(directory)
}

fn is_dots(name: &[u8]) -> bool {
    name == b".".as_slice() || name == b"..".as_slice()
}

fn directory_or_file<R: Files>(rt: &R, path: &str) -> io::Result<Option<bool>> {
    match fs::symlink_metadata(rt, path) {
        Ok(about) if about.is_dir() => Ok(Some(true)),
        Ok(about) if about.is_file() => Ok(Some(false)),
        Ok(_) => Ok(None),
        Err(e) if e.kind() == ErrorKind::NotFound => Ok(None),
        Err(e) => Err(e),
    }
}

fn push_entry<A: Allocator + Copy, R: Files>(
    rt: &R,
    alloc: A,
    directory: &str,
    mut name: Vec<u8, A>,
    names: &mut Vec<Vec<u8, A>, A>,
) -> io::Result<()> {
    if is_dots(name.as_slice()) {
        return Ok(());
    }
    let path = path_in(alloc, directory, name.as_slice())?;
    if let Ok(path) = crate::rattle_std::str::from_utf8(path.as_slice()) {
        match directory_or_file(rt, path)? {
            Some(true) => name.push(b'/')?,
            Some(false) => {}
            None => return Ok(()),
        }
    }
    names.push(name)?;
    Ok(())
}

fn list_directory<A: Allocator + Copy, R: Files>(
    rt: &R,
    alloc: A,
    path: &str,
) -> io::Result<Vec<Vec<u8, A>, A>> {
    let mut names = Vec::new(alloc);
    let directory = with_slash(alloc, path)?;
    let entries = rt.open_dir(directory.as_str())?;
    for name in BufReader::new(alloc, entries)?.split(alloc, 0) {
        push_entry(rt, alloc, directory.as_str(), name?, &mut names)?;
    }
    Ok(names)
}

impl<R: Files + Input> Tree for Host<'_, R> {
    fn bytes<A: Allocator>(&self, alloc: A, path: &str) -> Result<Vec<u8, A>, PathError> {
        read_path(self.rt, alloc, path, true)
    }

    fn any_bytes<A: Allocator>(&self, alloc: A, path: &str) -> Result<Vec<u8, A>, PathError> {
        read_path(self.rt, alloc, path, false)
    }

    fn names<A: Allocator + Copy>(
        &self,
        alloc: A,
        path: &str,
    ) -> Result<Vec<Vec<u8, A>, A>, PathError> {
        if path == "-" {
            return Err(PathError::NotADirectory);
        }
        match list_directory(self.rt, alloc, path) {
            Ok(names) => Ok(names),
            Err(e) => Err(error_of(e.kind())),
        }
    }
}

impl<R: Files + Alloc> Replace for Host<'_, R> {
    fn replace<A: Allocator + Copy>(
        &mut self,
        alloc: A,
        path: &str,
        old: &[u8],
        new: &[u8],
    ) -> Result<(), PathError> {
        if path == "-" {
            return Err(PathError::NotAFile);
        }
        replace_file(self.rt, alloc, path, old, new)
    }
}
