// Rendered from crates/rl_files/src/path_list.rt by tools/render, which erases contracts: change that file, and render again.
//! Reads files that list paths.

use crate::rattle_std::prelude::{String, Vec};
use crate::rl_files::path_texts::path_text;
use crate::rl_files::tree::{PathError, Tree};
use crate::rattle_std::alloc::{AllocError, Allocator};

#[derive(Clone, Copy)]
pub struct Unread<'a> {
    pub file: &'a str,
    pub why: PathError,
}

fn after_mark(list: &[u8]) -> &[u8] {
    if list.starts_with(b"\xef\xbb\xbf".as_slice()) {
        return &list[3..];
    }
    list
}

fn has_nul(list: &[u8]) -> bool {
    list.contains(&0)
}

fn separator(list: &[u8]) -> u8 {
    if has_nul(list) {
        return 0;
    }
    b'\n'
}

fn push_name<A: Allocator + Copy>(
    alloc: A,
    paths: &mut Vec<String<A>, A>,
    name: &[u8],
) -> Result<(), AllocError> {
    if name.is_empty() {
        return Ok(());
    }
    paths.push(path_text(alloc, name)?)?;
    Ok(())
}

fn ends_path(byte: u8, between: u8) -> bool {
    byte == between
}

fn split_name(list: &[u8], between: u8) -> (&[u8], &[u8]) {
    for (at, byte) in list.iter().enumerate() {
        if ends_path(*byte, between) {
            return (&list[..at], &list[at + 1..]);
        }
    }
    (list, &[])
}

fn push_parts<A: Allocator + Copy>(
    alloc: A,
    paths: &mut Vec<String<A>, A>,
    list: &[u8],
    between: u8,
) -> Result<(), AllocError> {
    let mut rest = list;
    while !rest.is_empty() {
        let (name, after) = split_name(rest, between);
        push_name(alloc, paths, name)?;
        rest = after;
    }
    Ok(())
}

fn push_listed<A: Allocator + Copy, T: Tree>(
    alloc: A,
    tree: &T,
    file: &str,
    paths: &mut Vec<String<A>, A>,
) -> Result<(), PathError> {
    let bytes = match tree.any_bytes(alloc, file) {
        Ok(bytes) => bytes,
        Err(why) => return Err(why),
    };
    let list = after_mark(bytes.as_slice());
    match push_parts(alloc, paths, list, separator(list)) {
        Ok(()) => Ok(()),
        Err(_) => Err(PathError::OutOfMemory),
    }
}

pub fn push_listed_paths<'f, A: Allocator + Copy, T: Tree>(
    alloc: A,
    tree: &T,
    files: &[&'f str],
    paths: &mut Vec<String<A>, A>,
) -> Result<(), Unread<'f>> {
    let mut rest = files;
    while let [file, after @ ..] = rest {
        match push_listed(alloc, tree, file, paths) {
            Ok(()) => {}
            Err(why) => return Err(Unread { file, why }),
        }
        rest = after;
    }
    Ok(())
}
