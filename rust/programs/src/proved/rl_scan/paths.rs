// Rendered from crates/rl_scan/src/paths.rt by tools/render, which erases contracts: change that file, and render again.
//! The paths that a call reads, and the extensions of the files to read.

use crate::rattle_std::prelude::{String, Vec};
use crate::rl_scan::args::Args;
use crate::rl_scan::checks::{extension_in, is_input};
use crate::rl_scan::failure::{Done, Failure};
use crate::rl_scan::style::unread_file;
use crate::rl_files::{Tree, push_listed_paths};
use crate::rattle_std::alloc::{AllocError, Allocator};

fn check_input<A: Allocator + Copy>(alloc: A, args: &Args<'_, A>, paths: &[String<A>]) -> Done<A> {
    let mut count = 0_usize;
    for path in paths {
        if is_input(path.as_str()) {
            count = count.saturating_add(1);
        }
    }
    for given in args.given.as_slice() {
        if (given.name == "--files-from" || given.name == "--style") && is_input(given.value) {
            count = count.saturating_add(1);
        }
    }
    if count > 1 {
        return Err(Failure::said(alloc, "standard input can be read only once: pass - once"));
    }
    Ok(())
}

pub(crate) fn paths_of<A: Allocator + Copy, T: Tree>(
    alloc: A,
    args: &Args<'_, A>,
    tree: &T,
    reads_here: bool,
) -> Result<Vec<String<A>, A>, Failure<A>> {
    let mut paths = Vec::new(alloc);
    for path in args.paths.as_slice() {
        paths.push(String::from_str(alloc, path)?)?;
    }
    let lists = args.all(alloc, "--files-from")?;
    if lists.is_empty() && paths.is_empty() {
        paths.push(String::from_str(alloc, if reads_here { "." } else { "-" })?)?;
    }
    if let Err(unread) = push_listed_paths(alloc, tree, lists.as_slice(), &mut paths) {
        return Err(unread_file(alloc, unread.file, unread.why)?);
    }
    check_input(alloc, args, paths.as_slice())?;
    Ok(paths)
}

pub(crate) fn extensions_of<'a, A: Allocator + Copy>(
    alloc: A,
    args: &Args<'a, A>,
) -> Result<Vec<&'a str, A>, AllocError> {
    let mut extensions = Vec::new(alloc);
    let given = args.all(alloc, "--extension")?;
    for extension in given.as_slice() {
        extensions.push(extension_in(extension))?;
    }
    if extensions.is_empty() {
        extensions.push("rs")?;
    }
    Ok(extensions)
}
