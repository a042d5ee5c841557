// Rendered from crates/rl_files/src/whole_file.rt by tools/render, which erases contracts: change that file, and render again.
//! Replaces a file of the operating system as a whole. After any error, and however the program ends, it has its
//! old or its new bytes.

use crate::rattle_std::prelude::{Alloc, String, format};
use crate::rl_files::host::{PIECE, TURNS, error_of, read_file};
use crate::rl_files::tree::PathError;
use crate::rattle_std::alloc::{AllocError, Allocator};
use crate::rattle_std::fs::{File, Metadata, OpenFile, OpenOptions, Permissions};
use crate::rattle_std::io::{ErrorKind, Read, Write};
use crate::rattle_std::os::unix::fs::{MetadataExt, OpenOptionsExt, PermissionsExt, chown};
use crate::rattle_std::rt::Files;
use crate::rattle_std::{fs, io};

const TRIES: u32 = 100;

const KEPT: u32 = 0o777;

const SPECIAL: u32 = 0o7000;

const OWNERS: u32 = 0o600;

fn write_error_of(kind: ErrorKind) -> PathError {
    match kind {
        ErrorKind::StorageFull => PathError::NoRoom,
        ErrorKind::ReadOnlyFilesystem => PathError::ReadOnly,
        _ => match error_of(kind) {
            PathError::ReadFailed => PathError::WriteFailed,
            why => why,
        },
    }
}

fn create_error_of(kind: ErrorKind) -> PathError {
    match kind {
        ErrorKind::PermissionDenied => PathError::DirectoryDenied,
        _ => write_error_of(kind),
    }
}

fn path_beside<A: Allocator>(alloc: A, path: &str, number: u32) -> Result<String<A>, AllocError> {
    format!(in alloc; "{path}.rl_scan-{number}")
}

fn is_not_utf8(error: &io::Error) -> bool {
    error.kind() == ErrorKind::InvalidFilename && error.raw_os_error().is_none()
}

fn real_path<A: Allocator, R: Files + Alloc>(
    rt: &R,
    alloc: A,
    path: &str,
) -> io::Result<String<A>> {
    if !fs::symlink_metadata(rt, path)?.is_symlink() {
        return Ok(String::from_str(alloc, path)?);
    }
    let real = fs::canonicalize(rt, path)?;
    Ok(String::from_str(alloc, real.as_str())?)
}

fn open_beside<A: Allocator + Copy, R: Files>(
    rt: &R,
    alloc: A,
    path: &str,
) -> Result<(R::File, String<A>), PathError> {
    for number in 0..TRIES {
        let Ok(beside) = path_beside(alloc, path, number) else {
            return Err(PathError::OutOfMemory);
        };
        match OpenOptions::new()
            .write(true)
            .create_new(true)
            .mode(OWNERS)
            .open(rt, beside.as_str())
        {
            Ok(file) => return Ok((file, beside)),
            Err(e) if e.kind() == ErrorKind::AlreadyExists => {}
            Err(e) => return Err(create_error_of(e.kind())),
        }
    }
    Err(PathError::NamesTaken)
}

fn fill<F: Write + OpenFile>(
    file: &mut F,
    bytes: &[u8],
    permissions: Permissions,
) -> io::Result<()> {
    file.write_all(bytes)?;
    file.set_permissions(permissions)?;
    file.sync_all()
}

#[derive(Clone, Copy, PartialEq, Eq)]
struct Owner {
    user: u32,
    group: u32,
}

#[derive(Clone, Copy)]
struct Stamp {
    node: u64,
    len: u64,
    changed: i64,
    nanos: i64,
}

fn check_owner(old: Owner, made: Owner) -> Result<(), PathError> {
    if made == old {
        Ok(())
    } else {
        Err(PathError::OwnerChanges)
    }
}

fn check_stamp(before: Stamp, after: Stamp) -> Result<(), PathError> {
    if after.node == before.node
        && after.len == before.len
        && after.changed == before.changed
        && after.nanos == before.nanos
    {
        Ok(())
    } else {
        Err(PathError::Changed)
    }
}

fn stamp_of<R: Files>(rt: &R, path: &str) -> Result<Stamp, PathError> {
    match fs::metadata(rt, path) {
        Ok(about) => Ok(Stamp {
            node: about.ino(),
            len: about.len(),
            changed: about.ctime(),
            nanos: about.ctime_nsec(),
        }),
        Err(e) => Err(error_of(e.kind())),
    }
}

fn check_writable<R: Files>(rt: &R, path: &str) -> Result<(), PathError> {
    match OpenOptions::new().append(true).open(rt, path) {
        Ok(_) => Ok(()),
        Err(e) => Err(write_error_of(e.kind())),
    }
}

fn check_unchanged<R: Files>(rt: &R, path: &str, old: &[u8]) -> Result<(), PathError> {
    let mut file = match File::open(rt, path) {
        Ok(file) => file,
        Err(e) => return Err(error_of(e.kind())),
    };
    let mut piece = [0_u8; PIECE];
    let mut rest = old;
    for _ in 0..TURNS {
        match file.read(&mut piece) {
            Ok(0) if rest.is_empty() => return Ok(()),
            Ok(0) => return Err(PathError::Changed),
            Ok(count) => match rest.strip_prefix(&piece[..count]) {
                Some(after) => rest = after,
                None => return Err(PathError::Changed),
            },
            Err(e) if e.kind() == ErrorKind::Interrupted => {}
            Err(e) => return Err(error_of(e.kind())),
        }
    }
    Err(PathError::ReadFailed)
}

fn fill_and_rename<R: Files>(
    rt: &R,
    file: &mut R::File,
    beside: &str,
    path: &str,
    permissions: Permissions,
    old: &[u8],
    new: &[u8],
) -> Result<(), PathError> {
    if let Err(e) = fill(file, new, permissions) {
        return Err(write_error_of(e.kind()));
    }
    let before = stamp_of(rt, path)?;
    check_unchanged(rt, path, old)?;
    check_stamp(before, stamp_of(rt, path)?)?;
    match fs::rename(rt, beside, path) {
        Ok(()) => Ok(()),
        Err(e) => Err(write_error_of(e.kind())),
    }
}

fn is_group_right(mode: u32, group: u32, others: u32) -> bool {
    mode & group != 0 && mode & others == 0
}

fn may_have_list(mode: u32, usual: u32) -> bool {
    is_group_right(mode, 0o040, 0o004) && !is_group_right(usual, 0o040, 0o004)
        || is_group_right(mode, 0o020, 0o002) && !is_group_right(usual, 0o020, 0o002)
        || is_group_right(mode, 0o010, 0o001) && !is_group_right(usual, 0o010, 0o001)
}

fn kept_permissions(
    permissions: Permissions,
    links: u64,
    usual: u32,
) -> Result<Permissions, PathError> {
    let mode = permissions.mode();
    if mode & 0o222 == 0 {
        return Err(PathError::PermissionDenied);
    }
    if links > 1 {
        return Err(PathError::HardLinks);
    }
    if mode & SPECIAL != 0 || may_have_list(mode, usual) {
        return Err(PathError::RightsChange);
    }
    Ok(Permissions::from_mode(mode & KEPT))
}

fn usual_bits_in(status: &str) -> Option<u32> {
    let (_, line) = status.split_once("\nUmask:\t")?;
    let (digits, _) = line.split_once('\n')?;
    match u32::from_str_radix(digits, 8) {
        Ok(umask) => Some(!umask),
        Err(_) => None,
    }
}

fn usual_bits<A: Allocator, R: Files>(rt: &R, alloc: A) -> u32 {
    let Ok(bytes) = read_file(rt, alloc, "/proc/self/status", true) else {
        return 0;
    };
    match crate::rattle_std::str::from_utf8(bytes.as_slice()) {
        Ok(status) => usual_bits_in(status).unwrap_or(0),
        Err(_) => 0,
    }
}

fn metadata_of<R: Files>(rt: &R, path: &str) -> Result<Metadata, PathError> {
    match fs::metadata(rt, path) {
        Ok(about) if about.is_file() => Ok(about),
        Ok(about) if about.is_dir() => Err(PathError::IsADirectory),
        Ok(_) => Err(PathError::NotAFile),
        Err(e) => Err(error_of(e.kind())),
    }
}

fn owner_of(about: &Metadata) -> Owner {
    Owner {
        user: about.uid(),
        group: about.gid(),
    }
}

fn keep_owner<R: Files>(rt: &R, path: &str, old: Owner) -> Result<(), PathError> {
    let _ = chown(rt, path, None, Some(old.group));
    let _ = chown(rt, path, Some(old.user), None);
    match fs::metadata(rt, path) {
        Ok(about) => check_owner(old, owner_of(&about)),
        Err(e) => Err(error_of(e.kind())),
    }
}

pub(crate) fn replace_file<A: Allocator + Copy, R: Files + Alloc>(
    rt: &R,
    alloc: A,
    path: &str,
    old: &[u8],
    new: &[u8],
) -> Result<(), PathError> {
    let real = match real_path(rt, alloc, path) {
        Ok(real) => real,
        Err(e) if is_not_utf8(&e) => return Err(PathError::GivenNotUtf8),
        Err(e) => return Err(error_of(e.kind())),
    };
    let about = metadata_of(rt, real.as_str())?;
    let usual = usual_bits(rt, alloc);
    let permissions = kept_permissions(about.permissions(), about.nlink(), usual)?;
    check_writable(rt, real.as_str())?;
    let (mut file, beside) = open_beside(rt, alloc, real.as_str())?;
    let done = match keep_owner(rt, beside.as_str(), owner_of(&about)) {
        Ok(()) => fill_and_rename(
            rt,
            &mut file,
            beside.as_str(),
            real.as_str(),
            permissions,
            old,
            new,
        ),
        Err(why) => Err(why),
    };
    if done.is_err() {
        let _ = fs::remove_file(rt, beside.as_str());
    }
    done
}
