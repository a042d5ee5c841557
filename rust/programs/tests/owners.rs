//! Tests `rl_scan --fix` on files of other users. Only root can create such files, so other users skip this test.
#![cfg(target_os = "linux")]

use std::fs;
use std::os::unix::fs::{chown, MetadataExt, PermissionsExt};
use std::os::unix::process::CommandExt;
use std::path::{Path, PathBuf};
use std::process::Command;

/// The user and the group that run the program, and another user and another group.
const NOBODY: u32 = 65534;
const USER: u32 = 1234;
const GROUP: u32 = 2345;

/// Creates a directory for the test `name` that every user may write, with a copy of the program and a file with these owners and
/// permissions. Returns `None` if the user isn't root.
fn directory(name: &str, user: u32, group: u32, mode: u32) -> Option<PathBuf> {
    let here = std::env::temp_dir().join(format!("rl_scan_owners_{}_{name}", std::process::id()));
    let _ = fs::remove_dir_all(&here);
    fs::create_dir(&here).expect("the directory can be made");
    let mode_of = |mode| fs::Permissions::from_mode(mode);
    fs::set_permissions(&here, mode_of(0o777)).expect("it can be changed");
    let file = here.join("a.rs");
    fs::write(&file, "let a = 1E5;\n").expect("the file can be written");
    fs::set_permissions(&file, mode_of(mode)).expect("it can be changed");
    if chown(&file, Some(user), Some(group)).is_err() {
        fs::remove_dir_all(&here).expect("it can be removed");
        return None;
    }
    fs::copy(env!("CARGO_BIN_EXE_rl_scan"), here.join("rl_scan")).expect("a copy");
    Some(here)
}

/// Runs the program on the file, as another user or as root, with the umask. Checks its exit status and its line on standard error, and the text and
/// the owners of the file.
fn assert_fixed(
    here: &Path,
    (as_root, umask): (bool, &str),
    ended: (i32, &str),
    text: &str,
    owners: (u32, u32),
) {
    let mut command = Command::new("sh");
    command.current_dir(here);
    command.args(["-c", &format!("umask {umask}; exec ./rl_scan --fix a.rs")]);
    if !as_root {
        command.uid(NOBODY).gid(NOBODY);
    }
    let output = command.output().expect("the program runs");
    let said = String::from_utf8_lossy(&output.stderr);
    assert_eq!(
        (output.status.code(), said.as_ref()),
        (Some(ended.0), ended.1),
        "{here:?}"
    );
    let file = here.join("a.rs");
    assert_eq!(fs::read_to_string(&file).expect("the file is there"), text);
    let about = fs::metadata(&file).expect("the file is there");
    assert_eq!((about.uid(), about.gid()), owners);
    let count = fs::read_dir(here).expect("it can be listed").count();
    assert_eq!(count, 2, "other files");
    fs::remove_dir_all(here).expect("it can be removed");
}

const OLD: &str = "let a = 1E5;\n";
const NEW: &str = "let a = 1e5;\n";
const DENIED: &str = "rl_scan: a.rs: permission denied\n";
const OWNERS: &str = "rl_scan: a.rs: its owner or group would change\n";
const RIGHTS: &str = "rl_scan: a.rs: its permissions or access control list could change\n";

/// The files are tested one after another. A program can't be run while its copy is open in a process that another thread starts.
#[test]
fn files_of_other_users() {
    for (name, (user, group), mode, as_root, umask, status, line) in [
        ("denied", (USER, GROUP), 0o644, false, "022", 2, DENIED),
        ("of_root", (0, 0), 0o644, false, "022", 2, DENIED),
        ("readable", (NOBODY, NOBODY), 0o444, false, "022", 2, DENIED),
        ("owner", (USER, NOBODY), 0o664, false, "002", 2, OWNERS),
        ("any", (USER, GROUP), 0o666, false, "022", 2, OWNERS),
        ("group", (NOBODY, GROUP), 0o664, false, "002", 2, OWNERS),
        ("own", (NOBODY, NOBODY), 0o644, false, "077", 0, ""),
        ("by_root", (USER, GROUP), 0o640, true, "027", 0, ""),
        ("may_read", (USER, GROUP), 0o640, true, "022", 2, RIGHTS),
        ("may_write", (USER, GROUP), 0o664, true, "022", 2, RIGHTS),
        ("may_run", (USER, GROUP), 0o654, true, "022", 2, RIGHTS),
        ("mask", (USER, GROUP), 0o660, true, "002", 2, RIGHTS),
    ] {
        let Some(here) = directory(name, user, group, mode) else {
            return;
        };
        let text = if status == 0 { NEW } else { OLD };
        assert_fixed(&here, (as_root, umask), (status, line), text, (user, group));
    }
}
