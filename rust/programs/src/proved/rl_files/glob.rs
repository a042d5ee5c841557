// Rendered from crates/rl_files/src/glob.rt by tools/render, which erases contracts: change that file, and render again.
//! Matches paths against patterns in the syntax of gitignore files, without allocations. The time grows with the product of the
//! lengths of pattern and path.

#[derive(Clone, Copy)]
enum Stop<P, T> {
    Decided(bool),
    Star(P, T),
}

fn is_failed<P: Copy, T: Copy>(stop: Stop<P, T>) -> bool {
    matches!(stop, Stop::Decided(false))
}

fn first_byte(bytes: &[u8]) -> Option<(u8, &[u8])> {
    match bytes {
        [byte, rest @ ..] => Some((*byte, rest)),
        [] => None,
    }
}

fn is_byte_match(p: u8, byte: u8) -> bool {
    p == b'?' || p == byte
}

fn name_stop<'p, 'n>(pattern: &'p [u8], name: &'n [u8]) -> Stop<&'p [u8], &'n [u8]> {
    let mut left = pattern;
    let mut bytes = name;
    while let Some((p, after)) = first_byte(left) {
        if p == b'*' {
            return Stop::Star(after, bytes);
        }
        let Some((byte, rest)) = first_byte(bytes) else {
            return Stop::Decided(false);
        };
        if !is_byte_match(p, byte) {
            return Stop::Decided(false);
        }
        left = after;
        bytes = rest;
    }
    Stop::Decided(bytes.is_empty())
}

fn name_stop_after<'p, 'n>(pattern: &'p [u8], name: &'n [u8]) -> Stop<&'p [u8], &'n [u8]> {
    let mut left = name;
    loop {
        let stop = name_stop(pattern, left);
        if !is_failed(stop) {
            return stop;
        }
        match first_byte(left) {
            Some((_, rest)) => left = rest,
            None => return Stop::Decided(false),
        }
    }
}

fn is_name_match(pattern: &[u8], name: &[u8]) -> bool {
    let mut stop = name_stop(pattern, name);
    while let Stop::Star(pattern, name) = stop {
        stop = name_stop_after(pattern, name);
    }
    matches!(stop, Stop::Decided(true))
}

fn first_part(path: &[u8]) -> (&[u8], Option<&[u8]>) {
    for at in 0..path.len() {
        if path[at] == b'/' {
            return (&path[..at], Some(&path[at + 1..]));
        }
    }
    (path, None)
}

fn is_double_star(part: &[u8]) -> bool {
    part == b"**".as_slice()
}

fn first_of_pattern(pattern: &[u8]) -> (&[u8], Option<&[u8]>) {
    match first_part(pattern) {
        (part, Some(after)) => (part, Some(after)),
        (part, None) if is_double_star(part) => (part, Some(b"*".as_slice())),
        (part, None) => (part, None),
    }
}

fn path_stop<'p, 'n>(
    pattern: Option<&'p [u8]>,
    path: Option<&'n [u8]>,
) -> Stop<Option<&'p [u8]>, Option<&'n [u8]>> {
    let mut left = pattern;
    let mut names = path;
    while let Some(parts) = left {
        let (part, after) = first_of_pattern(parts);
        if is_double_star(part) {
            return Stop::Star(after, names);
        }
        let Some(some) = names else {
            return Stop::Decided(false);
        };
        let (name, rest) = first_part(some);
        if !is_name_match(part, name) {
            return Stop::Decided(false);
        }
        left = after;
        names = rest;
    }
    Stop::Decided(names.is_none())
}

fn path_stop_after<'p, 'n>(
    pattern: Option<&'p [u8]>,
    path: Option<&'n [u8]>,
) -> Stop<Option<&'p [u8]>, Option<&'n [u8]>> {
    let mut left = path;
    loop {
        let stop = path_stop(pattern, left);
        if !is_failed(stop) {
            return stop;
        }
        match left {
            Some(names) => left = first_part(names).1,
            None => return Stop::Decided(false),
        }
    }
}

fn is_path_match(first: Stop<Option<&[u8]>, Option<&[u8]>>) -> bool {
    let mut stop = first;
    while let Stop::Star(pattern, path) = stop {
        stop = path_stop_after(pattern, path);
    }
    matches!(stop, Stop::Decided(true))
}

pub fn ends_in_slash(path: &[u8]) -> bool {
    path.ends_with(b"/".as_slice())
}

fn without_slash(path: &[u8]) -> &[u8] {
    if ends_in_slash(path) {
        &path[..path.len() - 1]
    } else {
        path
    }
}

fn has_slash(path: &[u8]) -> bool {
    path.contains(&b'/')
}

fn after_slash(path: &[u8]) -> &[u8] {
    match path {
        [b'/', rest @ ..] => rest,
        _ => path,
    }
}

fn is_glob_match(pattern: &[u8], path: &[u8]) -> bool {
    if has_slash(pattern) {
        is_path_match(path_stop(Some(after_slash(pattern)), Some(path)))
    } else {
        is_path_match(Stop::Star(Some(pattern), Some(path)))
    }
}

fn excludes(pattern: &[u8], path: &[u8]) -> bool {
    (!ends_in_slash(pattern) || ends_in_slash(path))
        && is_glob_match(without_slash(pattern), without_slash(path))
}

pub fn is_excluded(patterns: &[&str], path: &[u8]) -> bool {
    let mut rest = patterns;
    while let [pattern, after @ ..] = rest {
        if excludes(pattern.as_bytes(), path) {
            return true;
        }
        rest = after;
    }
    false
}
