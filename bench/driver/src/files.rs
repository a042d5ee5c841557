//! The Rust files in the folder that `BENCH_SOURCES` names, and their literals.

use proc_macro2::{TokenStream, TokenTree};
use std::path::{Path, PathBuf};
use std::{env, fs, io};

/// Whether the folder exists.
pub fn are_there() -> bool {
    env::var_os("BENCH_SOURCES").is_some()
}

/// Adds the paths that rl_scan reads in the folder: all `*.rs`, except in hidden folders and in the folder `target` of a package.
/// Links are left out.
fn add_paths(folder: &Path, paths: &mut Vec<PathBuf>) -> io::Result<()> {
    for entry in fs::read_dir(folder)? {
        let entry = entry?;
        let (kind, path, name) = (entry.file_type()?, entry.path(), entry.file_name());
        let is_built = name == "target" && folder.join("Cargo.toml").is_file();
        if kind.is_dir() && !name.as_encoded_bytes().starts_with(b".") && !is_built {
            add_paths(&path, paths)?;
        } else if kind.is_file() && path.extension().is_some_and(|ending| ending == "rs") {
            paths.push(path);
        }
    }
    Ok(())
}

/// Returns the files joined in the order of their paths. A file that would exceed `size` bytes in total is left out.
pub fn text(size: usize) -> String {
    let mut paths = Vec::new();
    let folder = env::var_os("BENCH_SOURCES").expect("the variable BENCH_SOURCES");
    add_paths(Path::new(&folder), &mut paths).expect("a folder");
    paths.sort();
    let mut all = String::new();
    for path in paths {
        let text = fs::read_to_string(path).expect("a text");
        if all.len() + text.len() <= size {
            all.push_str(&text);
        }
    }
    all
}

/// Whether these trees come from a doc comment.
fn are_doc(trees: &[TokenTree]) -> bool {
    match trees {
        [TokenTree::Ident(word), TokenTree::Punct(mark), ..] => {
            word == "doc" && mark.as_char() == '='
        }
        _ => false,
    }
}

/// Adds the texts of the literals, including `true` and `false`.
fn add_literals(trees: TokenStream, found: &mut Vec<String>) {
    let trees: Vec<_> = trees.into_iter().collect();
    if are_doc(&trees) {
        return;
    }
    for tree in trees {
        match tree {
            TokenTree::Literal(literal) => found.push(literal.to_string()),
            TokenTree::Ident(word) if word == "true" || word == "false" => {
                found.push(word.to_string());
            }
            TokenTree::Group(group) => add_literals(group.stream(), found),
            _ => {}
        }
    }
}

/// Returns the literals of the files that `text` joins.
pub fn literals(size: usize) -> Vec<String> {
    let mut found = Vec::new();
    add_literals(text(size).parse().expect("trees"), &mut found);
    found
}

/// Calls `work` with each text of the folders' files, which are read one after another. Returns the number of files that aren't
/// texts.
pub fn each_in(folders: &[&str], mut work: impl FnMut(String)) -> io::Result<usize> {
    let mut paths = Vec::new();
    for folder in folders {
        add_paths(Path::new(folder), &mut paths)?;
    }
    paths.sort();
    let mut none = 0;
    for path in paths {
        match String::from_utf8(fs::read(path)?) {
            Ok(text) => work(text),
            Err(_) => none += 1,
        }
    }
    Ok(none)
}
