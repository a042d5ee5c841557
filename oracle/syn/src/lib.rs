//! Macros that compare the package with `syn` 1 on whole files, while rustc expands them. `oracle/syn_trees.py` calls them. The
//! files and the results are those of `texts.rs`. A result is a line with five words between tabs: what is compared, the compared text,
//! the results of `syn` and of the package, and the known reason for a difference, or nothing.

mod entries;
mod literals;
#[path = "../../texts.rs"]
mod texts;

use proc_macro::TokenStream;

/// Returns the line of two results.
fn line(name: &str, text: &str, theirs: &str, ours: &str, known: &str) -> String {
    let text: String = text.chars().take(200).collect();
    format!("{name}\t{text:?}\t{theirs:?}\t{ours:?}\t{known}\n")
}

/// Writes the lines of each file's attributes.
#[proc_macro]
pub fn attributes(_: TokenStream) -> TokenStream {
    texts::write(texts::given().map(|text| text.parse().map_or(String::new(), entries::of_attributes)))
}

/// Writes the line of each literal of the files that `syn` accepts. They are parsed in a thread, where spans are those of the text,
/// with a large stack, since `syn` recurses as deeply as a file is nested.
#[proc_macro]
pub fn literals(_: TokenStream) -> TokenStream {
    let thread = std::thread::Builder::new().stack_size(1 << 31).spawn(|| texts::write(texts::given().map(literals::of_file)));
    thread.expect("a thread").join().unwrap_or(());
    TokenStream::new()
}
