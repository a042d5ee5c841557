//! The works that run on a corpus.

use crate::corpus::{Corpus, Form};
use crate::{others, package};

/// The quantity that a work sums up. Works with the same quantity must return the same sum. The features decide which quantities
/// are used.
#[allow(dead_code)]
#[derive(Clone, Copy, PartialEq, Eq)]
pub enum Sum {
    Values,
    Trees,
    Literals,
    Settings,
    SourceLiterals,
    RustTokens,
    Bytes,
}

/// One work: a library's function that runs on a corpus.
pub struct Work {
    pub name: &'static str,
    pub sum: Sum,
    pub run: fn(&Corpus) -> u64,
}

impl Work {
    /// Whether the work is the package's.
    pub fn is_ours(&self) -> bool {
        self.name.starts_with("package")
    }
}

const fn work(name: &'static str, sum: Sum, run: fn(&Corpus) -> u64) -> Work {
    Work { name, sum, run }
}

/// The works for texts that are one literal each.
const OF_LITERALS: &[Work] = &[
    work("package", Sum::Values, package::value),
    work("litrs", Sum::Values, others::litrs_value),
    #[cfg(feature = "oracle")]
    work("syn", Sum::Values, others::syn::value),
];

/// The works for a text that is a list of literals.
const OF_LISTS: &[Work] = &[
    work("package", Sum::Literals, package::list),
    work("proc-macro2", Sum::Trees, others::proc_macro2_lex),
    #[cfg(feature = "oracle")]
    work("proc-macro2 and syn", Sum::Literals, others::syn::read),
];

/// The works for a text that consists of attributes.
const OF_ATTRIBUTES: &[Work] = &[
    work("package", Sum::Settings, package::attributes),
    work("proc-macro2", Sum::Trees, others::proc_macro2_lex),
];

/// The works for a text that consists of Rust files.
const OF_SOURCES: &[Work] = &[
    work("package", Sum::SourceLiterals, package::source),
    #[cfg(feature = "rustc_lexer")]
    work("rustc's lexer", Sum::RustTokens, others::rustc_lex),
    work("proc-macro2", Sum::Trees, others::proc_macro2_lex),
    work("UTF-8", Sum::Bytes, others::utf8),
];

/// The works for invalid input.
const OF_BAD: &[Work] = &[
    work("package", Sum::Values, package::value),
    work("package, source", Sum::SourceLiterals, package::source),
];

/// Returns the works for a corpus of this form.
pub fn of(form: Form) -> &'static [Work] {
    match form {
        Form::Literals | Form::Found => OF_LITERALS,
        Form::Source => OF_SOURCES,
        Form::List => OF_LISTS,
        Form::Attributes => OF_ATTRIBUTES,
        Form::Spoiled | Form::Hostile => OF_BAD,
    }
}
