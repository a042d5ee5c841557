//! Tests calls of the translated libraries. Each subject has a table of rows, `NAME.rows`, and the tests, `NAME.rs`. The expected
//! results come from `syn` or from the grammars, or are written by hand. They never come from the output of this repository's code.

mod attributes;
mod calls;
mod failing;
mod flaws;
mod grammar;
mod lists;
mod literals;
mod messages;
mod numbers;
mod parsers;
mod rows;
mod shown;
mod sources;
mod tokens;
mod uses;
