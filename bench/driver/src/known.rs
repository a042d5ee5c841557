//! Checks of the works against sums that were computed by hand.

use crate::corpus::Corpus;
use crate::package;

/// Checks that the works return the known sums.
pub fn check() -> Result<(), String> {
    // The weights are 5 + 97, 5 + 233 + 1, 4 + 10 and 5 + 128512.
    let characters = ["'a'", "'\\u{e9}'x", "b'\\n'", "'\u{1F600}'"];
    wanted("package", package::value(&known(&characters)), 128872)?;
    // The whole sources have no literal, no literal, and one literal before the open quote.
    let sources = ["#!x\n'a r#b/// c\n\u{2261}/* d */", "#![e]", "\"#!f\"g'"];
    wanted("package", package::source(&known(&sources)), 1)?;
    // The lists have the literals -1 and "a", the literal 2 before the error, and no literal.
    let lists = ["- 1 /* x */ \"a\"", "2 x 3", "// 4"];
    wanted("package", package::list(&known(&lists)), 3)?;
    // The texts have two settings, none because a name is repeated, one, and none.
    let attributes = ["a = 1, b = \"x\",", "a = 1, a = 2", "c = true", "1"];
    wanted("package", package::attributes(&known(&attributes)), 3)
}

/// Returns the corpus of these texts.
fn known(texts: &[&str]) -> Corpus {
    let mut corpus = Corpus::new("known texts");
    texts.iter().for_each(|text| corpus.push(text));
    corpus
}

/// Returns an error if the sum of a work isn't the expected one.
fn wanted(work: &str, sum: u64, wanted: u64) -> Result<(), String> {
    if sum == wanted {
        Ok(())
    } else {
        Err(format!("known texts: {work} makes {sum}, not {wanted}"))
    }
}
