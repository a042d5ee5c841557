//! Runs `rl_scan` with arguments on a text as standard input.

use crate::one_text::OneText;
use crate::rattle_std::alloc::Global;
use crate::rattle_std::string::String as Line;
use crate::rattle_std::vec::Vec as List;
use navyspindle_programs::rl_files::MemoryReplacements;
use navyspindle_programs::rl_scan::{run_with_arguments, Console};

/// Runs `rl_scan` with the arguments on the standard input `text`. Returns standard output, the exit status and standard error.
pub fn run(words: &[&str], text: &str) -> (String, u8, String) {
    let words: Vec<Line> = ["rl_scan"]
        .iter()
        .chain(words)
        .map(|word| Line::from_str(Global, word).expect("memory"))
        .collect();
    let mut out: List<u8> = List::new(Global);
    let mut errors: List<u8> = List::new(Global);
    let mut files = MemoryReplacements {
        alloc: Global,
        unwritable: &[],
        handed: List::new(Global),
    };
    let ending = run_with_arguments(
        Global,
        &words,
        Console {
            lacks_input: false,
            has_colors: false,
            out: &mut out,
            err: &mut errors,
        },
        &OneText(text.to_string()),
        &mut files,
    );
    let [out, errors] = [out, errors].map(|it| {
        let text = std::str::from_utf8(it.as_slice()).expect("text");
        text.to_string()
    });
    (out, ending.status(), format!("{errors}{ending}"))
}
