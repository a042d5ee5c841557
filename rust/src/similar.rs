//! The known name that a user may have meant by an unknown one.

use alloc::vec::Vec;

/// Returns the known name that is most like `name`, if at most a third of its characters differ.
pub(crate) fn similar<'k>(name: &str, known: impl Iterator<Item = &'k str>) -> Option<&'k str> {
    let near = known.map(|it| (changes(name, it), it));
    let (least, near) = near.min_by_key(|it| it.0)?;
    (least * 3 <= near.chars().count()).then_some(near)
}

/// Returns the least number of characters to insert, remove or replace that changes one name to the other.
fn changes(one: &str, other: &str) -> usize {
    let mut row: Vec<usize> = (0..=other.chars().count()).collect();
    for (above, c) in one.chars().enumerate() {
        let mut before = above;
        row[0] = above + 1;
        for (at, d) in other.chars().enumerate() {
            let replaced = before + usize::from(c != d);
            before = row[at + 1];
            row[at + 1] = replaced.min(before + 1).min(row[at] + 1);
        }
    }
    row[row.len() - 1]
}
