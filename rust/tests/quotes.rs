//! Tests how sources with quotes are divided into tokens: the ranges of the literals, and the byte offset of the first quote that
//! isn't closed.

use navyspindle::{source, SyntaxErrorKind};

type Row = (&'static str, &'static [(usize, usize)], Option<usize>);

#[test]
fn quotes_in_sources() {
    let rows: [Row; 60] = [
        ("'ab'", &[(0, 4)], None),
        ("'ab' x", &[(0, 4)], None),
        ("'ab'c", &[(0, 4)], None),
        ("''", &[(0, 2)], None),
        ("''x", &[(0, 3)], None),
        ("'''", &[(0, 3)], None),
        ("''''", &[(0, 3)], Some(3)),
        ("b''", &[(0, 3)], None),
        ("b'''", &[(0, 4)], None),
        ("b'hello'", &[(0, 8)], None),
        ("b'hello'x 1", &[(0, 9), (10, 11)], None),
        ("'1a", &[(0, 3)], None),
        ("'1", &[(0, 2)], None),
        ("'1'", &[(0, 3)], None),
        ("'12'", &[(0, 4)], None),
        ("'12a b", &[(0, 4)], None),
        ("'a 'b'", &[(3, 6)], None),
        ("'st '", &[], Some(4)),
        ("' '", &[(0, 3)], None),
        ("'  '", &[(0, 4)], None),
        ("'+'", &[(0, 3)], None),
        ("'+-'", &[(0, 4)], None),
        ("'+-'u8", &[(0, 6)], None),
        ("'+/'", &[], Some(0)),
        ("'+ // c\n1", &[], Some(0)),
        ("'+\n1", &[], Some(0)),
        ("'+\n'1", &[(0, 4), (4, 5)], None),
        ("'+\n' 1", &[(0, 4), (5, 6)], None),
        ("'+\\'x'", &[(0, 6)], None),
        ("'+\\", &[], Some(0)),
        ("'", &[], Some(0)),
        ("b'", &[], Some(0)),
        ("b'a", &[], Some(0)),
        ("b'a\n", &[], Some(0)),
        ("b'1", &[], Some(0)),
        ("b'a/'", &[], Some(0)),
        ("'\\q'", &[(0, 4)], None),
        ("'\\a\\'b'", &[(0, 6)], Some(6)),
        ("'\\a/'", &[(0, 5)], None),
        ("'\\a\n'", &[], Some(0)),
        ("'\\'", &[], Some(0)),
        ("'\\", &[], Some(0)),
        ("'r#a'", &[(0, 5)], None),
        ("'r#ab c", &[], None),
        ("'r#a'b'", &[(0, 5)], Some(5)),
        ("'é'", &[(0, 4)], None),
        ("'éa'", &[(0, 5)], None),
        ("'éa ", &[], None),
        ("'\t'", &[(0, 3)], None),
        ("'\t\t'", &[(0, 4)], None),
        ("'\"'", &[(0, 3)], None),
        ("'\"\"'", &[(0, 4)], None),
        ("'a\u{301}'", &[(0, 5)], None),
        ("'\u{301}a'", &[(0, 5)], None),
        ("x'ab'", &[(1, 5)], None),
        ("('ab', '1a, 0x)", &[(1, 5), (7, 10), (12, 14)], None),
        ("f('', \"a\")", &[(2, 4), (6, 9)], None),
        ("'a'b'c'", &[(0, 4), (4, 7)], None),
        ("'€€'", &[(0, 8)], None),
        ("'#a'", &[(0, 4)], None),
    ];
    for (text, literals, unclosed) in rows {
        let (mut found, mut error) = (Vec::new(), None);
        for item in source(text) {
            match item {
                Ok((range, literal)) => {
                    assert_eq!(literal.text(), &text[range.clone()]);
                    found.push((range.start, range.end));
                }
                Err(it) => error = Some((it.kind(), it.offset())),
            }
        }
        let expected = unclosed.map(|at| (SyntaxErrorKind::UnclosedQuote, at));
        assert_eq!((&*found, error), (literals, expected), "{text:?}");
    }
}
