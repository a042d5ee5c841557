//! Tests spans, identifiers, tokens, token trees, and written literals.

use crate::rows::{check, check_bytes, check_headings};
use crate::shown::{
    at, debug_or_error, error, form, literal_or_error, range, spanned, token_or_error, trees,
    trees_of, value_or_error, HERE, THERE,
};
use navyspindle_programs::rattle_std::alloc::Global;
use navyspindle_programs::rattle_std::vec::Vec as Bytes;
use navyspindle_programs::rl_tokens::ident::xid_ok;
use navyspindle_programs::rl_tokens::{
    lex, CString, Delimiter, Group, Ident, Literal, ParseBuffer, Punct, Span, TokenStream,
    TokenTree, Tokens,
};
use navyspindle_programs::rust_literals::{
    Lit, LitBool, LitByte, LitByteStr, LitCStr, LitChar, LitStr,
};

const TABLE: &str = include_str!("tokens.rows");

#[test]
fn headings() {
    check_headings(TABLE, include_str!("tokens.rs"));
}

/// Shows each token tree with its byte range. After a group, the trees in it follow in angle brackets.
fn nested(trees: &[TokenTree]) -> String {
    let mut out = String::new();
    for tree in trees {
        out += &format!("{} {} ", form(tree), range(tree.span()));
        if let TokenTree::Group(group) = tree {
            out += &format!("< {}> ", nested(group.stream().trees()));
        }
    }
    out
}

/// Shows the token trees of a text, or the error and its byte offset.
#[test]
fn trees_of_texts() {
    check(TABLE, "lex", |text| match lex(Global, text, 7) {
        Ok(stream) => nested(stream.trees()),
        Err(error) => format!("{:?} {}", error.kind, error.at),
    });
}

/// Shows the tokens of a text with their byte ranges, the error that ends them, and the rest of the text.
#[test]
fn borrowed_tokens() {
    check(TABLE, "borrowed", |text| {
        let (mut tokens, mut out) = (Tokens::new(text), String::new());
        for _ in 0..text.len() {
            if let Some(error) = tokens.error() {
                out += &format!("{:?} {}; ", error.kind, error.at);
            }
            let Some(it) = tokens.next() else { break };
            out += &format!("{} {}..{}; ", it.text, it.lo, it.hi);
        }
        out + tokens.rest()
    });
}

/// Creates a stream of token trees.
fn stream_of(trees: impl IntoIterator<Item = TokenTree>) -> TokenStream {
    let mut stream = TokenStream::new(Global);
    for tree in trees {
        assert!(stream.append(tree).is_ok());
    }
    stream
}

/// Shows a group that contains a literal, before and after the spans are set.
#[test]
fn built() {
    check(TABLE, "built", |_| {
        let first = Literal::from_text(Global, "1", HERE).unwrap();
        let inside = stream_of([TokenTree::Literal(first)]);
        let mut stream = stream_of([TokenTree::Group(Group::new(Delimiter::Brace, inside, HERE))]);
        let before = nested(stream.trees());
        stream.respan(Span::new(0, 8, 9));
        before + &nested(stream.trees())
    });
}

#[test]
fn spans() {
    check(TABLE, "joined", |_| {
        let others = [
            (HERE, (7, 1, 4)),
            (Span::new(7, 1, 4), (7, 6, 8)),
            (HERE, (8, 1, 4)),
        ];
        let joined = others.map(|(first, (file, lo, hi))| {
            first
                .join(Span::new(file, lo, hi))
                .map_or("None\n".to_owned(), |it| at(it) + "\n")
        });
        let here = format!("{} {} {}", HERE.file(), HERE.lo(), HERE.hi());
        format!("{} {here}\n{}", at(Span::call_site()), joined.concat())
    });
}

/// Shows an identifier, and its span after it is set.
#[test]
fn words() {
    check(TABLE, "word", |text| {
        if !xid_ok(text) {
            return "no word".to_owned();
        }
        value_or_error(Ident::new(Global, text, HERE), |ident| {
            let mut moved = Ident::new(Global, text, ident.span()).unwrap();
            moved.set_span(THERE);
            format!(
                "{} {} {}\n",
                moved.text(),
                at(ident.span()),
                at(moved.span())
            )
        })
    });
}

/// Shows a token of the text, and its span after it is set.
#[test]
fn tokens_of_texts() {
    check(TABLE, "token", |text| {
        let mut it = Literal::from_text(Global, text, HERE).unwrap();
        let before = format!("{it} {} {}", it.text(), at(it.span()));
        it.set_span(THERE);
        format!("{before} {}", at(it.span()))
    });
}

#[test]
fn string() {
    check(TABLE, "string", |text| {
        token_or_error(Literal::string(Global, text))
            + &literal_or_error(LitStr::new(Global, text, HERE))
    });
}

/// Shows the given bytes as a token, as the value of a literal, and as that literal.
#[test]
fn byte_string() {
    check_bytes(TABLE, "byte_string", |bytes| {
        let literal = value_or_error(LitByteStr::new(Global, bytes, HERE), |literal| {
            debug_or_error(literal.value(Global)).replace('\n', " ")
        });
        let made = literal_or_error(LitByteStr::new(Global, bytes, HERE));
        token_or_error(Literal::byte_string(Global, bytes)) + &literal + &made
    });
}

/// Shows the given bytes as a C string literal: the token, whether the literal's value is the C string, and the literal. If a byte
/// is 0, shows its offset.
#[test]
fn c_string() {
    check_bytes(TABLE, "c_string", |bytes| {
        match CString::new(Bytes::from_slice(Global, bytes).unwrap()) {
            Ok(held) => {
                let value = LitCStr::new(Global, &held, HERE).and_then(|it| it.value(Global));
                let same = value_or_error(value, |value| format!("{} ", *value == held));
                let made = literal_or_error(LitCStr::new(Global, &held, HERE));
                let token = token_or_error(Literal::c_string(Global, &held));
                format!("{:?} {token}{same}{made}", held.as_bytes())
            }
            Err(rejected) => {
                let at = rejected.nul_position();
                format!("zero at {at} of {:?}", rejected.into_vec().as_slice())
            }
        }
    });
}

/// Shows the given bytes as a byte string literal. They contain a NUL, so they aren't a C string: shows its offset, and the bytes that
/// the error returns.
#[test]
fn zero_bytes() {
    check_bytes(TABLE, "zero_bytes", |bytes| {
        let literal = LitByteStr::new(Global, bytes, HERE).unwrap();
        let rejected = CString::new(Bytes::from_slice(Global, bytes).unwrap()).unwrap_err();
        let at = rejected.nul_position();
        let held = rejected.into_vec();
        format!("{} zero at {at} of {:?}", literal.text(), held.as_slice())
    });
}

/// Shows each byte as a literal, and as a token. A line has eight bytes.
#[test]
fn bytes() {
    check_bytes(TABLE, "bytes", |bytes| {
        let shown = |byte: &u8| {
            let literal = value_or_error(LitByte::new(Global, *byte, HERE), |it| {
                format!("{}{} {} ", it.value(), it.suffix(), at(it.span()))
            });
            literal + &token_or_error(Literal::byte_character(Global, *byte)).replace('\n', " ")
        };
        let lines = bytes.chunks(8);
        lines
            .map(|line| line.iter().map(shown).collect::<String>() + "\n")
            .collect()
    });
}

/// Shows each character as a token, and as a literal.
#[test]
fn characters() {
    check(TABLE, "characters", |text| {
        let each = text.chars().map(|c| {
            token_or_error(Literal::character(Global, c))
                + &literal_or_error(LitChar::new(Global, c, HERE))
        });
        each.collect()
    });
}

/// Shows the literals `true` and `false`: value, span, token, and the token's span after it is set.
#[test]
fn truth() {
    check(TABLE, "truth", |_| {
        let each = [false, true].map(|value| {
            let mut literal = LitBool::new(value, HERE);
            let before = format!("{} {} ", literal.value(), at(literal.span()));
            literal.set_span(THERE);
            let moved = value_or_error(literal.token(Global), |it| {
                format!("{} {}\n", it.text(), at(it.span()))
            });
            before + &moved
        });
        each.concat()
    });
}

/// Shows which of the four methods that take a token tree accept the next one, each on a fork of the buffer. Then it consumes the
/// tree.
fn taken(input: &mut ParseBuffer<'_>) -> String {
    let takes = [
        ("ident", input.fork().ident().is_some()),
        ("punct", input.fork().punct().is_some()),
        ("literal", input.fork().literal().is_some()),
        ("group", input.fork().group().is_some()),
    ];
    let forks = takes
        .iter()
        .filter(|it| it.1)
        .map(|it| format!(" {}", it.0));
    let front = format!(
        "{} of {}:{}\n",
        at(input.span()),
        input.rest().len(),
        forks.collect::<String>()
    );
    let taken = if let Some(ident) = input.ident() {
        ident.text().to_owned()
    } else if let Some(punct) = input.punct() {
        punct.as_char().to_string()
    } else if let Some(literal) = input.literal() {
        literal.text().to_owned()
    } else if let Some(group) = input.group() {
        format!("{} inside", group.stream().trees().len())
    } else {
        "nothing".to_owned()
    };
    front + &taken + "\n"
}

/// Shows all token trees by the methods that take them, and one step beyond the end.
#[test]
fn takers() {
    check(TABLE, "takers", |text| {
        let stream = trees_of(text, 0).unwrap();
        let mut input = ParseBuffer::new(stream.trees(), Span::new(0, text.len(), text.len()));
        let all: String = stream.trees().iter().map(|_| taken(&mut input)).collect();
        format!("{all}{} {}", input.is_empty(), taken(&mut input))
    });
}

/// Shows the literal that is parsed from a minus of one file and a number of another file.
#[test]
fn two_files() {
    check(TABLE, "two_files", |_| {
        let number = Literal::from_text(Global, "1", Span::new(1, 0, 1)).unwrap();
        let minus = Punct::new('-', Span::new(0, 3, 4));
        let stream = stream_of([TokenTree::Punct(minus), TokenTree::Literal(number)]);
        let mut input = ParseBuffer::new(stream.trees(), Span::call_site());
        trees(stream.trees()) + &value_or_error(input.parse::<Lit>(Global), spanned)
    });
}

/// Shows whether `=` is the next token, or the first token in the group that is next, the result of `take_punct`, and the buffer's
/// position after that.
#[test]
fn mark() {
    check(TABLE, "mark", |text| {
        let stream = trees_of(text, 0).unwrap();
        let mut input = ParseBuffer::new(stream.trees(), Span::new(0, text.len(), text.len()));
        if let Some(group) = input.group() {
            input = group.inside();
        }
        let peeked = input.peek_punct('=');
        let taken = match input.take_punct('=') {
            Ok(_) => "ok\n".to_owned(),
            Err(it) => error(&it),
        };
        format!("equals sign, {peeked}: {taken}next {}", at(input.span()))
    });
}
