//! The works of other libraries.

use crate::corpus::Corpus;
use crate::weight::{weight, Kind};
use proc_macro2::TokenStream;
use std::borrow::Cow;
use std::hint::black_box;

/// Returns the bits of the float that a text represents, which may have underscores.
fn bits(number: &str, is_f32: bool) -> u64 {
    let plain: Cow<str> = match number.contains('_') {
        true => number.replace('_', "").into(),
        false => number.into(),
    };
    match is_f32 {
        true => plain.parse::<f32>().map_or(0, |it| it.to_bits().into()),
        false => plain.parse::<f64>().map_or(0, f64::to_bits),
    }
}

/// Returns the weight of a text by litrs, or 0 if litrs rejects it.
fn litrs_weight(text: &str) -> u64 {
    use litrs::{FloatType, Literal};
    let Ok(literal) = Literal::parse(text) else {
        return 0;
    };
    match literal {
        Literal::String(literal) => weight(Kind::Str, literal.value().len() as u64, 0),
        Literal::ByteString(literal) => weight(Kind::ByteStr, literal.value().len() as u64, 0),
        Literal::Byte(literal) => weight(Kind::Byte, literal.value().into(), 0),
        Literal::Char(literal) => weight(Kind::Char, literal.value().into(), 0),
        Literal::Integer(literal) => {
            let value = literal.value::<u128>().map_or(0, |value| value as u64);
            let suffix = literal.type_suffix().map_or(0, integer_suffix);
            weight(Kind::Int, value, suffix)
        }
        Literal::Float(literal) => {
            let ty = literal.type_suffix();
            let bits = bits(literal.number_part(), ty == Some(FloatType::F32));
            weight(Kind::Float, bits, ty.map_or(0, |_| 3))
        }
        Literal::Bool(_) => weight(Kind::Bool, 0, 0),
    }
}

/// Returns the length of a type's name.
fn integer_suffix(suffix: litrs::IntegerType) -> usize {
    use litrs::IntegerType;
    match suffix {
        IntegerType::U8 | IntegerType::I8 => 2,
        IntegerType::U128 | IntegerType::I128 => 4,
        IntegerType::Usize | IntegerType::Isize => 5,
        _ => 3,
    }
}

/// Returns the sum of the weights of the literals' values by litrs.
pub fn litrs_value(corpus: &Corpus) -> u64 {
    corpus.sum(litrs_weight)
}

/// Returns the number of token trees of proc-macro2's own lexer, or 0 for a text that it rejects.
pub fn proc_macro2_lex(corpus: &Corpus) -> u64 {
    let count = |trees: TokenStream| trees.into_iter().count() as u64;
    corpus.sum(|text| text.parse().map_or(0, count))
}

/// Returns the number of tokens of rustc's lexer, including white space and comments.
#[cfg(feature = "rustc_lexer")]
pub fn rustc_lex(corpus: &Corpus) -> u64 {
    corpus.sum(|text| {
        let tokens = rustc_lexer::tokenize(text);
        tokens.map(std::hint::black_box).count() as u64
    })
}

/// Returns the number of bytes of the texts, after a test that they are UTF-8.
pub fn utf8(corpus: &Corpus) -> u64 {
    let is_utf8 = |text: &str| std::str::from_utf8(black_box(text.as_bytes())).is_ok();
    corpus.sum(|text| u64::from(is_utf8(text)) * text.len() as u64)
}

#[cfg(feature = "oracle")]
pub mod syn {
    //! The works of syn's own parsing code.

    use super::*;
    use proc_macro2::TokenTree;
    use synval::lit::Lit;

    fn literal_weight(literal: &Lit) -> u64 {
        match literal {
            Lit::Str(l) => weight(Kind::Str, l.value().len() as u64, l.suffix().len()),
            Lit::ByteStr(l) => weight(Kind::ByteStr, l.value().len() as u64, l.suffix().len()),
            Lit::CStr(l) => weight(
                Kind::CStr,
                l.value().as_bytes().len() as u64,
                l.suffix().len(),
            ),
            Lit::Byte(l) => weight(Kind::Byte, l.value().into(), l.suffix().len()),
            Lit::Char(l) => weight(Kind::Char, l.value().into(), l.suffix().len()),
            Lit::Int(l) => {
                let value = l
                    .base10_digits()
                    .parse::<u128>()
                    .map_or(0, |value| value as u64);
                weight(Kind::Int, value, l.suffix().len())
            }
            Lit::Float(l) => {
                let bits = bits(l.base10_digits(), l.suffix() == "f32");
                weight(Kind::Float, bits, l.suffix().len())
            }
            Lit::Bool(_) => weight(Kind::Bool, 0, 0),
            Lit::Verbatim(_) => 0,
        }
    }

    pub fn value(corpus: &Corpus) -> u64 {
        corpus.sum(|text| literal_weight(&Lit::of(text)))
    }

    /// Returns the number of literals in the text. proc-macro2 lexes the text, and syn parses the text of each literal.
    fn count(text: &str) -> Option<u64> {
        let mut literals = 0;
        let mut trees = text.parse::<TokenStream>().ok()?.into_iter();
        while let Some(tree) = trees.next() {
            let words = match tree {
                TokenTree::Punct(sign) if sign.as_char() == '-' => format!("-{}", trees.next()?),
                TokenTree::Literal(literal) => literal.to_string(),
                TokenTree::Ident(word) => word.to_string(),
                _ => return None,
            };
            std::hint::black_box(Lit::of(&words));
            literals += 1;
        }
        Some(literals)
    }

    pub fn read(corpus: &Corpus) -> u64 {
        corpus.sum(|text| count(text).unwrap_or(0))
    }
}
