//! The works of the Cargo package in rust/.

use crate::corpus::Corpus;
use crate::weight::{weight, Kind};
use navyspindle::{
    parse_list, parse_settings, source as literals_of, Lit, LitFloat, LitInt, NumberType,
};
use std::hint::black_box;

/// Returns the value of an integer, of the type that its suffix names, or else as `u128`.
fn integer(literal: &LitInt) -> Option<u64> {
    Some(match literal.type_suffix() {
        None | Some(NumberType::U128) => literal.value::<u128>().ok()? as u64,
        Some(NumberType::U8) => literal.value::<u8>().ok()?.into(),
        Some(NumberType::U16) => literal.value::<u16>().ok()?.into(),
        Some(NumberType::U32) => literal.value::<u32>().ok()?.into(),
        Some(NumberType::U64) => literal.value::<u64>().ok()?,
        Some(NumberType::Usize) => literal.value::<usize>().ok()? as u64,
        Some(NumberType::I32) => literal.value::<i32>().ok()? as u64,
        Some(NumberType::I64) => literal.value::<i64>().ok()? as u64,
        Some(NumberType::I128) => literal.value::<i128>().ok()? as u64,
        _ => return None,
    })
}

/// Returns the bits of a float, of the type that its suffix names, or else as `f64`.
fn float(literal: &LitFloat) -> Option<u64> {
    Some(match literal.type_suffix() {
        Some(NumberType::F32) => literal.value::<f32>().ok()?.to_bits().into(),
        _ => literal.value::<f64>().ok()?.to_bits(),
    })
}

/// Returns the weight of a text, or 0 if it isn't a literal.
fn weight_of(text: &str) -> u64 {
    let Ok(literal) = Lit::parse(text) else {
        return 0;
    };
    let suffix = literal.suffix().len();
    match &literal {
        Lit::Str(l) => weight(Kind::Str, l.value().len() as u64, suffix),
        Lit::ByteStr(l) => weight(Kind::ByteStr, l.value().len() as u64, suffix),
        Lit::CStr(l) => weight(Kind::CStr, l.value().len() as u64, suffix),
        Lit::Byte(l) => weight(Kind::Byte, l.value().into(), suffix),
        Lit::Char(l) => weight(Kind::Char, l.value().into(), suffix),
        Lit::Int(l) => weight(Kind::Int, integer(l).unwrap_or(0), suffix),
        Lit::Float(l) => weight(Kind::Float, float(l).unwrap_or(0), suffix),
        Lit::Bool(_) => weight(Kind::Bool, 0, 0),
        _ => 0,
    }
}

/// Returns the sum of the weights of the literals' values.
pub fn value(corpus: &Corpus) -> u64 {
    corpus.sum(weight_of)
}

/// Returns the number of literals before the first error. Each literal is parsed.
fn count<T, E>(literals: impl Iterator<Item = Result<T, E>>) -> u64 {
    literals.map_while(Result::ok).map(black_box).count() as u64
}

/// Returns the number of literals in the texts as lists, each up to its first error.
pub fn list(corpus: &Corpus) -> u64 {
    corpus.sum(|text| count(parse_list(text)))
}

/// Returns the number of settings in the texts. A text with an error has none.
pub fn attributes(corpus: &Corpus) -> u64 {
    corpus.sum(|text| parse_settings(text).map_or(0, |entries| black_box(entries).len() as u64))
}

/// Returns the number of literals in the texts as whole sources, each up to its first error.
pub fn source(corpus: &Corpus) -> u64 {
    corpus.sum(|text| count(literals_of(text)))
}
