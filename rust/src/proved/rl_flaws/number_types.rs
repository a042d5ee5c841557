// Rendered from crates/rl_flaws/src/number_types.rt by tools/render, which erases contracts: change that file, and render again.
//! The number types of Rust, and the greatest integer of each.

use crate::rl_syntax::IntegerType;

#[derive(Clone, Copy, PartialEq, Eq, Debug)]
pub enum NumberType {
    Integer(IntegerType),
    F32,
    F64,
}

#[inline]
pub fn type_named(suffix: &str) -> Option<NumberType> {
    match suffix {
        "f32" => Some(NumberType::F32),
        "f64" => Some(NumberType::F64),
        _ => match IntegerType::named(suffix) {
            Some(ty) => Some(NumberType::Integer(ty)),
            None => None,
        },
    }
}

#[inline]
fn greatest_integer(ty: IntegerType, negated: bool) -> u128 {
    let more = if negated { 1 } else { 0 };
    match ty {
        IntegerType::U8 => 0xFF,
        IntegerType::U16 => 0xFFFF,
        IntegerType::U32 => 0xFFFF_FFFF,
        IntegerType::U64 | IntegerType::Usize => 0xFFFF_FFFF_FFFF_FFFF,
        IntegerType::U128 => 0xFFFF_FFFF_FFFF_FFFF_FFFF_FFFF_FFFF_FFFF,
        IntegerType::I8 => 0x7F + more,
        IntegerType::I16 => 0x7FFF + more,
        IntegerType::I32 => 0x7FFF_FFFF + more,
        IntegerType::I64 | IntegerType::Isize => 0x7FFF_FFFF_FFFF_FFFF + more,
        IntegerType::I128 => 0x7FFF_FFFF_FFFF_FFFF_FFFF_FFFF_FFFF_FFFF + more,
    }
}

#[inline]
pub fn max_integer(ty: NumberType, negated: bool) -> Option<u128> {
    match ty {
        NumberType::Integer(ty) => Some(greatest_integer(ty, negated)),
        NumberType::F32 | NumberType::F64 => None,
    }
}
