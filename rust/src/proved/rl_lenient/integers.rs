// Rendered from crates/rl_lenient/src/integers.rt by tools/render, which erases contracts: change that file, and render again.
//! Rust's integer types, and the value of an integer literal as a number of one of them.

use crate::rl_lenient::digit_runs::is_negative;
use crate::rl_syntax::IntegerType;

pub trait Integer: Sized {
    const TYPE: IntegerType;

    fn of_magnitude(is_negative: bool, magnitude: u128) -> Option<Self>;
}

impl Integer for u8 {
    const TYPE: IntegerType = IntegerType::U8;

    #[inline]
    fn of_magnitude(is_negative: bool, magnitude: u128) -> Option<u8> {
        if is_negative && magnitude != 0 {
            None
        } else if magnitude <= u8::MAX as u128 {
            Some(magnitude as u8)
        } else {
            None
        }
    }
}

impl Integer for u16 {
    const TYPE: IntegerType = IntegerType::U16;

    #[inline]
    fn of_magnitude(is_negative: bool, magnitude: u128) -> Option<u16> {
        if is_negative && magnitude != 0 {
            None
        } else if magnitude <= u16::MAX as u128 {
            Some(magnitude as u16)
        } else {
            None
        }
    }
}

impl Integer for u32 {
    const TYPE: IntegerType = IntegerType::U32;

    #[inline]
    fn of_magnitude(is_negative: bool, magnitude: u128) -> Option<u32> {
        if is_negative && magnitude != 0 {
            None
        } else if magnitude <= u32::MAX as u128 {
            Some(magnitude as u32)
        } else {
            None
        }
    }
}

impl Integer for u64 {
    const TYPE: IntegerType = IntegerType::U64;

    #[inline]
    fn of_magnitude(is_negative: bool, magnitude: u128) -> Option<u64> {
        if is_negative && magnitude != 0 {
            None
        } else if magnitude <= u64::MAX as u128 {
            Some(magnitude as u64)
        } else {
            None
        }
    }
}

impl Integer for u128 {
    const TYPE: IntegerType = IntegerType::U128;

    #[inline]
    fn of_magnitude(is_negative: bool, magnitude: u128) -> Option<u128> {
        if is_negative && magnitude != 0 {
            None
        } else if magnitude <= u128::MAX as u128 {
            Some(magnitude as u128)
        } else {
            None
        }
    }
}

impl Integer for usize {
    const TYPE: IntegerType = IntegerType::Usize;

    #[inline]
    fn of_magnitude(is_negative: bool, magnitude: u128) -> Option<usize> {
        if is_negative && magnitude != 0 {
            None
        } else if magnitude <= usize::MAX as u128 {
            Some(magnitude as usize)
        } else {
            None
        }
    }
}

impl Integer for i8 {
    const TYPE: IntegerType = IntegerType::I8;

    #[inline]
    fn of_magnitude(is_negative: bool, magnitude: u128) -> Option<i8> {
        if magnitude <= i8::MAX as u128 {
            let number = magnitude as i8;
            Some(if is_negative { 0 - number } else { number })
        } else if is_negative && magnitude == i8::MAX as u128 + 1 {
            Some(i8::MIN)
        } else {
            None
        }
    }
}

impl Integer for i16 {
    const TYPE: IntegerType = IntegerType::I16;

    #[inline]
    fn of_magnitude(is_negative: bool, magnitude: u128) -> Option<i16> {
        if magnitude <= i16::MAX as u128 {
            let number = magnitude as i16;
            Some(if is_negative { 0 - number } else { number })
        } else if is_negative && magnitude == i16::MAX as u128 + 1 {
            Some(i16::MIN)
        } else {
            None
        }
    }
}

impl Integer for i32 {
    const TYPE: IntegerType = IntegerType::I32;

    #[inline]
    fn of_magnitude(is_negative: bool, magnitude: u128) -> Option<i32> {
        if magnitude <= i32::MAX as u128 {
            let number = magnitude as i32;
            Some(if is_negative { 0 - number } else { number })
        } else if is_negative && magnitude == i32::MAX as u128 + 1 {
            Some(i32::MIN)
        } else {
            None
        }
    }
}

impl Integer for i64 {
    const TYPE: IntegerType = IntegerType::I64;

    #[inline]
    fn of_magnitude(is_negative: bool, magnitude: u128) -> Option<i64> {
        if magnitude <= i64::MAX as u128 {
            let number = magnitude as i64;
            Some(if is_negative { 0 - number } else { number })
        } else if is_negative && magnitude == i64::MAX as u128 + 1 {
            Some(i64::MIN)
        } else {
            None
        }
    }
}

impl Integer for i128 {
    const TYPE: IntegerType = IntegerType::I128;

    #[inline]
    fn of_magnitude(is_negative: bool, magnitude: u128) -> Option<i128> {
        if magnitude <= i128::MAX as u128 {
            let number = magnitude as i128;
            Some(if is_negative { 0 - number } else { number })
        } else if is_negative && magnitude == i128::MAX as u128 + 1 {
            Some(i128::MIN)
        } else {
            None
        }
    }
}

impl Integer for isize {
    const TYPE: IntegerType = IntegerType::Isize;

    #[inline]
    fn of_magnitude(is_negative: bool, magnitude: u128) -> Option<isize> {
        if magnitude <= isize::MAX as u128 {
            let number = magnitude as isize;
            Some(if is_negative { 0 - number } else { number })
        } else if is_negative && magnitude == isize::MAX as u128 + 1 {
            Some(isize::MIN)
        } else {
            None
        }
    }
}

#[derive(Clone, Copy)]
pub enum ValueFlaw {
    Suffix,
    Minus,
    OutOfRange,
}

pub fn is_signed(ty: IntegerType) -> bool {
    match ty {
        IntegerType::U8
        | IntegerType::U16
        | IntegerType::U32
        | IntegerType::U64
        | IntegerType::U128
        | IntegerType::Usize => false,
        _ => true,
    }
}

fn allows_suffix(suffix: &str, name: &str) -> bool {
    suffix == "" || suffix == name
}

#[inline]
pub fn integer_value<N: Integer>(
    text: &str,
    suffix_at: usize,
    magnitude: u128,
) -> Result<N, ValueFlaw> {
    if !allows_suffix(&text[suffix_at..], N::TYPE.name()) {
        return Err(ValueFlaw::Suffix);
    }
    let is_negative = is_negative(text);
    if is_negative && !is_signed(N::TYPE) {
        return Err(ValueFlaw::Minus);
    }
    match N::of_magnitude(is_negative, magnitude) {
        Some(number) => Ok(number),
        None => Err(ValueFlaw::OutOfRange),
    }
}
