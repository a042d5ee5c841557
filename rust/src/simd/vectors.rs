//! Vectors of bytes as arrays, with loops for which the compiler generates vector instructions.
//!
//! Every loop has sixty-four iterations. The compiler would unroll a shorter loop before it looks for vector instructions, and
//! would then generate code for single bytes. The compiler removes the computation of lanes that aren't read.

use super::LOWEST;
use core::marker::PhantomData;
use core::ops::{BitAnd, BitOr, Sub};

/// The number of items of the array, which is also the number of iterations of every loop.
const ALL: usize = 64;

/// Builds an array of `ALL` items, by an expression for the item at index `$at`. The number of lanes `$n` isn't used.
macro_rules! lanes {
    ($n:ident, $at:ident => $lane:expr) => {{
        let mut lanes = [0_u8; ALL];
        for $at in 0..ALL {
            lanes[$at] = $lane;
        }
        lanes
    }};
}

// In a mask, a lane's byte is 0xFF if the lane is in the set, and 0 otherwise.
lane_types!([u8; ALL], lanes);

/// Returns the byte of a mask for one lane.
#[inline(always)]
fn all_if(set: bool) -> u8 {
    if set {
        0xFF
    } else {
        0
    }
}

impl<const N: usize> Simd<u8, N> {
    /// Creates a vector from the first `N` bytes of the slice, which must have at least `N` bytes.
    #[inline(always)]
    pub(crate) fn from_slice(bytes: &[u8]) -> Self {
        const { assert!(N % 8 == 0 && N <= ALL) };
        let mut lanes = [0; ALL];
        lanes[..N].copy_from_slice(&bytes[..N]);
        Simd(lanes, PhantomData)
    }

    /// Creates a vector with the same byte in each lane.
    #[inline(always)]
    pub(crate) fn splat(byte: u8) -> Self {
        Simd([byte; ALL], PhantomData)
    }

    /// Returns the lanes that are equal in both vectors.
    #[inline(always)]
    pub(crate) fn simd_eq(self, other: Self) -> Mask<N> {
        Mask(lanes!(N, at => all_if(self.0[at] == other.0[at])))
    }

    /// Returns the lanes that differ between the two vectors.
    #[inline(always)]
    pub(crate) fn simd_ne(self, other: Self) -> Mask<N> {
        Mask(lanes!(N, at => all_if(self.0[at] != other.0[at])))
    }

    /// Returns the lanes in which `self` is greater than or equal to `other`.
    #[inline(always)]
    pub(crate) fn simd_ge(self, other: Self) -> Mask<N> {
        Mask(lanes!(N, at => all_if(self.0[at] >= other.0[at])))
    }
}

/// Subtracts lane by lane. Each lane wraps around on overflow.
impl<const N: usize> Sub for Simd<u8, N> {
    type Output = Self;

    #[inline(always)]
    fn sub(self, other: Self) -> Self {
        Simd(
            lanes!(N, at => self.0[at].wrapping_sub(other.0[at])),
            PhantomData,
        )
    }
}

/// Returns the eight bytes of the lanes from `8 * eighth` on as a number. The first byte is the lowest.
#[inline(always)]
fn eight_of(lanes: &[u8; ALL], eighth: usize) -> u64 {
    let mut eight = [0; 8];
    eight.copy_from_slice(&lanes[8 * eighth..8 * eighth + 8]);
    u64::from_le_bytes(eight)
}

/// Transposes eight bytes of eight bits each: bit `i` of byte `k` becomes bit `k` of byte `i`.
#[inline(always)]
fn turned(bits: u64) -> u64 {
    let swapped = |bits: u64, by: u32, which: u64| {
        let both = (bits ^ (bits >> by)) & which;
        bits ^ both ^ (both << by)
    };
    let bits = swapped(bits, 7, 0x00AA_00AA_00AA_00AA);
    let bits = swapped(bits, 14, 0x0000_CCCC_0000_CCCC);
    swapped(bits, 28, 0x0000_0000_F0F0_F0F0)
}

impl<const N: usize> Mask<N> {
    /// Returns a number with one bit for each lane of the mask. The first lane is the lowest bit.
    #[inline(always)]
    pub(crate) fn to_bitmask(self) -> u64 {
        if N > 16 {
            self.gathered()
        } else {
            self.summed()
        }
    }

    /// Returns the mask's bits for many lanes: each group of eight lanes is masked with a bit of its own, the groups are joined
    /// into eight bytes, and these bytes are transposed.
    #[inline(always)]
    fn gathered(&self) -> u64 {
        let bits = lanes!(N, at => self.0[at] & (1 << (at / 8)));
        let mut eight = 0;
        let mut at = 0;
        while at < N / 8 {
            eight |= eight_of(&bits, at);
            at += 1;
        }
        if eight == 0 {
            return 0;
        }
        turned(eight)
    }

    /// Returns the mask's bits for few lanes: in a group of eight lanes each lane is masked with a bit of its own, so that the sum
    /// of the lanes is the group's byte.
    #[inline(always)]
    fn summed(&self) -> u64 {
        let bits = lanes!(N, at => self.0[at] & (1 << (at % 8)));
        let mut all = 0;
        let mut at = 0;
        while at < N / 8 {
            all |= (eight_of(&bits, at).wrapping_mul(LOWEST) >> 56) << (8 * at);
            at += 1;
        }
        all
    }
}
