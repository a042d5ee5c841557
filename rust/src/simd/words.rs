//! Vectors of bytes as numbers, with eight lanes in a `u64`.
//!
//! For sixty-four lanes the compiler generates vector instructions if the target has some. For fewer lanes it generates 64-bit
//! instructions on every target.

use super::{HIGHEST, LOWEST};
use core::marker::PhantomData;
use core::ops::{BitAnd, BitOr, Sub};

/// The factor that moves the highest bits of eight bytes into the highest byte, in the same order.
const GATHER: u64 = 0x0002_0408_1020_4081;

/// Builds the array of numbers for `$lanes` lanes, by an expression for the number at index `$at`. The numbers beyond these lanes
/// are 0.
///
/// The items are written out, because in unoptimized builds a loop costs more, and so does each index whose bounds are tested.
macro_rules! eights {
    ($lanes:ident, $at:ident => $eight:expr) => {
        [
            eights!($lanes, $at, 0, $eight),
            eights!($lanes, $at, 1, $eight),
            eights!($lanes, $at, 2, $eight),
            eights!($lanes, $at, 3, $eight),
            eights!($lanes, $at, 4, $eight),
            eights!($lanes, $at, 5, $eight),
            eights!($lanes, $at, 6, $eight),
            eights!($lanes, $at, 7, $eight),
        ]
    };
    ($lanes:ident, $at:ident, $index:literal, $eight:expr) => {
        if $lanes > 8 * $index {
            #[allow(non_upper_case_globals)]
            const $at: usize = $index;
            $eight
        } else {
            0
        }
    };
}

// In a mask, only the highest bit of a lane's byte says whether the lane is in the set. The other bits can have any value.
lane_types!([u64; 8], eights);

impl<const N: usize> Simd<u8, N> {
    /// Creates a vector from the first `N` bytes of the slice, which must have at least `N` bytes.
    #[inline(always)]
    pub(crate) fn from_slice(bytes: &[u8]) -> Self {
        const { assert!(N % 8 == 0 && N <= 64) };
        let bytes = &bytes[..N];
        let lanes = eights!(N, at => {
            let mut eight = [0; 8];
            eight.copy_from_slice(&bytes[8 * at..8 * at + 8]);
            u64::from_le_bytes(eight)
        });
        Simd(lanes, PhantomData)
    }

    /// Creates a vector with the same byte in each lane.
    #[inline(always)]
    pub(crate) fn splat(byte: u8) -> Self {
        let eight = byte as u64 * LOWEST;
        Simd(eights!(N, _at => eight), PhantomData)
    }

    /// Returns the lanes that are equal in both vectors. A lane is equal if the exclusive or of its two bytes is 0. The addition
    /// leaves out the highest bits, so that no carry leaves a lane.
    #[inline(always)]
    pub(crate) fn simd_eq(self, other: Self) -> Mask<N> {
        Mask(eights!(N, at => {
            let left = self.0[at] ^ other.0[at];
            !(((left & !HIGHEST) + !HIGHEST) | left)
        }))
    }

    /// Returns the lanes that differ between the two vectors.
    #[inline(always)]
    pub(crate) fn simd_ne(self, other: Self) -> Mask<N> {
        let equal = self.simd_eq(other).0;
        Mask(eights!(N, at => !equal[at]))
    }

    /// Returns the lanes in which `self` is greater than or equal to `other`. The highest bits are compared first, then the lower
    /// bits by a subtraction.
    #[inline(always)]
    pub(crate) fn simd_ge(self, other: Self) -> Mask<N> {
        Mask(eights!(N, at => {
            let (a, b) = (self.0[at], other.0[at]);
            let rest = (a | HIGHEST) - (b & !HIGHEST);
            (a & !b) | (!(a ^ b) & rest)
        }))
    }
}

/// Subtracts lane by lane. Each lane wraps around on overflow.
impl<const N: usize> Sub for Simd<u8, N> {
    type Output = Self;

    #[inline(always)]
    fn sub(self, other: Self) -> Self {
        let lanes = eights!(N, at => {
            let (a, b) = (self.0[at], other.0[at]);
            // The subtraction leaves out the highest bits, so that no borrow passes from lane to lane. The next line corrects these
            // bits.
            let rest = (a | HIGHEST) - (b & !HIGHEST);
            rest ^ ((a ^ !b) & HIGHEST)
        });
        Simd(lanes, PhantomData)
    }
}

impl<const N: usize> Mask<N> {
    /// Returns a number with one bit for each lane of the mask. The first lane is the lowest bit. An empty mask is tested first.
    #[inline(always)]
    pub(crate) fn to_bitmask(self) -> u64 {
        let mut all = 0;
        let mut at = 0;
        while at < N / 8 {
            all |= self.0[at];
            at += 1;
        }
        if all & HIGHEST == 0 {
            return 0;
        }
        if N > 16 {
            self.gathered_elsewhere()
        } else {
            self.gathered()
        }
    }

    #[inline(always)]
    fn gathered(&self) -> u64 {
        let mut bits = 0;
        let mut at = 0;
        while at < N / 8 {
            let set = self.0[at] & HIGHEST;
            bits |= (set.wrapping_mul(GATHER) >> 56) << (8 * at);
            at += 1;
        }
        bits
    }

    /// Returns the mask's bits for many lanes. This function isn't inlined, so that its callers' code stays short.
    #[inline(never)]
    fn gathered_elsewhere(&self) -> u64 {
        self.gathered()
    }
}
