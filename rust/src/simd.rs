//! The part of `core::simd` that the proved code uses: vectors of bytes, whose elements are called lanes. Stable Rust doesn't have
//! `core::simd`.
//!
//! There are two implementations, with the same names and results. In `words`, eight lanes are one `u64`. In `vectors`, lanes are
//! arrays, for which the compiler generates vector instructions. In unoptimized builds, as of procedural macros, `vectors` costs
//! many times as much, and `words` costs more than the test of each byte.
//!
//! The package parses literals with `words`, or byte by byte if debug assertions are on. It skips through whole sources with
//! `vectors` if the target has vector instructions, or with `words` if debug assertions are on, and with the feature `proc-macro`.
//! The programs of this repository use `vectors` on a target with vector instructions.

/// Defines the types of one of the two implementations, as structs with an array `$items`, and their operators. `$each` builds an
/// array from an expression for one item.
macro_rules! lane_types {
    ($items:ty, $each:ident) => {
        /// A vector of `N` lanes, each a byte. `N` is a multiple of 8, from 8 to 64. The array may have more items, which aren't
        /// used.
        #[derive(Clone, Copy)]
        pub(crate) struct Simd<T, const N: usize>($items, PhantomData<T>);

        #[allow(non_camel_case_types)]
        pub(crate) type u8x16 = Simd<u8, 16>;

        /// A set of lanes among `N`, as the result of a comparison.
        #[derive(Clone, Copy)]
        pub(crate) struct Mask<const N: usize>($items);

        impl<const N: usize> BitOr for Simd<u8, N> {
            type Output = Self;

            #[inline(always)]
            fn bitor(self, other: Self) -> Self {
                Simd($each!(N, at => self.0[at] | other.0[at]), PhantomData)
            }
        }

        impl<const N: usize> BitOr for Mask<N> {
            type Output = Self;

            #[inline(always)]
            fn bitor(self, other: Self) -> Self {
                Mask($each!(N, at => self.0[at] | other.0[at]))
            }
        }

        impl<const N: usize> BitAnd for Mask<N> {
            type Output = Self;

            #[inline(always)]
            fn bitand(self, other: Self) -> Self {
                Mask($each!(N, at => self.0[at] & other.0[at]))
            }
        }
    };
}

// The target, the profile and the features of the package decide which implementation is used.
#[allow(dead_code)]
mod vectors;
#[allow(dead_code)]
mod words;

#[cfg(all(
    feature = "__rendered",
    any(target_feature = "sse2", target_feature = "neon")
))]
pub(crate) use vectors::Simd;
#[cfg(not(all(
    feature = "__rendered",
    any(target_feature = "sse2", target_feature = "neon")
)))]
pub(crate) use words::Simd;

/// The vectors for skipping through whole sources.
#[cfg(any(feature = "sources", feature = "settings"))]
pub(crate) mod wide {
    #[cfg(all(
        any(
            feature = "__rendered",
            not(any(debug_assertions, feature = "proc-macro"))
        ),
        any(target_feature = "sse2", target_feature = "neon")
    ))]
    pub(crate) use super::vectors::u8x16;
    #[cfg(not(all(
        any(
            feature = "__rendered",
            not(any(debug_assertions, feature = "proc-macro"))
        ),
        any(target_feature = "sse2", target_feature = "neon")
    )))]
    pub(crate) use super::words::u8x16;
}

/// The number in which only the lowest bit of each of the eight bytes is set.
const LOWEST: u64 = 0x0101_0101_0101_0101;

/// The number in which only the highest bit of each of the eight bytes is set.
const HIGHEST: u64 = LOWEST << 7;

#[cfg(test)]
mod tests {
    use std::vec::Vec;

    /// A generator of pseudorandom numbers. The field is its state.
    struct Numbers(u64);

    impl Numbers {
        fn next(&mut self) -> u8 {
            self.0 = self
                .0
                .wrapping_mul(6364136223846793005)
                .wrapping_add(1442695040888963407);
            (self.0 >> 56) as u8
        }

        /// Returns random bytes that are often equal to each other, and often near 128, the smallest byte whose highest bit is set.
        fn bytes(&mut self, count: usize) -> Vec<u8> {
            let byte = |_| match self.next() % 3 {
                0 => self.next(),
                _ => self.next() % 7 + 124,
            };
            (0..count).map(byte).collect()
        }
    }

    /// Returns a number with one bit for each lane. A bit is set if `holds` returns `true` for the lane's index.
    fn bits<const N: usize>(holds: impl Fn(usize) -> bool) -> u64 {
        (0..N)
            .filter(|at| holds(*at))
            .fold(0, |bits, at| bits | 1 << at)
    }

    /// The tests of one of the two implementations.
    macro_rules! tests_of {
        ($lanes:ident) => {
            mod $lanes {
                use super::super::$lanes::{u8x16, Simd};
                use super::{bits, Numbers};

                fn compares<const N: usize>(x: &[u8], y: &[u8]) {
                    let (a, b) = (Simd::<u8, N>::from_slice(x), Simd::<u8, N>::from_slice(y));
                    let equal = bits::<N>(|at| x[at] == y[at]);
                    assert_eq!(a.simd_eq(b).to_bitmask(), equal);
                    assert_eq!(a.simd_ne(b).to_bitmask(), !equal & bits::<N>(|_| true));
                    let at_least = bits::<N>(|at| x[at] >= y[at]);
                    assert_eq!(a.simd_ge(b).to_bitmask(), at_least);
                    assert_eq!((a.simd_eq(b) | a.simd_ge(b)).to_bitmask(), at_least);
                    assert_eq!((a.simd_eq(b) & a.simd_ge(b)).to_bitmask(), equal);
                    let (sum, difference) = (a | b, a - b);
                    let or: [u8; N] = core::array::from_fn(|at| x[at] | y[at]);
                    let minus: [u8; N] = core::array::from_fn(|at| x[at].wrapping_sub(y[at]));
                    let all = bits::<N>(|_| true);
                    assert_eq!(sum.simd_eq(Simd::from_slice(&or)).to_bitmask(), all);
                    assert_eq!(
                        difference.simd_eq(Simd::from_slice(&minus)).to_bitmask(),
                        all
                    );
                }

                fn masks_agree<const N: usize>(x: &[u8], y: &[u8], byte: u8) {
                    let (a, b) = (Simd::<u8, N>::from_slice(x), Simd::<u8, N>::from_slice(y));
                    let neither = a.simd_ne(b) & a.simd_ge(Simd::splat(byte));
                    let wanted = bits::<N>(|at| x[at] != y[at] && x[at] >= byte);
                    assert_eq!(neither.to_bitmask(), wanted);
                    let either = a.simd_eq(b) | b.simd_ge(Simd::splat(byte));
                    let wanted = bits::<N>(|at| x[at] == y[at] || y[at] >= byte);
                    assert_eq!(either.to_bitmask(), wanted);
                    let wanted = bits::<N>(|at| x[at].wrapping_sub(y[at]) == byte);
                    assert_eq!((a - b).simd_eq(Simd::splat(byte)).to_bitmask(), wanted);
                    let wanted = bits::<N>(|at| x[at] | y[at] == byte);
                    assert_eq!((a | b).simd_eq(Simd::splat(byte)).to_bitmask(), wanted);
                }

                /// Compares each pair of bytes, each in some lane.
                fn every_pair<const N: usize>() {
                    for first in 0..=255_u8 {
                        for from in (0..256).step_by(N) {
                            let second: [u8; N] = core::array::from_fn(|at| (from + at) as u8);
                            compares::<N>(&[first; N], &second);
                            compares::<N>(&second, &[first; N]);
                        }
                    }
                }

                /// Tests each set of one lane, each set of all lanes but one, and each set among eight neighbouring lanes.
                fn every_lane<const N: usize>() {
                    for at in 0..N {
                        let mut row = [0; N];
                        row[at] = 9;
                        let lanes = Simd::<u8, N>::from_slice(&row);
                        assert_eq!(lanes.simd_eq(Simd::splat(9)).to_bitmask(), 1 << at);
                        let others = !(1 << at) & bits::<N>(|_| true);
                        assert_eq!(lanes.simd_ne(Simd::splat(9)).to_bitmask(), others);
                    }
                    for from in (0..N).step_by(8) {
                        for set in 0..256_u64 {
                            let mut row = [0; N];
                            (0..8).for_each(|at| row[from + at] = (set >> at) as u8 & 1);
                            let lanes = Simd::<u8, N>::from_slice(&row);
                            assert_eq!(lanes.simd_eq(Simd::splat(1)).to_bitmask(), set << from);
                        }
                    }
                }

                fn lanes_agree<const N: usize>(seed: u64) {
                    every_pair::<N>();
                    every_lane::<N>();
                    let mut numbers = Numbers(seed);
                    for _ in 0..2000 {
                        // The slice `x` has three bytes more than a vector of `N` lanes holds. The vector code doesn't read these bytes.
                        let (x, y) = (numbers.bytes(N + 3), numbers.bytes(N));
                        compares::<N>(&x, &y);
                        for byte in [0, 5, 100, 127, 128, 255] {
                            masks_agree::<N>(&x, &y, byte);
                        }
                    }
                }

                #[test]
                fn bits_are_those_of_the_lanes() {
                    lanes_agree::<8>(1);
                    lanes_agree::<16>(2);
                    lanes_agree::<32>(3);
                    lanes_agree::<64>(4);
                }

                #[test]
                fn sixteen_have_a_name() {
                    let lanes = u8x16::from_slice(b"0123456789abcdef");
                    assert_eq!(lanes.simd_ge(u8x16::splat(b'a')).to_bitmask(), 0xFC00);
                }

                #[test]
                #[should_panic]
                fn too_few_bytes_are_no_lanes() {
                    u8x16::from_slice(&[0; 15]);
                }
            }
        };
    }

    tests_of!(vectors);
    tests_of!(words);
}
