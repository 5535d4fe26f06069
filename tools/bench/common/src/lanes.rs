//! One word for each car of a group, all in one vector: four words, or eight if this is compiled with the feature
//! `wide` and for AVX2.

use std::mem::transmute;

#[cfg(not(all(feature = "wide", target_feature = "avx2")))]
use std::arch::x86_64::{
    __m128i as Vector, _mm_add_epi32 as add, _mm_or_si128 as or, _mm_set1_epi32 as all,
    _mm_slli_epi32 as left, _mm_srli_epi32 as right, _mm_xor_si128 as xor,
};
#[cfg(all(feature = "wide", target_feature = "avx2"))]
use std::arch::x86_64::{
    __m256i as Vector, _mm256_add_epi32 as add, _mm256_or_si256 as or, _mm256_set1_epi32 as all,
    _mm256_slli_epi32 as left, _mm256_srli_epi32 as right, _mm256_xor_si256 as xor,
};

/// The number of cars whose random words are computed in parallel.
pub const GROUP: usize = size_of::<Vector>() / size_of::<u32>();

#[derive(Clone, Copy)]
pub struct Lanes(Vector);

// SAFETY, of each call here: this vector type is used only if the program is compiled for machines that have it. It
// has the size of its words, and each bit pattern is a valid word.
impl Lanes {
    #[inline(always)]
    pub fn all(word: u32) -> Self {
        Lanes(unsafe { all(word as i32) })
    }

    #[inline(always)]
    pub fn of(words: [u32; GROUP]) -> Self {
        Lanes(unsafe { transmute::<[u32; GROUP], Vector>(words) })
    }

    #[inline(always)]
    pub fn words(self) -> [u32; GROUP] {
        unsafe { transmute::<Vector, [u32; GROUP]>(self.0) }
    }

    #[inline(always)]
    pub fn plus(self, other: Self) -> Self {
        Lanes(unsafe { add(self.0, other.0) })
    }

    /// The exclusive or of two words, rotated by LEFT to the left; RIGHT is 32 - LEFT.
    #[inline(always)]
    pub fn xor_rotated<const LEFT: i32, const RIGHT: i32>(self, other: Self) -> Self {
        unsafe {
            let x = xor(self.0, other.0);
            Lanes(or(left::<LEFT>(x), right::<RIGHT>(x)))
        }
    }
}
