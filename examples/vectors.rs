// The calls of Rifflerleek on vectors that stand in no table.

use crate::rifflerleek;
use crate::table::{given, result, Refusal};

/// A vector that stands in no table.
pub(crate) struct Bare {
    pub(crate) mask: u32,
    pub(crate) value: u32,
}

/// The bits of a product, as letters, the highest first.
pub(crate) fn product(width: u32, a: &Bare, b: &Bare) -> Result<String, Refusal> {
    let letter = |bit| {
        let (number, _) = result(unsafe { rifflerleek::rifflerleek_product_bit(width, a.mask, a.value, b.mask, b.value, bit) })?;
        Ok(if number == rifflerleek::UNKNOWN_BIT { 'X' } else if number == 1 { '1' } else { '0' })
    };
    (0..width).rev().map(letter).collect()
}

/// Two pairs of numbers: the first pair's sum has 0 at the bit, the second's has 1.
pub(crate) fn explain(width: u32, a: &Bare, b: &Bare, bit: u32) -> Result<[(u32, u32); 2], Refusal> {
    let n = unsafe { rifflerleek::rifflerleek_witnesses(rifflerleek::KIND_ADD, width, a.mask, a.value, b.mask, b.value, bit) };
    given(n.refusal, n.place, [(n.first, n.second), (n.third, n.fourth)])
}

/// Of the numbers from low to high that the vector covers: the best vector, the smallest and the largest.
pub(crate) fn range(width: u32, v: &Bare, low: u64, high: u64) -> Result<(Bare, u32, u32), Refusal> {
    let n = unsafe { rifflerleek::rifflerleek_range(width, v.mask, v.value, low, high) };
    given(n.refusal, n.place, (Bare { mask: n.first, value: n.second }, n.third, n.fourth))
}
