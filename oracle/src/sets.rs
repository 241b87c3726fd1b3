//! Small sets of numbers, kept as bits.

/// Keys: bit k for key k.
pub type KeySet = u64;
/// Sites: bit s for site s.
pub type SiteSet = u16;
/// Transactions, by number or by rank.
pub type TxnSet = u128;

pub trait Set: Copy {
    /// The set of `n` alone; empty if `n` is beyond the width.
    fn one(n: usize) -> Self;
    fn has(self, n: usize) -> bool;
    fn add(&mut self, n: usize);
    fn remove(&mut self, n: usize);
    /// The lowest member.
    fn first(self) -> Option<usize>;
    /// The members, lowest first.
    fn members(self) -> Members<Self> {
        Members(self)
    }
}

macro_rules! set_of_bits {
    ($bits:ty) => {
        impl Set for $bits {
            fn one(n: usize) -> Self {
                <$bits>::checked_shl(1, n as u32).unwrap_or(0)
            }
            fn has(self, n: usize) -> bool {
                self & Self::one(n) != 0
            }
            fn add(&mut self, n: usize) {
                *self |= Self::one(n);
            }
            fn remove(&mut self, n: usize) {
                *self &= !Self::one(n);
            }
            fn first(self) -> Option<usize> {
                (self != 0).then(|| self.trailing_zeros() as usize)
            }
        }
    };
}

set_of_bits!(u16);
set_of_bits!(u64);
set_of_bits!(u128);

pub struct Members<S>(S);

impl<S: Set> Iterator for Members<S> {
    type Item = usize;

    fn next(&mut self) -> Option<usize> {
        let n = self.0.first()?;
        self.0.remove(n);
        Some(n)
    }
}
