//! `Fixed` with the meaning that document 01 gives it under Scalar: raw i64 numbers in units of
//! 1/65536 pixel, whose sums, differences and products stop at -2^63 and 2^63 - 1.

use core::ops::{Add, Mul, Sub};

const ONE: i64 = 65_536;

#[derive(Clone, Copy, Debug, Default, PartialEq, Eq, PartialOrd, Ord)]
pub struct Fixed(i64);

impl Fixed {
    pub const ZERO: Self = Self(0);

    #[must_use]
    pub const fn from_bits(raw: i64) -> Self {
        Self(raw)
    }

    #[must_use]
    pub const fn to_bits(self) -> i64 {
        self.0
    }

    /// Times 65536; no i32 leaves the range.
    #[must_use]
    pub const fn from_int(value: i32) -> Self {
        Self(value as i64 * ONE)
    }
}

/// The exact number, stopped at both ends.
fn stopped(exact: i128) -> Fixed {
    Fixed(i64::try_from(exact).unwrap_or(if exact < 0 { i64::MIN } else { i64::MAX }))
}

impl Add for Fixed {
    type Output = Self;
    fn add(self, other: Self) -> Self {
        stopped(i128::from(self.0) + i128::from(other.0))
    }
}

impl Sub for Fixed {
    type Output = Self;
    fn sub(self, other: Self) -> Self {
        stopped(i128::from(self.0) - i128::from(other.0))
    }
}

/// Gap times count. The count comes from `from_int`, so dividing by 65536 leaves nothing over.
impl Mul for Fixed {
    type Output = Self;
    fn mul(self, count: Self) -> Self {
        stopped(i128::from(self.0) * i128::from(count.0) / i128::from(ONE))
    }
}
