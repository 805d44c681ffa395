//! Finite fields, and their elements by code.

use std::fmt;
use std::marker::PhantomData;
use std::ops::{Add, AddAssign, Mul, Neg, Sub};

/// Arithmetic on codes: whole numbers below `ORDER`, 0 for zero and 1 for one.
pub trait Field: Copy + Eq + fmt::Debug + 'static {
    /// The number of elements.
    const ORDER: u32;

    /// The code of a sum.
    fn add(a: u32, b: u32) -> u32;

    /// The code of the opposite.
    fn negate(a: u32) -> u32;

    /// The code of a product.
    fn multiply(a: u32, b: u32) -> u32;
}

/// The residues modulo a prime `P` below 2^16 + 2.
#[derive(Clone, Copy, PartialEq, Eq, Debug)]
pub struct Prime<const P: u32>;

/// GF(2).
pub type Bits = Prime<2>;

/// GF(65537).
pub type Fermat = Prime<65537>;

impl<const P: u32> Field for Prime<P> {
    const ORDER: u32 = P;

    fn add(a: u32, b: u32) -> u32 {
        let sum = a + b;
        if sum >= P { sum - P } else { sum }
    }

    fn negate(a: u32) -> u32 {
        if a == 0 { 0 } else { P - a }
    }

    fn multiply(a: u32, b: u32) -> u32 {
        (u64::from(a) * u64::from(b) % u64::from(P)) as u32
    }
}

/// GF(256): bytes as polynomials of t over GF(2), modulo t^8 + t^4 + t^3 + t + 1.
#[derive(Clone, Copy, PartialEq, Eq, Debug)]
pub struct Bytes;

/// The powers of t + 1, which go through every byte but 0, and the exponent of each byte.
struct Logarithms {
    power: [u8; 255],
    exponent: [u8; 256],
}

const LOGARITHMS: Logarithms = logarithms();

const fn logarithms() -> Logarithms {
    let mut made = Logarithms { power: [0; 255], exponent: [0; 256] };
    let mut value: u16 = 1;
    let mut i = 0;
    while i < 255 {
        made.power[i] = value as u8;
        made.exponent[value as usize] = i as u8;
        value ^= value << 1;
        if value >= 256 {
            value ^= 0b1_0001_1011;
        }
        i += 1;
    }
    made
}

impl Field for Bytes {
    const ORDER: u32 = 256;

    fn add(a: u32, b: u32) -> u32 {
        a ^ b
    }

    fn negate(a: u32) -> u32 {
        a
    }

    fn multiply(a: u32, b: u32) -> u32 {
        if a == 0 || b == 0 {
            return 0;
        }
        let exponent = |code: u32| usize::from(LOGARITHMS.exponent[code as usize]);
        u32::from(LOGARITHMS.power[(exponent(a) + exponent(b)) % 255])
    }
}

/// An element of the field `F`, held by its code.
#[derive(Clone, Copy, PartialEq, Eq)]
pub struct Element<F: Field> {
    code: u32,
    field: PhantomData<F>,
}

impl<F: Field> Element<F> {
    /// Zero.
    pub const ZERO: Self = Self::known(0);

    /// One.
    pub const ONE: Self = Self::known(1);

    const fn known(code: u32) -> Self {
        Self { code, field: PhantomData }
    }

    /// The element of a code, or nothing where the code is not below the order.
    pub fn from_code(code: u64) -> Option<Self> {
        (code < u64::from(F::ORDER)).then(|| Self::known(code as u32))
    }

    /// The code of this element.
    pub fn code(self) -> u32 {
        self.code
    }

    /// Whether this is zero.
    pub fn is_zero(self) -> bool {
        self.code == 0
    }

    /// The inverse, or nothing for zero: in a field of q elements it is the power q - 2.
    pub fn inverse(self) -> Option<Self> {
        (!self.is_zero()).then(|| self.power(F::ORDER - 2))
    }

    fn power(self, mut exponent: u32) -> Self {
        let (mut result, mut square) = (Self::ONE, self);
        while exponent > 0 {
            if exponent % 2 == 1 {
                result = result * square;
            }
            square = square * square;
            exponent /= 2;
        }
        result
    }
}

impl<F: Field> fmt::Debug for Element<F> {
    fn fmt(&self, f: &mut fmt::Formatter<'_>) -> fmt::Result {
        write!(f, "{}", self.code)
    }
}

impl<F: Field> Add for Element<F> {
    type Output = Self;
    fn add(self, other: Self) -> Self {
        Self::known(F::add(self.code, other.code))
    }
}

impl<F: Field> AddAssign for Element<F> {
    fn add_assign(&mut self, other: Self) {
        *self = *self + other;
    }
}

impl<F: Field> Neg for Element<F> {
    type Output = Self;
    fn neg(self) -> Self {
        Self::known(F::negate(self.code))
    }
}

impl<F: Field> Sub for Element<F> {
    type Output = Self;
    fn sub(self, other: Self) -> Self {
        self + -other
    }
}

impl<F: Field> Mul for Element<F> {
    type Output = Self;
    fn mul(self, other: Self) -> Self {
        Self::known(F::multiply(self.code, other.code))
    }
}

#[cfg(test)]
mod tests {
    use super::*;

    fn of<F: Field>(code: u64) -> Element<F> {
        Element::from_code(code).unwrap()
    }

    /// The product of two bytes, one bit at a time.
    fn long_product(a: u32, b: u32) -> u32 {
        let mut product = (0..8).filter(|i| b >> i & 1 == 1).fold(0, |sum, i| sum ^ (a << i));
        for i in (8..15).rev() {
            if product >> i & 1 == 1 {
                product ^= 0b1_0001_1011 << (i - 8);
            }
        }
        product
    }

    #[test]
    fn bytes_multiply_as_polynomials() {
        for a in 0..256 {
            for b in 0..256 {
                assert_eq!(Bytes::multiply(a, b), long_product(a, b));
            }
        }
        assert_eq!(Bytes::multiply(83, 202), 1);
        assert_eq!(Bytes::multiply(87, 131), 193);
    }

    #[test]
    fn inverses_multiply_to_one() {
        fn all<F: Field>() {
            assert_eq!(Element::<F>::ZERO.inverse(), None);
            for code in 1..u64::from(F::ORDER) {
                let a = of::<F>(code);
                assert_eq!(a * a.inverse().unwrap(), Element::ONE);
                assert_eq!(a + -a, Element::ZERO);
            }
        }
        all::<Bits>();
        all::<Bytes>();
        all::<Fermat>();
    }

    #[test]
    fn figures_of_the_large_field() {
        assert_eq!(of::<Fermat>(2).inverse(), Some(of(32769)));
        assert_eq!(of::<Fermat>(65536) * of(65536), of(1));
        assert_eq!(Element::<Fermat>::from_code(65537), None);
        assert_eq!(Element::<Bytes>::from_code(256), None);
        assert_eq!(Element::<Bits>::from_code(u64::MAX), None);
    }
}
