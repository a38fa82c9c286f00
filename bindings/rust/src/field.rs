//! The fields and their elements.

use crate::arithmetic::{divided_by_word, Modulus};
use crate::calls;
use std::cmp::Ordering;
use std::error::Error;
use std::fmt::{self, Debug, Display};
use std::hash::Hash;
use std::iter::{Product, Sum};
use std::ops::{Add, AddAssign, Div, DivAssign, Mul, MulAssign, Neg, Sub, SubAssign};
use std::ptr;
use std::str::FromStr;

mod sealed {
    /// # Safety
    ///
    /// The type has the layout of `WORDS` words, which are a number below the modulus of the library's field `NAME`, the low
    /// one first.
    pub unsafe trait Element: Copy {
        const NAME: u64;
        const WORDS: usize;
    }
}

pub(crate) use sealed::Element;

/// The words of elements, where they stand.
pub(crate) fn words<F: Element>(elements: &[F]) -> &[u64] {
    // SAFETY: an element is `WORDS` words.
    unsafe { std::slice::from_raw_parts(elements.as_ptr().cast(), elements.len() * F::WORDS) }
}

/// The same to be written by the library, which leaves numbers below the modulus.
pub(crate) fn words_mut<F: Element>(elements: &mut [F]) -> &mut [u64] {
    // SAFETY: as above.
    unsafe { std::slice::from_raw_parts_mut(elements.as_mut_ptr().cast(), elements.len() * F::WORDS) }
}

/// So many zeros. The memory comes as zeros, so that nothing is written: its pages are made where they are first used, by each
/// thread its own.
pub(crate) fn zeros<F: Element>(n: usize) -> Vec<F> {
    let words = Box::into_raw(vec![0u64; n * F::WORDS].into_boxed_slice());
    // SAFETY: an element is `WORDS` words, so that the block is as large and as aligned as one of `n` elements, and 0 is below
    // every modulus.
    unsafe { Box::from_raw(ptr::slice_from_raw_parts_mut(words.cast::<F>(), n)) }.into_vec()
}

/// A prime field. Its elements are numbers below the prime.
pub trait Field:
    Element
    + Copy
    + Debug
    + Display
    + Default
    + Eq
    + Ord
    + Hash
    + Send
    + Sync
    + Unpin
    + 'static
    + From<u8>
    + From<u16>
    + From<u32>
    + From<u64>
    + From<u128>
    + From<i32>
    + From<i64>
    + From<bool>
    + FromStr<Err = ParseFieldError>
    + Neg<Output = Self>
    + Add<Output = Self>
    + Sub<Output = Self>
    + Mul<Output = Self>
    + Div<Output = Self>
    + for<'a> Add<&'a Self, Output = Self>
    + for<'a> Sub<&'a Self, Output = Self>
    + for<'a> Mul<&'a Self, Output = Self>
    + for<'a> Div<&'a Self, Output = Self>
    + AddAssign
    + SubAssign
    + MulAssign
    + DivAssign
    + for<'a> AddAssign<&'a Self>
    + for<'a> SubAssign<&'a Self>
    + for<'a> MulAssign<&'a Self>
    + for<'a> DivAssign<&'a Self>
    + Sum
    + Product
    + for<'a> Sum<&'a Self>
    + for<'a> Product<&'a Self>
{
    /// 0.
    const ZERO: Self;
    /// 1.
    const ONE: Self;
    /// The prime's words, the low one first.
    const MODULUS: &'static [u64];

    /// 0.
    fn zero() -> Self {
        Self::ZERO
    }

    /// 1.
    fn one() -> Self {
        Self::ONE
    }

    /// Whether it is 0.
    fn is_zero(&self) -> bool {
        *self == Self::ZERO
    }

    /// Whether it is 1.
    fn is_one(&self) -> bool {
        *self == Self::ONE
    }

    /// Twice the element.
    fn double(&self) -> Self {
        *self + *self
    }

    /// The element's square.
    fn square(&self) -> Self {
        *self * *self
    }

    /// The element's power; the exponent's words have the low one first.
    ///
    /// ```
    /// use ark_poly_proved::{F65537, Field};
    ///
    /// assert_eq!(F65537::from(3).pow([65536]), F65537::one());
    /// ```
    fn pow<S: AsRef<[u64]>>(&self, exponent: S) -> Self {
        let bits = exponent.as_ref().iter().rev().flat_map(|word| (0..64).rev().map(move |i| word >> i & 1 == 1));
        bits.skip_while(|bit| !bit).fold(Self::ONE, |power, bit| {
            let square = power.square();
            if bit {
                square * *self
            } else {
                square
            }
        })
    }

    /// The element's inverse, and `None` of 0. It is a quotient of the library.
    fn inverse(&self) -> Option<Self> {
        let (mut quotient, mut remainder) = ([Self::ZERO], [Self::ZERO]);
        let (one, this) = ([Self::ONE], [*self]);
        calls::divide(Self::NAME, words(&one), words(&this), words_mut(&mut quotient), words_mut(&mut remainder))
            .ok()?;
        Some(quotient[0])
    }

    /// The number's words, the low one first.
    fn to_words(&self) -> Vec<u64> {
        words(std::slice::from_ref(self)).to_vec()
    }

    /// The element of these words, and `None` where they aren't as many as an element has, or the number isn't below the
    /// prime.
    fn from_words(words: &[u64]) -> Option<Self>;
}

/// A field with a generator of its units, whose powers are the roots of unity of domains.
pub trait FftField: Field {
    /// The generator.
    const GENERATOR: Self;
    /// The greatest power of two that divides the prime less one is 2 to this.
    const TWO_ADICITY: u32;

    /// The generator's power that is a root of unity of order `2^TWO_ADICITY`.
    fn two_adic_root_of_unity() -> Self {
        Self::get_root_of_unity(1 << Self::TWO_ADICITY).unwrap()
    }

    /// The root of unity of order `n`, a power of two: the generator's power `(p - 1) / n`.
    fn get_root_of_unity(n: u64) -> Option<Self> {
        let log = n.trailing_zeros();
        if !n.is_power_of_two() || log > Self::TWO_ADICITY {
            return None;
        }
        if n == 1 {
            return Some(Self::ONE);
        }
        // The prime is odd: without its last bits it is the prime less one without them.
        let p = Self::MODULUS;
        let shifted = |i: usize| p[i] >> log | p.get(i + 1).map_or(0, |word| word << (64 - log));
        Some(Self::GENERATOR.pow((0..p.len()).map(shifted).collect::<Vec<_>>()))
    }
}

/// A text is no number: an element is one or more decimal digits.
#[derive(Clone, Copy, Debug, PartialEq, Eq)]
pub struct ParseFieldError;

impl Display for ParseFieldError {
    fn fmt(&self, f: &mut fmt::Formatter<'_>) -> fmt::Result {
        f.write_str("no number in decimal digits")
    }
}

impl Error for ParseFieldError {}

macro_rules! operator {
    ($field:ident, $op:ident $name:ident, $op_assign:ident $name_assign:ident, $body:expr) => {
        impl $op for $field {
            type Output = $field;

            fn $name(self, other: $field) -> $field {
                let body: fn($field, $field) -> $field = $body;
                body(self, other)
            }
        }

        impl $op<&$field> for $field {
            type Output = $field;

            fn $name(self, other: &$field) -> $field {
                $op::$name(self, *other)
            }
        }

        impl $op_assign for $field {
            fn $name_assign(&mut self, other: $field) {
                *self = $op::$name(*self, other);
            }
        }

        impl $op_assign<&$field> for $field {
            fn $name_assign(&mut self, other: &$field) {
                *self = $op::$name(*self, *other);
            }
        }
    };
}

macro_rules! from_numbers {
    ($field:ident: unsigned $($unsigned:ident)*; signed $($signed:ident)*) => {
        $(impl From<$unsigned> for $field {
            fn from(number: $unsigned) -> Self {
                $field::of(number as u128)
            }
        })*

        $(impl From<$signed> for $field {
            fn from(number: $signed) -> Self {
                let element = $field::of(number.unsigned_abs() as u128);
                if number < 0 { -element } else { element }
            }
        })*
    };
}

macro_rules! prime_field {
    ($(#[$doc:meta])* $field:ident, $words:literal, $name:literal, $modulus:expr, $generator:literal, $two_adicity:literal) => {
        $(#[$doc])*
        #[derive(Clone, Copy, PartialEq, Eq, Hash, Default)]
        #[repr(transparent)]
        pub struct $field([u64; $words]);

        impl $field {
            const P: Modulus<$words> = Modulus::new($modulus);

            const fn small(number: u64) -> Self {
                let mut words = [0; $words];
                words[0] = number;
                $field(words)
            }

            fn of(number: u128) -> Self {
                if $words == 1 {
                    return $field::small((number % $field::P.words[0] as u128) as u64);
                }
                let mut element = $field::small(number as u64);
                element.0[1..].iter_mut().take(1).for_each(|word| *word = (number >> 64) as u64);
                element
            }
        }

        // SAFETY: it is transparent over its words, which every function leaves below the modulus.
        unsafe impl Element for $field {
            const NAME: u64 = $name;
            const WORDS: usize = $words;
        }

        impl Field for $field {
            const ZERO: Self = $field::small(0);
            const ONE: Self = $field::small(1);
            const MODULUS: &'static [u64] = &$field::P.words;

            fn from_words(words: &[u64]) -> Option<Self> {
                let words = words.try_into().ok()?;
                $field::P.is_above(&words).then_some($field(words))
            }
        }

        impl FftField for $field {
            const GENERATOR: Self = $field::small($generator);
            const TWO_ADICITY: u32 = $two_adicity;
        }

        operator!($field, Add add, AddAssign add_assign, |a, b| $field($field::P.plus(a.0, b.0)));
        operator!($field, Sub sub, SubAssign sub_assign, |a, b| $field($field::P.minus(a.0, b.0)));
        operator!($field, Mul mul, MulAssign mul_assign, |a, b| $field($field::P.times(a.0, b.0)));
        operator!($field, Div div, DivAssign div_assign, |a, b| a * b.inverse().expect("division by zero"));
        from_numbers!($field: unsigned u8 u16 u32 u64 u128 usize bool; signed i8 i16 i32 i64 i128);

        impl Neg for $field {
            type Output = $field;

            fn neg(self) -> $field {
                $field::ZERO - self
            }
        }

        impl Sum for $field {
            fn sum<I: Iterator<Item = $field>>(elements: I) -> $field {
                elements.fold($field::ZERO, |sum, element| sum + element)
            }
        }

        impl<'a> Sum<&'a $field> for $field {
            fn sum<I: Iterator<Item = &'a $field>>(elements: I) -> $field {
                elements.copied().sum()
            }
        }

        impl Product for $field {
            fn product<I: Iterator<Item = $field>>(elements: I) -> $field {
                elements.fold($field::ONE, |product, element| product * element)
            }
        }

        impl<'a> Product<&'a $field> for $field {
            fn product<I: Iterator<Item = &'a $field>>(elements: I) -> $field {
                elements.copied().product()
            }
        }

        // By the numbers.
        impl Ord for $field {
            fn cmp(&self, other: &$field) -> Ordering {
                self.0.iter().rev().cmp(other.0.iter().rev())
            }
        }

        impl PartialOrd for $field {
            fn partial_cmp(&self, other: &$field) -> Option<Ordering> {
                Some(self.cmp(other))
            }
        }

        /// The number in decimal.
        impl Display for $field {
            fn fmt(&self, f: &mut fmt::Formatter<'_>) -> fmt::Result {
                const PART: u64 = 10_000_000_000_000_000_000;
                let (mut rest, mut parts) = (self.0, Vec::new());
                while rest.iter().any(|word| *word != 0) {
                    let (quotient, part) = divided_by_word(rest, PART);
                    parts.push(part);
                    rest = quotient;
                }
                let mut text = parts.pop().unwrap_or(0).to_string();
                for part in parts.iter().rev() {
                    text.push_str(&format!("{part:019}"));
                }
                f.pad_integral(true, "", &text)
            }
        }

        impl Debug for $field {
            fn fmt(&self, f: &mut fmt::Formatter<'_>) -> fmt::Result {
                Display::fmt(self, f)
            }
        }

        /// The element of the number that the text spells in decimal, of any length.
        impl FromStr for $field {
            type Err = ParseFieldError;

            fn from_str(text: &str) -> Result<Self, ParseFieldError> {
                if text.is_empty() {
                    return Err(ParseFieldError);
                }
                text.chars().try_fold($field::ZERO, |number, digit| {
                    let digit = digit.to_digit(10).ok_or(ParseFieldError)?;
                    Ok(number * $field::from(10u8) + $field::from(digit))
                })
            }
        }
    };
}

prime_field! {
    /// The field of 65537 = 2^16 + 1 elements.
    F65537, 1, 65537, [65537], 3, 16
}

prime_field! {
    /// The field of 2013265921 = 15 * 2^27 + 1 elements.
    BabyBear, 1, 2013265921, [2013265921], 31, 27
}

prime_field! {
    /// The field of 2130706433 = 127 * 2^24 + 1 elements.
    KoalaBear, 1, 2130706433, [2130706433], 3, 24
}

prime_field! {
    /// The field of 18446744069414584321 = 2^64 - 2^32 + 1 elements.
    Goldilocks, 1, 18446744069414584321, [18446744069414584321], 7, 32
}

prime_field! {
    /// The scalars of the curve BLS12-381.
    Bls12_381Fr, 4, 12381,
    [0xffffffff00000001, 0x53bda402fffe5bfe, 0x3339d80809a1d805, 0x73eda753299d7d48], 7, 32
}

prime_field! {
    /// The scalars of the curve BN254.
    Bn254Fr, 4, 254,
    [0x43e1f593f0000001, 0x2833e84879b97091, 0xb85045b68181585d, 0x30644e72e131a029], 5, 28
}
