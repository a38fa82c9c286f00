//! Sums and products of single elements: numbers of `N` words, the low one first, below a modulus of at most `64 * N - 1`
//! bits, or of one word.

/// A modulus, with what products of numbers above 2^32 take.
pub struct Modulus<const N: usize> {
    pub words: [u64; N],
    /// Minus the inverse of the lowest word modulo 2^64.
    inverse: u64,
    /// 2^(128 N) modulo the modulus.
    square: [u64; N],
}

impl<const N: usize> Modulus<N> {
    pub const fn new(words: [u64; N]) -> Self {
        // Newton's steps double the number of right bits, of which an odd number has three.
        let mut inverse = words[0];
        let mut step = 0;
        while step < 5 {
            inverse = inverse.wrapping_mul(2u64.wrapping_sub(words[0].wrapping_mul(inverse)));
            step += 1;
        }
        let mut it = Modulus { words, inverse: inverse.wrapping_neg(), square: [0; N] };
        let mut power = [0; N];
        power[0] = 1;
        let mut bit = 0;
        while bit < 128 * N {
            power = it.plus(power, power);
            bit += 1;
        }
        it.square = power;
        it
    }

    pub const fn is_above(&self, a: &[u64; N]) -> bool {
        let mut i = N;
        while i > 0 {
            i -= 1;
            if a[i] != self.words[i] {
                return a[i] < self.words[i];
            }
        }
        false
    }

    /// A number below twice the modulus, of which `carry` is word `N`, less the modulus where it isn't below it.
    const fn reduced_once(&self, a: [u64; N], carry: bool) -> [u64; N] {
        if !carry && self.is_above(&a) {
            a
        } else {
            difference(a, self.words).0
        }
    }

    pub const fn plus(&self, a: [u64; N], b: [u64; N]) -> [u64; N] {
        let mut sum = [0; N];
        let mut carry = false;
        let mut i = 0;
        while i < N {
            let (part, first) = a[i].overflowing_add(b[i]);
            let (part, second) = part.overflowing_add(carry as u64);
            sum[i] = part;
            carry = first | second;
            i += 1;
        }
        self.reduced_once(sum, carry)
    }

    pub const fn minus(&self, a: [u64; N], b: [u64; N]) -> [u64; N] {
        let (less, borrow) = difference(a, b);
        if !borrow {
            return less;
        }
        // a - b + 2^(64 N), from which the modulus is as far as b - a is from it
        let (more, _) = difference(self.words, difference(b, a).0);
        more
    }

    pub const fn times(&self, a: [u64; N], b: [u64; N]) -> [u64; N] {
        if N == 1 && self.words[0] >> 32 == 0 {
            let mut product = [0; N];
            product[0] = a[0] * b[0] % self.words[0];
            return product;
        }
        self.montgomery(self.montgomery(a, b), self.square)
    }

    /// The product over 2^(64 N): a word of the sum becomes zero at each step.
    const fn montgomery(&self, a: [u64; N], b: [u64; N]) -> [u64; N] {
        let mut sum = [0; N];
        let mut over = 0;
        let mut i = 0;
        while i < N {
            let mut carry = 0;
            let mut j = 0;
            while j < N {
                let part = a[i] as u128 * b[j] as u128 + sum[j] as u128 + carry as u128;
                sum[j] = part as u64;
                carry = (part >> 64) as u64;
                j += 1;
            }
            let top = over as u128 + carry as u128;
            let factor = sum[0].wrapping_mul(self.inverse);
            let mut carry = ((factor as u128 * self.words[0] as u128 + sum[0] as u128) >> 64) as u64;
            let mut j = 1;
            while j < N {
                let part = factor as u128 * self.words[j] as u128 + sum[j] as u128 + carry as u128;
                sum[j - 1] = part as u64;
                carry = (part >> 64) as u64;
                j += 1;
            }
            let top = top + carry as u128;
            sum[N - 1] = top as u64;
            over = (top >> 64) as u64;
            i += 1;
        }
        self.reduced_once(sum, over != 0)
    }
}

/// The difference modulo 2^(64 N), and whether it is below zero.
const fn difference<const N: usize>(a: [u64; N], b: [u64; N]) -> ([u64; N], bool) {
    let mut less = [0; N];
    let mut borrow = false;
    let mut i = 0;
    while i < N {
        let (part, first) = a[i].overflowing_sub(b[i]);
        let (part, second) = part.overflowing_sub(borrow as u64);
        less[i] = part;
        borrow = first | second;
        i += 1;
    }
    (less, borrow)
}

/// The quotient by a word, and the remainder.
pub fn divided_by_word<const N: usize>(a: [u64; N], divisor: u64) -> ([u64; N], u64) {
    let mut quotient = [0; N];
    let mut rest = 0u128;
    for i in (0..N).rev() {
        let part = rest << 64 | a[i] as u128;
        quotient[i] = (part / divisor as u128) as u64;
        rest = part % divisor as u128;
    }
    (quotient, rest as u64)
}
