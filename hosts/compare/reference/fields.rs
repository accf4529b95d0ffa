//! The three fields.

/// How the codes of a field are reckoned with.
#[derive(Clone, Copy, PartialEq, Eq, Debug)]
enum Codes {
    /// Polynomials over two elements, of a degree below the width.
    Binary { width: u32, polynomial: u32 },
    /// Whole numbers modulo q.
    Whole,
}

#[derive(Clone, Copy, PartialEq, Eq, Debug)]
pub struct Field {
    pub name: &'static str,
    pub q: u32,
    /// K, the most pages that a job may have.
    pub places: usize,
    pub alpha: u32,
    codes: Codes,
}

pub const SMALL: Field = Field {
    name: "small",
    q: 256,
    places: 255,
    alpha: 2,
    codes: Codes::Binary { width: 8, polynomial: 285 },
};
pub const WIDE: Field = Field {
    name: "wide",
    q: 65_536,
    places: 1_920,
    alpha: 2,
    codes: Codes::Binary {
        width: 16,
        polynomial: 69_643,
    },
};
pub const PRIME: Field = Field {
    name: "prime",
    q: 65_537,
    places: 1_920,
    alpha: 3,
    codes: Codes::Whole,
};

/// The field with this number in the calls from C.
pub fn numbered(number: u32) -> Option<Field> {
    [SMALL, WIDE, PRIME].get((number as usize).checked_sub(1)?).copied()
}

impl Field {
    /// The code that a word counts as.
    pub fn code(&self, word: u32) -> u32 {
        word % self.q
    }

    pub fn most_pages(&self) -> usize {
        self.places.min(1_920)
    }

    pub fn sum(&self, a: u32, b: u32) -> u32 {
        match self.codes {
            Codes::Binary { .. } => a ^ b,
            Codes::Whole => (a + b) % self.q,
        }
    }

    pub fn difference(&self, a: u32, b: u32) -> u32 {
        match self.codes {
            Codes::Binary { .. } => a ^ b,
            Codes::Whole => (a + self.q - b) % self.q,
        }
    }

    pub fn negative(&self, a: u32) -> u32 {
        self.difference(0, a)
    }

    pub fn product(&self, a: u32, b: u32) -> u32 {
        match self.codes {
            Codes::Binary { width, polynomial } => remainder(long_product(a, b, width), width, polynomial),
            Codes::Whole => (u64::from(a) * u64::from(b) % u64::from(self.q)) as u32,
        }
    }

    /// By Euclid's algorithm; the inverse of 0 is 0.
    pub fn inverse(&self, a: u32) -> u32 {
        if a == 0 {
            return 0;
        }
        match self.codes {
            Codes::Binary { polynomial, .. } => {
                let (mut r0, mut r1, mut s0, mut s1) = (polynomial, a, 0u32, 1u32);
                while r1 != 1 {
                    let mut quotient_times_s1 = 0;
                    while r0 != 0 && degree(r0) >= degree(r1) {
                        let shift = degree(r0) - degree(r1);
                        r0 ^= r1 << shift;
                        quotient_times_s1 ^= s1 << shift;
                    }
                    (r0, r1, s0, s1) = (r1, r0, s1, s0 ^ quotient_times_s1);
                }
                s1
            }
            Codes::Whole => {
                let (mut r0, mut r1, mut s0, mut s1) = (i64::from(self.q), i64::from(a), 0i64, 1i64);
                while r1 != 0 {
                    let quotient = r0 / r1;
                    (r0, r1) = (r1, r0 - quotient * r1);
                    (s0, s1) = (s1, s0 - quotient * s1);
                }
                s0.rem_euclid(i64::from(self.q)) as u32
            }
        }
    }

    /// By squaring.
    pub fn power(&self, base: u32, exponent: usize) -> u32 {
        let (mut result, mut square, mut left) = (1, base, exponent);
        while left > 0 {
            if left % 2 == 1 {
                result = self.product(result, square);
            }
            square = self.product(square, square);
            left /= 2;
        }
        result
    }
}

fn degree(polynomial: u32) -> u32 {
    31 - polynomial.leading_zeros()
}

/// The product of two polynomials, not reduced.
fn long_product(a: u32, b: u32, width: u32) -> u32 {
    let mut product = 0;
    for i in 0..width {
        product ^= (a << i) & (b >> i & 1).wrapping_neg();
    }
    product
}

/// What long division by the polynomial leaves.
fn remainder(product: u32, width: u32, polynomial: u32) -> u32 {
    let mut left = product;
    for i in (0..width - 1).rev() {
        left ^= (polynomial << i) & (left >> (i + width) & 1).wrapping_neg();
    }
    left
}
