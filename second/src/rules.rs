//! Domains, Euclid and refusals, as docs/RULES.md states them, by plain arithmetic.

mod polynomials;
mod whole;

pub use polynomials::Polynomials;
pub use whole::Whole;

use std::fmt::{self, Debug, Display};

/// A ring with an element for every word, and its legal moduli.
pub trait Domain {
    type Element: Clone + PartialEq + Debug;

    fn zero(&self) -> Self::Element;
    fn one(&self) -> Self::Element;
    fn element(&self, word: u64) -> Self::Element;
    /// The canonical word of a remainder or of a legal modulus.
    fn canonical_word(&self, element: &Self::Element) -> u64;
    fn subtract(&self, a: &Self::Element, b: &Self::Element) -> Self::Element;
    fn multiply(&self, a: &Self::Element, b: &Self::Element) -> Self::Element;
    /// Quotient and remainder of `a` by `b`, which is not 0. By a legal modulus it is the remainder of docs/RULES.md.
    fn divide(&self, a: &Self::Element, b: &Self::Element) -> (Self::Element, Self::Element);
    /// The unit whose product with `a`, which is not 0, is normal.
    fn normalizing_unit(&self, a: &Self::Element) -> Self::Element;
    fn is_legal_modulus(&self, word: u64) -> bool;
    /// Whether the element of a legal modulus is squarefree.
    fn is_squarefree(&self, modulus: u64) -> bool;

    fn remainder(&self, a: &Self::Element, b: &Self::Element) -> Self::Element {
        self.divide(a, b).1
    }

    /// Whether `d`, which is not 0, divides `a`.
    fn divides(&self, d: &Self::Element, a: &Self::Element) -> bool {
        self.remainder(a, d) == self.zero()
    }
}

/// What Euclid answers, with canonical words.
#[derive(Debug, Clone, Copy, PartialEq, Eq)]
pub enum Euclid {
    Zero,
    Inverse(u64),
    Factor(u64),
}

impl Display for Euclid {
    fn fmt(&self, f: &mut fmt::Formatter) -> fmt::Result {
        match self {
            Euclid::Zero => write!(f, "zero"),
            Euclid::Inverse(word) => write!(f, "inverse {word}"),
            Euclid::Factor(word) => write!(f, "factor {word}"),
        }
    }
}

/// Euclid for the residue of a word modulo the element of a legal modulus, by the plain extended algorithm.
pub fn euclid<D: Domain>(domain: &D, word: u64, modulus: u64) -> Euclid {
    let m = domain.element(modulus);
    let a = domain.remainder(&domain.element(word), &m);
    if a == domain.zero() {
        return Euclid::Zero;
    }
    let (divisor, multiplier) = common_divisor(domain, &a, &m);
    let multiplier = domain.remainder(&multiplier, &m);
    assert!(
        is_greatest(domain, &divisor, &multiplier, &a, &m),
        "{divisor:?}, with {multiplier:?}, must be the greatest common divisor of {a:?} and {m:?}"
    );
    if divisor == domain.one() {
        Euclid::Inverse(domain.canonical_word(&multiplier))
    } else {
        Euclid::Factor(domain.canonical_word(&divisor))
    }
}

/// The normal greatest common divisor of a non-zero `a` and `m`, and a multiplier of `a` that gives it modulo `m`.
fn common_divisor<D: Domain>(domain: &D, a: &D::Element, m: &D::Element) -> (D::Element, D::Element) {
    // In both pairs: multiplier × a = rest, modulo m.
    let (mut rest, mut multiplier) = (m.clone(), domain.zero());
    let (mut next_rest, mut next_multiplier) = (a.clone(), domain.one());
    while next_rest != domain.zero() {
        let (quotient, remainder) = domain.divide(&rest, &next_rest);
        let reduced = domain.subtract(&multiplier, &domain.multiply(&quotient, &next_multiplier));
        (rest, next_rest) = (next_rest, remainder);
        (multiplier, next_multiplier) = (next_multiplier, reduced);
    }
    let unit = domain.normalizing_unit(&rest);
    (domain.multiply(&unit, &rest), domain.multiply(&unit, &multiplier))
}

/// Whether `divisor` divides `a` and `m`, and is `multiplier` × `a` modulo `m`; then every common divisor divides it.
fn is_greatest<D: Domain>(
    domain: &D,
    divisor: &D::Element,
    multiplier: &D::Element,
    a: &D::Element,
    m: &D::Element,
) -> bool {
    let difference = domain.subtract(&domain.multiply(multiplier, a), divisor);
    domain.divides(divisor, a) && domain.divides(divisor, m) && domain.divides(m, &difference)
}

/// A refusal: its number, its place and its reason.
#[derive(Debug, Clone, Copy, PartialEq, Eq)]
pub struct Refusal {
    pub number: u32,
    pub place: u32,
    pub reason: &'static str,
}

pub const NOT_LISTED: Refusal = Refusal { number: 8, place: 0, reason: "p is not in the list of primes" };
pub const NOT_LEGAL: Refusal = Refusal { number: 9, place: 0, reason: "the modulus is not legal" };
pub const NOT_SQUAREFREE: Refusal = Refusal { number: 10, place: 0, reason: "the modulus is not squarefree" };

impl Display for Refusal {
    fn fmt(&self, f: &mut fmt::Formatter) -> fmt::Result {
        write!(f, "refused {} place {}: {}", self.number, self.place, self.reason)
    }
}

/// Tries a modulus: first whether it is legal, then whether it is squarefree.
pub fn check_modulus<D: Domain>(domain: &D, modulus: u64) -> Result<(), Refusal> {
    if !domain.is_legal_modulus(modulus) {
        Err(NOT_LEGAL)
    } else if !domain.is_squarefree(modulus) {
        Err(NOT_SQUAREFREE)
    } else {
        Ok(())
    }
}

#[cfg(test)]
mod tests {
    use super::*;

    #[test]
    fn refusals_read_as_written() {
        assert_eq!(NOT_LISTED.to_string(), "refused 8 place 0: p is not in the list of primes");
        assert_eq!(NOT_LEGAL.to_string(), "refused 9 place 0: the modulus is not legal");
        assert_eq!(NOT_SQUAREFREE.to_string(), "refused 10 place 0: the modulus is not squarefree");
    }

    #[test]
    fn a_wrong_divisor_is_noticed() {
        assert!(is_greatest(&Whole, &2, &1, &2, &6));
        // 1 is no multiple of 2 modulo 6, 3 does not divide 2, and 2 × 2 is not 2 modulo 6.
        assert!(!is_greatest(&Whole, &1, &1, &2, &6));
        assert!(!is_greatest(&Whole, &3, &1, &2, &6));
        assert!(!is_greatest(&Whole, &2, &2, &2, &6));
    }
}
