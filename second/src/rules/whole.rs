//! Kind 1: whole numbers.

use super::Domain;

pub struct Whole;

impl Whole {
    pub const LARGEST_MODULUS: u64 = 2_147_483_647;
}

impl Domain for Whole {
    type Element = i128;

    fn zero(&self) -> i128 {
        0
    }

    fn one(&self) -> i128 {
        1
    }

    fn element(&self, word: u64) -> i128 {
        i128::from(word)
    }

    fn canonical_word(&self, element: &i128) -> u64 {
        u64::try_from(*element).expect("a remainder or a modulus is neither negative nor past 64 bits")
    }

    fn subtract(&self, a: &i128, b: &i128) -> i128 {
        a - b
    }

    fn multiply(&self, a: &i128, b: &i128) -> i128 {
        a * b
    }

    fn divide(&self, a: &i128, b: &i128) -> (i128, i128) {
        (a.div_euclid(*b), a.rem_euclid(*b))
    }

    fn normalizing_unit(&self, a: &i128) -> i128 {
        a.signum()
    }

    fn is_legal_modulus(&self, word: u64) -> bool {
        (2..=Self::LARGEST_MODULUS).contains(&word)
    }

    /// Tries the square of every number from 2 up to the square root.
    fn is_squarefree(&self, modulus: u64) -> bool {
        (2..).map(|d: u64| d * d).take_while(|square| *square <= modulus).all(|square| !modulus.is_multiple_of(square))
    }
}

#[cfg(test)]
mod tests {
    use super::*;
    use crate::rules::{Euclid, NOT_LEGAL, NOT_SQUAREFREE, check_modulus, euclid};

    /// Euclid over whole numbers by the words of docs/RULES.md, trying every number.
    fn euclid_by_search(word: u64, modulus: u64) -> Euclid {
        let divides = |d: u64, n: u64| n.is_multiple_of(d);
        if divides(modulus, word) {
            return Euclid::Zero;
        }
        if let Some(inverse) = (0..modulus).find(|w| w * word % modulus == 1) {
            return Euclid::Inverse(inverse);
        }
        let common: Vec<u64> = (1..=modulus).filter(|d| divides(*d, word) && divides(*d, modulus)).collect();
        let greatest = common.iter().find(|g| common.iter().all(|d| divides(*d, **g)));
        Euclid::Factor(*greatest.expect("one common divisor is a multiple of all others"))
    }

    #[test]
    fn euclid_gives_the_examples() {
        assert_eq!(euclid(&Whole, 14, 7), Euclid::Zero);
        assert_eq!(euclid(&Whole, 2, 7), Euclid::Inverse(4));
        assert_eq!(euclid(&Whole, 2, 6), Euclid::Factor(2));
    }

    #[test]
    fn euclid_agrees_with_search() {
        for modulus in 2..=150 {
            for word in 0..=310 {
                assert_eq!(euclid(&Whole, word, modulus), euclid_by_search(word, modulus), "{word} modulo {modulus}");
            }
        }
    }

    #[test]
    fn euclid_handles_large_numbers() {
        // 2^31 = 1 modulo 2^31 - 1, so 2 has the inverse 2^30.
        assert_eq!(euclid(&Whole, 2, Whole::LARGEST_MODULUS), Euclid::Inverse(1 << 30));
        // 2^64 - 1 = 3 × 5 × 17 × 257 × 641 × 65537 × 6700417.
        assert_eq!(euclid(&Whole, u64::MAX, 641), Euclid::Zero);
        assert_eq!(euclid(&Whole, u64::MAX, 7 * 641), Euclid::Factor(641));
    }

    #[test]
    fn squarefree_agrees_with_prime_factors() {
        let repeats_a_prime = |number: u64| {
            let mut rest = number;
            (2..=number).any(|p| {
                let mut times = 0;
                while rest.is_multiple_of(p) {
                    rest /= p;
                    times += 1;
                }
                times > 1
            })
        };
        for number in 2..=2000 {
            assert_eq!(Whole.is_squarefree(number), !repeats_a_prime(number), "{number}");
        }
        assert!(Whole.is_squarefree(223_092_870));
        assert!(Whole.is_squarefree(Whole::LARGEST_MODULUS));
        assert!(!Whole.is_squarefree(46_337 * 46_337));
    }

    #[test]
    fn legality_is_tried_before_squarefreeness() {
        assert_eq!(check_modulus(&Whole, 0), Err(NOT_LEGAL));
        assert_eq!(check_modulus(&Whole, 1), Err(NOT_LEGAL));
        assert_eq!(check_modulus(&Whole, 2), Ok(()));
        assert_eq!(check_modulus(&Whole, 4), Err(NOT_SQUAREFREE));
        assert_eq!(check_modulus(&Whole, 2_147_483_647), Ok(()));
        assert_eq!(check_modulus(&Whole, 2_147_483_648), Err(NOT_LEGAL));
    }
}
