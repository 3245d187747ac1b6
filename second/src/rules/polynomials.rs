//! Kinds 2 and 3: polynomials over GF(p), as lists of coefficients.

use super::{Domain, NOT_LISTED, Refusal};

/// The coefficients from the constant one up, each below p, the last one not 0. The polynomial 0 has none.
pub type Coefficients = Vec<u64>;

/// So many square divisors at most are tried one by one.
const MOST_SQUARES_TRIED: u64 = 1_000;

/// Polynomials over GF(p), and how their coefficients lie in a word.
#[derive(Debug, Clone, PartialEq, Eq)]
pub struct Polynomials {
    p: u64,
    /// How many bits of a word hold one coefficient.
    width: u32,
    largest_degree: usize,
}

impl Polynomials {
    /// Kind 2: bit polynomials.
    pub const BITS: Polynomials = Polynomials { p: 2, width: 1, largest_degree: 31 };

    /// Kind 3: byte polynomials, for one of the primes from 3 to 251.
    pub fn bytes(p: u64) -> Result<Self, Refusal> {
        let is_listed = (3..=251).contains(&p) && (2..p).all(|d| !p.is_multiple_of(d));
        if is_listed { Ok(Polynomials { p, width: 8, largest_degree: 7 }) } else { Err(NOT_LISTED) }
    }

    pub fn p(&self) -> u64 {
        self.p
    }

    /// The largest degree of a legal modulus.
    pub fn largest_degree(&self) -> usize {
        self.largest_degree
    }

    /// How many coefficients a word holds.
    pub fn places(&self) -> usize {
        (u64::BITS / self.width) as usize
    }

    /// All polynomials of this degree with the leading coefficient 1.
    pub fn monics(&self, degree: usize) -> impl Iterator<Item = Coefficients> {
        self.below(degree).map(move |mut coefficients| {
            coefficients.resize(degree, 0);
            coefficients.push(1);
            coefficients
        })
    }

    /// All polynomials of a degree below this one, and 0.
    pub fn below(&self, degree: usize) -> impl Iterator<Item = Coefficients> {
        let digit = |number: u64, place: usize| number / self.p.pow(place as u32) % self.p;
        (0..self.p.pow(degree as u32))
            .map(move |number| trimmed((0..degree).map(|place| digit(number, place)).collect()))
    }

    /// The inverse of a coefficient that is not 0.
    fn inverse(&self, coefficient: u64) -> u64 {
        (1..self.p).find(|other| coefficient * other % self.p == 1).expect("modulo a prime all but 0 have inverses")
    }

    /// Tries the square of every polynomial of up to half the degree, with the leading coefficient 1.
    fn has_no_square_divisor(&self, f: &Coefficients) -> bool {
        let half = (f.len() - 1) / 2;
        (1..=half).flat_map(|degree| self.monics(degree)).all(|d| !self.divides(&self.multiply(&d, &d), f))
    }

    /// Whether only multiples of f have a p-th power that f divides. It is so exactly when f is squarefree:
    ///
    /// - If d × d divides f, with d no unit, then f / d is no multiple of f, but f divides its square.
    /// - If f is squarefree and divides the power, then each irreducible divisor of f divides the base, and so does f.
    ///
    /// Modulo f and p, the p-th power of a sum of c × x^i is the sum of c × x^(i × p). So none but 0 has the power 0
    /// exactly when the remainders of these powers of x, for i below the degree, are independent.
    fn has_no_root_of_zero(&self, f: &Coefficients) -> bool {
        let times = |a: &Coefficients, b: &Coefficients| self.remainder(&self.multiply(a, b), f);
        let x_to_p = (0..self.p).fold(vec![1], |power, _| times(&power, &vec![0, 1]));
        let mut powers = vec![vec![1]];
        for i in 1..f.len() - 1 {
            powers.push(times(&powers[i - 1], &x_to_p));
        }
        self.are_independent(powers)
    }

    /// Whether no sum of multiples by coefficients, not all of them 0, is 0. By elimination.
    fn are_independent(&self, mut polynomials: Vec<Coefficients>) -> bool {
        while let Some(pivot) = polynomials.pop() {
            let Some(last) = pivot.last() else { return false };
            let inverse = self.inverse(*last);
            for other in &mut polynomials {
                let place = other.get(pivot.len() - 1).copied().unwrap_or(0);
                *other = self.subtract(other, &self.multiply(&pivot, &trimmed(vec![place * inverse % self.p])));
            }
        }
        true
    }
}

fn trimmed(mut coefficients: Coefficients) -> Coefficients {
    while coefficients.last() == Some(&0) {
        coefficients.pop();
    }
    coefficients
}

impl Domain for Polynomials {
    type Element = Coefficients;

    fn zero(&self) -> Coefficients {
        vec![]
    }

    fn one(&self) -> Coefficients {
        vec![1]
    }

    fn element(&self, word: u64) -> Coefficients {
        let part = |place: usize| word / (1 << (place as u32 * self.width)) % (1 << self.width);
        trimmed((0..self.places()).map(|place| part(place) % self.p).collect())
    }

    fn canonical_word(&self, element: &Coefficients) -> u64 {
        assert!(element.len() <= self.places(), "a remainder or a modulus has its coefficients in a word");
        element.iter().enumerate().map(|(place, coefficient)| coefficient << (place as u32 * self.width)).sum()
    }

    fn subtract(&self, a: &Coefficients, b: &Coefficients) -> Coefficients {
        let at = |c: &Coefficients, place: usize| c.get(place).copied().unwrap_or(0);
        let length = a.len().max(b.len());
        trimmed((0..length).map(|place| (at(a, place) + self.p - at(b, place)) % self.p).collect())
    }

    fn multiply(&self, a: &Coefficients, b: &Coefficients) -> Coefficients {
        let mut product = vec![0; a.len() + b.len()];
        for (i, left) in a.iter().enumerate() {
            for (j, right) in b.iter().enumerate() {
                product[i + j] = (product[i + j] + left * right) % self.p;
            }
        }
        trimmed(product)
    }

    /// Long division: takes the leading coefficient of the rest away until the rest is shorter than `b`.
    fn divide(&self, a: &Coefficients, b: &Coefficients) -> (Coefficients, Coefficients) {
        let inverse = self.inverse(*b.last().expect("the divisor is not 0"));
        let mut rest = a.clone();
        let mut quotient = vec![0; (a.len() + 1).saturating_sub(b.len())];
        while rest.len() >= b.len() {
            let shift = rest.len() - b.len();
            let times = rest[rest.len() - 1] * inverse % self.p;
            quotient[shift] = times;
            for (place, coefficient) in b.iter().enumerate() {
                rest[shift + place] = (rest[shift + place] + self.p - times * coefficient % self.p) % self.p;
            }
            rest = trimmed(rest);
        }
        (quotient, rest)
    }

    fn normalizing_unit(&self, a: &Coefficients) -> Coefficients {
        vec![self.inverse(*a.last().expect("0 has no unit to make it normal"))]
    }

    fn is_legal_modulus(&self, word: u64) -> bool {
        let element = self.element(word);
        let has_legal_degree = (2..=self.largest_degree + 1).contains(&element.len());
        has_legal_degree && element.last() == Some(&1) && self.canonical_word(&element) == word
    }

    fn is_squarefree(&self, modulus: u64) -> bool {
        let f = self.element(modulus);
        let half = (f.len() - 1) / 2;
        if self.p.pow(half as u32) <= MOST_SQUARES_TRIED {
            self.has_no_square_divisor(&f)
        } else {
            self.has_no_root_of_zero(&f)
        }
    }
}

#[cfg(test)]
mod tests {
    use super::*;
    use crate::random::Random;
    use crate::rules::{Euclid, NOT_LEGAL, NOT_SQUAREFREE, check_modulus, euclid};
    use std::collections::HashSet;

    const BITS: Polynomials = Polynomials::BITS;

    fn bytes(p: u64) -> Polynomials {
        Polynomials::bytes(p).expect("p is listed")
    }

    /// All products of `d` of a degree below this one.
    fn multiples(ring: &Polynomials, d: &Coefficients, degree: usize) -> HashSet<Coefficients> {
        let cofactors = ring.below((degree + 1).saturating_sub(d.len()));
        cofactors.map(|cofactor| ring.multiply(&cofactor, d)).collect()
    }

    /// Euclid by the words of docs/RULES.md for all polynomials of a degree below this one, by products alone.
    fn euclid_by_search(ring: &Polynomials, m: &Coefficients, degree: usize) -> Vec<(Coefficients, Euclid)> {
        let multiples_of_m = multiples(ring, m, degree + m.len());
        let residues: Vec<Coefficients> = ring.below(m.len() - 1).collect();
        let divisors: Vec<(Coefficients, HashSet<Coefficients>)> = (0..m.len())
            .flat_map(|degree| ring.monics(degree))
            .map(|d| (d.clone(), multiples(ring, &d, degree.max(m.len()))))
            .filter(|(_, multiples)| multiples.contains(m))
            .collect();
        let answer = |a: &Coefficients| {
            if multiples_of_m.contains(a) {
                return Euclid::Zero;
            }
            let is_inverse =
                |w: &&Coefficients| multiples_of_m.contains(&ring.subtract(&ring.multiply(w, a), &ring.one()));
            if let Some(w) = residues.iter().find(is_inverse) {
                return Euclid::Inverse(ring.canonical_word(w));
            }
            let common: Vec<_> = divisors.iter().filter(|(_, multiples)| multiples.contains(a)).collect();
            let is_greatest = |(g, _): &&&(_, _)| common.iter().all(|(_, multiples)| multiples.contains(g));
            let greatest = common.iter().find(is_greatest).expect("all common divisors divide one of them");
            Euclid::Factor(ring.canonical_word(&greatest.0))
        };
        ring.below(degree).map(|a| (a.clone(), answer(&a))).collect()
    }

    #[test]
    fn euclid_gives_the_examples() {
        assert_eq!(euclid(&BITS, 2, 7), Euclid::Inverse(3));
        assert_eq!(euclid(&bytes(5), 513, 65_537), Euclid::Factor(259));
    }

    #[test]
    fn euclid_agrees_with_search() {
        let sizes = [(BITS, 6, 8), (bytes(3), 3, 5), (bytes(5), 2, 4), (bytes(7), 2, 3), (bytes(11), 2, 2)];
        for (ring, largest_modulus, word_degree) in sizes {
            for m in (1..=largest_modulus).flat_map(|degree| ring.monics(degree)) {
                for (a, expected) in euclid_by_search(&ring, &m, word_degree) {
                    let answer = euclid(&ring, ring.canonical_word(&a), ring.canonical_word(&m));
                    assert_eq!(answer, expected, "{a:?} modulo {m:?}, p = {}", ring.p);
                }
            }
        }
    }

    #[test]
    fn division_gives_quotient_and_smaller_remainder() {
        let mut random = Random::new(1);
        for p in [3, 5, 7, 127, 241, 251] {
            for ring in [BITS, bytes(p)] {
                for _ in 0..200 {
                    let a = ring.element(random.word() >> random.below(64));
                    let b = ring.element(random.word() >> random.below(64));
                    if b == ring.zero() {
                        continue;
                    }
                    let (quotient, remainder) = ring.divide(&a, &b);
                    assert!(remainder.len() < b.len());
                    assert_eq!(ring.subtract(&a, &ring.multiply(&quotient, &b)), remainder);
                    assert_eq!(trimmed(quotient.clone()), quotient);
                }
            }
        }
    }

    /// A product, multiplied without lists: by shifts and exclusive or.
    #[test]
    fn products_of_bits_agree_with_shifts() {
        for a in 0..128u64 {
            for b in 0..128u64 {
                let shifted = (0..7).filter(|place| b >> place & 1 == 1).fold(0, |sum, place| sum ^ (a << place));
                assert_eq!(BITS.canonical_word(&BITS.multiply(&BITS.element(a), &BITS.element(b))), shifted);
            }
        }
    }

    /// A product has the product of the values at every place.
    #[test]
    fn products_of_bytes_agree_with_values() {
        let mut random = Random::new(2);
        for p in [3, 5, 7, 127, 241, 251] {
            let ring = bytes(p);
            let value = |f: &Coefficients, at: u64| f.iter().rev().fold(0, |sum, c| (sum * at + c) % p);
            for _ in 0..20 {
                let (a, b) = (ring.element(random.word()), ring.element(random.word()));
                let product = ring.multiply(&a, &b);
                assert!((0..p).all(|at| value(&product, at) == value(&a, at) * value(&b, at) % p));
            }
        }
    }

    #[test]
    fn both_ways_to_find_squares_agree() {
        let sizes = [(BITS, 11), (bytes(3), 6), (bytes(5), 5), (bytes(7), 4), (bytes(11), 3), (bytes(31), 2)];
        for (ring, largest_degree) in sizes {
            for f in (1..=largest_degree).flat_map(|degree| ring.monics(degree)) {
                assert_eq!(ring.has_no_root_of_zero(&f), ring.has_no_square_divisor(&f), "{f:?}, p = {}", ring.p);
            }
        }
        let mut random = Random::new(3);
        for _ in 0..40 {
            let f = BITS.element(random.between(1 << 20, (1 << 26) - 1));
            assert_eq!(BITS.has_no_root_of_zero(&f), BITS.has_no_square_divisor(&f), "{f:?}");
        }
    }

    /// Among all normal polynomials of degree n over 1, exactly p^n - p^(n - 1) are squarefree.
    #[test]
    fn squarefree_moduli_are_as_many_as_they_should_be() {
        for (ring, degree) in [(BITS, 10), (BITS, 13), (bytes(3), 7), (bytes(5), 4), (bytes(13), 3), (bytes(251), 2)] {
            let count = ring.monics(degree).filter(|f| ring.is_squarefree(ring.canonical_word(f))).count() as u64;
            assert_eq!(count, ring.p.pow(degree as u32) - ring.p.pow(degree as u32 - 1), "p = {}", ring.p);
        }
    }

    /// A third way, by the derivative: f is squarefree exactly when f and its derivative are coprime.
    fn is_coprime_to_derivative(ring: &Polynomials, f: &Coefficients) -> bool {
        let terms = f.iter().enumerate().skip(1);
        let derivative = trimmed(terms.map(|(place, coefficient)| place as u64 * coefficient % ring.p).collect());
        let (mut a, mut b) = (f.clone(), derivative);
        while b != ring.zero() {
            (a, b) = (b.clone(), ring.remainder(&a, &b));
        }
        a.len() == 1
    }

    #[test]
    fn squares_in_large_moduli_are_found() {
        let mut random = Random::new(4);
        for ring in [BITS, bytes(3), bytes(5), bytes(7), bytes(11), bytes(37), bytes(241), bytes(251)] {
            let monic = |random: &mut Random, degree: usize| {
                let mut f: Coefficients = (0..degree).map(|_| random.below(ring.p)).collect();
                f.push(1);
                f
            };
            for _ in 0..60 {
                let largest = ring.largest_degree as u64;
                let degree = random.between(1, largest) as usize;
                let f = monic(&mut random, degree);
                let square = ring.multiply(&f, &f);
                assert_eq!(ring.is_squarefree(ring.canonical_word(&f)), is_coprime_to_derivative(&ring, &f), "{f:?}");
                assert!(!ring.has_no_root_of_zero(&square), "the square of {f:?}");
                let others = random.between(0, largest) as usize;
                let multiple = ring.multiply(&square, &monic(&mut random, others));
                assert!(!ring.has_no_root_of_zero(&multiple), "{multiple:?}, with the square of {f:?}");
            }
        }
    }

    #[test]
    fn particular_moduli_are_squarefree_or_not() {
        assert_eq!(check_modulus(&BITS, 5), Err(NOT_SQUAREFREE));
        assert_eq!(check_modulus(&BITS, 21), Err(NOT_SQUAREFREE));
        assert_eq!(check_modulus(&BITS, 7), Ok(()));
        // x^31 + x^3 + 1 is irreducible; x^31 + 1 has different irreducible divisors; x^31 and x^30 + x^2 have squares.
        assert_eq!(check_modulus(&BITS, (1 << 31) + 9), Ok(()));
        assert_eq!(check_modulus(&BITS, (1 << 31) + 1), Ok(()));
        assert_eq!(check_modulus(&BITS, 1 << 31), Err(NOT_SQUAREFREE));
        assert_eq!(check_modulus(&BITS, (1 << 30) + 4), Err(NOT_SQUAREFREE));
        // x^3 + 1 is (x + 1)^3 over GF(3) alone, x^5 - 2 is (x - 2)^5 over GF(5) alone.
        assert_eq!(check_modulus(&bytes(3), 16_777_217), Err(NOT_SQUAREFREE));
        assert_eq!(check_modulus(&bytes(5), 16_777_217), Ok(()));
        assert_eq!(check_modulus(&bytes(5), (1 << 40) + 3), Err(NOT_SQUAREFREE));
        assert_eq!(check_modulus(&bytes(7), (1 << 40) + 5), Ok(()));
        // x^7 + x^2 has the divisor x^2; x^7 - 1 is squarefree unless p is 7.
        assert_eq!(check_modulus(&bytes(251), (1 << 56) + (1 << 16)), Err(NOT_SQUAREFREE));
        assert_eq!(check_modulus(&bytes(251), (1 << 56) + 250), Ok(()));
        assert_eq!(check_modulus(&bytes(7), (1 << 56) + 6), Err(NOT_SQUAREFREE));
    }

    #[test]
    fn particular_moduli_are_legal_or_not() {
        for word in [0, 1, 1 << 32, (1 << 32) + 7, 1 << 63, u64::MAX] {
            assert_eq!(check_modulus(&BITS, word), Err(NOT_LEGAL), "{word}");
        }
        for word in [2, 3, (1 << 32) - 1] {
            assert!(BITS.is_legal_modulus(word), "{word}");
        }
        // 0, degree 0, a leading coefficient of 2, bytes of p or more; also one that is 1 or 0 modulo p.
        for word in [0, 1, 4, 5, 6, 513, 256 + 5, 256 + 255, 6 * 256, 5 * 65_536 + 256, u64::MAX] {
            assert_eq!(check_modulus(&bytes(5), word), Err(NOT_LEGAL), "{word}");
        }
        for word in [256, 256 + 4, 1 << 56, (1 << 56) + (4 << 48)] {
            assert!(bytes(5).is_legal_modulus(word), "{word}");
        }
    }

    #[test]
    fn the_primes_from_3_to_251_are_listed() {
        let listed: Vec<u64> = (0..=1_000).filter(|p| Polynomials::bytes(*p).is_ok()).collect();
        assert_eq!(listed.len(), 53);
        assert_eq!(listed[..8], [3, 5, 7, 11, 13, 17, 19, 23]);
        assert_eq!(listed[48..], [227, 229, 233, 239, 241, 251][1..]);
        for p in [0, 1, 2, 4, 9, 253, 255, 257, u64::MAX] {
            assert_eq!(Polynomials::bytes(p), Err(NOT_LISTED));
        }
    }

    #[test]
    fn words_and_polynomials_belong_together() {
        assert_eq!(BITS.element(11), [1, 1, 0, 1]);
        assert_eq!(BITS.canonical_word(&vec![1, 1, 0, 1]), 11);
        assert_eq!(BITS.canonical_word(&BITS.element(u64::MAX)), u64::MAX);
        assert_eq!(bytes(5).element(513), [1, 2]);
        assert_eq!(bytes(5).element(5 * 65_536 + 6 * 256 + 255), [0, 1]);
        assert_eq!(bytes(251).element(u64::MAX), [4; 8]);
        assert_eq!(bytes(251).canonical_word(&vec![4; 8]), u64::MAX / 255 * 4);
    }
}
