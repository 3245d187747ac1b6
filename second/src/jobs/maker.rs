//! Makes polynomials for jobs, as words.

use super::euclid_line;
use crate::random::Random;
use crate::rules::{Domain, Polynomials, check_modulus};

/// The irreducibles kept are those of a degree with at most so many normal polynomials, and those of degree 1.
const MOST_OF_A_DEGREE: u64 = 256;

/// A ring of polynomials, its DOMAIN, and words of some of its irreducibles, the smaller degrees first.
pub struct Maker {
    pub domain: String,
    pub ring: Polynomials,
    irreducibles: Vec<u64>,
}

/// A modulus to try, legal or not, and the polynomials it was made from.
pub struct Candidate {
    pub modulus: u64,
    factors: Vec<u64>,
}

impl Maker {
    pub fn bits() -> Self {
        Self::new("2".to_string(), Polynomials::BITS)
    }

    /// For a prime from the list.
    pub fn bytes(p: u64) -> Self {
        Self::new(format!("3/{p}"), Polynomials::bytes(p).expect("p is in the list of primes"))
    }

    fn new(domain: String, ring: Polynomials) -> Self {
        let degrees = (1..).take_while(|degree| *degree == 1 || ring.p().pow(*degree) <= MOST_OF_A_DEGREE);
        let mut irreducibles = Vec::new();
        for f in degrees.flat_map(|degree| ring.monics(degree as usize)) {
            // A divisor that is no unit comes before f, and so does an irreducible one.
            if !irreducibles.iter().any(|d| ring.divides(d, &f)) {
                irreducibles.push(f);
            }
        }
        let irreducibles = irreducibles.iter().map(|f| ring.canonical_word(f)).collect();
        Maker { domain, ring, irreducibles }
    }

    pub fn line(&self, word: u64, modulus: u64) -> String {
        euclid_line(&self.domain, word, modulus)
    }

    /// Lines with these words. A refused modulus is refused with every word, so only the first two are tried with it.
    pub fn lines(&self, words: &[u64], modulus: u64) -> Vec<String> {
        let count = if check_modulus(&self.ring, modulus).is_ok() { words.len() } else { 2 };
        words.iter().take(count).map(|word| self.line(*word, modulus)).collect()
    }

    /// The word with these coefficients, from the constant one up.
    pub fn word(&self, coefficients: &[u64]) -> u64 {
        self.ring.canonical_word(&coefficients.to_vec())
    }

    /// The number of coefficients, which is the degree and 1, or 0 for the polynomial 0.
    fn length(&self, word: u64) -> usize {
        self.ring.element(word).len()
    }

    /// The product, if a word holds it.
    pub fn product(&self, words: &[u64]) -> Option<u64> {
        let factors = words.iter().map(|word| self.ring.element(*word));
        let product = factors.fold(self.ring.one(), |product, factor| self.ring.multiply(&product, &factor));
        (product.len() <= self.ring.places()).then(|| self.ring.canonical_word(&product))
    }

    fn candidate(&self, factors: Vec<u64>) -> Candidate {
        Candidate { modulus: self.product(&factors).expect("the factors are few enough for a word"), factors }
    }

    fn coefficients(&self, random: &mut Random, count: usize) -> Vec<u64> {
        (0..count).map(|_| random.below(self.ring.p())).collect()
    }

    /// A word of `count` random coefficients.
    pub fn random_below(&self, random: &mut Random, count: usize) -> u64 {
        self.word(&self.coefficients(random, count))
    }

    pub fn random_normal(&self, random: &mut Random, degree: usize) -> u64 {
        let mut coefficients = self.coefficients(random, degree);
        coefficients.push(1);
        self.word(&coefficients)
    }

    fn random_degree(&self, random: &mut Random) -> usize {
        random.between(1, self.ring.largest_degree() as u64) as usize
    }

    /// A modulus of legal form, in one of seven ways.
    pub fn random_candidate(&self, random: &mut Random, form: u32) -> Candidate {
        let degree = self.random_degree(random);
        match form {
            0 => self.candidate(vec![self.random_normal(random, degree)]),
            1 => self.candidate(vec![self.random_normal(random, self.ring.largest_degree())]),
            2 => self.candidate(self.different_irreducibles(random, degree)),
            3 => self.with_one_twice(random),
            4 => self.with_a_square(random),
            5 => self.candidate(vec![self.in_powers_of_x_to_p(random)]),
            _ => self.candidate(self.any_factors(random, degree)),
        }
    }

    /// Different irreducibles, their degrees together at most the given one; at least one.
    fn different_irreducibles(&self, random: &mut Random, degree: usize) -> Vec<u64> {
        let mut factors = vec![self.irreducibles[random.below(2) as usize]];
        let mut left = degree - 1;
        for _ in 0..40 {
            let factor = self.irreducibles[random.below(self.irreducibles.len() as u64) as usize];
            let factor_degree = self.length(factor) - 1;
            if factor_degree <= left && !factors.contains(&factor) {
                factors.push(factor);
                left -= factor_degree;
            }
        }
        factors
    }

    /// Different irreducibles, and one of them again.
    fn with_one_twice(&self, random: &mut Random) -> Candidate {
        let mut factors = self.different_irreducibles(random, self.ring.largest_degree() / 2);
        factors.push(factors[random.below(factors.len() as u64) as usize]);
        self.candidate(factors)
    }

    /// A square, and something of any degree that is left.
    fn with_a_square(&self, random: &mut Random) -> Candidate {
        let largest = self.ring.largest_degree();
        let root_degree = random.between(1, largest as u64 / 2) as usize;
        let root = self.random_normal(random, root_degree);
        let rest_degree = random.between(0, (largest - 2 * root_degree) as u64) as usize;
        self.candidate(vec![root, root, self.random_normal(random, rest_degree)])
    }

    /// A polynomial whose derivative is 0, of legal degree if p is small enough.
    fn in_powers_of_x_to_p(&self, random: &mut Random) -> u64 {
        let p = self.ring.p() as usize;
        let most = self.ring.largest_degree() / p;
        if most == 0 {
            return self.random_normal(random, self.ring.largest_degree());
        }
        let count = random.between(1, most as u64) as usize;
        let mut coefficients = vec![0; count * p + 1];
        for place in (0..count * p).step_by(p) {
            coefficients[place] = random.below(self.ring.p());
        }
        coefficients[count * p] = 1;
        self.word(&coefficients)
    }

    /// Random polynomials, their degrees together the given one.
    fn any_factors(&self, random: &mut Random, degree: usize) -> Vec<u64> {
        let mut factors = Vec::new();
        let mut left = degree;
        while left > 0 {
            let next = random.between(1, left as u64) as usize;
            factors.push(self.random_normal(random, next));
            left -= next;
        }
        factors
    }

    /// A word of one of several forms; often a multiple of some factors of the modulus.
    pub fn random_word(&self, random: &mut Random, candidate: &Candidate) -> u64 {
        let places = self.ring.places();
        match random.below(7) {
            0 => random.word(),
            1 => random.word() >> random.below(63),
            2 => self.random_below(random, places),
            3 => self.random_below(random, self.length(candidate.modulus).saturating_sub(1)),
            4 => self.multiple(random, &[candidate.modulus]),
            5 => self.multiple(random, &[candidate.factors[0]]),
            _ => {
                let mut some = candidate.factors.clone();
                some.retain(|_| random.below(2) == 0);
                self.multiple(random, &some)
            }
        }
    }

    /// A random multiple of the product, in all the places that a word has left, or in some of them.
    fn multiple(&self, random: &mut Random, factors: &[u64]) -> u64 {
        let product = self.product(factors).expect("some factors of a modulus have their product in a word");
        let left = (self.ring.places() + 1).saturating_sub(self.length(product).max(1));
        let count = if random.below(2) == 0 { left } else { random.between(1, left as u64) as usize };
        let cofactor = self.random_below(random, count);
        self.product(&[product, cofactor]).expect("the cofactor fills the places left")
    }

    /// A candidate of one word that need not be a legal modulus.
    pub fn raw(&self, modulus: u64) -> Candidate {
        Candidate { modulus, factors: vec![modulus] }
    }
}

#[cfg(test)]
mod tests {
    use super::*;

    #[test]
    fn irreducibles_are_found() {
        assert_eq!(Maker::bits().irreducibles[..8], [2, 3, 7, 11, 13, 19, 25, 31]);
        // As many as there are of degree 1 to 8, of degree 1 to 5, and of degree 1.
        assert_eq!(Maker::bits().irreducibles.len(), 2 + 1 + 2 + 3 + 6 + 9 + 18 + 30);
        assert_eq!(Maker::bytes(3).irreducibles.len(), 3 + 3 + 8 + 18 + 48);
        assert_eq!(Maker::bytes(251).irreducibles.len(), 251);
    }

    #[test]
    fn candidates_are_legal_and_squarefree_as_their_form_says() {
        let mut random = Random::new(5);
        for maker in [Maker::bits(), Maker::bytes(3), Maker::bytes(7), Maker::bytes(241), Maker::bytes(251)] {
            for round in 0..210 {
                let form = round % 7;
                let modulus = maker.random_candidate(&mut random, form).modulus;
                assert!(maker.ring.is_legal_modulus(modulus), "form {form}: {modulus}");
                let squarefree = maker.ring.is_squarefree(modulus);
                assert!(squarefree || form != 2, "{modulus}");
                assert!(!squarefree || form != 3 && form != 4, "{modulus}");
                assert!(!squarefree || form != 5 || maker.ring.p() > 7, "{modulus}");
            }
        }
    }
}
