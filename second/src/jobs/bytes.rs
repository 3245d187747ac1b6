//! Jobs over byte polynomials.

use super::euclid_line;
use super::maker::{Candidate, Maker};
use crate::random::Random;
use crate::rules::Polynomials;

pub fn lines(random: &mut Random) -> Vec<String> {
    [small_cases(), edge_cases(), every_p(), refused_p(), random_cases(random)].concat()
}

fn listed_primes() -> impl Iterator<Item = u64> {
    (0..=255).filter(|p| Polynomials::bytes(*p).is_ok())
}

/// For small p every word of fewer than so many coefficients modulo every normal polynomial of a degree.
fn small_cases() -> Vec<String> {
    let sizes = [(3, 1, 3), (3, 2, 4), (3, 3, 4), (5, 1, 2), (5, 2, 3), (7, 1, 2), (7, 2, 2)];
    sizes.iter().flat_map(|(p, degree, coefficients)| all_pairs(&Maker::bytes(*p), *degree, *coefficients)).collect()
}

fn all_pairs(maker: &Maker, degree: usize, coefficients: usize) -> Vec<String> {
    let words: Vec<u64> = maker.ring.below(coefficients).map(|f| maker.word(&f)).collect();
    let moduli = maker.ring.monics(degree).map(|f| maker.word(&f));
    moduli.flat_map(|modulus| words.iter().map(move |word| maker.line(*word, modulus)).collect::<Vec<_>>()).collect()
}

/// Particular words modulo particular moduli.
fn edge_cases() -> Vec<String> {
    let mut lines = Vec::new();
    for p in [3, 5, 7, 127, 241, 251] {
        let maker = Maker::bytes(p);
        let mut moduli = [small_moduli(p), powers_of_x(&maker), large_moduli(&maker)].concat();
        moduli.sort_unstable();
        moduli.dedup();
        for modulus in moduli {
            lines.extend(maker.lines(&edge_words(&maker, modulus), modulus));
        }
    }
    lines
}

/// The word of a sum of coefficients times powers of x; a coefficient may be any byte.
fn sum(terms: &[(u64, u32)]) -> u64 {
    terms.iter().map(|(coefficient, degree)| coefficient << (8 * degree)).sum()
}

/// Words of degree 0 to 2, many of them not normal, or with bytes of p or more.
fn small_moduli(p: u64) -> Vec<u64> {
    let of_degree_0 = [0, 1, 2, p - 1, p, p + 1, 255];
    let of_degree_1 = [1, 2, p - 1, p, p + 1, 255]
        .into_iter()
        .flat_map(|leading| [0, 1, p - 1, p, p + 1].map(|constant| sum(&[(leading, 1), (constant, 0)])));
    let of_degree_2 = [(1, 0, 0), (1, 0, 1), (1, 0, p - 1), (1, 2, 1), (1, p, 1), (p, 1, 1), (p + 1, 0, 1), (2, 0, 2)];
    let of_degree_2 = of_degree_2.map(|(a, b, c)| sum(&[(a, 2), (b, 1), (c, 0)]));
    of_degree_0.into_iter().chain(of_degree_1).chain(of_degree_2).collect()
}

/// Powers of x, alone and with a constant or with a lower power of x.
fn powers_of_x(maker: &Maker) -> Vec<u64> {
    let p = maker.ring.p();
    let lower = [(0, 0), (1, 0), (p - 1, 0), (p - 2, 0), (1, 1), (p - 1, 1), (1, 2)];
    (3..=7).flat_map(|degree| lower.map(|term| sum(&[(1, degree), term]))).collect()
}

/// Words of degree 7: products of linear factors, and leading or other bytes that are not allowed.
fn large_moduli(maker: &Maker) -> Vec<u64> {
    let p = maker.ring.p();
    let linear = |root: u64| sum(&[(1, 1), ((p - root % p) % p, 0)]);
    let roots = [[0, 1, 2, 3, 4, 5, 6], [1, 2, 3, 4, 5, 6, p - 1], [0, 1, 2, 3, 4, 5, 0], [p - 1; 7]];
    let products = roots.map(|roots| maker.product(&roots.map(linear)).expect("seven linear factors fit"));
    let all_p_less_1 = u64::MAX / 255 * (p - 1);
    let others = [
        sum(&[(1, 7), (p - 1, 6), (p - 1, 0)]),
        sum(&[(1, 7), (p, 6)]),
        sum(&[(1, 7), (1, 1), (p, 0)]),
        sum(&[(1, 7), (255, 3), (1, 0)]),
        sum(&[(2, 7), (1, 0)]),
        sum(&[(p, 7), (1, 6), (1, 0)]),
        sum(&[(p + 1, 7), (1, 0)]),
        sum(&[(128, 7)]),
        all_p_less_1,
        all_p_less_1 % (1 << 56) + (1 << 56),
        u64::MAX,
    ];
    products.into_iter().chain(others).collect()
}

/// Words around 0 and the modulus, canonical and not.
fn edge_words(maker: &Maker, modulus: u64) -> Vec<u64> {
    let p = maker.ring.p();
    let words = [1, modulus, 0, p - 1, p, 256, sum(&[(1, 1), (p - 1, 0)]), sum(&[(p + 1, 1), (255, 0)])];
    let large_words = [modulus ^ 1, 1 << 56, u64::MAX / 255 * p, u64::MAX / 255 * (p - 1), u64::MAX];
    [words.as_slice(), &large_words].concat()
}

/// Every number from 0 to 300 as p, and simple jobs for every listed prime.
fn every_p() -> Vec<String> {
    let numbers = (0..=300).map(|p| euclid_line(&format!("3/{p}"), 513, 65_537));
    // x^2 - 1 modulo which x - 1 has a factor, 2 and x have inverses, and x^2 + (p - 1) is 0.
    let primes = listed_primes().flat_map(|p| {
        let modulus = sum(&[(1, 2), (p - 1, 0)]);
        [sum(&[(1, 1), (p - 1, 0)]), 2, 256, modulus].map(|word| euclid_line(&format!("3/{p}"), word, modulus))
    });
    numbers.chain(primes).collect()
}

/// Unlisted p: some would be listed if their upper bits were lost. With legal and illegal moduli and wrong words.
fn refused_p() -> Vec<String> {
    let numbers = [
        0,
        1,
        2,
        4,
        6,
        9,
        15,
        25,
        49,
        121,
        169,
        221,
        247,
        249,
        253,
        255,
        256,
        257,
        259,
        261,
        263,
        507,
        65_539,
        65_541,
        (1 << 16) + 251,
        (1 << 32) + 3,
        (1 << 32) + 5,
        (1 << 32) + 15,
        (1 << 63) + 3,
        u64::MAX - 250,
        u64::MAX - 4,
        u64::MAX - 58,
        u64::MAX,
    ];
    let operands = [
        "513 65537", "2 0", "2 1", "2 256", "2 65536", "2 18446744073709551615", "18446744073709551615 257",
        "18446744073709551616 65537", "2 18446744073709551616", "x 65537", "513 y", "x y", "513", "513 65537 7",
    ];
    numbers.iter().flat_map(|p| operands.map(|operands| format!("euclid 3/{p} {operands}"))).collect()
}

/// Random moduli of several forms, each with several words. Most p are small or nearly 251.
fn random_cases(random: &mut Random) -> Vec<String> {
    let makers: Vec<Maker> = listed_primes().map(Maker::bytes).collect();
    let mut lines = Vec::new();
    for round in 0..480u32 {
        let count = makers.len() as u64;
        let maker = &makers[match round % 4 {
            0 => random.below(4),
            1 => random.between(count - 3, count - 1),
            _ => random.below(count),
        } as usize];
        let candidate = random_candidate(maker, random, round / 4 % 10);
        let words = [(); 5].map(|()| {
            let word = maker.random_word(random, &candidate);
            not_canonical_at_times(random, maker, word)
        });
        lines.extend(maker.lines(&words, candidate.modulus));
    }
    lines
}

fn random_candidate(maker: &Maker, random: &mut Random, form: u32) -> Candidate {
    match form {
        7 => maker.raw(random.word() >> random.below(63)),
        8 => {
            // Of a legal degree and canonical, but normal only by chance.
            let count = random.between(1, 8) as usize;
            maker.raw(maker.random_below(random, count))
        }
        9 => {
            let form = random.below(7) as u32;
            let legal = maker.random_candidate(random, form).modulus;
            maker.raw(with_a_raised_byte(random, maker, legal))
        }
        legal_form => maker.random_candidate(random, legal_form),
    }
}

/// The same polynomial, with p added to one byte of the word, if the byte can hold it.
fn with_a_raised_byte(random: &mut Random, maker: &Maker, word: u64) -> u64 {
    let place = 8 * random.below(8);
    let byte = word >> place & 255;
    if byte + maker.ring.p() <= 255 { word + (maker.ring.p() << place) } else { word }
}

fn not_canonical_at_times(random: &mut Random, maker: &Maker, word: u64) -> u64 {
    if random.below(4) == 0 { with_a_raised_byte(random, maker, word) } else { word }
}

#[cfg(test)]
mod tests {
    use super::*;
    use crate::rules::Domain;

    #[test]
    fn edge_cases_have_the_wanted_moduli() {
        let lines = edge_cases();
        // x^3 + 1 over GF(3), x^5 - 2 over GF(5), x^7 + x^2 over GF(251), 5x over GF(5), and 0.
        let wanted = [(3, 16_777_217), (5, (1 << 40) + 3), (251, (1 << 56) + (1 << 16)), (5, 5 << 8), (7, 0)];
        for (p, modulus) in wanted {
            assert!(lines.contains(&euclid_line(&format!("3/{p}"), 1, modulus)), "{modulus} over GF({p})");
        }
    }

    #[test]
    fn a_raised_byte_keeps_the_polynomial() {
        let mut random = Random::new(6);
        let maker = Maker::bytes(5);
        let mut raised = 0;
        for _ in 0..200 {
            let word = maker.random_below(&mut random, 8);
            let other = with_a_raised_byte(&mut random, &maker, word);
            assert_eq!(maker.ring.element(word), maker.ring.element(other));
            raised += u32::from(word != other);
        }
        assert_eq!(raised, 200);
    }
}
