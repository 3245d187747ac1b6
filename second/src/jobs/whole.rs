//! Jobs over whole numbers.

use super::euclid_line;
use crate::random::Random;
use crate::rules::Whole;

const LIMIT: u64 = Whole::LARGEST_MODULUS;

pub fn lines(random: &mut Random) -> Vec<String> {
    [small_cases(), edge_cases(), random_cases(random)].concat()
}

fn euclid(word: u64, modulus: u64) -> String {
    euclid_line("1", word, modulus)
}

/// Every small word modulo every small modulus.
fn small_cases() -> Vec<String> {
    (0..=40).flat_map(|modulus| (0..=45).map(move |word| euclid(word, modulus))).collect()
}

/// Particular words modulo particular moduli.
fn edge_cases() -> Vec<String> {
    let modulus_lists = [
        near_the_limit(),
        past_the_limit(),
        products_of_two_primes(),
        powers_and_multiples(),
        products_of_many_primes(),
    ];
    let mut moduli = modulus_lists.concat();
    moduli.sort_unstable();
    moduli.dedup();
    moduli.iter().flat_map(|modulus| edge_words(*modulus).into_iter().map(|word| euclid(word, *modulus))).collect()
}

fn near_the_limit() -> Vec<u64> {
    (LIMIT - 25..=LIMIT + 25).collect()
}

/// Moduli past the limit; some would be legal if their upper bits were lost.
fn past_the_limit() -> Vec<u64> {
    let high_bits = [1 << 31, 1 << 32, 1 << 33, 1 << 62, 1 << 63, (1 << 63) + (1 << 31), u64::MAX - 0xffff_ffff];
    let mut moduli: Vec<u64> = high_bits.iter().flat_map(|high| [2, 4, 6, 7].map(|low| high + low)).collect();
    moduli.extend([(1 << 32) - 1, 1 << 32, (1 << 63) - 1, 1 << 63, u64::MAX - 1, u64::MAX]);
    moduli
}

/// Products of two primes, some of them equal, near 46,340 × 46,340.
fn products_of_two_primes() -> Vec<u64> {
    let mut primes = primes_below(46_341, 4);
    primes.extend(primes_from(46_341, 3));
    let pairs = primes.iter().enumerate().flat_map(|(at, p)| primes[at..].iter().map(move |q| p * q));
    pairs.chain([46_340 * 46_340, 46_341 * 46_341]).collect()
}

/// Powers, and products with a square in them.
fn powers_and_multiples() -> Vec<u64> {
    let powers = [2u64, 3, 5, 6, 46_337].iter().flat_map(|base| (1..64).map_while(|times| base.checked_pow(times)));
    let cubes = primes_below(1_291, 3).into_iter().map(|p| p * p * p);
    let multiples = [1u64, 2, 3, 4, 6, 8, 9, 25, 49, 30, 60].into_iter().flat_map(|small| {
        let primes = primes_below(LIMIT / small + 1, 1).into_iter().chain(primes_from(LIMIT / small + 1, 1));
        primes.map(move |p| small * p).collect::<Vec<u64>>()
    });
    let with_a_large_square = primes_below(32_768, 2).into_iter().map(|p| 2 * p * p);
    powers.chain(cubes).chain(multiples).chain(with_a_large_square).collect()
}

/// Products of the first primes, each also without one of them and with one of them twice.
fn products_of_many_primes() -> Vec<u64> {
    let primes = primes_from(2, 11);
    let mut moduli = Vec::new();
    let mut product = 1;
    for (count, prime) in primes.iter().enumerate() {
        product *= prime;
        moduli.push(product);
        for within in &primes[..=count] {
            moduli.extend([product / within, product * within]);
        }
    }
    moduli
}

/// Words around 0, the modulus, its multiples and its divisors, and powers of two.
fn edge_words(modulus: u64) -> Vec<u64> {
    let mut words = vec![0, 1, 2, 6, modulus / 2, modulus.saturating_sub(1), modulus, modulus.saturating_add(1)];
    words.extend([LIMIT, LIMIT + 1, (1 << 32) - 1, 1 << 32, (1 << 63) - 1, 1 << 63, u64::MAX - 1, u64::MAX]);
    if modulus > 1 {
        let last_multiple = u64::MAX - u64::MAX % modulus;
        words.extend([last_multiple - 1, last_multiple, last_multiple.saturating_add(1)]);
        let factor = smallest_factor(modulus);
        words.extend([factor, modulus / factor, u64::MAX - u64::MAX % factor]);
    }
    words.sort_unstable();
    words.dedup();
    words
}

/// Random moduli of several sizes and forms, each with several words.
fn random_cases(random: &mut Random) -> Vec<String> {
    let mut lines = Vec::new();
    for round in 0..600 {
        let modulus = random_modulus(random, round % 6);
        for _ in 0..6 {
            lines.push(euclid(random_word(random, modulus), modulus));
        }
    }
    lines
}

fn random_modulus(random: &mut Random, form: u32) -> u64 {
    match form {
        0 => random.between(2, LIMIT),
        1 => random.between(2, 2_000),
        2 => random.between(2, 1 << 20),
        3 => random_product(random),
        4 => {
            let p = random.between(2, 1_000);
            p * p * random.between(1, LIMIT / (p * p))
        }
        _ => random.word() >> random.below(63),
    }
}

/// A product of different small primes, which stays legal.
fn random_product(random: &mut Random) -> u64 {
    let mut product = 1;
    for prime in primes_from(2, 25) {
        if random.below(3) == 0 && product * prime <= LIMIT {
            product *= prime;
        }
    }
    product.max(2)
}

fn random_word(random: &mut Random, modulus: u64) -> u64 {
    let modulus = modulus.max(2);
    match random.below(6) {
        0 => random.word(),
        1 => random.word() >> random.below(63),
        2 => random.below(modulus),
        3 => random.below(u64::MAX / modulus) * modulus,
        4 => {
            let factor = smallest_factor(modulus);
            random.below(u64::MAX / factor) * factor
        }
        _ => {
            let cofactor = modulus / smallest_factor(modulus);
            random.below(u64::MAX / cofactor) * cofactor
        }
    }
}

/// The smallest divisor of a number over 1 that is over 1, or the number itself if none is below a million.
fn smallest_factor(number: u64) -> u64 {
    (2..1_000_000).take_while(|d| d * d <= number).find(|d| number.is_multiple_of(*d)).unwrap_or(number)
}

fn is_prime(number: u64) -> bool {
    number > 1 && (2..).take_while(|d| d * d <= number).all(|d| !number.is_multiple_of(d))
}

/// The first primes from `start` up.
fn primes_from(start: u64, count: usize) -> Vec<u64> {
    (start..).filter(|number| is_prime(*number)).take(count).collect()
}

/// The last primes below `end`, the largest first.
fn primes_below(end: u64, count: usize) -> Vec<u64> {
    (0..end).rev().filter(|number| is_prime(*number)).take(count).collect()
}

#[cfg(test)]
mod tests {
    use super::*;

    #[test]
    fn primes_are_found() {
        assert_eq!(primes_from(2, 9), [2, 3, 5, 7, 11, 13, 17, 19, 23]);
        assert_eq!(primes_below(46_341, 2), [46_337, 46_327]);
        assert_eq!(primes_below(LIMIT + 1, 1), [LIMIT]);
        assert_eq!(smallest_factor(35), 5);
        assert_eq!(smallest_factor(49), 7);
        assert_eq!(smallest_factor(LIMIT), LIMIT);
    }

    #[test]
    fn edge_cases_have_the_wanted_moduli() {
        let lines = edge_cases();
        let p = 46_337u64;
        for modulus in [LIMIT, LIMIT + 1, p * p, p * 46_327, 1_289 * 1_289 * 1_289, 4 * 536_870_909, 223_092_870] {
            assert!(lines.contains(&euclid(1, modulus)), "{modulus}");
        }
    }
}
