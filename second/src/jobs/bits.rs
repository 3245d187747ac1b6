//! Jobs over bit polynomials.

use super::maker::Maker;
use crate::random::Random;

pub fn lines(random: &mut Random) -> Vec<String> {
    let maker = Maker::bits();
    [small_cases(&maker), edge_cases(&maker), random_cases(&maker, random)].concat()
}

/// Every small word modulo every small modulus.
fn small_cases(maker: &Maker) -> Vec<String> {
    (0..64).flat_map(|modulus| (0..70).map(move |word| maker.line(word, modulus))).collect()
}

/// Particular words modulo particular moduli.
fn edge_cases(maker: &Maker) -> Vec<String> {
    let mut moduli = [near_the_limit(), past_the_limit(), particular_moduli()].concat();
    moduli.sort_unstable();
    moduli.dedup();
    moduli.iter().flat_map(|modulus| maker.lines(&edge_words(*modulus), *modulus)).collect()
}

/// Moduli of degree 30 to 32.
fn near_the_limit() -> Vec<u64> {
    let starts = [1u64 << 30, 1 << 31, (1 << 31) + (1 << 30), 1 << 32];
    starts.iter().flat_map(|start| start - 6..=start + 9).collect()
}

/// Moduli of degree 32 and more; some would be legal if their upper bits were lost.
fn past_the_limit() -> Vec<u64> {
    let high_bits = [1 << 32, 1 << 33, 1 << 48, 1 << 62, 1 << 63, u64::MAX - 0xffff_ffff];
    let mut moduli: Vec<u64> = high_bits.iter().flat_map(|high| [0, 2, 5, 7].map(|low| high + low)).collect();
    moduli.extend([(1 << 63) - 1, u64::MAX - 1, u64::MAX]);
    moduli
}

/// Powers of x and of x + 1, sums of two powers of x, and sums of even powers, which are squares.
fn particular_moduli() -> Vec<u64> {
    let powers_of_x = (1..34).map(|degree| 1u64 << degree);
    let powers_of_x_and_1 = (1..34).scan(1u64, |power, _| {
        *power ^= *power << 1;
        Some(*power)
    });
    let two_powers = (2..32).flat_map(|degree| [0, 1].map(|low| (1u64 << degree) ^ (1 << low)));
    let even_powers = (1..16).flat_map(|half| [0, 1, 5].map(|low| (1u64 << (2 * half)) | low));
    let all_even_powers = (1..=16).map(|half| 0x5555_5555_5555_5555 & ((1u64 << (2 * half + 1)) - 1));
    let all_powers = (1..=32).map(|degree| (1u64 << (degree + 1)) - 1);
    let lists = powers_of_x.chain(powers_of_x_and_1).chain(two_powers);
    lists.chain(even_powers).chain(all_even_powers).chain(all_powers).collect()
}

/// Words around 0 and the modulus, a multiple of it, and words of many bits.
fn edge_words(modulus: u64) -> Vec<u64> {
    let multiple = modulus.checked_shl(modulus.leading_zeros()).unwrap_or(0);
    let words = [2, modulus, 0, 1, 3, modulus ^ 1, modulus / 2, multiple, multiple ^ 1, multiple ^ modulus];
    [words.as_slice(), &[1 << 31, 1 << 63, u64::MAX]].concat()
}

/// Random moduli of several forms, each with several words.
fn random_cases(maker: &Maker, random: &mut Random) -> Vec<String> {
    let mut lines = Vec::new();
    for round in 0..400 {
        let candidate = match round % 8 {
            7 => maker.raw(random.word() >> random.below(63)),
            form => maker.random_candidate(random, form),
        };
        let words = [(); 6].map(|()| maker.random_word(random, &candidate));
        lines.extend(maker.lines(&words, candidate.modulus));
    }
    lines
}

#[cfg(test)]
mod tests {
    use super::*;

    #[test]
    fn edge_cases_have_the_wanted_moduli() {
        let moduli = particular_moduli();
        // x^2 + 1, x^4 + x^2 + 1, (x + 1)^3, x^31, x^31 + 1, and all powers of x from 0 to 31.
        for modulus in [5, 21, 15, 1 << 31, (1 << 31) + 1, (1 << 32) - 1] {
            assert!(moduli.contains(&modulus), "{modulus}");
        }
        assert_eq!(edge_words(5).iter().filter(|word| **word == 5 << 61).count(), 1);
    }
}
