//! Jobs about how lines are written: right lines in other spellings, and wrong lines.

use crate::random::Random;

pub fn lines(random: &mut Random) -> Vec<String> {
    [spellings(random), bad_input(), bad_domains(), random_sentences(random)].concat()
}

/// Right lines, written with other blanks and with leading zeros.
fn spellings(random: &mut Random) -> Vec<String> {
    let mut lines = Vec::new();
    for _ in 0..300 {
        let domain = match random.below(3) {
            0 => "1".to_string(),
            1 => "2".to_string(),
            _ => format!("3/{}", with_zeros(random, 5)),
        };
        // Over byte polynomials the first legal modulus is 256.
        let first = if domain.starts_with('3') { 254 } else { 0 };
        let modulus = first + random.below(if first == 0 { 50 } else { 9 });
        let word = random.word() >> random.below(63);
        let numbers = [word, modulus].map(|number| with_zeros(random, number));
        lines.push(spaced(random, &["euclid", &domain, &numbers[0], &numbers[1]]));
    }
    lines.push(format!("euclid 3/{zeros}5 {zeros}513 {zeros}65537", zeros = "0".repeat(5_000)));
    lines.push(format!("euclid 1 {zeros}2 {zeros}6", zeros = "0".repeat(5_000)));
    lines.push(format!("euclid{blanks}1{blanks}2{blanks}6", blanks = " \t\r".repeat(2_000)));
    lines.push("euclid 1 00 7".to_string());
    lines.push("euclid 1 7 000".to_string());
    lines
}

fn with_zeros(random: &mut Random, number: u64) -> String {
    format!("{}{number}", "0".repeat(random.below(30) as usize))
}

/// The words with random blanks before, between and after them.
fn spaced(random: &mut Random, words: &[&str]) -> String {
    const BETWEEN: [&str; 8] = [" ", " ", "  ", "\t", " \t ", "\r", "\x0c", "\t\t\r\x0c  "];
    const AROUND: [&str; 7] = ["", "", "", " ", "\t", "\r", "\x0c"];
    let mut line = random.choose(&AROUND).to_string();
    for (at, word) in words.iter().enumerate() {
        if at > 0 {
            line.push_str(random.choose(&BETWEEN));
        }
        line.push_str(word);
    }
    line.push_str(random.choose(&AROUND));
    line
}

const BAD_WORDS: [&str; 52] = [
    "-1", "+1", "-0", "+", "-", "0x10", "0b1", "0o7", "10h", "1e3", "1_0", "_1", "1.0", "1.", ".5", "1,000", "1/2",
    "3/7", "7u64", "7;", "x", "X1", "one", "EUCLID", "Euclid", "euclidx", "Help", "--help", "-h", "--version", "?",
    "*", "'", "''", "'7'", "\"7\"", "\\n", "\\", "é", "7é", "é7", "ß", "٣", "７", "²", "Ⅶ", "∞", "\u{a0}7",
    "7\u{3000}", "7\u{85}", "7\u{b}", "\u{c}7",
];

const PAST_64_BITS: [&str; 12] = [
    "18446744073709551616",
    "18446744073709551617",
    "18446744073709551622",
    "18446744073709551623",
    "18446744073709551620",
    "000018446744073709551616",
    "20000000000000000000",
    "99999999999999999999",
    "184467440737095516150",
    "36893488147419103239",
    "340282366920938463463374607431768211456",
    "340282366920938463463374607431768211463",
];

/// Every kind of wrong line.
fn bad_input() -> Vec<String> {
    let mut lines = bad_counts_and_commands();
    let long_number = "9".repeat(5_000);
    let long_letters = "é".repeat(3_000);
    for word in PAST_64_BITS.into_iter().chain(BAD_WORDS).chain([long_number.as_str(), &long_letters]) {
        lines.extend(bad_word(word));
    }
    for digits_then_letter in ["18446744073709551616x", "x18446744073709551616", "99999999999999999999-"] {
        lines.extend(bad_word(digits_then_letter));
    }
    lines.push("euclid 1 2\0 7".to_string());
    lines.push("\0".to_string());
    lines
}

/// Domains right and wrong, each in a right line and together with other mistakes.
fn bad_domains() -> Vec<String> {
    let domains = [
        "0", "1", "01", "001", "1.", "1/", "1/2", "1/5", "11", "10", "2", "02", "2/", "2/2", "2/5", "22", "3", "03",
        "3/", "3//", "3//5", "3/5", "3/05", "3/0000000000000000000000005", "3/7", "3/5/", "3/5/7", "3/3/3", "03/5",
        "003/5", "33/5", "3/-5", "3/+5", "3/5x", "3/x5", "3/5.", "3/0x5", "3/5e0", "3/é", "3/٣", "3/５", "3\\5", "3:5",
        "3,5", "3.5", "3-5", "35", "/5", "/", "4", "4/5", "5", "3/18446744073709551615", "3/18446744073709551616",
        "3/18446744073709551621", "3/00018446744073709551615", "3/36893488147419103237", "3/0", "3/00", "3/1", "3/2",
        "3/4", "3/256", "3/257", "3 /5", "3/ 5", "one", "euclid", "-1", "+2", "٢", "²",
    ];
    let operands =
        ["2 6", "513 65537", "2 7", "2 0", "2 4", "2 65536", "x y", "2 y", "18446744073709551616 7", "2", "2 6 7"];
    domains.iter().flat_map(|domain| operands.map(|operands| format!("euclid {domain} {operands}"))).collect()
}

/// A bad word in every place of a line, alone and together with other mistakes.
fn bad_word(word: &str) -> Vec<String> {
    vec![
        word.to_string(),
        format!("{word} 1 2 6"),
        format!("{word}euclid 1 2 6"),
        format!("help {word}"),
        format!("euclid {word}"),
        format!("euclid 1 {word}"),
        format!("euclid {word} 2 6"),
        format!("euclid 1 {word} 6"),
        format!("euclid 1 2 {word}"),
        format!("euclid 1 2 6 {word}"),
        format!("euclid {word} {word} {word}"),
        format!("euclid 1 {word} {word}"),
        format!("euclid 1 {word} 0"),
        format!("euclid 1 {word} 4"),
        format!("euclid 1 {word} x"),
        format!("euclid 1 {word} 18446744073709551616"),
        format!("euclid 1 x {word}"),
        format!("euclid x 2 {word}"),
        format!("euclid 2 {word} 7"),
        format!("euclid 2 2 {word}"),
        format!("euclid 3/5 {word} 65537"),
        format!("euclid 3/5 513 {word}"),
        format!("euclid 3/4 {word} 0"),
        format!("euclid 3/4 513 {word}"),
        format!("euclid 3/{word} 513 65537"),
        format!("euclid 3/{word} x 65537"),
        format!("check {word}"),
        format!("check 09{word}00"),
        format!("check 0900{word}"),
        format!("check 0900 {word}"),
    ]
}

fn bad_counts_and_commands() -> Vec<String> {
    let lines = [
        "", " ", "\t", "\r", " \t \r ", "help", " help ", "\thelp\r", "help help", "help euclid", "help 1 2 3",
        "batch", "batch batch", "batch help", "batch euclid 1 2 6", "casebook", "casebook euclid 1 2 6", "1", "1 2 6",
        "second", "#", "# euclid 1 2 6", "euclid", "euclid ", "euclid 1", "euclid 1 2", "euclid x", "euclid x y",
        "euclid 1 2\r", "euclid 1 2 6 7", "euclid 1 2 6 7 8", "euclid x y z u", "euclid 1 2 6 x y",
        "euclid 1 2 6 euclid 1 2 6", "euclid 1 2 4 7", "euclid 1 2 0 7", "euclid,1,2,6", "euclid 1,2,6",
        "euclid=1 2 6", "euclid1 2 6", "eucli 1 2 6", "refused", "error", "zero", "inverse 4", "quit", "exit",
        "euclid\u{a0}1 2 6", "euclid\u{b}1\u{b}2\u{b}6", "\u{feff}euclid 1 2 6",
    ];
    lines.map(str::to_string).to_vec()
}

/// Lines of none to six random words, right and wrong ones, so that mistakes come together.
fn random_sentences(random: &mut Random) -> Vec<String> {
    const FIRST: [&str; 8] = ["euclid", "euclid", "euclid", "euclid", "euclid", "help", "batch", "x"];
    const DOMAINS: [&str; 10] = ["1", "1", "2", "2", "3/5", "3/251", "3/4", "3/", "0", "y"];
    const OTHERS: [&str; 20] = [
        "0", "1", "2", "3", "4", "6", "7", "30", "259", "65537", "65536", "72057594037927938", "2147483647",
        "2147483648", "18446744073709551615", "18446744073709551616", "-1", "é", "euclid", "z",
    ];
    let mut lines = Vec::new();
    for _ in 0..1_200 {
        let count = if random.below(2) == 0 { 4 } else { random.below(7) };
        let words: Vec<&str> = (0..count)
            .map(|at| match at {
                0 => random.choose(&FIRST),
                1 => random.choose(&DOMAINS),
                _ => random.choose(&OTHERS),
            })
            .collect();
        lines.push(spaced(random, &words));
    }
    lines
}
