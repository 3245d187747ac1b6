//! Reads a command and answers it as lines of text.

use crate::programs;
use crate::rules::{self, Domain, Polynomials, Refusal, Whole};
use std::fmt::{self, Display};

/// How this program, in the part of casebook, says that casebook is used.
pub const USAGE: &str = "\
casebook COMMAND WORDS..  runs one command
casebook batch            answers each line of standard input as a command

euclid DOMAIN WORD MODULUS
check HEX
help

DOMAIN is 1 for whole numbers, 2 for bit polynomials, or 3/P for byte polynomials over GF(P).
HEX is the bytes of a program, two hexadecimal digits each.
";

/// What a command is answered with, when it is neither refused nor wrong.
#[derive(Debug, Clone, PartialEq, Eq)]
pub enum Answer {
    /// These lines.
    Lines(Vec<String>),
    /// How the program is used. docs/RULES.md does not say in which words.
    Usage,
}

/// Why a command has no answer.
#[derive(Debug, Clone, PartialEq, Eq)]
pub enum Failure {
    NoCommand,
    UnknownCommand(String),
    /// The command and the words it needs.
    TooFewWords(&'static str, &'static str),
    SurplusWord(String),
    NoDomain(String),
    NoNumber(String),
    PastWord(String),
    /// The word, and the number of characters before the first that is no hexadecimal digit.
    NoHexDigit(String, usize),
    OddDigits(String),
    Refused(Refusal),
}

pub type Reply = Result<Answer, Failure>;

impl Display for Failure {
    fn fmt(&self, f: &mut fmt::Formatter) -> fmt::Result {
        match self {
            Failure::NoCommand => write!(f, "error: no command"),
            Failure::UnknownCommand(word) => write!(f, "error: '{word}' is no command"),
            Failure::TooFewWords(command, needed) => write!(f, "error: {command} needs {needed}"),
            Failure::SurplusWord(word) => write!(f, "error: '{word}' is one word too many"),
            Failure::NoDomain(word) => write!(f, "error: '{word}' is no domain"),
            Failure::NoNumber(word) => write!(f, "error: '{word}' is no number"),
            Failure::PastWord(word) => write!(f, "error: '{word}' is past 64 bits"),
            Failure::NoHexDigit(word, at) => write!(f, "error: '{word}' has no hexadecimal digit at {at}"),
            Failure::OddDigits(word) => write!(f, "error: '{word}' has an odd number of digits"),
            Failure::Refused(refusal) => write!(f, "{refusal}"),
        }
    }
}

impl From<Refusal> for Failure {
    fn from(refusal: Refusal) -> Self {
        Failure::Refused(refusal)
    }
}

/// The text that a reply prints, with a line end after each line; `usage` is how the program is used.
pub fn text_of(reply: &Reply, usage: &str) -> String {
    match reply {
        Ok(Answer::Lines(lines)) => lines.iter().map(|line| format!("{line}\n")).collect(),
        Ok(Answer::Usage) => usage.to_string(),
        Err(failure) => format!("{failure}\n"),
    }
}

/// What a batch prints for the whole of its input.
pub fn batch_output(input: &str, usage: &str) -> String {
    input.split_terminator('\n').map(|line| text_of(&answer_line(line), usage)).collect()
}

/// The words of a line of a batch.
pub fn words_of(line: &str) -> Vec<&str> {
    line.split([' ', '\t', '\r', '\x0c']).filter(|word| !word.is_empty()).collect()
}

/// Answers a line of a batch.
pub fn answer_line(line: &str) -> Reply {
    answer_words(&words_of(line))
}

/// Answers the arguments of a single command, which is not `batch` alone.
pub fn answer_arguments(arguments: &[&str]) -> Reply {
    match arguments {
        [] => Ok(Answer::Usage),
        ["batch", surplus, ..] => Err(Failure::SurplusWord(surplus.to_string())),
        _ => answer_words(arguments),
    }
}

fn answer_words(words: &[&str]) -> Reply {
    match words {
        [] => Err(Failure::NoCommand),
        ["euclid", operands @ ..] => answer_euclid(operands),
        ["check", operands @ ..] => answer_check(operands),
        ["help", operands @ ..] => exactly("help", "", operands).map(|[]| Answer::Usage),
        [other, ..] => Err(Failure::UnknownCommand(other.to_string())),
    }
}

fn answer_euclid(operands: &[&str]) -> Reply {
    let [domain, word, modulus] = exactly("euclid", "DOMAIN WORD MODULUS", operands)?;
    let kind = kind_of(domain)?;
    let (word, modulus) = (number_of(word)?, number_of(modulus)?);
    match kind {
        Kind::Whole => euclid_in(&Whole, word, modulus),
        Kind::Bits => euclid_in(&Polynomials::BITS, word, modulus),
        Kind::Bytes(p) => euclid_in(&Polynomials::bytes(p)?, word, modulus),
    }
}

fn euclid_in<D: Domain>(domain: &D, word: u64, modulus: u64) -> Reply {
    rules::check_modulus(domain, modulus)?;
    Ok(Answer::Lines(vec![rules::euclid(domain, word, modulus).to_string()]))
}

fn answer_check(operands: &[&str]) -> Reply {
    let [hex] = exactly("check", "HEX", operands)?;
    let commands = programs::read(&bytes_of(hex)?)?;
    programs::check(&commands)?;
    Ok(Answer::Lines(programs::listing(&commands)))
}

/// The operands, if there are exactly as many as the command needs.
fn exactly<'a, const N: usize>(
    command: &'static str,
    needed: &'static str,
    operands: &[&'a str],
) -> Result<[&'a str; N], Failure> {
    if let Some(surplus) = operands.get(N) {
        return Err(Failure::SurplusWord(surplus.to_string()));
    }
    operands.try_into().map_err(|_| Failure::TooFewWords(command, needed))
}

/// The kinds of domain that a DOMAIN can name.
#[derive(Debug, PartialEq, Eq)]
enum Kind {
    Whole,
    Bits,
    /// With p, which need not be in the list of primes.
    Bytes(u64),
}

fn kind_of(word: &str) -> Result<Kind, Failure> {
    let kind = match word {
        "1" => Some(Kind::Whole),
        "2" => Some(Kind::Bits),
        _ => word.strip_prefix("3/").and_then(|p| number_of(p).ok()).map(Kind::Bytes),
    };
    kind.ok_or_else(|| Failure::NoDomain(word.to_string()))
}

fn number_of(word: &str) -> Result<u64, Failure> {
    if word.is_empty() || !word.bytes().all(|byte| byte.is_ascii_digit()) {
        return Err(Failure::NoNumber(word.to_string()));
    }
    // Digits alone can fail only by being past 64 bits.
    word.parse().map_err(|_| Failure::PastWord(word.to_string()))
}

/// The bytes of a HEX.
fn bytes_of(word: &str) -> Result<Vec<u8>, Failure> {
    if let Some(at) = word.chars().position(|character| !character.is_ascii_hexdigit()) {
        return Err(Failure::NoHexDigit(word.to_string(), at));
    }
    let digits: Vec<u8> =
        word.chars().filter_map(|character| character.to_digit(16)).map(|digit| digit as u8).collect();
    if digits.len() % 2 == 1 {
        return Err(Failure::OddDigits(word.to_string()));
    }
    Ok(digits.chunks(2).map(|pair| 16 * pair[0] + pair[1]).collect())
}

#[cfg(test)]
mod tests {
    use super::*;

    fn assert_answers(cases: &[(&str, &str)]) {
        for (line, expected) in cases {
            assert_eq!(text_of(&answer_line(line), "usage\n"), format!("{expected}\n"), "{line:?}");
        }
    }

    #[test]
    fn euclid_is_answered() {
        assert_answers(&[
            ("euclid 1 14 7", "zero"),
            ("euclid 1 2 7", "inverse 4"),
            ("euclid 1 2 6", "factor 2"),
            ("euclid 1 2 1", "refused 9 place 0: the modulus is not legal"),
            ("euclid 1 2 2147483648", "refused 9 place 0: the modulus is not legal"),
            ("euclid 1 2 12", "refused 10 place 0: the modulus is not squarefree"),
            ("euclid 2 2 7", "inverse 3"),
            ("euclid 2 14 7", "zero"),
            ("euclid 2 2 6", "factor 2"),
            ("euclid 2 2 5", "refused 10 place 0: the modulus is not squarefree"),
            ("euclid 2 2 4294967296", "refused 9 place 0: the modulus is not legal"),
            ("euclid 3/5 513 65537", "factor 259"),
            ("euclid 3/005 513 65537", "factor 259"),
            ("euclid 3/5 65537 65537", "zero"),
            ("euclid 3/7 256 65537", "inverse 1536"),
            ("euclid 3/5 2 5", "refused 9 place 0: the modulus is not legal"),
            ("euclid 3/3 2 16777217", "refused 10 place 0: the modulus is not squarefree"),
            ("help", "usage"),
        ]);
    }

    #[test]
    fn programs_are_checked() {
        let listing = [
            "accepted 4 commands", "  0 SET 0 2 next 10", "  10 TEST 0 zero 17 other 14", "  14 INV 1 0 next 17",
            "  17 END 0",
        ];
        assert_answers(&[
            ("check 01000200000000000000070011000601000900", &listing.join("\n")),
            ("check 01000200000000000000070010000601000900", "refused 5 place 10: a jump goes to no command"),
            ("check 09eF", "accepted 1 commands\n  0 END 239"),
            ("check 09F0", "refused 4 place 0: a cell of 64 or more, or an end code over 239"),
            ("check 0a", "refused 2 place 0: an unknown command byte"),
            ("check 09", "refused 3 place 0: a command's operands run past the end"),
            ("check 020000", "refused 6 place 0: the last command is neither GO nor END"),
            ("check 0900 0900", "error: '0900' is one word too many"),
            ("check x 090 y", "error: '090' is one word too many"),
            ("check", "error: check needs HEX"),
            ("check 090", "error: '090' has an odd number of digits"),
            ("check 0x090", "error: '0x090' has no hexadecimal digit at 1"),
            ("check é9g", "error: 'é9g' has no hexadecimal digit at 0"),
            ("check 09００", "error: '09００' has no hexadecimal digit at 2"),
        ]);
        let no_bytes = "refused 1 place 0: the program has no bytes or more than 1,024\n";
        assert_eq!(text_of(&answer_arguments(&["check", ""]), ""), no_bytes);
        assert_eq!(text_of(&answer_line(&format!("check {}", "0900".repeat(600))), ""), no_bytes);
    }

    #[test]
    fn an_unlisted_p_is_refused_before_the_modulus_and_after_the_words() {
        for p in ["0", "1", "2", "4", "9", "253", "255", "257", "18446744073709551615"] {
            for modulus in ["65537", "0", "65536"] {
                let line = format!("euclid 3/{p} 2 {modulus}");
                assert_answers(&[(&line, "refused 8 place 0: p is not in the list of primes")]);
            }
            assert_answers(&[(&format!("euclid 3/{p} x 0"), "error: 'x' is no number")]);
            assert_answers(&[(&format!("euclid 3/{p} 2 y"), "error: 'y' is no number")]);
        }
    }

    #[test]
    fn domains_are_read() {
        assert_eq!(kind_of("1"), Ok(Kind::Whole));
        assert_eq!(kind_of("2"), Ok(Kind::Bits));
        assert_eq!(kind_of("3/05"), Ok(Kind::Bytes(5)));
        assert_eq!(kind_of("3/18446744073709551615"), Ok(Kind::Bytes(u64::MAX)));
        for wrong in ["", "0", "01", "02", "3", "3/", "03/5", "3/-5", "3/5/", "3/5x", "3/18446744073709551616", "2/5"] {
            assert_eq!(kind_of(wrong), Err(Failure::NoDomain(wrong.to_string())));
        }
    }

    #[test]
    fn an_argument_is_one_word_and_batch_takes_none() {
        let surplus = |word: &str| Err(Failure::SurplusWord(word.to_string()));
        assert_eq!(answer_arguments(&["batch", "x"]), surplus("x"));
        assert_eq!(answer_arguments(&["batch", "", "y"]), surplus(""));
        assert_eq!(answer_arguments(&["help", " "]), surplus(" "));
        assert_eq!(answer_arguments(&["euclid", "1", " 2", "6"]), Err(Failure::NoNumber(" 2".to_string())));
        assert_eq!(answer_arguments(&[""]), Err(Failure::UnknownCommand(String::new())));
        assert_eq!(answer_arguments(&[]), Ok(Answer::Usage));
    }

    #[test]
    fn errors_are_looked_for_in_order() {
        assert_answers(&[
            ("", "error: no command"),
            (" \t\r", "error: no command"),
            ("batch", "error: 'batch' is no command"),
            ("batch x", "error: 'batch' is no command"),
            ("Euclid 1", "error: 'Euclid' is no command"),
            ("euclid", "error: euclid needs DOMAIN WORD MODULUS"),
            ("euclid x y", "error: euclid needs DOMAIN WORD MODULUS"),
            ("euclid x y z u v", "error: 'u' is one word too many"),
            ("help me now", "error: 'me' is one word too many"),
            ("euclid x y z", "error: 'x' is no domain"),
            ("euclid 1 y z", "error: 'y' is no number"),
            ("euclid 1 18446744073709551616 z", "error: '18446744073709551616' is past 64 bits"),
            ("euclid 1 2 z", "error: 'z' is no number"),
        ]);
    }

    #[test]
    fn numbers_are_digits_below_two_to_the_64() {
        assert_eq!(number_of("18446744073709551615"), Ok(u64::MAX));
        assert_eq!(number_of("000000000000000000000000000007"), Ok(7));
        assert_eq!(number_of("18446744073709551616"), Err(Failure::PastWord("18446744073709551616".to_string())));
        for wrong in ["", "-1", "+1", "0x10", "1e3", "1_0", "٣", "é"] {
            assert_eq!(number_of(wrong), Err(Failure::NoNumber(wrong.to_string())));
        }
    }

    #[test]
    fn only_space_tab_carriage_return_and_form_feed_are_blanks() {
        assert_eq!(words_of("\t euclid\r1 \t 2\r"), ["euclid", "1", "2"]);
        assert_eq!(words_of("a\u{a0}b\u{b}c\u{c}d"), ["a\u{a0}b\u{b}c", "d"]);
    }

    #[test]
    fn a_batch_answers_each_line() {
        assert_eq!(batch_output("", "usage\n"), "");
        assert_eq!(batch_output("\n", "usage\n"), "error: no command\n");
        assert_eq!(batch_output("help\r\neuclid 1 2 6", "usage\n"), "usage\nfactor 2\n");
    }
}
