//! Makes the jobs: lines of a batch, whole batches, and arguments of single commands.

mod bits;
mod bytes;
mod maker;
mod programs;
mod whole;
mod writing;

use crate::answer::words_of;
use crate::random::Random;

/// Lines for a batch. Several kinds of line are random, and the same for the same start.
pub fn batch_lines(start: u64) -> Vec<String> {
    let mut random = Random::new(start);
    let kinds_of_job = [whole::lines, bits::lines, bytes::lines, programs::lines, writing::lines];
    kinds_of_job.iter().flat_map(|lines| lines(&mut random)).collect()
}

/// Well below the longest argument of a program on Linux, 128 KiB.
const LONGEST_ARGUMENT: usize = 100_000;

fn euclid_line(domain: &str, word: u64, modulus: u64) -> String {
    format!("euclid {domain} {word} {modulus}")
}

/// Whole inputs of a batch, for what a line within a large batch cannot show: how lines end.
pub fn whole_batches() -> Vec<String> {
    let inputs = [
        "",
        "\n",
        "\n\n\n",
        " ",
        "\r\n",
        "euclid 1 2 6",
        "euclid 1 2 6\n",
        "euclid 1 2 6\n\n",
        "\neuclid 1 2 6\n",
        "euclid 1 14 7\r\neuclid 1 2 7\r\neuclid 1 2 6\r\n",
        "euclid 1 14 7\reuclid 1 2 7\n",
        "help",
        "help\nhelp\n",
        "x\neuclid 1 2 4\neuclid 1 2 0\neuclid 1 2 7\n",
        "batch\neuclid 1 2 7",
        "euclid 1 2 7\nbatch",
        "euclid 2 2 7\neuclid 3/5 513 65537\neuclid 3/4 2 0\neuclid 3/5 2 0\neuclid 2 2 5",
        "\x0ceuclid\x0c3/5\x0c513\x0c65537\x0c\n",
        "check 01000200000000000000070011000601000900",
        "check 0900\r\ncheck 0901\r\ncheck\r\ncheck 0900",
        "check 0900\n\ncheck 02000009EF\neuclid 1 2 6\ncheck 09\ncheck 09\n00\n",
    ];
    inputs.map(str::to_string).to_vec()
}

/// Arguments of single commands: particular ones, and some lines of the batch.
pub fn single_commands(batch_lines: &[String]) -> Vec<Vec<String>> {
    let mut commands = particular_commands();
    let every = (batch_lines.len() / 300).max(1);
    for line in batch_lines.iter().step_by(every) {
        let words = words_of(line);
        // `batch` alone reads lines here, and an argument can neither hold a zero byte nor be very long.
        if words != ["batch"] && !line.contains('\0') && line.len() < LONGEST_ARGUMENT {
            commands.push(words.into_iter().map(str::to_string).collect());
        }
    }
    commands
}

/// Each argument is one word, also if it is empty or has blanks in it.
fn particular_commands() -> Vec<Vec<String>> {
    let commands: &[&[&str]] = &[
        &[],
        &["help"],
        &["help", "me"],
        &["help", "euclid", "1"],
        &["help", ""],
        &["euclid", "1", "14", "7"],
        &["euclid", "1", "2", "7"],
        &["euclid", "1", "2", "6"],
        &["euclid", "1", "002", "0006"],
        &["euclid", "1", "18446744073709551615", "2147483647"],
        &["euclid", "1", "2", "0"],
        &["euclid", "1", "2", "1"],
        &["euclid", "1", "2", "4"],
        &["euclid", "1", "2", "2147483648"],
        &["euclid", "1", "2", "18446744073709551615"],
        &["euclid", "1", "2", "18446744073709551616"],
        &["euclid", "1", "18446744073709551616", "7"],
        &["euclid"],
        &["euclid", "1"],
        &["euclid", "1", "2"],
        &["euclid", "1", "2", "6", "7"],
        &["euclid", "x", "y", "z", "u", "v"],
        &["euclid", "2", "2", "6"],
        &["euclid", "2", "2", "7"],
        &["euclid", "2", "2", "5"],
        &["euclid", "2", "2", "4294967296"],
        &["euclid", "02", "2", "7"],
        &["euclid", "3/5", "513", "65537"],
        &["euclid", "3/05", "513", "65537"],
        &["euclid", "3/251", "18446744073709551615", "72057594037927938"],
        &["euclid", "3/3", "2", "16777217"],
        &["euclid", "3/5", "2", "5"],
        &["euclid", "3/9", "513", "65537"],
        &["euclid", "3/9", "513", "0"],
        &["euclid", "3/9", "x", "0"],
        &["euclid", "3/", "513", "65537"],
        &["euclid", "3/ 5", "513", "65537"],
        &["euclid", "3/5 ", "513", "65537"],
        &["euclid", "3", "5", "513", "65537"],
        &["euclid", "3/18446744073709551615", "513", "65537"],
        &["euclid", "3/18446744073709551616", "513", "65537"],
        &["euclid", "one", "2", "6"],
        &["euclid", "1", "-1", "6"],
        &["euclid", "1", "+1", "6"],
        &["euclid", "1", "2", "0x10"],
        &["euclid", "1", "2", "é"],
        &["euclid", "1", "", "6"],
        &["euclid", "1", "2", ""],
        &["euclid", "", "2", "6"],
        &["euclid", "1", "2", "6", ""],
        &["euclid", "1", " 2", "6"],
        &["euclid", "1", "2", "6\r"],
        &["euclid", "1", "2\n", "6"],
        &["euclid", "1 ", "2", "6"],
        &["euclid ", "1", "2", "6"],
        &["euclid", "1", "2 6"],
        &["euclid 1 2 6"],
        &["check"],
        &["check", ""],
        &["check", "", ""],
        &["check", "01000200000000000000070011000601000900"],
        &["check", "01000200000000000000070010000601000900"],
        &["check", "09eF"],
        &["check", "09", "00"],
        &["check", "0900", ""],
        &["check", "0900", "x", "y"],
        &["check", " "],
        &["check", " 0900"],
        &["check", "0900 "],
        &["check", "09 00"],
        &["check", "0900\n"],
        &["check", "09\r"],
        &["check", "0900é"],
        &["check", "é0900"],
        &["check", "0x0900"],
        &["check", "-"],
        &["check", "090"],
        &["check", "0g0"],
        &["check", "9"],
        &["check", "09"],
        &["check", "0a"],
        &["check", "09f0"],
        &["check", "080100"],
        &["check", "020000"],
        &["check 0900"],
        &["Check", "0900"],
        &["help", "check"],
        &["batch", "check", "0900"],
        &["batch", "x"],
        &["batch", ""],
        &["batch", " "],
        &["batch", "batch"],
        &["batch", "help"],
        &["batch", "x", "y"],
        &["batch", "euclid", "1", "2", "6"],
        &["batch "],
        &[" batch"],
        &[" help"],
        &[""],
        &["", ""],
        &[" "],
        &["", "help"],
        &["x"],
        &["Euclid", "1", "2", "6"],
        &["--help"],
        &["-h"],
        &["é"],
    ];
    commands.iter().map(|words| words.iter().map(|word| word.to_string()).collect()).collect()
}

#[cfg(test)]
mod tests {
    use super::*;
    use crate::answer::{self, Answer, Failure};

    #[test]
    fn a_line_has_no_line_end_and_the_same_start_the_same_lines() {
        let lines = batch_lines(7);
        assert!(lines.iter().all(|line| !line.contains('\n')));
        assert_eq!(lines, batch_lines(7));
        assert_ne!(lines, batch_lines(8));
    }

    #[test]
    fn every_answer_comes_often_in_every_domain() {
        let mut random = Random::new(1);
        for lines in [whole::lines(&mut random), bits::lines(&mut random), bytes::lines(&mut random)] {
            let texts: Vec<String> = lines.iter().map(|line| answer::text_of(&answer::answer_line(line), "")).collect();
            for start in ["zero", "inverse ", "factor ", "refused 9 ", "refused 10 "] {
                let count = texts.iter().filter(|text| text.starts_with(start)).count();
                assert!(count > 200, "{start} comes {count} times with {}", lines[0]);
            }
        }
    }

    #[test]
    fn every_error_comes_often() {
        let lines = batch_lines(1);
        let replies: Vec<answer::Reply> = lines.iter().map(|line| answer::answer_line(line)).collect();
        let count = |wanted: fn(&answer::Reply) -> bool| replies.iter().filter(|reply| wanted(reply)).count();
        assert!(count(|r| matches!(r, Err(Failure::Refused(refusal)) if refusal.number == 8)) > 100);
        assert!(count(|r| matches!(r, Err(Failure::NoCommand))) > 10);
        assert!(count(|r| matches!(r, Err(Failure::UnknownCommand(_)))) > 10);
        assert!(count(|r| matches!(r, Err(Failure::TooFewWords(..)))) > 10);
        assert!(count(|r| matches!(r, Err(Failure::SurplusWord(_)))) > 10);
        assert!(count(|r| matches!(r, Err(Failure::NoDomain(_)))) > 10);
        assert!(count(|r| matches!(r, Err(Failure::NoNumber(_)))) > 10);
        assert!(count(|r| matches!(r, Err(Failure::PastWord(_)))) > 10);
        assert!(count(|r| matches!(r, Err(Failure::NoHexDigit(..)))) > 100);
        assert!(count(|r| matches!(r, Err(Failure::OddDigits(_)))) > 50);
        assert!(count(|r| matches!(r, Ok(Answer::Usage))) > 5);
    }
}
