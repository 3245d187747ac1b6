//! Runs casebook on the jobs and compares what it prints with this program's own answers.

use crate::answer::{self, text_of};
use crate::jobs;
use std::fmt::{self, Display};
use std::io::{self, ErrorKind, Write};
use std::process::{Command, Stdio};
use std::thread;

/// How many differences are printed, and how much of a long text.
const SHOWN_DIFFERENCES: usize = 5;
const SHOWN_CHARACTERS: usize = 400;

/// What was compared, and where it differs.
#[derive(Default)]
pub struct Report {
    lines: usize,
    batches: usize,
    singles: usize,
    differences: Vec<Difference>,
}

#[derive(Debug)]
struct Difference {
    job: String,
    expected: String,
    came: String,
}

impl Report {
    pub fn agrees(&self) -> bool {
        self.differences.is_empty()
    }

    fn compare<T: PartialEq + Display + ?Sized>(&mut self, job: impl FnOnce() -> String, expected: &T, came: &T) {
        if expected != came {
            self.differences.push(Difference { job: job(), expected: expected.to_string(), came: came.to_string() });
        }
    }
}

impl Display for Report {
    fn fmt(&self, f: &mut fmt::Formatter) -> fmt::Result {
        let Report { lines, batches, singles, differences } = self;
        let jobs = lines + batches + singles;
        if self.agrees() {
            return writeln!(f, "second: {jobs} jobs agree ({lines} lines, {batches} batches, {singles} commands)");
        }
        for difference in differences.iter().take(SHOWN_DIFFERENCES) {
            write!(f, "{difference}")?;
        }
        let count = differences.len();
        if count > SHOWN_DIFFERENCES {
            writeln!(f, "and {} more", count - SHOWN_DIFFERENCES)?;
        }
        writeln!(f, "second: differences: {count}; jobs compared: {jobs}")
    }
}

impl Display for Difference {
    fn fmt(&self, f: &mut fmt::Formatter) -> fmt::Result {
        writeln!(f, "job:      {}", shown(&self.job))?;
        writeln!(f, "expected: {}", shown(&self.expected))?;
        writeln!(f, "came:     {}", shown(&self.came))
    }
}

/// A text with its blanks and line ends visible, and not too long.
fn shown(text: &str) -> String {
    let start: String = text.chars().take(SHOWN_CHARACTERS).collect();
    let cut = if start.len() < text.len() { format!(" .. ({} bytes)", text.len()) } else { String::new() };
    format!("{start:?}{cut}")
}

/// What a run printed, and its status. A byte that is not UTF-8 becomes U+FFFD, which no expected text has.
#[derive(Debug, PartialEq, Eq)]
struct Run {
    output: String,
    errors: String,
    /// None if a signal ended it.
    status: Option<i32>,
}

impl Run {
    fn printing(output: String) -> Self {
        Run { output, errors: String::new(), status: Some(0) }
    }

    fn failing(errors: String) -> Self {
        Run { output: String::new(), errors, status: Some(1) }
    }
}

impl Display for Run {
    fn fmt(&self, f: &mut fmt::Formatter) -> fmt::Result {
        let status = self.status.map_or("a signal".to_string(), |status| status.to_string());
        write!(f, "status {status}\nstandard output:\n{}standard error:\n{}", self.output, self.errors)
    }
}

/// Runs casebook once, with all of the input on its standard input.
fn run(path: &str, arguments: &[&str], input: &str) -> Result<Run, String> {
    let failed = |error: io::Error| format!("cannot run {path}: {error}");
    let mut child = Command::new(path)
        .args(arguments)
        .stdin(Stdio::piped())
        .stdout(Stdio::piped())
        .stderr(Stdio::piped())
        .spawn()
        .map_err(failed)?;
    let mut stdin = child.stdin.take().expect("standard input was asked for as a pipe");
    // The input is written beside the reading, so that neither side waits for the other.
    let (written, output) = thread::scope(|scope| {
        let writer = scope.spawn(move || stdin.write_all(input.as_bytes()));
        let output = child.wait_with_output();
        (writer.join().expect("writing the input does not panic"), output)
    });
    // A casebook that stops reading early is noticed by the answers it does not give.
    written.or_else(|error| if error.kind() == ErrorKind::BrokenPipe { Ok(()) } else { Err(error) }).map_err(failed)?;
    let output = output.map_err(failed)?;
    Ok(Run {
        output: String::from_utf8_lossy(&output.stdout).into_owned(),
        errors: String::from_utf8_lossy(&output.stderr).into_owned(),
        status: output.status.code(),
    })
}

/// Compares all jobs.
pub fn compare_all(path: &str, start: u64) -> Result<Report, String> {
    let mut report = Report::default();
    let lines = jobs::batch_lines(start);
    let usage = usage_text(path, &mut report)?;
    compare_lines(path, &lines, &usage, &mut report)?;
    compare_batches(path, &usage, &mut report)?;
    compare_singles(path, &jobs::single_commands(&lines), &usage, &mut report)?;
    Ok(report)
}

/// How casebook says it is used. The words are its own, but there must be some, in whole lines.
fn usage_text(path: &str, report: &mut Report) -> Result<String, String> {
    let came = run(path, &["help"], "")?;
    let usage = came.output.clone();
    if usage.trim().is_empty() || !usage.ends_with('\n') {
        let expected = "lines that say how casebook is used".to_string();
        report.differences.push(Difference { job: "casebook help".to_string(), expected, came: came.to_string() });
    }
    Ok(usage)
}

/// Compares a batch of all lines. After each comes a mark, a line that is no command, to find where its answer ends.
fn compare_lines(path: &str, lines: &[String], usage: &str, report: &mut Report) -> Result<(), String> {
    let input: String = lines.iter().enumerate().map(|(at, line)| format!("{line}\n{}\n", mark(at))).collect();
    let came = run(path, &["batch"], &input)?;
    compare_ends(&came, report);
    let mut rest = came.output.as_str();
    for (at, line) in lines.iter().enumerate() {
        let expected = text_of(&answer::answer_line(line), usage);
        report.lines += 1;
        let Some((block, after)) = split_at_line(rest, &mark_answer(at)) else {
            report.compare(|| line.clone(), (expected + &mark_answer(at)).as_str(), rest);
            return Ok(());
        };
        report.compare(|| line.clone(), expected.as_str(), block);
        rest = after;
    }
    report.compare(|| "the end of the batch".to_string(), "", rest);
    Ok(())
}

/// A batch prints nothing on standard error and ends with status 0.
fn compare_ends(came: &Run, report: &mut Report) {
    let beside_output = Run { output: String::new(), errors: came.errors.clone(), status: came.status };
    let expected = Run::printing(String::new());
    report.compare(|| "the status and standard error of the batch".to_string(), &expected, &beside_output);
}

fn mark(at: usize) -> String {
    format!("end-of-job-{at}")
}

fn mark_answer(at: usize) -> String {
    text_of(&answer::answer_line(&mark(at)), "")
}

/// What comes before a whole line, given with its line end, and what comes after it.
fn split_at_line<'a>(text: &'a str, line: &str) -> Option<(&'a str, &'a str)> {
    let starts_line = |at: &usize| *at == 0 || text.as_bytes()[at - 1] == b'\n';
    let at = text.match_indices(line).map(|(at, _)| at).find(starts_line)?;
    Some((&text[..at], &text[at + line.len()..]))
}

/// Compares whole small batches, without marks.
fn compare_batches(path: &str, usage: &str, report: &mut Report) -> Result<(), String> {
    for input in jobs::whole_batches() {
        let expected = Run::printing(answer::batch_output(&input, usage));
        let came = run(path, &["batch"], &input)?;
        report.batches += 1;
        report.compare(
            || format!("casebook batch, with the input {input:?}"),
            &expected.to_string(),
            &came.to_string(),
        );
    }
    Ok(())
}

/// Compares single commands. Their standard input is empty.
fn compare_singles(path: &str, commands: &[Vec<String>], usage: &str, report: &mut Report) -> Result<(), String> {
    for command in commands {
        let arguments: Vec<&str> = command.iter().map(String::as_str).collect();
        let reply = answer::answer_arguments(&arguments);
        let text = text_of(&reply, usage);
        let expected = if reply.is_ok() { Run::printing(text) } else { Run::failing(text) };
        let came = run(path, &arguments, "")?;
        report.singles += 1;
        report.compare(
            || format!("casebook, with the arguments {arguments:?}"),
            &expected.to_string(),
            &came.to_string(),
        );
    }
    Ok(())
}

#[cfg(test)]
mod tests {
    use super::*;

    #[test]
    fn a_block_ends_at_its_mark() {
        let text = "zero\nsee error: 'end-of-job-0' is no command\nerror: 'end-of-job-0' is no command\nfactor 2\n";
        let (block, rest) = split_at_line(text, &mark_answer(0)).expect("the mark is there");
        assert_eq!(block, "zero\nsee error: 'end-of-job-0' is no command\n");
        assert_eq!(rest, "factor 2\n");
        assert_eq!(split_at_line(rest, &mark_answer(1)), None);
    }

    #[test]
    fn a_report_counts_and_shows_differences() {
        let mut report = Report::default();
        report.compare(|| "same".to_string(), "zero\n", "zero\n");
        assert!(report.agrees());
        report.compare(|| "euclid 1 2 6".to_string(), "factor 2\n", "zero\n");
        assert!(!report.agrees());
        let text = report.to_string();
        assert!(text.contains("job:      \"euclid 1 2 6\""));
        assert!(text.contains("expected: \"factor 2\\n\""));
        assert!(text.contains("came:     \"zero\\n\""));
        assert!(text.contains("second: differences: 1; jobs compared: 0"));
    }

    #[test]
    fn long_texts_are_cut() {
        assert_eq!(shown("a\tb"), "\"a\\tb\"");
        assert!(shown(&"9".repeat(5_000)).ends_with(" .. (5000 bytes)"));
    }
}
