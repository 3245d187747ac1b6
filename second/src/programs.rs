//! Byte programs, as docs/RULES.md states them: reading, checking and listing.

use crate::rules::Refusal;
use std::fmt::{self, Display};

pub const MOST_BYTES: usize = 1_024;
const CELLS: u64 = 64;
const LARGEST_END_CODE: u64 = 239;

#[derive(Debug, Clone, Copy, PartialEq, Eq)]
pub enum Operand {
    Cell,
    Word,
    Place,
    EndCode,
}

use Operand::{Cell, EndCode, Place, Word};

impl Operand {
    pub fn length(self) -> usize {
        match self {
            Cell | EndCode => 1,
            Place => 2,
            Word => 8,
        }
    }

    fn allows(self, value: u64) -> bool {
        match self {
            Cell => value < CELLS,
            EndCode => value <= LARGEST_END_CODE,
            Word | Place => true,
        }
    }
}

/// What a command is called, and its operands in their order.
#[derive(Debug, PartialEq, Eq)]
pub struct Form {
    pub byte: u8,
    pub name: &'static str,
    pub operands: &'static [Operand],
}

pub const FORMS: [Form; 9] = [
    Form { byte: 1, name: "SET", operands: &[Cell, Word] },
    Form { byte: 2, name: "COPY", operands: &[Cell, Cell] },
    Form { byte: 3, name: "ADD", operands: &[Cell, Cell, Cell] },
    Form { byte: 4, name: "SUB", operands: &[Cell, Cell, Cell] },
    Form { byte: 5, name: "MUL", operands: &[Cell, Cell, Cell] },
    Form { byte: 6, name: "INV", operands: &[Cell, Cell] },
    Form { byte: 7, name: "TEST", operands: &[Cell, Place] },
    Form { byte: 8, name: "GO", operands: &[Place] },
    Form { byte: 9, name: "END", operands: &[EndCode] },
];

impl Form {
    /// The length of a command with its byte.
    pub fn length(&self) -> usize {
        1 + self.operands.iter().map(|operand| operand.length()).sum::<usize>()
    }
}

/// A command at its place, with the values of its operands.
#[derive(Debug, PartialEq, Eq)]
pub struct Command {
    pub place: usize,
    pub form: &'static Form,
    pub values: Vec<u64>,
}

impl Command {
    /// The place after the command.
    fn following(&self) -> usize {
        self.place + self.form.length()
    }

    /// The place that a TEST or GO names.
    fn named_place(&self) -> Option<u64> {
        let at = self.form.operands.iter().position(|operand| *operand == Place)?;
        Some(self.values[at])
    }
}

impl Display for Command {
    fn fmt(&self, f: &mut fmt::Formatter) -> fmt::Result {
        let Command { place, form, values } = self;
        write!(f, "  {place} {}", form.name)?;
        match form.name {
            "TEST" => write!(f, " {} zero {} other {}", values[0], values[1], self.following()),
            "GO" | "END" => write!(f, " {}", values[0]),
            _ => {
                values.iter().try_for_each(|value| write!(f, " {value}"))?;
                write!(f, " next {}", self.following())
            }
        }
    }
}

fn refusal(number: u32, place: usize) -> Refusal {
    let reason = match number {
        1 => "the program has no bytes or more than 1,024",
        2 => "an unknown command byte",
        3 => "a command's operands run past the end",
        4 => "a cell of 64 or more, or an end code over 239",
        5 => "a jump goes to no command",
        6 => "the last command is neither GO nor END",
        _ => unreachable!("a program is not refused with {number}"),
    };
    Refusal { number, place: place as u32, reason }
}

/// The commands of a program, from the front.
pub fn read(bytes: &[u8]) -> Result<Vec<Command>, Refusal> {
    if bytes.is_empty() || bytes.len() > MOST_BYTES {
        return Err(refusal(1, 0));
    }
    let mut commands = Vec::new();
    let mut place = 0;
    while place < bytes.len() {
        let command = read_command(bytes, place)?;
        place = command.following();
        commands.push(command);
    }
    Ok(commands)
}

fn read_command(bytes: &[u8], place: usize) -> Result<Command, Refusal> {
    let form = FORMS.iter().find(|form| form.byte == bytes[place]).ok_or_else(|| refusal(2, place))?;
    if place + form.length() > bytes.len() {
        return Err(refusal(3, place));
    }
    let mut values = Vec::new();
    let mut at = place + 1;
    for operand in form.operands {
        let value = number(&bytes[at..at + operand.length()]);
        if !operand.allows(value) {
            return Err(refusal(4, place));
        }
        values.push(value);
        at += operand.length();
    }
    Ok(Command { place, form, values })
}

/// The number of at most 8 bytes, the lowest first.
fn number(bytes: &[u8]) -> u64 {
    bytes.iter().rev().fold(0, |number, byte| number << 8 | u64::from(*byte))
}

/// Tries every jump from the front, then the last command.
pub fn check(commands: &[Command]) -> Result<(), Refusal> {
    let is_command = |place: u64| commands.iter().any(|command| command.place as u64 == place);
    for command in commands {
        if command.named_place().is_some_and(|place| !is_command(place)) {
            return Err(refusal(5, command.place));
        }
    }
    match commands.last() {
        Some(last) if !["GO", "END"].contains(&last.form.name) => Err(refusal(6, last.place)),
        _ => Ok(()),
    }
}

/// The lines that answer an accepted program.
pub fn listing(commands: &[Command]) -> Vec<String> {
    let heading = format!("accepted {} commands", commands.len());
    [heading].into_iter().chain(commands.iter().map(Command::to_string)).collect()
}

#[cfg(test)]
mod tests {
    use super::*;

    fn checked(bytes: &[u8]) -> Result<Vec<Command>, Refusal> {
        let commands = read(bytes)?;
        check(&commands).map(|()| commands)
    }

    fn assert_refused(cases: &[(&[u8], u32, usize)]) {
        for (bytes, number, place) in cases {
            assert_eq!(checked(bytes), Err(refusal(*number, *place)), "{bytes:?}");
        }
    }

    #[test]
    fn lengths_are_those_of_the_table() {
        assert_eq!(FORMS.map(|form| form.length()), [10, 3, 4, 4, 4, 3, 4, 3, 2]);
        assert_eq!(FORMS.map(|form| form.byte), [1, 2, 3, 4, 5, 6, 7, 8, 9]);
    }

    #[test]
    fn numbers_have_the_lowest_byte_first() {
        assert_eq!(number(&[1, 2]), 513);
        assert_eq!(number(&[0, 0, 0, 0, 0, 0, 0, 128]), 1 << 63);
        assert_eq!(number(&[255; 8]), u64::MAX);
    }

    #[test]
    fn a_listing_shows_every_command() {
        let bytes = [
            1, 63, 255, 255, 255, 255, 255, 255, 255, 255, 2, 1, 2, 3, 1, 2, 3, 4, 4, 5, 6, 5, 7, 8, 9, 6, 10, 11, 7,
            12, 10, 0, 8, 0, 0, 9, 239,
        ];
        let expected = [
            "accepted 9 commands",
            "  0 SET 63 18446744073709551615 next 10",
            "  10 COPY 1 2 next 13",
            "  13 ADD 1 2 3 next 17",
            "  17 SUB 4 5 6 next 21",
            "  21 MUL 7 8 9 next 25",
            "  25 INV 10 11 next 28",
            "  28 TEST 12 zero 10 other 32",
            "  32 GO 0",
            "  35 END 239",
        ];
        assert_eq!(listing(&checked(&bytes).expect("the program is right")), expected);
    }

    #[test]
    fn lengths_are_limited() {
        assert_refused(&[(&[], 1, 0), (&[9; 1_025], 1, 0), (&[0; 1_026], 1, 0)]);
        assert_eq!(checked(&[9; 1_024]).map(|commands| commands.len()), Ok(512));
    }

    #[test]
    fn reading_refuses_from_the_front() {
        assert_refused(&[
            (&[0], 2, 0),
            (&[10, 9, 0], 2, 0),
            (&[9, 0, 255], 2, 2),
            (&[9], 3, 0),
            (&[9, 0, 1, 0, 0, 0, 0, 0, 0, 0, 0], 3, 2),
            // Past the end comes before the cell of 64.
            (&[2, 64], 3, 0),
            (&[9, 0, 2, 64, 0], 4, 2),
            (&[2, 0, 64, 9, 0], 4, 0),
            (&[3, 0, 0, 64, 10], 4, 0),
            (&[9, 240], 4, 0),
            // The jump at 0 is tried only when all is read.
            (&[8, 1, 0, 9, 240], 4, 3),
            (&[8, 1, 0, 9], 3, 3),
        ]);
    }

    #[test]
    fn checking_tries_jumps_before_the_last_command() {
        assert_refused(&[
            (&[8, 1, 0, 2, 0, 0], 5, 0),
            (&[7, 0, 4, 0, 8, 1, 0], 5, 4),
            (&[8, 3, 0], 5, 0),
            (&[8, 255, 255], 5, 0),
            (&[8, 0, 1], 5, 0),
            (&[2, 0, 0], 6, 0),
            (&[9, 0, 7, 0, 0, 0], 6, 2),
        ]);
        assert!(checked(&[8, 0, 0]).is_ok());
    }
}
