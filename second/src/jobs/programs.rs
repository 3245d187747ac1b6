//! Jobs about byte programs.

use crate::programs::{self, FORMS, MOST_BYTES, Operand};
use crate::random::Random;

pub fn lines(random: &mut Random) -> Vec<String> {
    let programs = [
        single_commands(),
        single_operands(),
        damaged_programs(),
        lengths(),
        jumps_in_a_long_program(),
        random_bytes(random),
        random_programs(random),
    ];
    let lines: Vec<String> = programs.concat().iter().map(|bytes| check_line(bytes)).collect();
    [lines, spellings(random), bad_digits(), word_counts()].concat()
}

fn check_line(bytes: &[u8]) -> String {
    format!("check {}", hex(bytes))
}

fn hex(bytes: &[u8]) -> String {
    bytes.iter().map(|byte| format!("{byte:02x}")).collect()
}

const EXAMPLE: &str = "01000200000000000000070011000601000900";

const END: [u8; 2] = [9, 0];
const COPY: [u8; 3] = [2, 1, 0];

const WORDS: [u64; 16] = [
    0,
    1,
    2,
    9,
    255,
    256,
    0x0102_0304_0506_0708,
    0x0909_0909_0909_0909,
    (1 << 31) - 1,
    (1 << 32) - 1,
    1 << 32,
    (1 << 53) + 1,
    (1 << 63) - 1,
    1 << 63,
    u64::MAX - 1,
    u64::MAX,
];

fn set(d: u8, w: u64) -> Vec<u8> {
    [[1, d].as_slice(), &w.to_le_bytes()].concat()
}

fn test(a: u8, zero: u16) -> Vec<u8> {
    [[7, a].as_slice(), &zero.to_le_bytes()].concat()
}

fn go(place: u16) -> Vec<u8> {
    [[8].as_slice(), &place.to_le_bytes()].concat()
}

/// Every command with small and large operands, followed by END.
fn single_commands() -> Vec<Vec<u8>> {
    const CELLS: [u8; 4] = [0, 5, 9, 63];
    let mut commands = Vec::new();
    for d in CELLS {
        commands.extend(WORDS.map(|w| set(d, w)));
        commands.extend([0, 4].map(|zero| test(d, zero)));
        for a in CELLS {
            commands.extend([2, 6].map(|byte| vec![byte, d, a]));
            commands.extend([3, 4, 5].iter().flat_map(|byte| CELLS.map(|b| vec![*byte, d, a, b])));
        }
    }
    commands.extend([0, 3].map(go));
    commands.extend((0..=255).map(|e| vec![9, e]));
    commands.into_iter().map(|command| [command.as_slice(), &END].concat()).collect()
}

/// Every byte as a command byte, and many bytes in the place of each operand.
fn single_operands() -> Vec<Vec<u8>> {
    const BYTES: [u8; 18] = [0, 1, 2, 31, 32, 62, 63, 64, 65, 127, 128, 129, 191, 192, 239, 240, 254, 255];
    let mut programs = Vec::new();
    for byte in 0..=255 {
        programs.extend([vec![byte], vec![byte, 0], vec![9, 0, byte, 0, 0, 0, 0, 0, 0, 0, 0, 0, 9, 0]]);
    }
    for form in &FORMS {
        for at in 1..form.length() {
            let mut program = [vec![form.byte], vec![0; form.length() - 1], END.to_vec()].concat();
            programs.extend(BYTES.map(|byte| {
                program[at] = byte;
                program.clone()
            }));
        }
    }
    programs
}

/// Accepted programs, with every command and with jumps forwards, backwards and to themselves.
fn accepted_programs() -> Vec<Vec<u8>> {
    let every_command = [
        set(0, 0x0807_0605_0403_0201),
        vec![2, 1, 0, 3, 2, 1, 0, 4, 3, 2, 1, 5, 4, 3, 2, 6, 5, 4],
        test(5, 35),
        go(10),
        vec![9, 7],
    ];
    let jumps = [go(14), test(1, 3), test(2, 11), go(19), vec![2, 1, 2, 9, 1], test(3, 3), go(23)];
    let ends = [vec![9, 0, 9, 239, 9, 9, 9, 1], test(9, 2), vec![9, 8]];
    vec![
        vec![1, 0, 2, 0, 0, 0, 0, 0, 0, 0, 7, 0, 17, 0, 6, 1, 0, 9, 0],
        every_command.concat(),
        jumps.concat(),
        ends.concat(),
        vec![8, 0, 0],
        vec![9, 0],
    ]
}

fn damaged_programs() -> Vec<Vec<u8>> {
    let mut programs = accepted_programs();
    for program in accepted_programs() {
        programs.extend(cut(&program));
        programs.extend(other_command_bytes(&program));
        programs.extend(other_operands(&program));
        programs.extend(other_last_commands(&program));
        programs.extend(two_faults(&program));
    }
    programs
}

/// The program with other bytes from a place on.
fn with(program: &[u8], at: usize, bytes: &[u8]) -> Vec<u8> {
    let mut changed = program.to_vec();
    changed[at..at + bytes.len()].copy_from_slice(bytes);
    changed
}

/// The program without its end, from every byte on.
fn cut(program: &[u8]) -> Vec<Vec<u8>> {
    (1..program.len()).map(|length| program[..length].to_vec()).collect()
}

fn places(program: &[u8]) -> Vec<usize> {
    programs::read(program).expect("the program is right").iter().map(|command| command.place).collect()
}

/// Unknown and known bytes in the place of each command byte.
fn other_command_bytes(program: &[u8]) -> Vec<Vec<u8>> {
    let bytes = [0, 1, 2, 3, 4, 5, 6, 7, 8, 9, 10, 11, 16, 25, 127, 128, 129, 137, 144, 254, 255];
    places(program).iter().flat_map(|place| bytes.map(|byte| with(program, *place, &[byte]))).collect()
}

/// Every operand at its limits, and every jump to every place.
fn other_operands(program: &[u8]) -> Vec<Vec<u8>> {
    operands(program)
        .iter()
        .flat_map(|(operand, at)| {
            let values: Vec<Vec<u8>> = match operand {
                Operand::Cell => [0, 63, 64, 65, 128, 255].map(|byte| vec![byte]).to_vec(),
                Operand::EndCode => [0, 239, 240, 241, 254, 255].map(|byte| vec![byte]).to_vec(),
                Operand::Word => WORDS.map(|word| word.to_le_bytes().to_vec()).to_vec(),
                Operand::Place => jump_places(program.len()).iter().map(|place| place.to_le_bytes().to_vec()).collect(),
            };
            values.into_iter().map(|value| with(program, *at, &value)).collect::<Vec<_>>()
        })
        .collect()
}

/// Every operand of a right program, and where it is.
fn operands(program: &[u8]) -> Vec<(Operand, usize)> {
    let mut operands = Vec::new();
    for command in programs::read(program).expect("the program is right") {
        let mut at = command.place + 1;
        for operand in command.form.operands {
            operands.push((*operand, at));
            at += operand.length();
        }
    }
    operands
}

/// Every place within a program and just past it, and places that are within it if a byte is lost or changed round.
fn jump_places(length: usize) -> Vec<u16> {
    let length = length as u16;
    let far = [256, 256 + 10, 2_560, 4_352, 1_023, 1_024, 32_768, 65_279, 65_280, 65_535];
    (0..=length + 2).chain(far).chain([length << 8]).collect()
}

/// The last command changed to each kind, and each kind after it.
fn other_last_commands(program: &[u8]) -> Vec<Vec<u8>> {
    let last = *places(program).last().expect("a right program has commands");
    let commands = [
        set(1, 2),
        COPY.to_vec(),
        vec![3, 1, 2, 3],
        vec![4, 1, 2, 3],
        vec![5, 1, 2, 3],
        vec![6, 1, 2],
        test(1, 0),
        test(1, 1),
        go(0),
        go(1),
        go(last as u16),
        go(program.len() as u16),
        END.to_vec(),
        vec![9, 240],
    ];
    let ends = |command: &Vec<u8>| [&program[..last], program].map(|start| [start, command].concat());
    commands.iter().flat_map(ends).collect()
}

/// A fault at every command together with a fault after it.
fn two_faults(program: &[u8]) -> Vec<Vec<u8>> {
    let late_faults: [&[u8]; 7] = [&[0], &[2, 64], &[9, 240], &[8, 1, 0], &[2, 0, 0], &[7, 0, 1, 0], &[8, 1, 0, 9]];
    let early_faults: [&[u8]; 4] = [&[9, 255], &[8, 1, 0], &[7, 64, 1, 0], &[7, 63, 255, 255]];
    let mut programs = Vec::new();
    for place in places(program) {
        for early in early_faults {
            // Put in, the fault moves what comes after it, so that later jumps can be wrong too.
            let start = [&program[..place], early, &program[place..]].concat();
            programs.extend(late_faults.map(|late| [start.as_slice(), late].concat()));
        }
    }
    programs
}

/// Programs of few and of very many bytes.
fn lengths() -> Vec<Vec<u8>> {
    let mut programs = Vec::new();
    let lengths = [1, 2, 3, 4, 5, 6, 254, 255, 256, 257, 258, 511, 512, 513, 1_019, 1_020, 1_021, 1_022, 1_023];
    let longer = [1_024, 1_025, 1_026, 1_027, 1_028, 1_029, 1_030, 1_280, 2_047, 2_048, 2_049, 4_096, 65_536, 65_538];
    for length in lengths.into_iter().chain(longer) {
        for repeated in [END.as_slice(), &COPY, &[8, 0, 0], &[3, 2, 1, 0], &[0], &[9], &[64]] {
            let program: Vec<u8> = repeated.iter().copied().cycle().take(length).collect();
            if length > 2 {
                programs.push([&program[..length - 2], &END].concat());
            }
            if length > 3 {
                programs.push([&program[..length - 3], &go(0)].concat());
            }
            programs.push(program);
        }
    }
    programs
}

/// Jumps in programs of 1,024 and 1,025 bytes, at the front and at the end.
fn jumps_in_a_long_program() -> Vec<Vec<u8>> {
    let places = [0, 1, 3, 4, 6, 255, 256, 257, 258, 511, 512, 1_019, 1_020, 1_021, 1_022, 1_023, 1_024, 1_025, 65_535];
    let mut programs = Vec::new();
    for place in places {
        let copies = COPY.repeat((MOST_BYTES - 4) / 3);
        programs.push([go(place), copies[3..].to_vec(), vec![9, 1, 9, 2]].concat());
        programs.push([test(9, place), copies[3..].to_vec(), vec![8, 4, 0]].concat());
        programs.push([copies.clone(), test(63, place)].concat());
        programs.push([copies[3..].to_vec(), test(63, place), go(place)].concat());
        programs.push([copies, END.to_vec(), go(place)].concat());
    }
    programs
}

/// Bytes of which many are command bytes and small numbers.
fn random_bytes(random: &mut Random) -> Vec<Vec<u8>> {
    (0..600)
        .map(|_| {
            let bound = [256, 64, 16, 10][random.below(4) as usize];
            (0..random.between(1, 40)).map(|_| random.below(bound) as u8).collect()
        })
        .collect()
}

/// Random accepted programs, each also changed a little in several ways.
fn random_programs(random: &mut Random) -> Vec<Vec<u8>> {
    let mut programs = Vec::new();
    for round in 0..350 {
        let count = if round % 25 == 0 { 200 } else { random.between(1, 16) };
        let program = random_program(random, count);
        let changed_often = (0..random.between(2, 4)).fold(program.clone(), |program, _| changed(random, &program));
        programs.extend([changed(random, &program), changed(random, &program), changed_often]);
        programs.push(program);
    }
    programs
}

/// An accepted program of at most so many commands.
fn random_program(random: &mut Random, count: u64) -> Vec<u8> {
    let mut program = Vec::new();
    for _ in 1..count {
        let command = random_command(random, 1, 9);
        // Space is left for the last command.
        if program.len() + command.len() + 3 <= MOST_BYTES {
            program.extend(command);
        }
    }
    program.extend(random_command(random, 8, 9));
    let places = places(&program);
    for (operand, at) in operands(&program) {
        if operand == Operand::Place {
            let place = places[random.below(places.len() as u64) as usize] as u16;
            program = with(&program, at, &place.to_le_bytes());
        }
    }
    program
}

/// A command with a byte from `low` to `high`. Its jumps go to place 0.
fn random_command(random: &mut Random, low: u64, high: u64) -> Vec<u8> {
    let form = &FORMS[random.between(low, high) as usize - 1];
    let operand_bytes = form.operands.iter().flat_map(|operand| match operand {
        Operand::Cell => vec![random.below(64) as u8],
        Operand::EndCode => vec![random.below(240) as u8],
        Operand::Word => (random.word() >> random.below(64)).to_le_bytes().to_vec(),
        Operand::Place => vec![0, 0],
    });
    [form.byte].into_iter().chain(operand_bytes).collect()
}

/// The program with a byte changed, put in or taken out, or with two bytes changed round.
fn changed(random: &mut Random, program: &[u8]) -> Vec<u8> {
    let mut changed = program.to_vec();
    let place = |random: &mut Random| random.below(program.len() as u64) as usize;
    let byte = [random.below(256), random.below(10), 64][random.below(3) as usize] as u8;
    let at = place(random);
    match random.below(5) {
        0 => changed[at] = byte,
        1 => changed[at] ^= 1 << random.below(8),
        2 => changed.insert(at, byte),
        3 if program.len() > 1 => drop(changed.remove(at)),
        _ => changed.swap(at, place(random)),
    }
    changed
}

/// The same bytes with large and small letters, with a digit lost, and with other blanks around them.
fn spellings(random: &mut Random) -> Vec<String> {
    let mut lines = Vec::new();
    for round in 0..120 {
        let mut program = random_program(random, 6);
        if round % 4 == 0 {
            program = changed(random, &program);
        }
        let small = hex(&program);
        let mixed = small.chars().map(|digit| if random.below(2) == 0 { digit.to_ascii_uppercase() } else { digit });
        lines.push(format!("check {}", mixed.collect::<String>()));
        lines.push(format!("check {}", small.to_ascii_uppercase()));
        let lost = random.below(small.len() as u64) as usize;
        lines.push(format!("check {}{}", &small[..lost], &small[lost + 1..]));
    }
    for blanks in ["  ", "\t", "\r", "\x0c", " \t\r\x0c "] {
        lines.push(format!("{blanks}check{blanks}{EXAMPLE}{blanks}"));
        lines.push(format!("check{blanks}09{blanks}00"));
    }
    lines
}

/// Characters that are no digits at the front, in the middle and at the end, and odd numbers of digits.
fn bad_digits() -> Vec<String> {
    let bad = [
        "g", "G", "x", "/", ":", "@", "`", "_", "-", "+", ".", ",", ";", "'", "\"", "\\", "#", "%", "o", "l", "0x",
        "h", "\0", "\u{1}", "\u{7f}", "\u{b}", "\u{a0}", "\u{85}", "é", "e\u{301}", "ß", "٣", "０", "Ａ", "ｆ", "а",
        "²", "→", "\u{200b}", "\u{feff}", "𝟎", "😀", "\u{10ffff}",
    ];
    let long = "0900".repeat(300);
    let mut lines = Vec::new();
    for digits in ["", "0", "09", "090", "0900", "09f0", EXAMPLE, &EXAMPLE[1..], &long, &long[1..]] {
        lines.push(format!("check {digits}"));
        for bad in bad {
            let (front, back) = digits.split_at(digits.len() / 2);
            lines.push(format!("check {bad}{digits}"));
            lines.push(format!("check {front}{bad}{back}"));
            lines.push(format!("check {digits}{bad}"));
        }
        lines.push(format!("check é{digits}g"));
        lines.push(format!("check {digits}é{digits}g"));
    }
    lines.extend((1..EXAMPLE.len()).map(|length| format!("check {}", &EXAMPLE[..length])));
    lines.extend([1, 2_047, 2_048, 2_049, 2_050, 2_051].map(|length| format!("check {}", "9".repeat(length))));
    lines
}

/// Too few and too many words, with and without other mistakes, and other commands.
fn word_counts() -> Vec<String> {
    let lines = [
        "check", " check\r", "\tcheck\t", "check 09 00", "check 0900 0900", "check 0900 x y", "check x y",
        "check 090 g", "check g 090", "check 0a 0900", "check check", "check check 0900", "check help",
        "check 0900 help", "help check", "help 0900", "Check 0900", "CHECK 0900", "check0900", "check:0900",
        "check,0900", "check=0900", "chec 0900", "checks 0900", "0900", "0900 check", "batch check 0900",
        "check batch", "check '0900'", "check \"0900\"", "check 09,00", "check 0x09 0x00", "check 1 2 6", "check 1",
        "check 3/5", "euclid 0900", "euclid check 2 6", "check\u{a0}0900", "check\u{b}0900", "check 0900\u{a0}",
        "check 0900 \u{a0}",
    ];
    lines.map(str::to_string).to_vec()
}

#[cfg(test)]
mod tests {
    use super::*;
    use crate::answer::{answer_line, text_of};

    fn answer(line: &str) -> String {
        text_of(&answer_line(line), "")
    }

    #[test]
    fn accepted_programs_are_accepted() {
        let mut random = Random::new(3);
        let random_programs = (0..50).map(|round| random_program(&mut random, 1 + 5 * round));
        for program in accepted_programs().into_iter().chain(random_programs) {
            assert!(answer(&check_line(&program)).starts_with("accepted "), "{program:?}");
        }
        assert_eq!(hex(&accepted_programs()[0]), EXAMPLE);
    }

    #[test]
    fn every_answer_comes_often() {
        let answers: Vec<String> = lines(&mut Random::new(1)).iter().map(|line| answer(line)).collect();
        let refusals = (1..=6).map(|number| format!("refused {number} "));
        for start in refusals.chain(["accepted ".to_string(), "error: ".to_string()]) {
            let count = answers.iter().filter(|answer| answer.starts_with(&start)).count();
            assert!(count > 100, "{start} comes {count} times");
        }
    }

    #[test]
    fn long_programs_are_as_long_as_they_should_be() {
        for programs in jumps_in_a_long_program().chunks(5) {
            let lengths: Vec<usize> = programs.iter().map(Vec::len).collect();
            assert_eq!(lengths, [1_024, 1_024, 1_024, 1_024, 1_025]);
        }
    }
}
