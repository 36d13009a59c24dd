//! Compares the baseline with the vectors:
//!     check lines FILE                an input of the text program and, after `= `, what it must print
//!     check cases CASES.bin STDOUT    the enumerator's cases (tools/cases.py says what they are)
//!     check text                      prints the line for the text on standard input
//!     check whys STDIN STDOUT         texts of the program `run_why` (tools/why.py says what they are): their lines, not the rounds
//!     check relined FILE              prints the lines of FILE with what the baseline prints in the place of what is expected
mod baseline;

use baseline::{approve, solve, Approved, Refusal, Settings, Solved};
use std::fmt::Write;
use std::io::{self, Read};
use std::{env, fs, process};

fn main() {
    let args: Vec<String> = env::args().skip(1).collect();
    let wrong = match args.iter().map(String::as_str).collect::<Vec<_>>()[..] {
        ["lines", file] => check_lines(&fs::read_to_string(file).expect("the lines")),
        ["cases", cases, stdout] => {
            check_cases(&fs::read(cases).expect("the cases"), &fs::read_to_string(stdout).expect("the stdout"))
        }
        ["text"] => print_text(),
        ["whys", stdin, stdout] => {
            check_whys(&fs::read(stdin).expect("the texts"), &fs::read_to_string(stdout).expect("the stdout"))
        }
        ["relined", file] => print_relined(&fs::read_to_string(file).expect("the lines")),
        _ => panic!("see the head of bench/src/check.rs"),
    };
    process::exit((wrong > 0) as i32);
}

// ---- The text program ---------------------------------------------------------------------------------------

fn check_lines(text: &str) -> usize {
    let (mut compared, mut wrong) = (0, 0);
    let lines: Vec<&str> = text.lines().collect();
    for pair in lines.chunks_exact(2) {
        let expected = pair[1].strip_prefix("= ").expect("an expected line");
        for by_head in [false, true] {
            let printed = both_lines(pair[0], expected.contains(" | "), by_head);
            compared += 1;
            if printed != expected {
                wrong += 1;
                println!("input {}\n  expected {expected}\n  printed  {printed}", pair[0]);
            }
        }
    }
    println!("lines: {compared} compared, {wrong} wrong");
    wrong
}

/// What is printed for a text, and where it is asked for, the plain search's line.
fn both_lines(text: &str, has_plain: bool, by_head: bool) -> String {
    let mut printed = run_text(text.as_bytes(), Settings { jumping: true, by_head, settling: true });
    if has_plain {
        let plain = run_text(text.as_bytes(), Settings { jumping: false, by_head, settling: true });
        write!(printed, " | plain: {plain}").unwrap();
    }
    printed
}

fn print_relined(text: &str) -> usize {
    let lines: Vec<&str> = text.lines().collect();
    for pair in lines.chunks_exact(2) {
        println!("{}\n= {}", pair[0], both_lines(pair[0], pair[1].contains(" | "), true));
    }
    0
}

/// Each text stands after its length in four bytes; each has two lines, the second for its rounds.
fn check_whys(mut texts: &[u8], stdout: &str) -> usize {
    let (mut compared, mut wrong) = (0, 0);
    let lines: Vec<&str> = stdout.lines().collect();
    for pair in lines.chunks_exact(2) {
        let (length, rest) = texts.split_at(4);
        let (text, rest) = rest.split_at(u32::from_le_bytes(length.try_into().unwrap()) as usize);
        texts = rest;
        let printed = run_text(text, Settings { jumping: true, by_head: true, settling: true });
        compared += 1;
        if printed != pair[0] {
            wrong += 1;
            println!("input {}\n  expected {}\n  printed  {printed}", String::from_utf8_lossy(text), pair[0]);
        }
    }
    println!("texts: {compared} compared, {wrong} wrong");
    wrong + texts.len()
}

fn print_text() -> usize {
    let mut text = Vec::new();
    io::stdin().read_to_end(&mut text).expect("a text");
    println!("{}", run_text(&text, Settings { jumping: true, by_head: true, settling: true }));
    0
}

fn run_text(text: &[u8], settings: Settings) -> String {
    let (limit, words) = match read_text(text) {
        Ok(read) => read,
        Err(refusal) => return refused(refusal),
    };
    let mut plan = [0; 256];
    match solve(&words, limit, &mut plan, settings) {
        Solved::Answer { choices, skips } => format!("answer {choices} {skips}:{}", atoms(&plan)),
        Solved::None { choices, skips } => format!("none {choices} {skips}"),
        Solved::Limit { choices, skips } => format!("limit {choices} {skips}"),
        Solved::Refused(refusal) => refused(refusal),
    }
}

fn read_text(text: &[u8]) -> Result<(u32, Vec<i32>), Refusal> {
    if text.len() > 65_536 {
        return Err(Refusal { number: 13, place: 0 });
    }
    let runs = text.split(|&byte| byte == b' ' || byte == b'\n').filter(|run| !run.is_empty());
    let bad = |place: usize| Refusal { number: 12, place: place as u32 };
    let mut limit = None;
    let mut words = Vec::new();
    for (place, run) in runs.enumerate() {
        let number = number(run).ok_or(bad(place))?;
        if place == 0 {
            limit = Some(u32::try_from(number).map_err(|_| bad(0))?);
        } else {
            words.push(i32::try_from(number).map_err(|_| bad(place))?);
        }
    }
    Ok((limit.ok_or(bad(0))?, words))
}

/// The number of a run of digits after at most one minus; a large one stays outside both ranges.
fn number(run: &[u8]) -> Option<i64> {
    let (sign, digits) = match run.strip_prefix(b"-") {
        Some(digits) => (-1, digits),
        None => (1, run),
    };
    if digits.is_empty() || !digits.iter().all(u8::is_ascii_digit) {
        return None;
    }
    let size = digits.iter().fold(0i64, |size, &digit| (size * 10 + (digit - b'0') as i64).min(1 << 40));
    Some(sign * size)
}

fn refused(refusal: Refusal) -> String {
    format!("refused {} {}", refusal.number, refusal.place)
}

fn atoms(plan: &[u8]) -> String {
    (1..=plan.len()).filter(|&p| plan[p - 1] == 1).map(|p| format!(" {p}")).collect()
}

// ---- The enumerator's cases ---------------------------------------------------------------------------------

fn check_cases(cases: &[u8], stdout: &str) -> usize {
    let mut numbers = Numbers { bytes: cases };
    let (mut compared, mut wrong) = (0, 0);
    for expected in stdout.lines() {
        let [count, length, given] = [0; 3].map(|_: i32| numbers.next() as usize);
        let words: Vec<i32> = (0..count).map(|_| numbers.next()).collect();
        let mut buffer: Vec<u8> = (0..given).map(|_| numbers.next() as u8).collect();
        buffer.resize(length, 7);
        for (jumping, by_head, settling) in [(true, false, true), (true, true, false), (true, true, true), (false, true, true)] {
            let printed = run_case(&words, &buffer, Settings { jumping, by_head, settling });
            compared += 1;
            if printed != expected {
                wrong += 1;
                println!("words {words:?}\n  expected {expected}\n  printed  {printed}");
            }
        }
    }
    if !numbers.bytes.is_empty() {
        println!("more cases than lines");
        wrong += 1;
    }
    println!("cases: {compared} compared, {wrong} wrong");
    wrong
}

struct Numbers<'a> {
    bytes: &'a [u8],
}

impl Numbers<'_> {
    fn next(&mut self) -> i32 {
        let (&first, rest) = self.bytes.split_first().expect("a number");
        if first < 255 {
            self.bytes = rest;
            return first as i32 - 4;
        }
        let (four, rest) = rest.split_at(4);
        self.bytes = rest;
        i32::from_le_bytes(four.try_into().unwrap())
    }
}

fn run_case(words: &[i32], given: &[u8], settings: Settings) -> String {
    let mut buffer = given.to_vec();
    let solved = match solve(words, u32::MAX, &mut buffer, settings) {
        Solved::Answer { .. } => format!("answer{}", atoms(&buffer[..words[0] as usize])),
        Solved::None { .. } => "none".to_string(),
        Solved::Limit { .. } => "limit".to_string(),
        Solved::Refused(refusal) => refused(refusal),
    };
    let (approved, is_refused) = match approve(words, given) {
        Approved::Yes => ("yes".to_string(), false),
        Approved::No => ("no".to_string(), false),
        Approved::Refused(refusal) => (refused(refusal), true),
    };
    let mut line = format!("{solved} / {} / {approved}", checksum(buffer.iter().map(|&byte| byte as u32)));
    if !is_refused && words[0] <= 6 {
        let n = words[0] as usize;
        let mut plan = given.to_vec();
        let codes = (0..1u32 << n).filter(|code| {
            (0..n).for_each(|i| plan[i] = (code >> i & 1) as u8);
            approve(words, &plan) == Approved::Yes
        });
        let codes: Vec<u32> = codes.collect();
        write!(line, " / {} {}", codes.len(), checksum(codes.iter().copied())).unwrap();
    }
    line
}

fn checksum(numbers: impl Iterator<Item = u32>) -> u32 {
    numbers.fold(1, |h, x| (h * 33 + x + 1) % 65_521)
}
