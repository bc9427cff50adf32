//! The commands of the program.

use std::io::{self, BufRead, Write};
use std::process::ExitCode;
use std::{env, fs, panic};

use crate::calls;
use crate::frames;
use crate::numbers::Numbers;
use crate::places::STATE_NUMBERS;
use crate::qdec::QSynthesis;
use crate::qdec::driver::{layers, selfcheck, state};

const USAGE: &str = "usage: oracle COMMAND
  sums                length and FNV-1a 64 of each of the five Rust files
  selfcheck [COUNT]   the driver against decode_params on COUNT received frames (20000)
  frames [--state] [--postfilter-off] [--from FILE]
                      document 01's program; --state adds a line S and the state to each answer,
                      --from starts at the state in FILE, its numbers in a line,
                      --postfilter-off switches the postfilter off in the state at the start
  calls               whole calls, a state, a record or a fresh start in each line
  layers              questions NAME number number .. , one a line";

/// Runs the command that the words name.
pub fn run() -> ExitCode {
    let words: Vec<String> = env::args().skip(1).collect();
    let words: Vec<&str> = words.iter().map(String::as_str).collect();
    let done = match words.as_slice() {
        ["sums"] => print_sums(),
        ["selfcheck"] => return check("20000"),
        ["selfcheck", count] => return check(count),
        ["frames", options @ ..] => run_frames(options),
        ["calls"] => {
            calls::run(io::stdin().lock(), io::stdout().lock()).map_err(|error| error.to_string())
        }
        ["layers"] => answer_layers(),
        _ => Err(USAGE.to_string()),
    };
    match done {
        Ok(()) => ExitCode::SUCCESS,
        Err(message) => {
            eprintln!("{message}");
            ExitCode::from(2)
        }
    }
}

/// Name, length and checksum of each of the five files as they were built in.
fn print_sums() -> Result<(), String> {
    for (name, bytes) in crate::SOURCES {
        println!("{name} {} {:016x}", bytes.len(), fnv1a64(bytes));
    }
    Ok(())
}

/// The FNV-1a checksum of 64 bits.
fn fnv1a64(bytes: &[u8]) -> u64 {
    bytes.iter().fold(0xCBF2_9CE4_8422_2325, |sum, byte| {
        (sum ^ u64::from(*byte)).wrapping_mul(0x0000_0100_0000_01B3)
    })
}

/// Runs the self-check and says what was compared, or the first difference.
fn check(count: &str) -> ExitCode {
    let Ok(count) = count.parse() else {
        eprintln!("{USAGE}");
        return ExitCode::from(2);
    };
    match selfcheck::run(count) {
        Ok(counts) => {
            println!("frames equal {counts}");
            ExitCode::SUCCESS
        }
        Err(difference) => {
            println!("difference: {difference}");
            ExitCode::FAILURE
        }
    }
}

/// Program `frames` over standard input.
fn run_frames(mut options: &[&str]) -> Result<(), String> {
    let (mut show_state, mut postfilter, mut from) = (false, true, None);
    while let [option, rest @ ..] = options {
        options = rest;
        match (*option, rest) {
            ("--state", _) => show_state = true,
            ("--postfilter-off", _) => postfilter = false,
            ("--from", [file, rest @ ..]) => {
                from = Some(*file);
                options = rest;
            }
            _ => return Err(USAGE.to_string()),
        }
    }
    let mut start = match from {
        Some(file) => state_in(file)?,
        None => state::fresh(true),
    };
    if !postfilter {
        start.set_postfilter(false);
    }
    frames::run(io::stdin().lock(), io::stdout().lock(), start, show_state)
        .map_err(|error| error.to_string())
}

/// The state that a file holds as one line of numbers.
fn state_in(file: &str) -> Result<QSynthesis, String> {
    let text = fs::read_to_string(file).map_err(|error| format!("{file}: {error}"))?;
    let numbers = Numbers::read(text.split_ascii_whitespace());
    numbers
        .filter(|numbers| numbers.left() == STATE_NUMBERS)
        .and_then(|mut numbers| state::from_numbers(&mut numbers))
        .ok_or(format!("{file}: not a state of {STATE_NUMBERS} numbers"))
}

/// Answers the questions of standard input, a line each.
fn answer_layers() -> Result<(), String> {
    // An overflow is an answer here, not a message.
    panic::set_hook(Box::new(|_| {}));
    let mut output = io::stdout().lock();
    for line in io::stdin().lock().split(b'\n') {
        let line = line.map_err(|error| error.to_string())?;
        let answer = layers::answer(&String::from_utf8_lossy(&line));
        writeln!(output, "{answer}").map_err(|error| error.to_string())?;
    }
    Ok(())
}
