//! Programs `frames`, run over an input that they get in pieces.

use std::io::{Read, Write};
use std::process::{Command, Stdio};
use std::thread;
use std::time::Duration;

use crate::random::Random;

pub struct Program {
    pub name: String,
    words: Vec<String>,
}

impl Program {
    /// From `NAME=COMMAND`, the command's words separated by spaces.
    pub fn read(text: &str) -> Result<Self, String> {
        let (name, command) = text.split_once('=').ok_or(format!("{text}: not NAME=COMMAND"))?;
        let words: Vec<String> = command.split_whitespace().map(String::from).collect();
        if words.is_empty() {
            return Err(format!("{text}: no command"));
        }
        Ok(Self { name: name.to_string(), words })
    }

    /// What it prints. It has to end with status 0.
    pub fn answer(&self, input: &[u8], seed: u64) -> Result<Vec<u8>, String> {
        let fault = |what: &dyn std::fmt::Display| format!("{} ({}): {what}", self.name, self.words.join(" "));
        let mut command = Command::new(&self.words[0]);
        command.args(&self.words[1..]).stdin(Stdio::piped()).stdout(Stdio::piped());
        let mut child = command.spawn().map_err(|error| fault(&error))?;
        let (to, mut from) = (child.stdin.take().unwrap(), child.stdout.take().unwrap());
        let mut output = Vec::with_capacity(input.len());
        let read = thread::scope(|scope| {
            scope.spawn(|| feed(to, input, Random(seed)));
            from.read_to_end(&mut output)
        });
        let status = child.wait().map_err(|error| fault(&error))?;
        read.map_err(|error| fault(&error))?;
        if status.success() { Ok(output) } else { Err(fault(&status)) }
    }
}

/// Writes the input in pieces of 1 to 70,000 bytes and closes it. Waits now and then, so that the program has read all and
/// gets a short piece next. A program that ends early is found by its answers.
fn feed(mut to: impl Write, mut input: &[u8], mut random: Random) {
    let most = [70_000, 70_000, 70_000, 1_500][random.below(4) as usize];
    while !input.is_empty() {
        let longest = [most, 40, 2][random.below(3) as usize];
        let size = 1 + random.below(longest) as usize;
        let (now, rest) = input.split_at(size.min(input.len()));
        input = rest;
        if to.write_all(now).is_err() {
            return;
        }
        if random.below(16) == 0 {
            thread::sleep(Duration::from_micros(100));
        }
    }
}
