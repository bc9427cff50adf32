//! What a program printed, taken apart and counted.

use crate::places::{FRAME, NOT_A_RECORD};

/// The numbers of R lines are below this.
const NUMBERS: usize = NOT_A_RECORD as usize + 1;

/// Answers counted: samples, and each number.
#[derive(Clone, Default)]
pub struct Tally {
    pub calls: u64,
    pub samples: u64,
    pub numbers: [u64; NUMBERS],
}

/// The answers, a line each, and the text after them.
pub struct Output<'a> {
    pub answers: Vec<&'a [u8]>,
    pub closing: &'a [u8],
}

impl<'a> Output<'a> {
    /// As many answers as there were lines, where there are so many; the rest are the closing lines. Text after the last
    /// newline is a line of its own.
    pub fn read(text: &'a [u8], lines: usize) -> Self {
        let answers: Vec<&[u8]> = text.split_inclusive(|&byte| byte == b'\n').take(lines).collect();
        let closing = &text[answers.iter().map(|line| line.len()).sum()..];
        Self { answers, closing }
    }

    /// The answers counted. Fails where one has not the form of an answer, or where the closing lines are not these counts in
    /// ascending number.
    pub fn tally(&self) -> Result<Tally, String> {
        let mut tally = Tally { calls: 1, ..Tally::default() };
        for (i, answer) in self.answers.iter().enumerate() {
            match number(answer) {
                Some(0) => tally.samples += 1,
                Some(number) => tally.numbers[number] += 1,
                None => return Err(format!("answer {} has not the form of one: {}", i + 1, short(answer))),
            }
        }
        let seen = tally.numbers.iter().enumerate().filter(|(_, count)| **count > 0);
        let wanted: String = seen.map(|(n, count)| format!("N{n:02} {count}\n")).collect();
        if self.closing != wanted.as_bytes() {
            return Err(format!("closing lines {}", short(self.closing)));
        }
        Ok(tally)
    }
}

/// The number of an answer, 0 for samples.
fn number(answer: &[u8]) -> Option<usize> {
    let text = answer.strip_suffix(b"\n")?;
    if text.len() == 4 * FRAME {
        let digit = |byte: &u8| matches!(byte, b'0'..=b'9' | b'A'..=b'F');
        return text.iter().all(digit).then_some(0);
    }
    (3..NUMBERS).find(|n| text == format!("R{n:02}").as_bytes())
}

/// The beginning of a line, bytes that are no letters escaped.
pub fn short(line: &[u8]) -> String {
    let start = line[..line.len().min(120)].escape_ascii();
    if line.len() > 120 { format!("{start} .. {} bytes", line.len()) } else { start.to_string() }
}

impl Tally {
    pub fn lines(&self) -> u64 {
        self.samples + self.numbers.iter().sum::<u64>()
    }

    pub fn add(&mut self, other: &Self) {
        self.calls += other.calls;
        self.samples += other.samples;
        self.numbers.iter_mut().zip(other.numbers).for_each(|(a, b)| *a += b);
    }

    /// A row of the table.
    pub fn row(&self, name: &str) -> String {
        let numbers: String = self.numbers[3..].iter().map(|n| format!("{n:>9}")).collect();
        format!("{name:10}{:>7}{:>10}{:>10}{numbers}\n", self.calls, self.lines(), self.samples)
    }
}

/// The names above the rows.
pub fn head(name: &str) -> String {
    let numbers: String = (3..NUMBERS).map(|n| format!("{:>9}", format!("R{n:02}"))).collect();
    format!("{name:10}{:>7}{:>10}{:>10}{numbers}\n", "calls", "lines", "samples")
}
