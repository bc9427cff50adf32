//! Programs `frames` over the same calls: what they print is compared byte for byte.

use std::path::Path;
use std::sync::Mutex;
use std::sync::atomic::{AtomicU64, Ordering};
use std::time::Instant;
use std::{fs, thread};

use crate::calls::{self, Call, KINDS};
use crate::options::Options;
use crate::programs::Program;
use crate::tally::{self, Output, Tally, short};
use crate::workers;

/// What was counted: by class, and by program.
struct Totals {
    classes: Vec<Tally>,
    programs: Vec<Tally>,
}

/// Calls until so many lines are compared or the seconds are over; the table.
pub fn run(options: &Options) -> Result<String, String> {
    let programs: Result<Vec<Program>, String> = options.rest.iter().map(|text| Program::read(text)).collect();
    let programs = programs?;
    if programs.len() < 2 {
        return Err("lines: two programs at least are compared".to_string());
    }
    let (end, seed, start) = (options.end()?, options.seed()?, Instant::now());
    let most = options.number("lines")?.unwrap_or(if end.is_some() { u64::MAX } else { 100_000 });
    let keep = Path::new(options.text("keep").unwrap_or("."));
    let given = AtomicU64::new(0);
    let totals = Mutex::new(Totals::new(programs.len()));
    workers::each(|number| {
        if given.load(Ordering::Relaxed) >= most || end.is_some_and(|end| Instant::now() >= end) {
            return Ok(false);
        }
        let call = calls::call(seed, number);
        given.fetch_add(call.lines as u64, Ordering::Relaxed);
        let tallies = one_call(&programs, &call).map_err(|text| explain(&call, keep, &text))?;
        totals.lock().unwrap().add(call.kind, &tallies);
        Ok(true)
    })?;
    let seconds = start.elapsed().as_secs_f64();
    Ok(totals.into_inner().unwrap().text(&programs, seed, seconds))
}

/// The programs side by side over one call; the answers of each counted, or the first difference.
fn one_call(programs: &[Program], call: &Call) -> Result<Vec<Tally>, String> {
    let outputs: Vec<Result<Vec<u8>, String>> = thread::scope(|scope| {
        let run = |(i, program): (usize, &'_ Program)| program.answer(&call.input, call.seed.wrapping_add(i as u64));
        let threads: Vec<_> = programs.iter().enumerate().map(|p| scope.spawn(move || run(p))).collect();
        threads.into_iter().map(|t| t.join().expect("a thread stopped")).collect()
    });
    let outputs: Result<Vec<Vec<u8>>, String> = outputs.into_iter().collect();
    let outputs = outputs?;
    let wanted = Output::read(&outputs[0], call.lines);
    let mut tallies = Vec::new();
    for (program, output) in programs.iter().zip(&outputs) {
        let got = Output::read(output, call.lines);
        if let Some(text) = difference(call, &got, &wanted, [&program.name, &programs[0].name]) {
            return Err(text);
        }
        tallies.push(got.tally().map_err(|text| format!("{}: {text}", program.name))?);
    }
    if tallies[0].lines() != call.lines as u64 {
        return Err(format!("{} answers to {} lines", tallies[0].lines(), call.lines));
    }
    Ok(tallies)
}

/// The first line whose answers differ, or the closing lines.
fn difference(call: &Call, got: &Output, wanted: &Output, names: [&str; 2]) -> Option<String> {
    if got.answers == wanted.answers && got.closing == wanted.closing {
        return None;
    }
    let both = |a: &[u8], b: &[u8]| format!("{} {}\n{} {}", names[0], short(a), names[1], short(b));
    let answer = |output: &Output, i: usize| output.answers.get(i).map_or(vec![], |line| line.to_vec());
    let first = (0..call.lines).find(|&i| answer(got, i) != answer(wanted, i));
    let Some(i) = first else {
        return Some(format!("closing lines\n{}", both(got.closing, wanted.closing)));
    };
    let line = call.input.split(|&byte| byte == b'\n').nth(i).unwrap_or_default();
    let (a, b) = (answer(got, i), answer(wanted, i));
    let at = (0..a.len().min(b.len())).find(|&k| a[k] != b[k]).unwrap_or(a.len().min(b.len()));
    let place = if at >= 4 { format!(", first at sample {}", at / 4) } else { String::new() };
    // Answers that begin alike are shown from where they differ.
    let from = (at / 4 * 4).saturating_sub(8);
    Some(format!("line {}{place}: {}\n{}", i + 1, short(line), both(&a[from..], &b[from..])))
}

/// A difference with the call that it was met in, whose input is kept.
fn explain(call: &Call, keep: &Path, text: &str) -> String {
    let file = keep.join(format!("difference-{:016x}.hex", call.seed));
    let kept = match fs::write(&file, &call.input) {
        Ok(()) => format!("the input is {}", file.display()),
        Err(error) => format!("the input is not kept: {}: {error}", file.display()),
    };
    format!("call {:016x}, class {}, {} lines: {text}\n{kept}", call.seed, KINDS[call.kind].1, call.lines)
}

impl Totals {
    fn new(programs: usize) -> Self {
        Self { classes: vec![Tally::default(); KINDS.len()], programs: vec![Tally::default(); programs] }
    }

    fn add(&mut self, kind: usize, tallies: &[Tally]) {
        self.classes[kind].add(&tallies[0]);
        self.programs.iter_mut().zip(tallies).for_each(|(a, b)| a.add(b));
    }

    fn text(&self, programs: &[Program], seed: u64, seconds: f64) -> String {
        let classes = self.classes.iter().zip(KINDS).map(|(tally, (_, name))| tally.row(name));
        let rows = self.programs.iter().zip(programs).map(|(tally, program)| tally.row(&program.name));
        let lines = self.programs[0].lines();
        format!(
            "{}{}{}{}compare: {lines} lines answered alike by {} programs, seed {seed}, {seconds:.1} s, {:.0} a second",
            tally::head("class"),
            classes.collect::<String>(),
            tally::head("program"),
            rows.collect::<String>(),
            programs.len(),
            lines as f64 / seconds
        )
    }
}
