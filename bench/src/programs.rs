//! Whole programs over the same files of lines, from start to end of the process: ours, and `frames` over the Rust in this
//! executable.

use std::fs::{self, File};
use std::path::{Path, PathBuf};
use std::process::{Command, Stdio};
use std::time::Instant;

use crate::calls::{self, Records};
use crate::rounds;

/// So many times each call, so that starting the process weighs little.
const REPEATED: usize = 4;

pub fn run(samples: &str, lines: &str, ours: &str) -> Result<(), String> {
    println!("whole programs, a line, from start to end of the process:");
    let this = std::env::current_exe().map_err(|error| error.to_string())?;
    let rust = || {
        let mut command = Command::new(&this);
        command.arg("frames");
        command
    };
    let ours = || Command::new(ours);
    for (name, records) in calls::all(samples)? {
        let file = write(lines, name, &records)?;
        if printed(ours(), &file)? != printed(rust(), &file)? {
            return Err(format!("{name}: the programs print other answers to {}", file.display()));
        }
        rounds::compare(name, REPEATED * records.len(), || time(ours(), &file), || time(rust(), &file));
    }
    Ok(())
}

/// The call as a file of lines.
fn write(directory: &str, name: &str, records: &Records) -> Result<PathBuf, String> {
    let line = |record: &Vec<u8>| record.iter().map(|byte| format!("{byte:02x}")).collect::<String>() + "\n";
    let text: String = records.iter().map(line).collect();
    let file = Path::new(directory).join(format!("{}.hex", name.replace(' ', "-")));
    fs::create_dir_all(directory).and_then(|()| fs::write(&file, text.repeat(REPEATED))).map_err(|error| error.to_string())?;
    Ok(file)
}

fn printed(mut command: Command, file: &Path) -> Result<Vec<u8>, String> {
    let input = File::open(file).map_err(|error| error.to_string())?;
    let output = command.stdin(input).stderr(Stdio::inherit()).output().map_err(|error| error.to_string())?;
    if output.status.success() { Ok(output.stdout) } else { Err(format!("{command:?}: {}", output.status)) }
}

/// Seconds from start to end.
fn time(mut command: Command, file: &Path) -> f64 {
    command.stdin(File::open(file).expect("the file of lines")).stdout(Stdio::null());
    let start = Instant::now();
    let status = command.status().expect("the program runs");
    assert!(status.success(), "{command:?}: {status}");
    start.elapsed().as_secs_f64()
}
