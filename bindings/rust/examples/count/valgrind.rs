//! Runs this program under valgrind.

use std::env;
use std::process::{Command, Output};
use std::str;

/// Has the program make the calls that the arguments name. Gives the number of
/// calls, and of the instructions executed in the function and what it calls.
pub fn count(function: &str, arguments: [&str; 2]) -> Result<(usize, u64), String> {
    let program =
        env::current_exe().map_err(|error| format!("no path of this program: {error}"))?;
    let output = Command::new("valgrind")
        .args(["--tool=callgrind", "--callgrind-out-file=/dev/null"])
        .arg(format!("--toggle-collect={function}"))
        .arg(program)
        .args(arguments)
        .output()
        .map_err(|error| format!("valgrind is needed and can't be run: {error}"))?;
    let log = String::from_utf8_lossy(&output.stderr);
    let counted = calls(&output).zip(instructions(&log));
    counted.ok_or_else(|| format!("valgrind counted nothing in {function}:\n{log}"))
}

/// The program prints how many calls it made.
fn calls(output: &Output) -> Option<usize> {
    let printed = str::from_utf8(&output.stdout).ok()?;
    let calls = printed.trim_end().parse().ok()?;
    output.status.success().then_some(calls)
}

/// Of the line `==PID== Collected : NUMBER`. It is 0 if the function wasn't met.
fn instructions(log: &str) -> Option<u64> {
    let mut numbers = log
        .lines()
        .filter_map(|line| line.split_once(" Collected : "));
    let (_, number) = numbers.next()?;
    number.trim_end().parse().ok().filter(|&number| number > 0)
}
