//! The program: plays a script, shows a generated one, and compares another player with this one.

use reference::{compare, generator, pace, player};
use std::io::{Read, Write};
use std::path::Path;
use std::process::ExitCode;
use std::time::{SystemTime, UNIX_EPOCH};

const USAGE: &str = "usage:
  reference play [FILE]                         plays a file or standard input
  reference script SEED                         prints the script of a seed
  reference differ PROGRAM COUNT [FIRST_SEED]   compares PROGRAM on COUNT scripts
  reference fuzz PROGRAM SECONDS [SEED]         compares PROGRAM on fresh scripts for a time
  reference pace PROGRAM                        shows how fast PROGRAM and this player play";

fn main() -> ExitCode {
    let arguments: Vec<String> = std::env::args().skip(1).collect();
    let arguments: Vec<&str> = arguments.iter().map(String::as_str).collect();
    match run(&arguments) {
        Ok(true) => ExitCode::SUCCESS,
        Ok(false) => ExitCode::FAILURE,
        Err(message) => {
            eprintln!("{message}");
            ExitCode::from(2)
        }
    }
}

fn run(arguments: &[&str]) -> Result<bool, String> {
    match *arguments {
        ["play"] => print(&player::play(&input()?)),
        ["play", file] => {
            let text = std::fs::read(file).map_err(|error| format!("{file}: {error}"))?;
            print(&player::play(&text))
        }
        ["script", seed] => print(&generator::generate(number(seed)?)),
        ["differ", program, count] => Ok(compare::differ(Path::new(program), number(count)?, 0)),
        ["differ", program, count, first] => {
            Ok(compare::differ(Path::new(program), number(count)?, number(first)?))
        }
        ["fuzz", program, seconds] => Ok(compare::fuzz(Path::new(program), number(seconds)?, fresh())),
        ["fuzz", program, seconds, seed] => {
            Ok(compare::fuzz(Path::new(program), number(seconds)?, number(seed)?))
        }
        ["pace", program] => Ok(pace::pace(Path::new(program))),
        _ => Err(USAGE.to_string()),
    }
}

fn input() -> Result<Vec<u8>, String> {
    let mut text = Vec::new();
    std::io::stdin().read_to_end(&mut text).map_err(|error| error.to_string())?;
    Ok(text)
}

fn print(output: &[u8]) -> Result<bool, String> {
    std::io::stdout().write_all(output).map_err(|error| error.to_string())?;
    Ok(true)
}

fn number(text: &str) -> Result<u64, String> {
    text.parse().map_err(|_| format!("{text} is no number\n{USAGE}"))
}

/// A seed that no earlier run had.
fn fresh() -> u64 {
    SystemTime::now().duration_since(UNIX_EPOCH).map_or(0, |time| time.as_micros() as u64)
}
