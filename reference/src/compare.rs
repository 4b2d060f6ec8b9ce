//! Generated scripts through this player and another one, compared byte for byte.

use crate::events::Events;
use crate::generator::generate;
use crate::outside;
use crate::player::play;
use crate::rules::Stated;
use crate::shrink::shrink;
use crate::watch::watch;
use std::path::Path;
use std::time::{Duration, Instant};

/// Differences shown in full; later ones are only counted.
const SHOWN: usize = 3;
const SCRIPT_SHOWN: usize = 2000;

/// Whether all scripts agree and every event is reached.
pub fn differ(program: &Path, count: u64, first: u64) -> bool {
    let mut events = Events::default();
    let (mut passed, mut failed) = (0, 0);
    for seed in (0..count).map(|step| first.wrapping_add(step)) {
        let script = generate(seed);
        let (expected, reached) = watch(Stated, &script);
        events.join(&reached);
        match difference(&expected, outside::play(program, &script)) {
            None => passed += 1,
            Some(message) => {
                failed += 1;
                if failed <= SHOWN {
                    println!("seed {seed} differs at {message}");
                    show(&script);
                }
            }
        }
    }
    println!("{passed} scripts agree, {failed} differ");
    let (reached, missed) = tell(&events);
    println!("{} passed, {} failed", passed + reached, failed + missed);
    failed + missed == 0
}

/// Whether no difference was found in this time. The first one is saved, shrunk, saved again and shown.
pub fn fuzz(program: &Path, seconds: u64, first: u64) -> bool {
    let (start, mut seed, mut bytes) = (Instant::now(), first, 0);
    let (mut found, mut told) = (false, 0);
    while !found && start.elapsed() < Duration::from_secs(seconds) {
        let script = generate(seed);
        bytes += script.len();
        if let Some(message) = difference(&play(&script), outside::play(program, &script)) {
            found = true;
            eprintln!();
            println!("seed {seed} differs at {message}");
            save(program, seed, &script);
        }
        seed = seed.wrapping_add(1);
        if told < start.elapsed().as_secs() {
            told = start.elapsed().as_secs();
            eprint!("\r{} scripts, {bytes} bytes, next seed {seed} ", seed.wrapping_sub(first));
        }
    }
    eprintln!();
    println!("{} passed, {} failed", seed.wrapping_sub(first) - u64::from(found), u64::from(found));
    !found
}

fn difference(expected: &[u8], actual: Result<Vec<u8>, String>) -> Option<String> {
    let actual = match actual {
        Ok(actual) if actual == expected => return None,
        Ok(actual) => actual,
        Err(message) => return Some(message),
    };
    let place = (0..).find(|&place| line(expected, place) != line(&actual, place))?;
    let shown = |text| line(text, place).map_or("nothing".into(), |line| line.escape_ascii().to_string());
    let (number, expected, actual) = (place + 1, shown(expected), shown(&actual));
    Some(format!("output line {number}\n  expected: {expected}\n  actual:   {actual}"))
}

fn line(text: &[u8], place: usize) -> Option<&[u8]> {
    text.split_inclusive(|&byte| byte == b'\n').nth(place)
}

/// A script as text: bytes that cannot be printed are escaped, and a last line without a line feed is told.
fn show(script: &[u8]) {
    println!("script of {} bytes:", script.len());
    let shown = &script[..script.len().min(SCRIPT_SHOWN)];
    for line in shown.split_inclusive(|&byte| byte == b'\n') {
        match line.strip_suffix(b"\n") {
            Some(line) => println!("  {}", line.escape_ascii()),
            None => println!("  {} (no line feed here)", line.escape_ascii()),
        }
    }
}

/// Prints how often each event was reached; answers how many were, and how many were not.
fn tell(events: &Events) -> (usize, usize) {
    events.table().iter().for_each(|line| println!("{line}"));
    let missed: Vec<&str> = events.list().filter(|(_, count)| *count == 0).map(|(name, _)| name).collect();
    missed.iter().for_each(|name| println!("never reached: {name}"));
    let reached = events.list().count() - missed.len();
    println!("{reached} kinds of events reached, {} not", missed.len());
    (reached, missed.len())
}

fn save(program: &Path, seed: u64, script: &[u8]) {
    let message = |script: &[u8]| difference(&play(script), outside::play(program, script));
    write(&format!("difference-{seed}.arb"), script);
    let small = shrink(script, |script| message(script).is_some());
    write(&format!("difference-{seed}-small.arb"), &small);
    println!("shrunk, it differs at {}", message(&small).unwrap_or_default());
    show(&small);
}

fn write(file: &str, script: &[u8]) {
    let path = std::env::current_dir().unwrap_or_default().join(file);
    match std::fs::write(&path, script) {
        Ok(()) => println!("saved {}, {} bytes", path.display(), script.len()),
        Err(error) => println!("{} cannot be written: {error}", path.display()),
    }
}
