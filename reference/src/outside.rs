//! Another player of scripts, run as a process.

use std::io::{Read, Write};
use std::path::Path;
use std::process::{Child, Command, Stdio};
use std::sync::mpsc;
use std::thread;
use std::time::Duration;

/// Far above what a script takes, so that only a player that does not end meets it.
const PATIENCE: Duration = Duration::from_secs(60);

/// What `program` prints for a script. Its exit code and what it says to standard error are left aside, as the scope
/// names none.
pub fn play(program: &Path, script: &[u8]) -> Result<Vec<u8>, String> {
    let name = program.display();
    let mut child = start(program).map_err(|error| format!("{name} cannot be started: {error}"))?;
    feed(&mut child, script);
    match collect(&mut child).recv_timeout(PATIENCE) {
        Ok(output) => match child.wait() {
            Ok(status) if status.code().is_some() => Ok(output),
            ended => Err(format!("{name} was ended: {ended:?}")),
        },
        Err(_) => {
            let _ = child.kill();
            let _ = child.wait();
            Err(format!("{name} does not end"))
        }
    }
}

fn start(program: &Path) -> std::io::Result<Child> {
    Command::new(program).stdin(Stdio::piped()).stdout(Stdio::piped()).stderr(Stdio::null()).spawn()
}

/// From a thread: the player may print before it has read everything, and may stop reading early.
fn feed(child: &mut Child, script: &[u8]) {
    let script = script.to_vec();
    if let Some(mut input) = child.stdin.take() {
        thread::spawn(move || input.write_all(&script));
    }
}

fn collect(child: &mut Child) -> mpsc::Receiver<Vec<u8>> {
    let (sender, receiver) = mpsc::channel();
    if let Some(mut output) = child.stdout.take() {
        thread::spawn(move || {
            let mut bytes = Vec::new();
            let _ = output.read_to_end(&mut bytes);
            sender.send(bytes)
        });
    }
    receiver
}
