//! Demand 3, asserted of the player itself: its commits are the sequential run, and it never gets stuck. Beside it, how
//! far the word of each load came, and that a store squashes what it makes wrong and nothing else.

use crate::machine::{Commit, Machine};
use crate::rules::Rules;
use crate::run::{Recorded, Run};
use crate::window::{Access, Code, Entry, Execution, Fate, Instruction};

pub struct Check {
    run: Run,
    /// The distance of each index's last execution.
    distances: Vec<usize>,
}

impl Check {
    pub fn new(words: u32) -> Self {
        Check { run: Run::new(words), distances: Vec::new() }
    }

    pub fn instruction(&mut self, instruction: Instruction) {
        self.run.program.push(instruction);
        self.distances.push(0);
    }

    /// What the run does next; none at its end and before a fault.
    pub fn ahead(&self) -> Option<Recorded> {
        self.run.ahead()
    }

    pub fn executed(&mut self, execution: &Execution, memory: &[u32]) {
        let Execution { before, k, entry, .. } = execution;
        match entry.access() {
            Some(Access { number, .. }) if entry.is(Code::L) => {
                came(&before.live[..*k], memory, number, entry)
            }
            _ => assert_eq!(entry.distance, 0, "a distance of no load"),
        }
        self.distances[entry.index] = entry.distance;
        caused(execution);
    }

    pub fn committed(&mut self, commit: Commit) {
        let recorded = Some(commit.without_distance());
        assert_eq!(self.run.step(), recorded, "the record is not that of the sequential run");
        let distance = self.distances[commit.index];
        assert_eq!(commit.distance, distance, "the distance is not that of the execution");
    }

    pub fn state<R: Rules>(&self, machine: &Machine<R>) {
        assert_eq!(self.run.registers, machine.registers, "registers are not those of the sequential run");
        assert_eq!(self.run.memory, machine.memory, "memory is not that of the sequential run");
        faithful(&machine.window.live, &machine.memory);
        self.progress(machine.clone());
    }

    fn progress<R: Rules>(&self, mut machine: Machine<R>) {
        let Some(next) = self.run.ahead() else {
            assert_eq!(machine.advance(), None, "a commit after the end of the sequential run");
            let ended = self.run.index == self.run.program.len();
            assert_eq!(
                (machine.done(), machine.faulted()),
                (ended, !ended),
                "not the end of the sequential run"
            );
            return;
        };
        if machine.window.live.is_empty() {
            machine.issue().expect("an issue into an empty window");
        }
        if machine.window.live[0].waits() {
            machine.execute(0).expect("an execute of the oldest");
        }
        let commit = machine.commit().map(Commit::without_distance);
        assert_eq!(commit, Ok(next), "three calls do not commit the next instruction");
    }
}

/// A distance names the store whose word the load took, and no store to this word stands between; with 0 no older one
/// is to it, and the word is memory's.
fn came(older: &[Entry], memory: &[u32], address: u32, load: &Entry) {
    let words: Vec<Option<u32>> = older.iter().map(|entry| stored(entry, address)).collect();
    assert!(load.distance <= older.len(), "a distance past the window");
    let (before, after) = words.split_at(older.len() - load.distance);
    match after.split_first() {
        None => {
            assert!(before.iter().all(Option::is_none), "no distance although an older store is to the word");
            assert_eq!(load.value(), Some(seen(&[], memory, address)), "no distance and not memory's word");
        }
        Some((word, between)) => {
            assert!(word.is_some(), "the distance is not to a store to the word");
            assert_eq!(load.value(), *word, "the distance is to a store of another word");
            assert!(between.iter().all(Option::is_none), "a store to the word stands between");
        }
    }
}

/// Each load side holds the word that the older ones and memory give it now. A load that a store leaves alone is right
/// because of it.
fn faithful(live: &[Entry], memory: &[u32]) {
    for (k, entry) in live.iter().enumerate() {
        let Fate::Executed { value, access: Some(Access { number, taken, .. }) } = entry.fate else {
            continue;
        };
        let address = match entry.code() {
            Code::B | Code::H => number / 4,
            _ => number,
        };
        let word = entry.code().loads().then(|| seen(&live[..k], memory, address));
        assert_eq!(taken, word, "a load side does not hold the word that is seen there now");
        assert!(!entry.is(Code::L) || word == Some(value), "a load has another value than the word it took");
    }
}

/// Without an eviction what goes is a load side that took another word than the one stored.
fn caused(execution: &Execution) {
    let Execution { before, entry, left, .. } = execution;
    if execution.squashed_by() == Some("violation") {
        let first = before.live[*left];
        let wrong =
            first.mark() == entry.mark() && first.taken().is_some_and(|word| Some(word) != entry.value());
        assert!(entry.code().stores() && wrong, "what was squashed was right");
    }
}

/// The word that is seen behind these.
fn seen(older: &[Entry], memory: &[u32], address: u32) -> u32 {
    let nearest = older.iter().rev().find_map(|entry| stored(entry, address));
    nearest.unwrap_or_else(|| memory.get(address as usize).copied().unwrap_or(0))
}

/// What an entry stored at an address, if it did.
fn stored(entry: &Entry, address: u32) -> Option<u32> {
    let Fate::Executed { value, access: Some(Access { number, .. }) } = entry.fate else { return None };
    let word = match entry.instruction.code {
        Code::S => number,
        Code::B | Code::H => number / 4,
        _ => return None,
    };
    (word == address).then_some(value)
}
