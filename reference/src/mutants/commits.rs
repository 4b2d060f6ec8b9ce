//! Wrong machines: commit, finish and the fate of a script.

use super::{Mutant, Scripts, Wrong, RIGHT};
use crate::machine::Commit;
use crate::window::{Code, Entry, Fate, Instruction};

type Commits = fn(&mut Wrong) -> Result<Commit, u32>;
type Finish = fn(&mut Wrong, u32) -> Vec<Commit>;
type FateOf = fn(&Wrong) -> &'static str;

const COMMITS: [(&str, Commits); 14] = [
    ("commit executes", |m| {
        let _ = m.execute(0);
        m.commit()
    }),
    ("commit of the first executed", |m| {
        if let Some(place) = m.window.live.iter().position(|entry| !entry.waits()) {
            m.window.live[..=place].rotate_right(1);
        }
        m.commit()
    }),
    ("commit tells the register of S", |m| {
        let d = m.window.live.first().map_or(0, |entry| entry.instruction.d);
        m.commit().map(|commit| Commit { target: d, ..commit })
    }),
    ("commit tells the address of L", |m| {
        let access = m.window.live.first().and_then(Entry::access);
        m.commit()
            .map(|commit| Commit { target: access.map_or(commit.target, |access| access.number), ..commit })
    }),
    ("commit tells 0 for S", |m| {
        m.commit().map(|commit| if commit.code == Code::S { Commit { value: 0, ..commit } } else { commit })
    }),
    ("commit past the end", |m| if m.faulted() { passed(m) } else { m.commit() }),
    ("commit refused at the last word", |m| {
        let last = m.window.sizes.words - 1;
        if m.window.live.first().and_then(Entry::mark) == Some(last) {
            return Err(13);
        }
        m.commit()
    }),
    ("commit refused at word W past it only", |m| {
        let words = m.window.sizes.words;
        if m.window.live.first().and_then(Entry::mark) == Some(words) {
            return passed(m);
        }
        m.commit()
    }),
    ("commit drops everything younger", |m| {
        let answer = m.commit();
        if answer.is_ok() {
            let _ = m.squash(0);
        }
        answer
    }),
    ("a loaded register is not written", |m| {
        let before = m.registers;
        let answer = m.commit();
        if answer.is_ok_and(|commit| commit.code == Code::L) {
            m.registers = before;
        }
        answer
    }),
    ("register 0 is not written", |m| {
        let answer = m.commit();
        m.registers[0] = 0;
        answer
    }),
    ("register 7 is not written", |m| {
        let answer = m.commit();
        m.registers[7] = 0;
        answer
    }),
    ("words are not stored", |m| {
        let answer = m.commit();
        m.memory.fill(0);
        answer
    }),
    ("a word of 0 is not stored", |m| {
        let before = m.memory.clone();
        let answer = m.commit();
        if answer.is_ok_and(|commit| commit.code == Code::S && commit.value == 0) {
            m.memory = before;
        }
        answer
    }),
];

const FINISHES: [(&str, Finish); 22] = [
    ("x stops when the window is empty", |m, k| {
        (0..k).map_while(|_| if m.window.live.is_empty() { None } else { m.advance() }).collect()
    }),
    ("x needs an executed oldest", |m, k| {
        let waits = |m: &Wrong| m.window.live.first().is_some_and(Entry::waits);
        (0..k).map_while(|_| if waits(m) { None } else { m.advance() }).collect()
    }),
    ("x stops at what was live", |m, k| {
        let live = m.window.live.len() as u32;
        m.finish(if live > 0 { k.min(live) } else { k })
    }),
    ("x one past its limit", |m, k| m.finish(k.saturating_add(1))),
    ("x one short of its limit", |m, k| m.finish(k.saturating_sub(1))),
    ("x,0 is x,1", |m, k| m.finish(k.max(1))),
    ("x without limit", |m, k| m.finish(if k > 0 { u32::MAX } else { 0 })),
    ("x by 8 bits of its limit", |m, k| m.finish(k % 256)),
    ("x by a signed limit", |m, k| m.finish(if k >= 1 << 31 { 0 } else { k })),
    ("x of 51 commits at most", |m, k| m.finish(k.min(51))),
    ("x of 64 commits at most", |m, k| m.finish(k.min(64))),
    ("x of 204 commits at most", |m, k| m.finish(k.min(204))),
    ("x of 255 commits at most", |m, k| m.finish(k.min(255))),
    ("x fills the window", |m, k| {
        let round = |m: &mut Wrong| {
            while m.issue().is_ok() {}
            m.advance()
        };
        (0..k).map_while(|_| round(m)).collect()
    }),
    ("x issues one each round", |m, k| {
        let round = |m: &mut Wrong| {
            let _ = m.issue();
            m.advance()
        };
        (0..k).map_while(|_| round(m)).collect()
    }),
    ("x executes all that are live", |m, k| {
        let round = |m: &mut Wrong| {
            for k in 0..m.window.live.len() {
                let _ = m.execute(k);
            }
            m.advance()
        };
        (0..k).map_while(|_| round(m)).collect()
    }),
    ("x goes on past a fault", |m, k| {
        let round = |m: &mut Wrong| {
            while m.faulted() {
                m.window.live.remove(0);
            }
            let answer = m.advance();
            while answer.is_none() && m.faulted() {
                m.window.live.remove(0);
                if let Some(commit) = m.advance() {
                    return Some(commit);
                }
            }
            answer
        };
        (0..k).map_while(|_| round(m)).collect()
    }),
    ("x tells a fault as a commit", |m, k| {
        let round = |m: &mut Wrong| m.advance().or_else(|| if m.faulted() { passed(m).ok() } else { None });
        (0..k).map_while(|_| round(m)).collect()
    }),
    ("x leaves a fault waiting", |m, k| {
        let commits = m.finish(k);
        if m.faulted() {
            m.window.live[0].fate = Fate::Waiting;
        }
        commits
    }),
    ("x drops a fault", |m, k| {
        let commits = m.finish(k);
        if m.faulted() {
            let _ = m.squash(0);
        }
        commits
    }),
    ("x drops what is live first", |m, k| {
        let _ = m.squash(0);
        m.finish(k)
    }),
    ("x drops what is live at last", |m, k| {
        let commits = m.finish(k);
        let _ = if m.faulted() { m.squash(1) } else { m.squash(0) };
        commits
    }),
];

const FATES: [(&str, FateOf); 12] = [
    ("done where none is live", |m| if m.window.live.is_empty() { "done" } else { m.fate() }),
    ("done where all is issued", |m| if m.next == m.program.len() { "done" } else { m.fate() }),
    ("open where none is live", |m| if m.window.live.is_empty() { "open" } else { m.fate() }),
    ("fault though the oldest waits", |m| if would_fault(m) { "fault" } else { m.fate() }),
    ("fault of a younger one", |m| {
        if m.window.live.iter().any(|entry| m.past(entry)) {
            "fault"
        } else {
            m.fate()
        }
    }),
    ("fault of the next", |m| {
        let mut tried = m.clone();
        if m.window.live.is_empty() && tried.advance().is_none() && tried.faulted() {
            "fault"
        } else {
            m.fate()
        }
    }),
    ("fault of loads only", |m| if m.faulted() && !oldest(m, Code::L) { "open" } else { m.fate() }),
    ("fault of stores only", |m| if m.faulted() && !oldest(m, Code::S) { "open" } else { m.fate() }),
    ("fault above W only", |m| {
        let at = m.window.live.first().and_then(Entry::mark) == Some(m.window.sizes.words);
        if at {
            "open"
        } else {
            m.fate()
        }
    }),
    ("fault and open exchanged", |m| exchanged(m, "fault", "open")),
    ("done and open exchanged", |m| exchanged(m, "done", "open")),
    ("done and fault exchanged", |m| exchanged(m, "done", "fault")),
];

/// The oldest, past the end of memory, leaves the window as if it had committed.
pub fn passed(machine: &mut Wrong) -> Result<Commit, u32> {
    let Entry { index, instruction: Instruction { code, d, .. }, .. } = machine.window.live.remove(0);
    if code == Code::L {
        machine.registers[d as usize] = 0;
    }
    Ok(Commit { index, code, target: d, value: 0, distance: 0 })
}

fn oldest(machine: &Wrong, code: Code) -> bool {
    machine.window.live.first().is_some_and(|entry| entry.is(code))
}

fn would_fault(machine: &Wrong) -> bool {
    let mut tried = machine.clone();
    machine.window.live.first().is_some_and(Entry::waits) && tried.execute(0).is_ok() && tried.faulted()
}

fn exchanged(machine: &Wrong, one: &'static str, other: &'static str) -> &'static str {
    match machine.fate() {
        fate if fate == one => other,
        fate if fate == other => one,
        fate => fate,
    }
}

#[test]
fn wrong_commits() {
    let mut scripts = Scripts::default();
    COMMITS.iter().for_each(|&(name, commit)| scripts.tell(name, Mutant { commit, ..RIGHT }));
    FINISHES.iter().for_each(|&(name, finish)| scripts.tell(name, Mutant { finish, ..RIGHT }));
    FATES.iter().for_each(|&(name, fate)| scripts.tell(name, Mutant { fate, ..RIGHT }));
    scripts.close("commits, finishes and fates");
}
