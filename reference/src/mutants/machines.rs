//! Wrong machines: operands, sums, issue, execute and squash.

use super::{Mutant, Operand, Scripts, Wrong, RIGHT};
use crate::machine::Executed;
use crate::rules::{Rules, Stated};
use crate::window::{Code, Entry, Fate, Instruction, Window};

type Sum = fn(u32, u32) -> u32;
type Resume = fn(&Window, usize) -> usize;
type Issue = fn(&mut Wrong) -> Result<usize, u32>;
type Execute = fn(&mut Wrong, usize) -> Result<Executed, u32>;
type Squash = fn(&mut Wrong, usize) -> Result<(), u32>;

const OPERANDS: [(&str, Operand); 12] = [
    ("oldest writer", |w, g, k, r| held(w, g, r, writers(w, k, r).next())),
    ("youngest writer of the window", |w, g, k, r| {
        held(w, g, r, writers(w, w.live.len(), r).filter(|&p| p != k).last())
    }),
    ("nearest executed writer", |w, g, k, r| held(w, g, r, writers(w, k, r).rfind(|&p| !w.live[p].waits()))),
    ("S as a writer", |w, g, k, r| held(w, g, r, (0..k).rfind(|&p| w.live[p].instruction.d == r))),
    ("L as no writer", |w, g, k, r| held(w, g, r, writers(w, k, r).rfind(|&p| !w.live[p].is(Code::L)))),
    ("P as no writer", |w, g, k, r| held(w, g, r, writers(w, k, r).rfind(|&p| !w.live[p].is(Code::P)))),
    ("writers at lower stages only", |w, g, k, r| {
        held(w, g, r, writers(w, k, r).rfind(|&p| w.stage(p) < w.stage(k)))
    }),
    ("nearest writer by stage number", |w, g, k, r| {
        held(w, g, r, writers(w, k, r).max_by_key(|&p| w.stage(p)))
    }),
    ("committed registers only", |_, g, _, r| Ok(g[r as usize])),
    ("register 0 is 0", |w, g, k, r| if r == 0 { Ok(0) } else { Stated.operand(w, g, k, r) }),
    ("a waiting writer gives 0", |w, g, k, r| Ok(Stated.operand(w, g, k, r).unwrap_or(0))),
    ("a waiting writer gives the register", |w, g, k, r| {
        Ok(Stated.operand(w, g, k, r).unwrap_or(g[r as usize]))
    }),
];

const SUMS: [(&str, Sum); 3] = [
    ("sums stop at the largest", u32::saturating_add),
    ("sums of 31 bits", |left, right| left.wrapping_add(right) & 0x7fff_ffff),
    ("sums that wrap to 1", |left, right| {
        let (sum, wrapped) = left.overflowing_add(right);
        sum.wrapping_add(u32::from(wrapped))
    }),
];

const RESUMES: [(&str, Resume); 4] = [
    ("next after a squash one later", |w, from| w.live[from].index + 1),
    ("next after a squash one earlier", |w, from| w.live[from].index.saturating_sub(1)),
    ("next after a squash stays", |w, _| w.live[w.live.len() - 1].index + 1),
    ("next after a squash is the oldest", |w, _| w.live[0].index),
];

const ISSUES: [(&str, Issue); 4] = [
    ("one stage fewer", |m| {
        let stages = m.window.sizes.stages as usize;
        if stages > 1 && m.window.live.len() + 1 == stages {
            Err(5)
        } else {
            m.issue()
        }
    }),
    ("one stage more", |m| {
        m.window.sizes.stages += 1;
        let answer = m.issue();
        m.window.sizes.stages -= 1;
        answer
    }),
    // Not into an empty window: a finish would never end.
    ("issues from the start again", |m| {
        if m.next == m.program.len() && !m.window.live.is_empty() {
            m.next = 0;
        }
        m.issue()
    }),
    ("last instruction not issued", |m| if m.next + 1 == m.program.len() { Err(6) } else { m.issue() }),
];

const EXECUTES: [(&str, Execute); 20] = [
    ("executes again", |m, k| {
        if let Some(entry) = m.window.live.get_mut(k) {
            entry.fate = Fate::Waiting;
        }
        m.execute(k)
    }),
    ("stages for positions", |m, k| {
        let named = (0..m.window.live.len()).find(|&p| m.window.stage(p) == k).ok_or(7u32)?;
        m.execute(named)
    }),
    ("positions from the youngest", |m, k| {
        let named = m.window.live.len().checked_sub(k + 1).ok_or(7u32)?;
        m.execute(named)
    }),
    ("positions from 1", |m, k| m.execute(k.checked_sub(1).ok_or(7u32)?)),
    ("a position past the youngest is it", |m, k| m.execute(k.min(m.window.live.len().saturating_sub(1)))),
    ("positions of 8 bits", |m, k| m.execute(k % 256)),
    ("positions of 16 bits", |m, k| m.execute(k % 65_536)),
    ("in order only", |m, k| {
        let older = m.window.live.iter().take(k);
        if older.clone().any(Entry::waits) {
            Err(9)
        } else {
            m.execute(k)
        }
    }),
    ("a load waits for older stores", |m, k| {
        let older = m.window.live.iter().take(k).any(|entry| entry.code().stores() && entry.waits());
        if older && m.window.live.get(k).is_some_and(|entry| entry.is(Code::L)) {
            Err(9)
        } else {
            m.execute(k)
        }
    }),
    ("P adds imm", |m, k| altered(m, k, Code::P, |i| Instruction { code: Code::A, ..i })),
    ("P adds register s twice", |m, k| altered(m, k, Code::P, |i| Instruction { imm: i.s, ..i })),
    ("A without register s", |m, k| altered(m, k, Code::A, |i| Instruction { s: 0, ..i })),
    ("S of register s", |m, k| altered(m, k, Code::S, |i| Instruction { d: i.s, ..i })),
    ("L without imm", |m, k| altered(m, k, Code::L, |i| Instruction { imm: 0, ..i })),
    ("S without imm", |m, k| altered(m, k, Code::S, |i| Instruction { imm: 0, ..i })),
    ("loads take 0", |m, k| {
        let answer = m.execute(k)?;
        let entry = &mut m.window.live[k];
        if let (Code::L, access @ Some(_)) = (entry.code(), entry.access()) {
            entry.fate = Fate::Executed { value: 0, access };
        }
        Ok(answer)
    }),
    ("what squashes has not executed", |m, k| {
        let answer = m.execute(k)?;
        if answer.squashed.is_some() && k > 0 {
            m.window.live[k].fate = Fate::Waiting;
        }
        Ok(answer)
    }),
    ("stores reach memory when executed", |m, k| {
        let answer = m.execute(k)?;
        let entry = m.window.live[k];
        if let (true, Some(address), Some(value)) = (entry.code().stores(), entry.mark(), entry.value()) {
            m.memory.get_mut(address as usize).into_iter().for_each(|word| *word = value);
        }
        Ok(answer)
    }),
    ("registers written when executed", |m, k| {
        let answer = m.execute(k)?;
        let entry = m.window.live[k];
        if let (false, Some(value)) = (entry.code().stores(), entry.value()) {
            m.registers[entry.instruction.d as usize] = value;
        }
        Ok(answer)
    }),
    ("no execution past the end", |m, k| {
        let mut tried = m.clone();
        let answer = tried.execute(k)?;
        if m.past(&tried.window.live[k]) {
            return Err(13);
        }
        *m = tried;
        Ok(answer)
    }),
];

const SQUASHES: [(&str, Squash); 9] = [
    ("squash by 8 bits", |m, k| m.squash(k % 256)),
    ("squash by 16 bits", |m, k| m.squash(k % 65_536)),
    ("squash from the next", |m, k| m.squash(k.saturating_add(1))),
    ("squash of everything", |m, k| m.squash(if k < m.window.live.len() { 0 } else { k })),
    ("squash past the youngest of everything", |m, k| m.squash(if k < m.window.live.len() { k } else { 0 })),
    ("squash of one alone", |m, k| {
        if k >= m.window.live.len() {
            return Err(7);
        }
        m.window.live.remove(k);
        Ok(())
    }),
    ("squash refused of an executed one", |m, k| {
        if m.window.live.get(k).is_some_and(|entry| !entry.waits()) {
            return Err(8);
        }
        m.squash(k)
    }),
    ("squash refused of the oldest", |m, k| if k == 0 { Err(7) } else { m.squash(k) }),
    ("squash does nothing", |_, _| Ok(())),
];

/// The older writers of a register, oldest first.
fn writers(window: &Window, k: usize, register: u32) -> impl DoubleEndedIterator<Item = usize> + '_ {
    (0..k).filter(move |&p| window.live[p].instruction.writes(register))
}

fn held(window: &Window, registers: &[u32; 8], register: u32, writer: Option<usize>) -> Result<u32, u32> {
    writer.map_or(Ok(registers[register as usize]), |writer| window.live[writer].value().ok_or(9))
}

/// Executes an instruction of this code as another one.
pub fn altered(
    machine: &mut Wrong,
    k: usize,
    code: Code,
    other: fn(Instruction) -> Instruction,
) -> Result<Executed, u32> {
    let Some(entry) = machine.window.live.get_mut(k) else { return Err(7) };
    let before = entry.instruction;
    if before.code == code {
        entry.instruction = other(before);
    }
    let answer = machine.execute(k);
    machine.window.live[k].instruction = before;
    answer
}

#[test]
fn wrong_machines() {
    let mut scripts = Scripts::default();
    OPERANDS.iter().for_each(|&(name, operand)| scripts.tell(name, Mutant { operand, ..RIGHT }));
    SUMS.iter().for_each(|&(name, sum)| scripts.tell(name, Mutant { sum, ..RIGHT }));
    RESUMES.iter().for_each(|&(name, resume)| scripts.tell(name, Mutant { resume, ..RIGHT }));
    ISSUES.iter().for_each(|&(name, issue)| scripts.tell(name, Mutant { issue, ..RIGHT }));
    EXECUTES.iter().for_each(|&(name, execute)| scripts.tell(name, Mutant { execute, ..RIGHT }));
    SQUASHES.iter().for_each(|&(name, squash)| scripts.tell(name, Mutant { squash, ..RIGHT }));
    scripts.close("machines");
}
