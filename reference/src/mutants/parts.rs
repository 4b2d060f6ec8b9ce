//! Wrong stores of parts.

use super::commits::passed;
use super::machines::altered;
use super::{Mutant, Scripts, Wrong, RIGHT};
use crate::machine::{Commit, Executed, Machine};
use crate::rules::{Rules, Stated};
use crate::window::{Access, Code, Entry, Fate, Instruction, Row, Window, LOADS, PARTS, STORES};

type Merge = fn(u32, u32, u32) -> u32;
type Word = fn(u32) -> u32;
type Misaligned = fn(Code, u32) -> bool;
type Execute = fn(&mut Wrong, usize) -> Result<Executed, u32>;
type Commits = fn(&mut Wrong) -> Result<Commit, u32>;
type FateOf = fn(&Wrong) -> &'static str;
type Finish = fn(&mut Wrong, u32) -> Vec<Commit>;
type Takes = fn(usize, bool, Instruction) -> Result<(), &'static str>;

/// By byte number, word taken and register.
const BYTES: [(&str, Merge); 10] = [
    ("B from the top of the word", |b, w, v| Stated.merge(Code::B, 3 - b % 4, w, v)),
    ("B not cut to 8 bits", |b, w, v| w & !(0xff << (b % 4 * 8)) | v << (b % 4 * 8)),
    ("B into 0", |b, _, v| Stated.merge(Code::B, b, 0, v)),
    ("B of 16 bits", |b, w, v| w & !(0xffff << (b % 4 * 8)) | (v & 0xffff) << (b % 4 * 8)),
    ("B of the upper bits", |b, w, v| Stated.merge(Code::B, b, w, v >> 24)),
    ("B of the whole word", |_, _, v| v),
    ("B at byte 0", |_, w, v| Stated.merge(Code::B, 0, w, v)),
    ("B at even bytes", |b, w, v| Stated.merge(Code::B, b & !1, w, v)),
    ("B joined with what is there", |b, w, v| w | (v & 0xff) << (b % 4 * 8)),
    ("B changes nothing", |_, w, _| w),
];

const HALVES: [(&str, Merge); 10] = [
    ("H from the top of the word", |b, w, v| Stated.merge(Code::H, b ^ 2, w, v)),
    ("H with its bytes exchanged", |b, w, v| Stated.merge(Code::H, b, w, v >> 8 & 0xff | v << 8)),
    ("H not cut to 16 bits", |b, w, v| w & !(0xffff << (b % 4 * 8)) | v << (b % 4 * 8)),
    ("H into 0", |b, _, v| Stated.merge(Code::H, b, 0, v)),
    ("H of 8 bits", |b, w, v| Stated.merge(Code::B, b, w, v)),
    ("H of the upper bits", |b, w, v| Stated.merge(Code::H, b, w, v >> 16)),
    ("H of the whole word", |_, _, v| v),
    ("H at byte 0", |_, w, v| Stated.merge(Code::H, 0, w, v)),
    ("H joined with what is there", |b, w, v| w | (v & 0xffff) << (b % 4 / 2 * 16)),
    ("H changes nothing", |_, w, _| w),
];

const WORDS: [(&str, Word); 6] = [
    ("the byte number as the word", |byte| byte),
    ("half of the byte number as the word", |byte| byte / 2),
    ("an eighth of the byte number as the word", |byte| byte / 8),
    ("a quarter rounded up as the word", |byte| byte.div_ceil(4)),
    ("byte numbers of 16 bits", |byte| byte % 65_536 / 4),
    ("byte numbers of 31 bits", |byte| byte % (1 << 31) / 4),
];

const MISALIGNED: [(&str, Misaligned); 7] = [
    ("an odd H commits", |_, _| false),
    ("an odd H at byte 1 commits", |code, byte| code == Code::H && byte % 4 == 3),
    ("an odd H at byte 3 commits", |code, byte| code == Code::H && byte % 4 == 1),
    ("an odd B is refused", |code, byte| code.is_part() && byte % 2 == 1),
    ("an H at byte 2 is refused", |code, byte| code == Code::H && byte % 4 != 0),
    ("an even H is refused", |code, byte| code == Code::H && byte % 2 == 0),
    ("an odd L or S is refused", |code, number| code != Code::B && number % 2 == 1),
];

const EXECUTES: [(&str, Execute); 9] = [
    ("an odd H does not execute", |m, k| {
        let mut tried = m.clone();
        let answer = tried.execute(k)?;
        if m.odd(&tried.window.live[k]) {
            return Err(14);
        }
        *m = tried;
        Ok(answer)
    }),
    ("an odd H is at the byte below", |m, k| {
        let answer = m.execute(k)?;
        renumbered(m, k, Code::H, |access| Access { number: access.number & !1, ..access });
        Ok(answer)
    }),
    ("an odd H is at the byte above", |m, k| {
        let mut tried = m.clone();
        if tried.execute(k).is_ok() && m.odd(&tried.window.live[k]) {
            return altered(m, k, Code::H, |i| Instruction { imm: i.imm.wrapping_add(1), ..i });
        }
        m.execute(k)
    }),
    ("a part without imm", |m, k| both(m, k, |i| Instruction { imm: 0, ..i })),
    ("a part of register s", |m, k| both(m, k, |i| Instruction { d: i.s, ..i })),
    ("a part at register d", |m, k| both(m, k, |i| Instruction { d: i.s, s: i.d, ..i })),
    ("a part's imm in words", |m, k| both(m, k, |i| Instruction { imm: i.imm.wrapping_mul(4), ..i })),
    ("a part's sum does not wrap", |m, k| {
        let entry = *m.window.live.get(k).ok_or(7u32)?;
        let base = Stated.operand(&m.window, &m.registers, k, entry.instruction.s);
        let answer = m.execute(k)?;
        if base.is_ok_and(|base| base.checked_add(entry.instruction.imm).is_none()) {
            PARTS
                .into_iter()
                .for_each(|code| renumbered(m, k, code, |a| Access { word: a.word + (1 << 30), ..a }));
        }
        Ok(answer)
    }),
    ("parts of other bytes are not met", |m, k| {
        let apart = |met: Entry, entry: Entry| match (touched(met), touched(entry)) {
            (Some(met), Some(entry)) => met & entry == 0,
            _ => false,
        };
        unmet(m, k, apart)
    }),
];

const COMMITS: [(&str, Commits); 18] = [
    ("a B stores nothing", |m| stores_not(m, Code::B)),
    ("an H stores nothing", |m| stores_not(m, Code::H)),
    ("the word number told for B", |m| told(m, Code::B, |c| Commit { target: c.target / 4, ..c })),
    ("the word number told for H", |m| told(m, Code::H, |c| Commit { target: c.target / 4, ..c })),
    ("the first byte of the word told for B", |m| {
        told(m, Code::B, |c| Commit { target: c.target & !3, ..c })
    }),
    ("the first byte of the word told for H", |m| {
        told(m, Code::H, |c| Commit { target: c.target & !3, ..c })
    }),
    ("the part told for B", |m| {
        told(m, Code::B, |c| Commit { value: c.value >> (c.target % 4 * 8) & 0xff, ..c })
    }),
    ("the part told for H", |m| {
        told(m, Code::H, |c| Commit { value: c.value >> (c.target % 4 * 8) & 0xffff, ..c })
    }),
    ("0 told for B", |m| told(m, Code::B, |c| Commit { value: 0, ..c })),
    ("0 told for H", |m| told(m, Code::H, |c| Commit { value: 0, ..c })),
    ("S told for B", |m| told(m, Code::B, |c| Commit { code: Code::S, ..c })),
    ("B told for H", |m| told(m, Code::H, |c| Commit { code: Code::B, ..c })),
    ("the register told for a part", |m| {
        let d = m.window.live.first().map_or(0, |entry| entry.instruction.d);
        m.commit().map(|commit| if commit.code.is_part() { Commit { target: d, ..commit } } else { commit })
    }),
    ("a B writes its register", |m| writes(m, Code::B)),
    ("an H writes its register", |m| writes(m, Code::H)),
    ("a part stores at the byte number", |m| {
        let before = m.memory.clone();
        let commit = m.commit()?;
        if commit.code.is_part() {
            m.memory = before;
            m.memory.get_mut(commit.target as usize).into_iter().for_each(|word| *word = commit.value);
        }
        Ok(commit)
    }),
    ("a part past the end commits", |m| if m.faulted() && part_first(m) { passed(m) } else { m.commit() }),
    ("the last byte does not commit", |m| {
        let last = 4 * m.window.sizes.words - 1;
        let refused = |oldest: &Entry| oldest.is(Code::B) && numbered(oldest, |number| number == last);
        if m.window.live.first().is_some_and(refused) {
            return Err(13);
        }
        m.commit()
    }),
];

const FATES: [(&str, FateOf); 8] = [
    ("open at an odd H", |m| if m.faulted() && !past_first(m) { "open" } else { m.fate() }),
    ("open at an odd H at W or more", |m| {
        let odd = m.window.live.first().is_some_and(|oldest| m.odd(oldest));
        if odd && past_first(m) {
            "open"
        } else {
            m.fate()
        }
    }),
    ("open at a B", |m| if m.faulted() && first_is(m, Code::B) { "open" } else { m.fate() }),
    ("open at an H past the end", |m| if past_first(m) && first_is(m, Code::H) { "open" } else { m.fate() }),
    ("fault of a younger odd H", |m| {
        if m.window.live.iter().any(|entry| m.odd(entry)) {
            "fault"
        } else {
            m.fate()
        }
    }),
    ("fault of an odd B", |m| {
        if first_is(m, Code::B) && first_at(m, |n| n % 2 == 1) {
            "fault"
        } else {
            m.fate()
        }
    }),
    ("fault at a byte number of W", |m| if outside(m) { "fault" } else { m.fate() }),
    ("fault only at a word above W", |m| {
        let at = m.window.live.first().and_then(Entry::mark) == Some(m.window.sizes.words);
        if at && part_first(m) {
            "open"
        } else {
            m.fate()
        }
    }),
];

const FINISHES: [(&str, Finish); 4] = [
    ("x leaves an odd H waiting", |m, k| {
        let commits = m.finish(k);
        if m.faulted() && !past_first(m) {
            m.window.live[0].fate = Fate::Waiting;
        }
        commits
    }),
    ("x drops an odd H", |m, k| {
        let commits = m.finish(k);
        if m.faulted() && !past_first(m) {
            let _ = m.squash(0);
        }
        commits
    }),
    ("x tells an odd H as a commit", |m, k| {
        let odd = |m: &Wrong| m.faulted() && !past_first(m);
        let round = |m: &mut Wrong| m.advance().or_else(|| if odd(m) { passed(m).ok() } else { None });
        (0..k).map_while(|_| round(m)).collect()
    }),
    ("x commits an odd H", |m, k| {
        let right = m.rules;
        m.rules.misaligned = |_, _| false;
        let commits = m.finish(k);
        m.rules = right;
        commits
    }),
];

const TAKEN: [(&str, Takes); 6] = [
    ("B refused", |before, stepped, i| without(i.code == Code::B, before, stepped, i)),
    ("H refused", |before, stepped, i| without(i.code == Code::H, before, stepped, i)),
    ("B's imm above 7 refused", |before, stepped, i| {
        without(i.code == Code::B && i.imm > 7, before, stepped, i)
    }),
    ("H's imm above 7 refused", |before, stepped, i| {
        without(i.code == Code::H && i.imm > 7, before, stepped, i)
    }),
    ("H's odd imm refused", |before, stepped, i| {
        without(i.code == Code::H && i.imm % 2 == 1, before, stepped, i)
    }),
    ("B taken after a step", |before, stepped, i| Stated.takes(before, stepped && i.code != Code::B, i)),
];

fn without(refused: bool, before: usize, stepped: bool, i: Instruction) -> Result<(), &'static str> {
    if refused {
        return Err("no such instruction");
    }
    Stated.takes(before, stepped, i)
}

/// Another number or word for what has just executed as this code.
fn renumbered(machine: &mut Wrong, k: usize, code: Code, other: fn(Access) -> Access) {
    let entry = &mut machine.window.live[k];
    if let (true, Fate::Executed { value, access }) = (entry.is(code), entry.fate) {
        entry.fate = Fate::Executed { value, access: access.map(other) };
    }
}

/// Executes a store of a part as another instruction.
fn both(machine: &mut Wrong, k: usize, other: fn(Instruction) -> Instruction) -> Result<Executed, u32> {
    let code = machine.window.live.get(k).ok_or(7u32)?.code();
    altered(machine, k, if code.is_part() { code } else { Code::B }, other)
}

/// The bits that a store of a part puts into its word.
fn touched(entry: Entry) -> Option<u32> {
    let number = entry.access()?.number;
    entry.code().is_part().then(|| Stated.merge(entry.code(), number, 0, u32::MAX))
}

/// A violation is left out where this holds of the one met and of the one executed.
fn unmet(m: &mut Wrong, k: usize, left_out: impl Fn(Entry, Entry) -> bool) -> Result<Executed, u32> {
    let mut tried = m.clone();
    let answer = tried.execute(k)?;
    let entry = tried.window.live[k];
    let met = answer.squashed.map(|from| m.window.live[from]).filter(|met| met.mark() == entry.mark());
    if met.is_some_and(|met| left_out(met, entry)) {
        m.window.live[k] = entry;
        return Ok(Executed { squashed: None, ..answer });
    }
    *m = tried;
    Ok(answer)
}

fn stores_not(machine: &mut Wrong, code: Code) -> Result<Commit, u32> {
    let before = machine.memory.clone();
    let commit = machine.commit()?;
    if commit.code == code {
        machine.memory = before;
    }
    Ok(commit)
}

fn told(machine: &mut Wrong, code: Code, other: fn(Commit) -> Commit) -> Result<Commit, u32> {
    machine.commit().map(|commit| if commit.code == code { other(commit) } else { commit })
}

fn writes(machine: &mut Wrong, code: Code) -> Result<Commit, u32> {
    let d = machine.window.live.first().map_or(0, |entry| entry.instruction.d);
    let commit = machine.commit()?;
    if commit.code == code {
        machine.registers[d as usize] = commit.value;
    }
    Ok(commit)
}

fn first_is(machine: &Wrong, code: Code) -> bool {
    machine.window.live.first().is_some_and(|oldest| oldest.is(code))
}

fn part_first(machine: &Wrong) -> bool {
    machine.window.live.first().is_some_and(|oldest| oldest.code().is_part())
}

fn past_first(machine: &Wrong) -> bool {
    machine.window.live.first().is_some_and(|oldest| machine.past(oldest))
}

fn first_at(machine: &Wrong, holds: impl Fn(u32) -> bool) -> bool {
    machine.window.live.first().is_some_and(|oldest| numbered(oldest, holds))
}

fn numbered(entry: &Entry, holds: impl Fn(u32) -> bool) -> bool {
    entry.access().is_some_and(|access| holds(access.number))
}

/// Another merge of one code.
#[derive(Clone)]
struct Merging(Code, Merge);

impl Rules for Merging {
    fn merge(&self, code: Code, byte: u32, word: u32, value: u32) -> u32 {
        if code == self.0 {
            (self.1)(byte, word, value)
        } else {
            Stated.merge(code, byte, word, value)
        }
    }
}

/// Another word of stores of parts.
#[derive(Clone)]
struct Placed(Word);

impl Rules for Placed {
    fn word(&self, code: Code, number: u32) -> u32 {
        if code.is_part() {
            (self.0)(number)
        } else {
            number
        }
    }
}

/// What a code does not do.
#[derive(Clone, Copy, PartialEq, Eq)]
enum Lack {
    TakesARow,
    Evicts,
    IsEvicted,
    /// One row does for both sides.
    FitsOneRow,
    Forwards,
    /// Takes another word than memory's.
    Takes,
    Squashes,
    /// Is met load side first.
    IsALoad,
    IsMet,
    /// Is squashed with everything younger.
    IsSquashed,
    WaitsForD,
    IsNoWriter,
}

const LACKS: [(&str, &[Lack]); 14] = [
    ("takes no row", &[Lack::TakesARow]),
    ("does not evict", &[Lack::Evicts]),
    ("is not evicted", &[Lack::IsEvicted]),
    ("needs two rows", &[Lack::FitsOneRow]),
    ("does not forward", &[Lack::Forwards]),
    ("takes memory's word", &[Lack::Takes]),
    ("squashes nothing", &[Lack::Squashes]),
    ("is met store side first", &[Lack::IsALoad]),
    ("is passed over", &[Lack::IsMet]),
    ("is met and kept", &[Lack::IsSquashed]),
    ("does not wait for d", &[Lack::WaitsForD]),
    ("is a writer", &[Lack::IsNoWriter]),
    ("has a load side alone", &[Lack::Forwards, Lack::Squashes]),
    ("has a store side alone", &[Lack::Takes, Lack::IsALoad]),
];

#[derive(Clone)]
struct Lacking(Code, &'static [Lack]);

impl Lacking {
    fn lacks(&self, window: &Window, p: usize, lack: Lack) -> bool {
        window.live[p].is(self.0) && self.1.contains(&lack)
    }
}

impl Rules for Lacking {
    fn forward(&self, window: &Window, k: usize, address: u32) -> Option<usize> {
        if self.lacks(window, k, Lack::Takes) {
            return None;
        }
        let store = Stated.forward(window, k, address)?;
        if self.lacks(window, store, Lack::Forwards) {
            return self.forward(window, store, address);
        }
        Some(store)
    }

    fn violation(&self, window: &Window, k: usize, address: u32, value: u32) -> Option<usize> {
        let at = |&p: &usize| window.live[p].mark() == Some(address) && !self.lacks(window, p, Lack::IsMet);
        let first = (k + 1..window.live.len()).find(at)?;
        if self.lacks(window, k, Lack::Squashes) || self.lacks(window, first, Lack::IsALoad) {
            return None;
        }
        let from = if self.lacks(window, first, Lack::IsSquashed) { first + 1 } else { first };
        let goes = window.live[first].taken().is_some_and(|taken| taken != value);
        goes.then_some(from).filter(|&from| from < window.live.len())
    }

    fn room(&self, window: &Window, k: usize, address: u32) -> Result<Option<usize>, u32> {
        let room = Stated.room(window, k, address);
        let rows = window.rows(window.sizes.bank(address));
        let stays = |row: &&Row| row.oldest > k && !self.lacks(window, row.oldest, Lack::IsEvicted);
        match room {
            _ if self.lacks(window, k, Lack::TakesARow) => Ok(None),
            // The oldest would be stuck, which every finish shows.
            _ if k == 0 => room,
            Ok(Some(_)) if self.lacks(window, k, Lack::Evicts) => Err(10),
            Ok(Some(_)) => rows.iter().filter(stays).map(|row| row.oldest).max().map(Some).ok_or(10),
            Ok(None)
                if self.lacks(window, k, Lack::FitsOneRow)
                    && rows.len() + 1 == window.sizes.rows as usize =>
            {
                Err(10)
            }
            _ => room,
        }
    }

    fn operand(&self, window: &Window, registers: &[u32; 8], k: usize, register: u32) -> Result<u32, u32> {
        let answer = Stated.operand(window, registers, k, register);
        let Instruction { d, s, .. } = window.live[k].instruction;
        if self.lacks(window, k, Lack::WaitsForD) && register == d && d != s {
            return Ok(answer.unwrap_or(registers[d as usize]));
        }
        let writes = |p: &usize| {
            let writer = window.live[*p].instruction;
            writer.writes(register) || self.lacks(window, *p, Lack::IsNoWriter) && writer.d == register
        };
        match (0..k).rev().find(writes) {
            Some(writer) => window.live[writer].value().ok_or(9),
            None => answer,
        }
    }
}

/// A word is not forwarded from one code to another, or no violation is found of one by the other.
#[derive(Clone)]
struct Apart {
    forward: bool,
    store: Code,
    load: Code,
}

impl Rules for Apart {
    fn forward(&self, window: &Window, k: usize, address: u32) -> Option<usize> {
        let store = Stated.forward(window, k, address)?;
        if self.forward && window.live[k].is(self.load) && window.live[store].is(self.store) {
            return None;
        }
        Some(store)
    }

    fn violation(&self, window: &Window, k: usize, address: u32, value: u32) -> Option<usize> {
        let seen = |from: &usize| {
            self.forward || !window.live[k].is(self.store) || !window.live[*from].is(self.load)
        };
        Stated.violation(window, k, address, value).filter(seen)
    }
}

/// The table has the byte number of a part; a commit knows the word.
const BY_BYTES: Mutant = Mutant {
    execute: |m, k| {
        let answer = m.execute(k)?;
        PARTS.into_iter().for_each(|code| renumbered(m, k, code, |a| Access { word: a.number, ..a }));
        Ok(answer)
    },
    commit: |m| {
        by_words(m).commit().and_then(|_| {
            let right = |a: Access| Access { word: a.number / 4, ..a };
            PARTS.into_iter().for_each(|code| renumbered(m, 0, code, right));
            m.commit()
        })
    },
    fate: |m| by_words(m).fate(),
    ..RIGHT
};

/// A part is put into its word when it commits, and forwards without the rest.
const LATE: Mutant = Mutant {
    merge: |code, byte, _, value| Stated.merge(code, byte, 0, value),
    commit: |m| {
        if let Some(Entry { instruction, fate: Fate::Executed { value, access: Some(access) }, .. }) =
            m.window.live.first_mut()
        {
            if let (true, Some(word)) = (instruction.code.is_part(), m.memory.get(access.word as usize)) {
                *value |= Stated.merge(instruction.code, access.number, *word, 0);
            }
        }
        m.commit()
    },
    ..RIGHT
};

/// A part at a byte number of W or more is outside the memory.
const SMALL: Mutant = Mutant {
    commit: |m| if outside(m) { Err(13) } else { m.commit() },
    fate: |m| if outside(m) { "fault" } else { m.fate() },
    ..RIGHT
};

fn outside(machine: &Wrong) -> bool {
    part_first(machine) && first_at(machine, |number| number >= machine.window.sizes.words)
}

fn by_words(machine: &Wrong) -> Machine<Mutant> {
    let mut machine = machine.clone();
    if !machine.window.live.is_empty() {
        PARTS
            .into_iter()
            .for_each(|code| renumbered(&mut machine, 0, code, |a| Access { word: a.number / 4, ..a }));
    }
    machine
}

#[test]
fn wrong_parts() {
    let mut scripts = Scripts::default();
    BYTES.iter().for_each(|&(name, merge)| scripts.tell(name, Merging(Code::B, merge)));
    HALVES.iter().for_each(|&(name, merge)| scripts.tell(name, Merging(Code::H, merge)));
    WORDS.iter().for_each(|&(name, word)| scripts.tell(name, Placed(word)));
    MISALIGNED.iter().for_each(|&(name, misaligned)| scripts.tell(name, Mutant { misaligned, ..RIGHT }));
    EXECUTES.iter().for_each(|&(name, execute)| scripts.tell(name, Mutant { execute, ..RIGHT }));
    COMMITS.iter().for_each(|&(name, commit)| scripts.tell(name, Mutant { commit, ..RIGHT }));
    FATES.iter().for_each(|&(name, fate)| scripts.tell(name, Mutant { fate, ..RIGHT }));
    FINISHES.iter().for_each(|&(name, finish)| scripts.tell(name, Mutant { finish, ..RIGHT }));
    TAKEN.iter().for_each(|&(name, takes)| scripts.tell(name, Mutant { takes, ..RIGHT }));
    scripts.tell("byte numbers in the table", BY_BYTES);
    scripts.tell("memory of W bytes", SMALL);
    scripts.tell("a part merged at its commit", LATE);
    for code in PARTS {
        for (name, lacks) in LACKS {
            scripts.tell(&format!("{code:?} {name}"), Lacking(code, lacks));
        }
    }
    for (store, load) in STORES.into_iter().flat_map(|store| LOADS.map(|load| (store, load))) {
        let name = format!("no forward from {store:?} to {load:?}");
        scripts.tell(&name, Apart { forward: true, store, load });
        let name = format!("no violation of {load:?} by {store:?}");
        scripts.tell(&name, Apart { forward: false, store, load });
    }
    scripts.close("stores of parts");
}
