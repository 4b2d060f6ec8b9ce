//! Wrong stores of the word already there.

use super::{checked, generated, Mutant, Scripts, Wrong, RIGHT};
use crate::events::BANKS;
use crate::machine::{Commit, Executed, Machine};
use crate::player::play_by;
use crate::rules::{Rules, Stated};
use crate::window::{Access, Code, Entry, Fate, Instruction, Sizes, Window, LOADS, PARTS, STORES};
use std::cell::RefCell;

type Spares = fn(&Met) -> bool;
type Walk = fn(&Window, usize, u32, u32) -> Option<usize>;
type Keeps = fn(&Entry, &[u32]) -> Option<u32>;
type Execute = fn(&mut Wrong, usize) -> Result<Executed, u32>;
type After = fn(&mut Window, usize, usize);
type Kind = fn(Code) -> bool;

/// A store, and the load side that it meets.
struct Met<'a> {
    window: &'a Window,
    /// Their positions.
    k: usize,
    first: usize,
    about: About,
    stored: u32,
    taken: u32,
}

impl Met<'_> {
    fn store(&self) -> Entry {
        self.window.live[self.k]
    }

    fn load(&self) -> Entry {
        self.window.live[self.first]
    }

    fn same(&self) -> bool {
        self.taken == self.stored
    }

    fn alike(&self, bits: u32) -> bool {
        (self.taken ^ self.stored) & bits == 0
    }

    /// Whether the word taken is of an older store.
    fn forwarded(&self) -> bool {
        self.load().mark().is_some_and(|word| Stated.forward(self.window, self.first, word).is_some())
    }
}

/// What the rule is not told of a store.
#[derive(Clone, Copy, Default)]
struct About {
    /// Its word number, or byte number.
    number: u32,
    register: u32,
    /// Memory's word, 0 at W or more.
    memory: u32,
    /// The word that a load would take there.
    seen: u32,
}

impl About {
    fn new<R: Rules>(machine: &Machine<R>, k: usize) -> Self {
        let Machine { window, registers, memory, .. } = machine;
        let Some(Entry { instruction, .. }) = window.live.get(k) else { return About::default() };
        let Instruction { code, d, s, imm } = *instruction;
        let held = |register| Stated.operand(window, registers, k, register).unwrap_or(0);
        let number = held(s).wrapping_add(imm);
        let word = Stated.word(code, number);
        let memory = memory.get(word as usize).copied().unwrap_or(0);
        let store = Stated.forward(window, k, word).map(|store| window.live[store]);
        let seen = store.and_then(|store| store.value()).unwrap_or(memory);
        About { number, register: held(d), memory, seen }
    }

    /// Whether such a store changes nothing.
    fn idle(&self, code: Code) -> bool {
        code.stores() && Stated.merge(code, self.number, self.seen, self.register) == self.seen
    }
}

/// The bits of a word that a reference puts there.
fn bits(code: Code, number: u32) -> u32 {
    Stated.merge(code, number, 0, u32::MAX)
}

/// Whether the load side is spared.
const SPARES: [(&str, Spares); 34] = [
    ("kept by another word, squashed by the same", |m| !m.same()),
    ("squashed by every word", |_| false),
    ("kept by every word", |_| true),
    ("the word that a part stored", |m| m.load().value() == Some(m.stored)),
    ("the word that a part took or stored", |m| m.same() || m.load().value() == Some(m.stored)),
    ("the word that a part took and stored", |m| m.same() && m.load().value() == Some(m.stored)),
    ("memory's word", |m| m.about.memory == m.stored),
    ("memory's word or the one taken", |m| m.same() || m.about.memory == m.stored),
    ("memory's word and the one taken", |m| m.same() && m.about.memory == m.stored),
    ("8 lower bits", |m| m.alike(0xff)),
    ("16 lower bits", |m| m.alike(0xffff)),
    ("31 lower bits", |m| m.alike(u32::MAX >> 1)),
    ("8 upper bits", |m| m.alike(0xff << 24)),
    ("16 upper bits", |m| m.alike(0xffff << 16)),
    ("31 upper bits", |m| m.alike(u32::MAX << 1)),
    ("the register stored", |m| m.about.register == m.taken),
    ("the part stored", |m| {
        let width = match m.store().code() {
            Code::B => 0xff,
            Code::H => 0xffff,
            _ => u32::MAX,
        };
        m.about.register & width == m.taken
    }),
    ("the bits that a part met leaves", |m| {
        let number = m.load().access().map_or(0, |access| access.number);
        m.alike(if m.load().is(Code::L) { u32::MAX } else { !bits(m.load().code(), number) })
    }),
    ("no less than the word taken", |m| m.stored >= m.taken),
    ("no more than the word taken", |m| m.stored <= m.taken),
    ("a word 0 only", |m| m.same() && m.taken == 0),
    ("no word 0", |m| m.same() && m.taken != 0),
    ("0 and 1 only, as marks", |m| (m.stored != 0) == (m.taken != 0)),
    ("no word above 2147483647", |m| m.same() && m.taken < 1 << 31),
    ("a word of memory only", |m| m.same() && !m.forwarded()),
    ("a word of a store only", |m| m.same() && m.forwarded()),
    ("the youngest only", |m| m.same() && m.first + 1 == m.window.live.len()),
    ("not the youngest", |m| m.same() && m.first + 1 < m.window.live.len()),
    ("by the oldest only", |m| m.same() && m.k == 0),
    ("not by the oldest", |m| m.same() && m.k > 0),
    ("at higher stages only", |m| m.same() && m.window.stage(m.first) > m.window.stage(m.k)),
    ("no store waits between", |m| {
        let between = &m.window.live[m.k + 1..m.first];
        m.same() && !between.iter().any(|entry| entry.code().stores() && entry.waits())
    }),
    ("no other one of its word behind", |m| {
        let behind = &m.window.live[m.first + 1..];
        m.same() && !behind.iter().any(|entry| entry.mark() == m.load().mark())
    }),
    ("all older ones have executed", |m| m.same() && !m.window.live[..m.k].iter().any(Entry::waits)),
];

/// From an opening on the first load side met took the word that is seen at the store, of which a part leaves the rest:
/// no script tells what is compared here from what is right.
const SILENT: [(&str, Spares); 2] = [
    ("the word seen at the store", |m| m.about.seen == m.stored),
    ("the bits of the part stored", |m| m.alike(bits(m.store().code(), m.about.number))),
];

/// The stated rules with another answer to whether a load side is spared.
#[derive(Clone)]
struct Sparing<F> {
    spares: F,
    about: About,
}

impl<F> Sparing<F> {
    fn new(spares: F) -> Self {
        Sparing { spares, about: About::default() }
    }
}

impl<F: Clone + Fn(&Met) -> bool> Rules for Sparing<F> {
    fn violation(&self, window: &Window, k: usize, address: u32, stored: u32) -> Option<usize> {
        let first = at(window, k, address).next()?;
        let Sparing { spares, about } = self;
        let met = Met { window, k, first, about: *about, stored, taken: window.live[first].taken()? };
        (!spares(&met)).then_some(first)
    }

    fn execute(machine: &mut Machine<Self>, k: usize) -> Result<Executed, u32> {
        machine.rules.about = About::new(machine, k);
        machine.execute(k)
    }
}

/// By window, position of the store, word number and word stored: where it squashes from.
const WALKS: [(&str, Walk); 10] = [
    ("walks on after the same word", |w, k, a, v| walked(w, k, a, v, |_| true)),
    ("walks on after a part of the same word", |w, k, a, v| walked(w, k, a, v, |met| !met.is(Code::L))),
    ("goes to every load side", |w, k, a, v| at(w, k, a).find(|&p| took_another(w, p, v))),
    ("goes on from an L to every load side", |w, k, a, v| further(w, k, a, v, &[Code::L])),
    ("goes on from a part to every load side", |w, k, a, v| further(w, k, a, v, &PARTS)),
    ("the youngest load side decides", |w, k, a, v| {
        let first = at(w, k, a).next().filter(|&p| w.live[p].code().loads())?;
        let youngest = at(w, k, a).filter(|&p| w.live[p].code().loads()).last()?;
        took_another(w, youngest, v).then_some(first)
    }),
    ("the next load side decides", |w, k, a, v| {
        let mut met = at(w, k, a).take_while(|&p| w.live[p].code().loads());
        let first = met.next()?;
        took_another(w, met.next().unwrap_or(first), v).then_some(first)
    }),
    ("a store met goes if its word is another", |w, k, a, v| {
        let first = at(w, k, a).next()?;
        let goes = w.live[first].is(Code::S) && w.live[first].value() != Some(v);
        (goes || took_another(w, first, v)).then_some(first)
    }),
    ("what is younger than a kept one goes", |w, k, a, v| {
        let first = at(w, k, a).next().filter(|&p| w.live[p].code().loads())?;
        let from = if took_another(w, first, v) { first } else { first + 1 };
        Some(from).filter(|&from| from < w.live.len())
    }),
    ("what is younger than another word's goes", |w, k, a, v| {
        Stated.violation(w, k, a, v).map(|first| first + 1).filter(|&from| from < w.live.len())
    }),
];

/// The younger ones at a word, nearest first.
fn at(window: &Window, k: usize, address: u32) -> impl Iterator<Item = usize> + '_ {
    (k + 1..window.live.len()).filter(move |&p| window.live[p].mark() == Some(address))
}

fn took_another(window: &Window, p: usize, word: u32) -> bool {
    window.live[p].taken().is_some_and(|taken| taken != word)
}

/// The walk goes on after load sides of the same word that are of a kind.
fn walked(w: &Window, k: usize, a: u32, v: u32, kind: fn(&Entry) -> bool) -> Option<usize> {
    let first = at(w, k, a).find(|&p| w.live[p].taken() != Some(v) || !kind(&w.live[p]))?;
    took_another(w, first, v).then_some(first)
}

/// If the first one met is of these codes, every load side behind it is looked at, too.
fn further(w: &Window, k: usize, a: u32, v: u32, codes: &[Code]) -> Option<usize> {
    let first = at(w, k, a).next()?;
    let all = codes.contains(&w.live[first].code());
    at(w, k, a).find(|&p| (all || p == first) && took_another(w, p, v))
}

/// The word that a load side keeps once it has executed, with memory.
const KEEPS: [(&str, Keeps); 15] = [
    ("0", |_, _| Some(0)),
    ("0 of L", |e, _| if e.is(Code::L) { Some(0) } else { e.taken() }),
    ("0 of B", |e, _| if e.is(Code::B) { Some(0) } else { e.taken() }),
    ("0 of H", |e, _| if e.is(Code::H) { Some(0) } else { e.taken() }),
    ("the word stored", |e, _| e.value()),
    ("the word stored of B", |e, _| if e.is(Code::B) { e.value() } else { e.taken() }),
    ("the word stored of H", |e, _| if e.is(Code::H) { e.value() } else { e.taken() }),
    ("memory's word", |e, memory| {
        Some(e.mark().and_then(|word| memory.get(word as usize).copied()).unwrap_or(0))
    }),
    ("8 lower bits", |e, _| e.taken().map(|taken| taken & 0xff)),
    ("16 lower bits", |e, _| e.taken().map(|taken| taken & 0xffff)),
    ("31 lower bits", |e, _| e.taken().map(|taken| taken & u32::MAX >> 1)),
    ("the register's number", |e, _| Some(e.instruction.d)),
    ("the word number", |e, _| e.mark()),
    ("nothing of L", |e, _| if e.is(Code::L) { None } else { e.taken() }),
    ("nothing of parts", |e, _| if e.is(Code::L) { e.taken() } else { None }),
];

#[derive(Clone)]
struct Keeping<F>(F);

impl<F: Clone + Fn(&Window, usize, &[u32]) -> Option<u32>> Rules for Keeping<F> {
    fn execute(machine: &mut Machine<Self>, k: usize) -> Result<Executed, u32> {
        let answer = machine.execute(k)?;
        if machine.window.live[k].taken().is_some() {
            let word = (machine.rules.0)(&machine.window, k, &machine.memory);
            take(&mut machine.window.live[k], word);
        }
        Ok(answer)
    }
}

/// An entry keeps another word.
fn take(entry: &mut Entry, word: Option<u32>) {
    if let Fate::Executed { access: Some(Access { taken, .. }), .. } = &mut entry.fate {
        *taken = word;
    }
}

/// Where words are kept that do not stand each with its load side.
#[derive(Clone, Copy, PartialEq, Eq)]
enum Place {
    /// One for all, of the latest.
    Machine,
    Bank,
    Row,
    /// The same, of the first one of the row.
    FirstOfRow,
    /// The first one of the stage, whatever takes the stage later.
    Stage,
    /// The first one of the index, though it executes again.
    Index,
}

const PLACES: [(&str, Place); 6] = [
    ("one word for all", Place::Machine),
    ("one word a bank", Place::Bank),
    ("one word a row", Place::Row),
    ("the first word of a row", Place::FirstOfRow),
    ("the first word of a stage", Place::Stage),
    ("the first word of an index", Place::Index),
];

#[derive(Clone)]
struct Apart {
    place: Place,
    words: [Option<u32>; 256],
}

impl Rules for Apart {
    fn execute(machine: &mut Machine<Self>, k: usize) -> Result<Executed, u32> {
        let answer = machine.execute(k)?;
        let Machine { rules: Apart { place, words }, window, .. } = machine;
        let (entry, stage, sizes) = (window.live[k], window.stage(k), window.sizes);
        let (Some(word), Some(taken)) = (entry.mark(), entry.taken()) else { return Ok(answer) };
        let mut kept = |number: usize| Some(*words[number].get_or_insert(taken));
        let first = match place {
            Place::Stage => kept(stage),
            Place::Index => kept(entry.index),
            Place::FirstOfRow => {
                let others =
                    (0..window.live.len()).filter(|&p| p != k && window.live[p].mark() == Some(word));
                others.filter_map(|p| window.live[p].taken()).next()
            }
            _ => None,
        };
        take(&mut window.live[k], first.or(Some(taken)));
        let shared = |other: &&mut Entry| match place {
            Place::Machine => true,
            Place::Bank => other.mark().is_some_and(|other| sizes.bank(other) == sizes.bank(word)),
            Place::Row => other.mark() == Some(word),
            _ => false,
        };
        let others = window.live.iter_mut().filter(|other| other.taken().is_some());
        others.filter(shared).for_each(|other| take(other, Some(taken)));
        Ok(answer)
    }
}

/// By window, position of a store and position of the load side that it kept.
const AFTER: [(&str, After); 9] = [
    ("the kept one waits again", |w, _, first| waits(&mut w.live[first])),
    ("the kept one and what is younger waits again", |w, _, first| {
        w.live[first..].iter_mut().for_each(waits)
    }),
    ("what is younger than the kept one waits again", |w, _, first| {
        w.live[first + 1..].iter_mut().for_each(waits)
    }),
    // The oldest would be stuck, which every finish shows.
    ("what keeps has not executed", |w, k, _| w.live[k..=k].iter_mut().filter(|_| k > 0).for_each(waits)),
    ("the kept one comes from what kept it", |w, k, first| told(w, k, first, |_| true)),
    ("the kept one comes from what kept it and not from memory", |w, k, first| told(w, k, first, |d| d == 0)),
    ("the kept one comes from what kept it and not from a store", |w, k, first| told(w, k, first, |d| d > 0)),
    ("the kept one comes from memory", |w, _, first| w.live[first].distance = 0),
    ("those behind the kept one come from what kept it", |w, k, first| {
        let behind = first + 1..w.live.len();
        for p in behind.filter(|&p| w.live[p].mark() == w.live[first].mark()).collect::<Vec<_>>() {
            told(w, k, p, |d| d == 0 || d > p - k);
        }
    }),
];

fn waits(entry: &mut Entry) {
    (entry.fate, entry.distance) = (Fate::Waiting, 0);
}

/// A load with such a distance has the one to the store at position `k`.
fn told(window: &mut Window, k: usize, load: usize, such: impl Fn(usize) -> bool) {
    let Entry { distance, .. } = &mut window.live[load];
    *distance = if such(*distance) { load - k } else { *distance };
}

#[derive(Clone)]
struct Afterwards(After);

impl Rules for Afterwards {
    fn execute(machine: &mut Machine<Self>, k: usize) -> Result<Executed, u32> {
        let before = machine.window.clone();
        let answer = machine.execute(k)?;
        if let Some(first) = kept(&before, &machine.window, k) {
            (machine.rules.0)(&mut machine.window, k, first);
        }
        Ok(answer)
    }
}

/// The load side that an execution at position `k` kept.
fn kept(before: &Window, after: &Window, k: usize) -> Option<usize> {
    let store = after.live[k];
    if !store.code().stores() || after.live.len() < before.live.len() {
        return None;
    }
    let first = at(before, k, store.mark()?).next()?;
    (before.live[first].taken() == store.value()).then_some(first)
}

/// What a store or a load side is not any more once it has kept or was kept.
#[derive(Clone, Copy, PartialEq, Eq)]
enum Loss {
    /// The store is passed over by loads.
    Forwards,
    /// The store is passed over by older stores.
    IsMet,
    /// The load side is passed over by older stores.
    Goes,
    /// The load side goes whatever word is stored when it is met again.
    Stays,
}

const LOSSES: [(&str, Loss); 4] = [
    ("what kept another does not forward", Loss::Forwards),
    ("what kept another is not met", Loss::IsMet),
    ("what was kept is not met again", Loss::Goes),
    ("what was kept goes when it is met again", Loss::Stays),
];

#[derive(Clone)]
struct Losing {
    loss: Loss,
    /// The indices of those that lost it.
    lost: Vec<usize>,
}

impl Losing {
    fn lacks(&self, window: &Window, p: usize, loss: Loss) -> bool {
        self.loss == loss && self.lost.contains(&window.live[p].index)
    }
}

impl Rules for Losing {
    fn fresh(&mut self, index: usize) -> Fate {
        self.lost.retain(|&lost| lost != index);
        Fate::Waiting
    }

    fn forward(&self, window: &Window, k: usize, address: u32) -> Option<usize> {
        let store = Stated.forward(window, k, address)?;
        if self.lacks(window, store, Loss::Forwards) {
            return self.forward(window, store, address);
        }
        Some(store)
    }

    fn violation(&self, window: &Window, k: usize, address: u32, value: u32) -> Option<usize> {
        let met = |p: &usize| !self.lacks(window, *p, Loss::IsMet) && !self.lacks(window, *p, Loss::Goes);
        let first = at(window, k, address).find(met)?;
        (self.lacks(window, first, Loss::Stays) || took_another(window, first, value)).then_some(first)
    }

    fn execute(machine: &mut Machine<Self>, k: usize) -> Result<Executed, u32> {
        let before = machine.window.clone();
        let answer = machine.execute(k)?;
        if let Some(first) = kept(&before, &machine.window, k) {
            let store = matches!(machine.rules.loss, Loss::Forwards | Loss::IsMet);
            machine.rules.lost.push(machine.window.live[if store { k } else { first }].index);
        }
        Ok(answer)
    }
}

/// What a store of the word already there does not do.
#[derive(Clone, Copy, PartialEq, Eq)]
enum Idle {
    Forwards,
    IsMet,
    TakesARow,
    Evicts,
}

const IDLE: [(&str, Idle); 4] = [
    ("does not forward", Idle::Forwards),
    ("is not met", Idle::IsMet),
    ("takes no row", Idle::TakesARow),
    ("does not evict", Idle::Evicts),
];

#[derive(Clone)]
struct Idling {
    lack: Idle,
    kind: Kind,
    /// Whether the latest execution is of such a store.
    latest: bool,
    /// The indices of such stores.
    stores: Vec<usize>,
}

impl Idling {
    fn lacks(&self, window: &Window, p: usize, lack: Idle) -> bool {
        self.lack == lack && self.stores.contains(&window.live[p].index)
    }
}

impl Rules for Idling {
    fn fresh(&mut self, index: usize) -> Fate {
        self.stores.retain(|&store| store != index);
        Fate::Waiting
    }

    fn forward(&self, window: &Window, k: usize, address: u32) -> Option<usize> {
        let store = Stated.forward(window, k, address)?;
        if self.lacks(window, store, Idle::Forwards) {
            return self.forward(window, store, address);
        }
        Some(store)
    }

    fn violation(&self, window: &Window, k: usize, address: u32, value: u32) -> Option<usize> {
        let first = at(window, k, address).find(|&p| !self.lacks(window, p, Idle::IsMet))?;
        took_another(window, first, value).then_some(first)
    }

    fn room(&self, window: &Window, k: usize, address: u32) -> Result<Option<usize>, u32> {
        match Stated.room(window, k, address) {
            Ok(Some(_)) | Err(_) if self.latest && self.lack == Idle::TakesARow => Ok(None),
            // The oldest would be stuck, which every finish shows.
            Ok(Some(_)) if self.latest && self.lack == Idle::Evicts && k > 0 => Err(10),
            room => room,
        }
    }

    fn execute(machine: &mut Machine<Self>, k: usize) -> Result<Executed, u32> {
        let code = machine.window.live.get(k).ok_or(7u32)?.code();
        machine.rules.latest = (machine.rules.kind)(code) && About::new(machine, k).idle(code);
        let answer = machine.execute(k)?;
        if machine.rules.latest {
            machine.rules.stores.push(machine.window.live[k].index);
        }
        Ok(answer)
    }
}

const KINDS: [(&str, Kind); 3] =
    [("a store", Code::stores), ("an S", |code| code == Code::S), ("a part", Code::is_part)];

/// Evictions by a store of the word that the first one evicted took.
const EVICTIONS: [(&str, Execute); 3] = [
    ("an eviction spares the same word, in a row more", |m, k| {
        let (tried, answer, same) = evicting(m, k)?;
        if same {
            m.window.live[k] = tried.window.live[k];
            return Ok(Executed { squashed: None, ..answer });
        }
        *m = tried;
        Ok(answer)
    }),
    // The oldest would be stuck, which every finish shows.
    ("an eviction of the same word is refused", |m, k| {
        let (tried, answer, same) = evicting(m, k)?;
        if same && k > 0 {
            return Err(10);
        }
        *m = tried;
        Ok(answer)
    }),
    ("an eviction spares the first one if it took the same word", |m, k| {
        let (tried, answer, same) = evicting(m, k)?;
        let spared = answer.squashed.filter(|_| same).map(|from| m.window.live[from]);
        *m = tried;
        if let Some(entry) = spared {
            m.window.live.push(entry);
            m.next += 1;
        }
        Ok(answer)
    }),
];

/// The machine after an execution, its answer, and whether it evicted one that took the word stored.
fn evicting(machine: &Wrong, k: usize) -> Result<(Wrong, Executed, bool), u32> {
    let mut tried = machine.clone();
    let answer = tried.execute(k)?;
    let (entry, first) = (tried.window.live[k], answer.squashed.map(|from| machine.window.live[from]));
    let same = |first: Entry| first.mark() != entry.mark() && first.taken() == entry.value();
    let evicted = entry.code().stores() && first.is_some_and(same);
    Ok((tried, answer, evicted))
}

/// The rule without a comparison of words.
const EVERY: Walk = |w, k, a, _| at(w, k, a).next().filter(|&p| w.live[p].code().loads());

const BY_FINISH: Mutant = Mutant { finish: |m, k| by(m, k, EVERY), ..RIGHT };

const BY_EXECUTE: Mutant = Mutant { violation: EVERY, finish: |m, k| by(m, k, RIGHT.violation), ..RIGHT };

/// A finish with another violation.
fn by(machine: &mut Wrong, limit: u32, violation: Walk) -> Vec<Commit> {
    let before = machine.rules;
    machine.rules.violation = violation;
    let commits = machine.finish(limit);
    machine.rules = before;
    commits
}

#[test]
fn wrong_words() {
    let mut scripts = Scripts::default();
    for (name, spares) in SPARES {
        scripts.tell(&format!("spared: {name}"), Sparing::new(spares));
    }
    for code in STORES {
        let only = move |m: &Met| m.same() && m.store().is(code);
        scripts.tell(&format!("only {code:?} keeps"), Sparing::new(only));
        let without = move |m: &Met| m.same() && !m.store().is(code);
        scripts.tell(&format!("{code:?} keeps nothing"), Sparing::new(without));
    }
    for code in LOADS {
        let only = move |m: &Met| m.same() && m.load().is(code);
        scripts.tell(&format!("only {code:?} is kept"), Sparing::new(only));
        let without = move |m: &Met| m.same() && !m.load().is(code);
        scripts.tell(&format!("{code:?} is not kept"), Sparing::new(without));
    }
    for (store, load) in STORES.into_iter().flat_map(|store| LOADS.map(|load| (store, load))) {
        let without = move |m: &Met| m.same() && !(m.store().is(store) && m.load().is(load));
        scripts.tell(&format!("{load:?} is not kept by {store:?}"), Sparing::new(without));
    }
    for (name, keeps) in KEEPS {
        let keeping = Keeping(move |w: &Window, k: usize, memory: &[u32]| keeps(&w.live[k], memory));
        scripts.tell(&format!("kept for comparison: {name}"), keeping);
    }
    for (name, place) in PLACES {
        scripts.tell(&format!("kept for comparison: {name}"), Apart { place, words: [None; 256] });
    }
    scripts.close("words compared");
}

#[test]
fn wrong_walks() {
    let mut scripts = Scripts::default();
    WALKS.iter().for_each(|&(name, violation)| scripts.tell(name, Mutant { violation, ..RIGHT }));
    AFTER.iter().for_each(|&(name, after)| scripts.tell(name, Afterwards(after)));
    LOSSES.iter().for_each(|&(name, loss)| scripts.tell(name, Losing { loss, lost: Vec::new() }));
    EVICTIONS.iter().for_each(|&(name, execute)| scripts.tell(name, Mutant { execute, ..RIGHT }));
    for (who, kind) in KINDS {
        for (what, lack) in IDLE {
            let name = format!("{who} of the word already there {what}");
            scripts.tell(&name, Idling { lack, kind, latest: false, stores: Vec::new() });
        }
    }
    scripts.tell("x squashes by every word", BY_FINISH);
    scripts.tell("e squashes by every word", BY_EXECUTE);
    scripts.close("walks over kept ones");
}

/// Where a store keeps a load side.
#[derive(Clone, Copy)]
struct Spot {
    store: Code,
    load: Code,
    positions: usize,
    wraps: bool,
    sizes: Sizes,
}

impl Spot {
    fn new(met: &Met) -> Self {
        let Met { window, k, first, .. } = *met;
        let (store, load) = (window.live[k].code(), window.live[first].code());
        let wraps = window.stage(first) < window.stage(k);
        Spot { store, load, positions: first - k, wraps, sizes: window.sizes }
    }
}

/// The spots of each script: only a script that comes to a spot can show that it is wrong there.
fn spots() -> Vec<Vec<Spot>> {
    let met = RefCell::new(Vec::new());
    let rules = Sparing::new(|m: &Met| {
        met.borrow_mut().extend(m.same().then(|| Spot::new(m)));
        m.same()
    });
    let spots = |script: &[u8]| {
        play_by(rules.clone(), script);
        met.take()
    };
    generated().iter().map(|(script, _)| spots(script)).collect()
}

#[test]
fn kept_at_places() {
    let mut scripts = Scripts::default();
    let spots = spots();
    let mut tell = |name: &str, lost: &dyn Fn(&Spot) -> bool| {
        let rules = Sparing::new(|m: &Met| m.same() && !lost(&Spot::new(m)));
        let among = |seed: usize| spots[seed].iter().any(lost);
        scripts
            .tell_among(&format!("none kept {name}"), among, |script, _| play_by(rules.clone(), script).out);
    };
    for positions in 1..=15 {
        let over = |spot: &Spot| spot.positions == positions;
        tell(&format!("over {positions}"), &over);
        tell(&format!("over {positions} or more"), &|spot| spot.positions >= positions);
        for (store, load) in STORES.into_iter().flat_map(|store| LOADS.map(|load| (store, load))) {
            let pair = |spot: &Spot| over(spot) && (spot.store, spot.load) == (store, load);
            tell(&format!("over {positions}, {store:?} and {load:?}"), &pair);
        }
        tell(&format!("over {positions} across the wrap"), &|spot| over(spot) && spot.wraps);
        let shortest = |spot: &Spot| over(spot) && spot.sizes.stages as usize == positions + 1;
        tell(&format!("over {positions} where n is one more"), &shortest);
    }
    for (banks, rows) in BANKS.into_iter().flat_map(|banks| (1..=8).map(move |rows| (banks, rows))) {
        let table = |spot: &Spot| (spot.sizes.banks, spot.sizes.rows) == (banks, rows);
        tell(&format!("where B is {banks} and R is {rows}"), &table);
    }
    for stage in 0..16 {
        let keeping = Keeping(move |w: &Window, k: usize, _: &[u32]| {
            w.live[k].taken().map(|taken| if w.stage(k) == stage { 0 } else { taken })
        });
        scripts.tell(&format!("kept for comparison: 0 at stage {stage}"), keeping);
    }
    scripts.close("places of kept ones");
}

#[test]
fn silent_readings() {
    for (script, output) in generated() {
        for (name, spares) in SILENT {
            assert_eq!(play_by(Sparing::new(spares), script).out, *output, "{name}");
        }
        // What comes next took the same word, unless it is behind a store side.
        let walk = Mutant { violation: |w, k, a, v| walked(w, k, a, v, |met| met.is(Code::L)), ..RIGHT };
        assert_eq!(play_by(walk, script).out, *output, "walks on after an L of the same word");
    }
}

#[test]
#[should_panic(expected = "a load side does not hold the word that is seen there now")]
fn kept_loads_are_checked() {
    checked(Mutant { violation: |_, _, _, _| None, ..RIGHT });
}

#[test]
#[should_panic(expected = "a load side does not hold the word that is seen there now")]
fn words_taken_are_checked() {
    checked(Keeping(|w: &Window, k: usize, _: &[u32]| w.live[k].value()));
}

#[test]
#[should_panic(expected = "what was squashed was right")]
fn squashes_are_checked() {
    checked(Mutant { violation: EVERY, ..RIGHT });
}

#[test]
#[should_panic(expected = "a load has another value than the word it took")]
fn values_of_loads_are_checked() {
    // One that commits would spoil the record first.
    let execute: Execute = |m, k| {
        let answer = m.execute(k)?;
        let entry = m.window.live[k];
        if let (true, Fate::Executed { value, access }) = (entry.is(Code::L) && m.past(&entry), entry.fate) {
            m.window.live[k].fate = Fate::Executed { value: value ^ 1, access };
        }
        Ok(answer)
    };
    checked(Mutant { execute, ..RIGHT });
}
