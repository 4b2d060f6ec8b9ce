//! What an execution or a refused call reaches, told from the window before it.

use crate::events::Events;
use crate::rules::{Rules, Stated};
use crate::window::{Access, Code, Entry, Instruction, Window};
use std::cmp::Ordering;

/// An execution at position `k` that was not refused; `entry` is what it became.
pub fn executed(
    events: &mut Events,
    before: &Window,
    registers: &[u32; 8],
    memory: &[u32],
    k: usize,
    entry: Entry,
) {
    let Instruction { code, d, s, imm } = entry.instruction;
    operands_of(entry.instruction).for_each(|register| operand(events, before, k, register));
    let held = |register| Stated.operand(before, registers, k, register).unwrap_or(0);
    let right = if code == Code::P { held(imm) } else { imm };
    events.add_if(held(s).checked_add(right).is_none(), &format!("sum of {code:?} wrapped"));
    let (Some(access), Some(value)) = (entry.access(), entry.value()) else { return };
    rows(events, before, k, access.word, code);
    if code.loads() {
        load(events, before, k, access.word, code);
    }
    if code.stores() {
        store(events, before, k, access.word, entry, value);
    }
    if code.is_part() {
        let memory = memory.get(access.word as usize).copied().unwrap_or(0);
        part(events, before, k, access, Part { code, whole: value, register: held(d), memory });
    }
}

pub fn unexecuted(events: &mut Events, before: &Window, k: usize, number: u32) {
    match number {
        7 => events.add("refusal 7 of e"),
        9 => {
            events.add("refusal 9");
            let waits = |register: &u32| {
                writers(before, k, *register).next().is_some_and(|writer| before.live[writer].waits())
            };
            let waiting: Vec<u32> = operands_of(before.live[k].instruction).filter(waits).collect();
            let passed = |register: &u32| writers(before, k, *register).any(|p| !before.live[p].waits());
            events.add_if(waiting.iter().any(passed), "refusal 9, an older writer has executed");
            let Instruction { code, s, .. } = before.live[k].instruction;
            let which = if waits(&s) { "first" } else { "second" };
            events.add(&format!("refusal 9 of the {which} operand of {code:?}"));
        }
        10 => {
            events.add_if(mixed(before, k), "full bank, an address marked on both sides");
            let sizes = before.sizes;
            events.add(&format!("refusal 10, B {} R {}", sizes.banks, sizes.rows));
            events.add(&format!("refusal 10 of {:?}", before.live[k].code()));
        }
        _ => events.add(&format!("refusal {number}")),
    }
}

pub fn uncommitted(events: &mut Events, window: &Window, number: u32) {
    events.add(&format!("refusal {number}"));
    let younger = window.live.iter().any(|entry| !entry.waits());
    events.add_if(number == 12 && younger, "refusal 12, a younger one has executed");
    if let (13, Some(oldest)) = (number, window.live.first()) {
        events.add(&format!("refusal 13 of {:?}", oldest.code()));
        events.add_if(odd(oldest), "refusal 13 of an odd H");
    }
}

/// An H that executed at an odd byte number.
pub fn odd(entry: &Entry) -> bool {
    entry.access().is_some_and(|access| Stated.misaligned(entry.code(), access.number))
}

/// The registers that an instruction reads.
fn operands_of(instruction: Instruction) -> impl Iterator<Item = u32> {
    let Instruction { code, d, s, imm } = instruction;
    let second = match code {
        Code::P => Some(imm),
        Code::S | Code::B | Code::H => Some(d),
        Code::A | Code::L => None,
    };
    [s].into_iter().chain(second)
}

/// The older writers of a register, nearest first.
fn writers(window: &Window, k: usize, register: u32) -> impl Iterator<Item = usize> + '_ {
    (0..k).rev().filter(move |&p| window.live[p].instruction.writes(register))
}

fn operand(events: &mut Events, before: &Window, k: usize, register: u32) {
    let live = &before.live;
    let Some(writer) = writers(before, k, register).next() else {
        let younger = live[k + 1..].iter().any(|entry| entry.instruction.writes(register));
        return events.add_if(younger, "operand of the registers, a younger one writes");
    };
    events.add(&format!("operand over {:2}", k - writer));
    events.add_if(writers(before, k, register).count() > 1, "operand with a choice");
    events.add_if(before.stage(writer) > before.stage(k), "operand across the wrap");
    events.add_if(live[writer].is(Code::L), "operand of a load");
    let stored = |entry: &&Entry| entry.code().stores() && entry.instruction.d == register;
    for entry in live[writer + 1..k].iter().filter(stored) {
        events.add(&format!("operand past a store of the register, {:?}", entry.code()));
    }
}

fn rows(events: &mut Events, before: &Window, k: usize, address: u32, code: Code) {
    let sizes = before.sizes;
    let rows = before.rows(sizes.bank(address));
    if rows.len() < sizes.rows as usize {
        return;
    }
    let Ok(Some(from)) = Stated.room(before, k, address) else {
        return events.add(&format!("full bank, the address has a row, R {}", sizes.rows));
    };
    events.add(&format!("eviction, B {} R {}", sizes.banks, sizes.rows));
    events.add(&format!("eviction over {:2}", from - k));
    events.add(&format!("eviction by {code:?}"));
    events.add(&format!("eviction of {:?}", before.live[from].code()));
    events.add_if(before.live[from..].iter().any(odd), "odd H evicted");
    if rows.iter().filter(|row| row.oldest > k).count() > 1 {
        events.add(&format!("eviction with a choice, R {}", sizes.rows));
    }
    events.add_if(mixed(before, k), "full bank, an address marked on both sides");
}

fn load(events: &mut Events, before: &Window, k: usize, address: u32, code: Code) {
    let Some(store) = Stated.forward(before, k, address) else { return };
    events.add(&format!("forward over {:2}", k - store));
    events.add(&format!("forward, {:?} and {code:?}", before.live[store].code()));
    events.add_if(Stated.forward(before, store, address).is_some(), "forward with a choice");
    events.add_if(before.stage(store) > before.stage(k), "forward across the wrap");
    events.add_if(address >= before.sizes.words, "forward at W or more");
    events.add_if(odd(&before.live[store]), "odd H forwards");
}

fn store(events: &mut Events, before: &Window, k: usize, address: u32, entry: Entry, value: u32) {
    let code = entry.code();
    let mut met = before.live[k + 1..].iter().filter(|entry| entry.mark() == Some(address));
    if met.next().is_some_and(|first| first.is(Code::S)) {
        for load in met.filter(|entry| entry.code().loads()).take(1) {
            events.add("store between");
            events.add(&format!("store between, {code:?} and {:?}", load.code()));
        }
    }
    let Some(from) = Stated.violation(before, k, address, value) else { return };
    let first = before.live[from];
    events.add(&format!("violation over {:2}", from - k));
    events.add(&format!("violation, {code:?} and {:?}", first.code()));
    events.add_if(address >= before.sizes.words, "violation at W or more");
    events.add_if(before.live[from..].iter().any(odd), "odd H squashed by a store");
    let past = (from..before.live.len()).any(|p| before.stage(p) < before.stage(from));
    events.add_if(past, "violation squashing past the wrap");
}

/// What a store of a part put together.
struct Part {
    code: Code,
    whole: u32,
    register: u32,
    /// The word in memory, 0 at W or more.
    memory: u32,
}

fn part(events: &mut Events, before: &Window, k: usize, access: Access, part: Part) {
    let (Access { number, word, .. }, Part { code, whole, register, memory }) = (access, part);
    let mut add_if = |reached: bool, what: &str| events.add_if(reached, &format!("{code:?} {what}"));
    add_if(true, &format!("at byte {}", number % 4));
    let width = if code == Code::B { 8 } else { 16 };
    add_if(register >> width != 0, "of a larger register");
    // The same part of two words, and what these words have beside it.
    let rest = |word| Stated.merge(code, number, word, 0);
    let store = Stated.forward(before, k, word).map(|store| before.live[store]);
    let taken = store.map_or(memory, |store| store.value().unwrap_or(0));
    add_if(store.is_none() && rest(memory) != 0, "into a word of memory");
    add_if(store.is_some() && rest(taken) != rest(memory), "into a forwarded word unlike memory's");
    add_if(whole == taken, "of the word already there");
    let outside = word >= before.sizes.words;
    add_if(outside && store.is_some(), "at W or more takes a forwarded word");
    let bank = |address| before.sizes.bank(address);
    add_if(bank(word) != bank(number), "in another bank than its byte number's");
    if let Some((older, Access { number: other, .. })) =
        store.and_then(|store| Some((store.code(), store.access()?)))
    {
        let touched = |code, number| Stated.merge(code, number, 0, u32::MAX);
        let over = touched(code, number) & touched(older, other) != 0;
        add_if(older.is_part(), &format!("{} {older:?}", if over { "over" } else { "beside" }));
    }
    events.add_if(code == Code::B && number == 4 * before.sizes.words, "B executed at byte 4W");
    if Stated.misaligned(code, number) {
        events.add_if(store.is_some(), "odd H takes a forwarded word");
        events.add(match word.cmp(&before.sizes.words) {
            Ordering::Less => "odd H executed below W",
            Ordering::Equal => "odd H executed at W",
            Ordering::Greater => "odd H executed above W",
        });
    }
}

/// Whether an address has marks on both sides of position `k`.
fn mixed(window: &Window, k: usize) -> bool {
    let younger = |address| window.live[k + 1..].iter().any(|entry| entry.mark() == Some(address));
    window.live[..k].iter().filter_map(|entry| entry.mark()).any(younger)
}
