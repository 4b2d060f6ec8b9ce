//! Scripts that fill a bank of any size, that make two far instructions of a window meet, that store parts of words at
//! the end of memory and at odd places, and that name positions far outside of the window.

use crate::generator::Draft;
use crate::prober::{Order, Prober};
use crate::random::Random;
use crate::taste::part_of;
use crate::window::{Code, Instruction, Sizes, PARTS};

/// What the two instructions of a pair are to each other.
#[derive(Clone, Copy, PartialEq, Eq, Debug)]
pub enum Pair {
    Forward,
    Violation,
    Operand,
    Eviction,
}

/// How many kinds of places `edge` knows.
pub const EDGES: usize = 11;
pub const PAIRS: [Pair; 4] = [Pair::Forward, Pair::Violation, Pair::Operand, Pair::Eviction];

/// References to one bank, of one or two addresses more than it has rows, executed from either end of the window:
/// from the young end they evict, from the old end they stall.
pub fn full_bank(random: &mut Random, banks: u32, rows: u32) -> Draft {
    let (some, least) = (rows + 1 + random.number(16 - rows), rows + 2 + random.number(3));
    let stages = random.pick(&[16, 16, some, least]);
    let sizes = Sizes { banks, rows, stages, words: random.pick(&[100, 200, 4096]) };
    let home = random.number(8);
    let count = rows + 1 + random.number(2);
    let mut program = Vec::new();
    let turned = constants(random, &mut program, stages);
    let length = stages as usize + random.below(12);
    let shift = random.number(count);
    // A step of 8 words keeps to the bank whatever B is.
    let address = |step| home + 8 * ((step + shift) % count);
    program.extend((0..length as u32).map(|step| reference(random, address(step))));
    let order = random.pick(&[Order::Youngest, Order::Youngest, Order::Oldest, Order::Oldest, Order::Any]);
    let mut prober = Prober::new(random, sizes, program.clone());
    prober.start(turned);
    prober.all(order);
    Draft::new(sizes, program, prober.show())
}

/// Two instructions so many positions apart in one window, and between them nothing that concerns them.
pub fn pair(random: &mut Random, pair: Pair, distance: usize) -> Draft {
    let stages = random.pick(&[16, 16, distance as u32 + 1]);
    let rows = if pair == Pair::Eviction { 1 } else { 3 + random.number(6) };
    let banks = random.pick(&[1, 2, 4, 8]);
    let sizes = Sizes { banks, rows, stages, words: random.pick(&[64, 200, 4096]) };
    let mut program = Vec::new();
    let turned = constants(random, &mut program, stages);
    let place = random.below(stages as usize - distance);
    let (first, last) = ends(random, pair);
    for position in 0..stages as usize {
        let instruction = match position {
            _ if position == place => first,
            _ if position == place + distance => last,
            _ => between(random, pair),
        };
        program.push(instruction);
    }
    let mut prober = Prober::new(random, sizes, program.clone());
    prober.start(turned);
    if prober.heads() {
        prober.rest(&[place, place + distance]);
    }
    let (old, young) = (place as u32, (place + distance) as u32);
    match pair {
        Pair::Forward | Pair::Operand => prober.executes(&[old, young]),
        Pair::Violation | Pair::Eviction => prober.executes(&[young, old]),
    }
    Draft::new(sizes, program, prober.show())
}

/// A store of a part where it just commits or is refused, or would be by another reading, with stores before it and
/// loads after it. The last kinds end with it executed and not committed, the very last with it as the oldest.
pub fn edge(random: &mut Random, which: usize) -> Draft {
    let stages = 3 + random.number(6);
    let words = random.pick(&[1, 2, 3, 8, 100, 4096]);
    let sizes = Sizes { banks: random.pick(&[1, 2]), rows: 1 + random.number(3), stages, words };
    let mut program = Vec::new();
    let turned = constants(random, &mut program, stages);
    let some = random.number(words);
    let (code, byte) = edge_of(random, which, words, some);
    let (open, oldest) = (which + 2 >= EDGES, which + 1 == EDGES);
    let (before, after) = (random.pick(&PARTS), random.pick(&PARTS));
    let mut add = |code, imm| {
        let d = if code == Code::L { 4 } else { 1 + random.number(3) };
        program.push(Instruction { code, d, s: 0, imm });
    };
    if !oldest {
        add(Code::S, if byte / 4 < words { byte / 4 } else { some });
        add(before, 4 * some);
    }
    add(code, byte);
    add(Code::L, byte / 4);
    add(after, some & !1);
    add(Code::L, some / 4);
    let order = random.pick(&[Order::Oldest, Order::Youngest, Order::Any]);
    let mut prober = Prober::new(random, sizes, program.clone());
    if !open && prober.heads() {
        return Draft::new(sizes, program, prober.probe(40));
    }
    prober.start(turned);
    prober.all(order);
    Draft::new(sizes, program, if open { prober.stop() } else { prober.show() })
}

/// A code and a byte number: the last ones of memory, those past its end, those below it if upper bits are cut off, and
/// odd ones.
fn edge_of(random: &mut Random, which: usize, words: u32, some: u32) -> (Code, u32) {
    let (end, odd) = (4 * words, random.pick(&[1, 3]));
    match which {
        0 => (Code::B, end - 1),
        1 => (Code::H, end - 2),
        2 => (Code::B, end + random.pick(&[0, 0, odd])),
        3 => (Code::H, end + random.pick(&[0, 2])),
        4 => (Code::H, end + odd),
        5 => (Code::H, end + 4 * random.number(1 << 20) + odd),
        6 => (Code::H, (1 << 16) + 4 * some),
        7 => (Code::H, (1 << 31) + 4 * some),
        8 | 9 => (Code::H, 4 * some + odd),
        _ => random.pick(&[(Code::B, 4 * some + odd), (Code::B, end - 1), (Code::H, end - 2)]),
    }
}

/// A store, a younger S and a still younger load side at one word, executed so that the S stands between them.
pub fn guarded(random: &mut Random, store: Code, load: Code) -> Draft {
    let stages = 5 + random.number(12);
    let sizes = Sizes { banks: random.pick(&[1, 2, 4, 8]), rows: 3, stages, words: 64 };
    let mut program = Vec::new();
    let turned = constants(random, &mut program, stages);
    let old = random.number(stages - 2);
    let middle = old + 1 + random.number(stages - 2 - old);
    let young = middle + 1 + random.number(stages - 1 - middle);
    let codes = [(old, store), (middle, Code::S), (young, load)];
    for position in 0..stages {
        let one = codes.iter().find(|(place, _)| *place == position);
        program.push(match one {
            Some((_, code)) => at_word(random, *code, 5),
            None => between(random, Pair::Forward),
        });
    }
    let mut prober = Prober::new(random, sizes, program.clone());
    prober.start(turned);
    prober.executes(&[middle, young, old]);
    Draft::new(sizes, program, prober.show())
}

/// Positions that name a live one only if their upper bits are cut off, and nothing but commits after them.
pub fn cut_positions(random: &mut Random) -> Draft {
    let stages = 1 + random.number(16);
    let sizes = Sizes { banks: 1, rows: 4, stages, words: 64 };
    let mut program = Vec::new();
    let turned = constants(random, &mut program, stages);
    program.extend((0..stages).map(|step| reference(random, step % 4)));
    let above = random.pick(&[256, 65_536, 1 << 24, 1 << 31]);
    let executed: Vec<u32> = (0..random.number(stages + 1)).collect();
    let mut prober = Prober::new(random, sizes, program.clone());
    prober.start(turned);
    prober.executes(&executed);
    prober.cut(above);
    Draft::new(sizes, program, prober.commit_all())
}

/// Three constants, for words that tell stores apart, and as many more as turn the window; answers how many.
fn constants(random: &mut Random, program: &mut Vec<Instruction>, stages: u32) -> u32 {
    let count = 3 + random.number(stages);
    program.extend((0..count).map(constant));
    count
}

pub fn constant(step: u32) -> Instruction {
    let word = (10 + step).wrapping_mul(0x0b1d_2f41);
    Instruction { code: Code::A, d: 1 + step % 3, s: 0, imm: word }
}

fn reference(random: &mut Random, address: u32) -> Instruction {
    let (loaded, stored) = (4 + random.number(3), 1 + random.number(3));
    let load = Instruction { code: Code::L, d: loaded, s: 0, imm: address };
    let store = Instruction { code: Code::S, d: stored, s: 0, imm: address };
    let part = part(random, stored, address);
    random.pick(&[load, load, store, part])
}

/// A store of a part of the word at this address.
fn part(random: &mut Random, d: u32, address: u32) -> Instruction {
    let code = random.pick(&PARTS);
    Instruction { d, ..at_word(random, code, address) }
}

/// A load or store of this code at a word.
pub fn at_word(random: &mut Random, code: Code, address: u32) -> Instruction {
    let d = if code == Code::L { 4 } else { 1 + random.number(3) };
    let imm = if code.is_part() { 4 * address + part_of(random, code, false) } else { address };
    Instruction { code, d, s: 0, imm }
}

/// The first and the last instruction of a pair. No other of the window writes register 7 or is at word 5.
fn ends(random: &mut Random, pair: Pair) -> (Instruction, Instruction) {
    let (d, e) = (1 + random.number(3), 1 + random.number(3));
    let (one, other) = (part(random, d, 5), part(random, e, 5));
    let store = Instruction { code: Code::S, d, s: 0, imm: 5 };
    let load = Instruction { code: Code::L, d: 4, s: 0, imm: 5 };
    let (store, load) = (random.pick(&[store, store, one]), random.pick(&[load, load, other]));
    let writer = Instruction { code: Code::A, d: 7, s: 0, imm: 9 + random.number(9) };
    let sum = Instruction { code: Code::A, d: 4, s: 7, imm: random.number(3) };
    let both = Instruction { code: Code::P, d: 4, s: 0, imm: 7 };
    let stored = Instruction { code: Code::S, d: 7, s: 0, imm: 5 };
    let stored_part = part(random, 7, 5);
    let word = 5 + 8 * (1 + random.number(5));
    let elsewhere = reference(random, word);
    match pair {
        Pair::Forward | Pair::Violation => (store, load),
        Pair::Operand => (writer, random.pick(&[sum, both, stored, stored_part])),
        Pair::Eviction => (random.pick(&[store, load]), elsewhere),
    }
}

/// What stands between: sums, and where a pair leaves rows for them references to two other words. A store of
/// register 7 writes no register.
fn between(random: &mut Random, pair: Pair) -> Instruction {
    let sum =
        Instruction { code: Code::A, d: 5 + random.number(2), s: random.number(4), imm: random.number(9) };
    if pair == Pair::Eviction || random.one_in(3) {
        return sum;
    }
    let word = random.pick(&[6, 13]);
    let other = reference(random, word);
    if pair == Pair::Operand && other.code.stores() {
        return Instruction { d: random.pick(&[7, 7, 1]), ..other };
    }
    other
}
