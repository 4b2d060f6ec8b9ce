//! Scripts in which a word comes over every distance, and scripts in which a load is executed again.

use crate::generator::Draft;
use crate::prober::{Order, Prober};
use crate::random::Random;
use crate::reach::{at_word, constant};
use crate::rules::MOST_INSTRUCTIONS;
use crate::text::Step;
use crate::window::{Code, Instruction, Sizes, LOADS, PARTS, STORES};

/// Where the load and its store are.
const WORD: u32 = 5;
/// How many ways `far` knows to end a script.
const ENDINGS: usize = 6;

/// A load so many positions behind a store of this code to its word, and both commit. In the first two of three ways
/// the last stage lies between them, in the second the window is as short as can be, in the third it is often late in
/// the program.
pub fn far(random: &mut Random, store: Code, distance: usize, way: u64) -> Draft {
    let short = distance + 1;
    let some = short + random.below(17 - short);
    let stages = [16, short, some][way as usize];
    // The three words of the window have a row each.
    let (banks, least) = random.pick(&[(1, 3), (2, 2), (4, 1), (8, 1)]);
    let rows = least + random.number(9 - least);
    let sizes = Sizes { banks, rows, stages: stages as u32, words: random.pick(&[64, 200, 4096]) };
    let place = random.below(stages - distance);
    let last = MOST_INSTRUCTIONS - 1 - place - distance;
    let any = [3 + place, 3 + 2 * place, 100, last][random.below(4)];
    let wrapped = 5 * stages - distance + random.below(distance) - place;
    let start = if way < 2 { wrapped } else { any };
    let mut program: Vec<Instruction> = (0..start as u32).map(constant).collect();
    for position in 0..2 * stages {
        program.push(match position {
            _ if position == place => at_word(random, store, WORD),
            _ if position == place + distance => at_word(random, Code::L, WORD),
            _ => filler(random, position >= stages),
        });
    }
    program.truncate(MOST_INSTRUCTIONS);
    // Of what stands around them sums, stores of words and loads of a word that is never stored may go first.
    let early = |position: &usize| match program.get(start + position) {
        Some(Instruction { code, imm, .. }) => *imm != WORD && !code.is_part() && random.one_in(2),
        None => false,
    };
    let early: Vec<u32> = (0..stages).filter(early).map(|position| position as u32).collect();
    let ending = random.below(ENDINGS);
    let mut prober = Prober::new(random, sizes, program.clone());
    prober.start(start as u32);
    prober.executes(&early);
    prober.executes(&[place as u32, (place + distance) as u32]);
    Draft::new(sizes, program, shown(prober, ending, start + place))
}

/// Sums, stores to one word and loads of another, and where they concern nobody references to the word itself.
fn filler(random: &mut Random, late: bool) -> Instruction {
    let (code, part) = (random.pick(&[Code::A, Code::P]), random.pick(&PARTS));
    let sum = Instruction { code, d: 6, s: random.number(4), imm: random.number(4) };
    let (store, part) = (at_word(random, Code::S, 6), at_word(random, part, 6));
    let (load, code) = (at_word(random, Code::L, 12), random.pick(&[Code::L, Code::S, Code::B, Code::H]));
    let same = at_word(random, code, WORD);
    random.pick(&[sum, sum, store, store, part, load, if late { same } else { sum }])
}

/// The store is at this index. It and what is older commit first in most of the endings.
fn shown(mut prober: Prober, ending: usize, store: usize) -> Vec<Step> {
    match ending {
        0 => prober.take(Step::Finish(300)),
        1 => prober.finish_through(store),
        2 => {
            prober.commit_through(store);
            prober.take(Step::Finish(16));
        }
        3 | 4 => {
            // What is issued now takes the stages of the store and of what was older.
            prober.commit_through(store);
            prober.fill();
            prober.all(Order::Oldest);
        }
        _ => {}
    }
    prober.show()
}

/// What squashes the load.
#[derive(Clone, Copy, PartialEq, Eq, Debug)]
pub enum Cause {
    Violation,
    Eviction,
    Call,
}

pub const CAUSES: [Cause; 3] = [Cause::Violation, Cause::Eviction, Cause::Call];

/// A load that is executed, squashed and executed again. Meanwhile a store between it and an older one comes to its
/// word or leaves it: that store's address is loaded, and squashed too.
pub fn again(random: &mut Random, cause: Cause) -> Draft {
    let stages = 6 + random.below(11);
    let rows = if cause == Cause::Eviction { random.pick(&[2, 2, 3]) } else { 4 };
    let sizes = Sizes { banks: 1, rows, stages: stages as u32, words: 64 };
    let start = 4 + random.below(stages);
    let leaves = random.one_in(2);
    let mut program: Vec<Instruction> = (1..start as u32).map(constant).collect();
    let shift = if leaves { 8 } else { 0u32.wrapping_sub(8) };
    program.push(Instruction { code: Code::A, d: 6, s: 0, imm: shift });
    let cast = cast(random, &mut program, stages, leaves);
    let [stranger, teacher, older, guide, nearer, load] = cast;
    let first: Vec<usize> = [older, guide, nearer].into_iter().filter(|_| !random.one_in(6)).collect();
    let called = random.pick(&[older, guide, guide, nearer, load]);
    let (taught, drained, finished) = (!random.one_in(4), random.one_in(4), !random.one_in(4));
    let mut prober = Prober::new(random, sizes, program.clone());
    prober.start(start as u32);
    first.into_iter().for_each(|index| prober.execute_index(index));
    prober.execute_index(load);
    match cause {
        Cause::Violation => prober.execute_index(teacher),
        Cause::Eviction => prober.execute_index(stranger),
        Cause::Call => prober.squash_index(called),
    }
    if taught {
        prober.commit_through(teacher);
    }
    if drained {
        prober.commit_through(older);
    }
    prober.fill();
    if finished {
        prober.all(Order::Oldest);
        prober.take(Step::Finish(stages as u32));
    }
    Draft::new(sizes, program, prober.show())
}

/// Adds a window of instructions and answers the indices of six of them: a reference to a word of its own, a store to
/// the word of the guide, a store to the load's word, the guide, which loads what the next adds to its address, that
/// store, and the load. The others are sums.
fn cast(random: &mut Random, program: &mut Vec<Instruction>, stages: usize, leaves: bool) -> [usize; 6] {
    let (stranger, older, code) = (random.pick(&LOADS), random.pick(&STORES), random.pick(&STORES));
    let (d, scale) = (1 + random.number(3), if code.is_part() { 4 } else { 1 });
    let imm = scale * WORD + if leaves { 0 } else { 8 };
    let mut window = vec![
        at_word(random, stranger, 6),
        Instruction { code: Code::S, d: 6, s: 0, imm: 9 },
        at_word(random, older, WORD),
        Instruction { code: Code::L, d: 7, s: 0, imm: 9 },
        Instruction { code, d, s: 7, imm },
        at_word(random, Code::L, WORD),
    ];
    let mut places = [0, 1, 2, 3, 4, 5];
    while window.len() < stages {
        let before = 1 + random.below(window.len());
        window.insert(before, Instruction { code: Code::A, d: 5, s: d, imm: random.number(9) });
        places.iter_mut().filter(|place| **place >= before).for_each(|place| *place += 1);
    }
    let start = program.len();
    program.extend(window);
    places.map(|place| start + place)
}
