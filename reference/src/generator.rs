//! Scripts from a seed: full banks, and full banks searched from the tail in every turn of a window, pairs at
//! both ends of a window, words over every distance, loads executed again, stores of the word already there
//! and of nearly that word, parts of words at the end of memory and at odd places, lines spoiled by every
//! byte, in every way and by every limit, huge ones, long programs, short scripts that probe windows before
//! they finish, and malformed ones.

use crate::events::{BANKS, WAYS};
use crate::far::{again, far, CAUSES};
use crate::player::LONGEST;
use crate::prober::Prober;
use crate::random::Random;
use crate::reach::{cut_positions, edge, full_bank, guarded, pair, EDGES, PAIRS};
use crate::rules::MOST_INSTRUCTIONS;
use crate::same::{amiss, same, unlike};
use crate::spoil::{just_beyond, spoil, spoil_by, spoil_line, BEYOND, SPOILED_LINES};
use crate::tail::tail;
use crate::taste::Taste;
use crate::text::{Line, Step};
use crate::window::{Instruction, Sizes, LOADS, STORES};

/// So many seeds in a row reach every table, every long pair, every distance of a word and of a kept load,
/// every limit, every spoiled line and every byte, this in one of its ways. Three times as many reach every
/// turn of a window.
const ROUND: u64 = 1000;
/// How many texts `slight` knows.
const SLIGHT: usize = 8;

pub fn generate(seed: u64) -> Vec<u8> {
    let random = &mut Random::new(seed);
    // A step without a common divisor goes through the whole round and spreads the kinds over it.
    let turn = (seed % ROUND * 387 % ROUND) as usize;
    match turn {
        0..=255 => {
            let (draft, way) = (Draft::probing(random), WAYS[(seed / ROUND % 3) as usize]);
            spoil_by(random, draft, way, turn as u8)
        }
        256..=319 => full_bank(random, BANKS[turn % 4], 1 + (turn / 4 % 8) as u32).text(),
        320..=409 => tail(random, turn - 320 + 90 * (seed / ROUND % 3) as usize).text(),
        410..=505 => pair(random, PAIRS[turn % 4], 4 + turn / 4 % 12).text(),
        506..=515 => cut_positions(random).text(),
        516..=555 => {
            let draft = Draft::probing(random);
            just_beyond(random, draft, turn % BEYOND)
        }
        556..=610 => edge(random, turn % EDGES).text(),
        611..=628 => guarded(random, STORES[turn % 3], LOADS[turn / 3 % 3]).text(),
        629..=673 => far(random, STORES[turn % 3], 1 + turn / 3 % 15, seed / ROUND % 3).text(),
        674..=733 => again(random, CAUSES[turn % 3]).text(),
        734..=773 => {
            let draft = Draft::probing(random);
            spoil_line(random, draft, turn % SPOILED_LINES)
        }
        774..=779 => huge(random, turn % 2),
        780..=785 => crowded(random, MOST_INSTRUCTIONS + turn % 2),
        786..=830 => same(random, STORES[turn % 3], 1 + turn / 3 % 15, (seed / ROUND % 3) as usize).text(),
        831..=866 => unlike(random, STORES[turn % 3]).text(),
        867..=875 => amiss(random, turn % 9).text(),
        876..=883 => slight(random, turn % SLIGHT),
        _ => any(random),
    }
}

fn any(random: &mut Random) -> Vec<u8> {
    match random.below(300) {
        0..=7 => huge(random, 5000),
        8..=17 => crowded(random, MOST_INSTRUCTIONS),
        18..=49 => {
            let which = random.below(SLIGHT);
            slight(random, which)
        }
        50..=109 => {
            let draft = Draft::probing(random);
            spoil(random, draft)
        }
        _ => Draft::probing(random).text(),
    }
}

/// A script as lines without their line feeds.
pub struct Draft {
    pub lines: Vec<Vec<u8>>,
    /// Where the steps start.
    pub steps: usize,
}

impl Draft {
    fn probing(random: &mut Random) -> Self {
        let tight = random.one_in(3);
        let sizes = if tight { tight_sizes(random) } else { sizes(random) };
        let mut taste = Taste::new(random, sizes);
        if tight {
            let count = sizes.rows + 1 + random.number(2);
            taste.addresses = (0..count).map(|step| step * taste.stride % sizes.words).collect();
        }
        let most = 8 * sizes.stages as usize + 8;
        let length = 1 + random.below(most.min(90));
        let program = taste.program(random, length);
        let budget = 6 + random.below(400);
        Draft::probed(random, sizes, program, budget)
    }

    fn probed(random: &mut Random, sizes: Sizes, program: Vec<Instruction>, budget: usize) -> Self {
        let steps = Prober::new(random, sizes, program.clone()).probe(budget);
        Draft::new(sizes, program, steps)
    }

    pub fn new(sizes: Sizes, program: Vec<Instruction>, steps: Vec<Step>) -> Self {
        let mut lines = vec![Line::Sizes(sizes)];
        lines.extend(program.into_iter().map(Line::Instruction));
        let start = lines.len();
        lines.extend(steps.into_iter().map(Line::Step));
        let lines = lines.iter().map(|line| line.to_string().into_bytes()).collect();
        Draft { lines, steps: start }
    }

    pub fn text(&self) -> Vec<u8> {
        self.lines.iter().flat_map(|line| [line.as_slice(), b"\n"].concat()).collect()
    }

    pub fn length(&self) -> usize {
        self.lines.iter().map(|line| line.len() + 1).sum()
    }
}

fn sizes(random: &mut Random) -> Sizes {
    let any = 1 + random.number(16);
    let few = 2 + random.number(5);
    Sizes {
        banks: random.pick(&[1, 1, 1, 1, 2, 2, 4, 8]),
        rows: random.pick(&[1, 1, 1, 2, 2, 2, 3, 3, 4, 5, 6, 7, 8]),
        stages: random.pick(&[any, few, few, 4]),
        words: random.pick(&[1, 2, 5, 8, 16, 16, 64, 64, 200, 200, 200, 4095, 4096, 4096]),
    }
}

/// Few rows in a long window: evictions with a choice, and rows of older and younger marks.
fn tight_sizes(random: &mut Random) -> Sizes {
    let (rows, stages) = (1 + random.number(3), 4 + random.number(13));
    Sizes { banks: 1, rows, stages, words: random.pick(&[8, 64, 1000]) }
}

/// As many instructions as a program may have, or one more.
fn crowded(random: &mut Random, length: usize) -> Vec<u8> {
    let sizes = Sizes { stages: random.pick(&[5, 15, 16]), ..sizes(random) };
    let addresses = (0..200).map(|_| random.number(sizes.words)).collect();
    let mut taste = Taste::new(random, sizes);
    (taste.faults, taste.odd, taste.chained) = (0, 0, false);
    if random.one_in(2) {
        taste.addresses = addresses;
    }
    let program = taste.program(random, length);
    let budget = random.pick(&[5, 40, 1500]);
    let mut draft = Draft::probed(random, sizes, program, budget);
    if random.one_in(2) {
        let limit = random.pick(&[65, 255, 256, 257, u32::MAX]);
        draft.lines.truncate(draft.steps);
        draft.lines.push(Line::Step(Step::Finish(limit)).to_string().into());
    }
    draft.text()
}

/// Texts with hardly anything in them.
fn slight(random: &mut Random, which: usize) -> Vec<u8> {
    let mut draft = Draft::probing(random);
    match which {
        0 => return Vec::new(),
        1 => return random.pick(&["\n", "\n\n", "N,1,1,1,1", "N,1,1,1,1\n\n"]).into(),
        2 => return random.pick(&["i\n", "x,1\n", "A,1,0,1\n"]).into(),
        3 => draft.lines.truncate(1),
        4 => draft.lines.truncate(draft.steps),
        5 => drop(draft.lines.drain(1..draft.steps)),
        6 => draft.lines.truncate(draft.steps + 1),
        _ => draft.lines.insert(1, draft.lines[0].clone()),
    }
    draft.text()
}

/// A script filled up to the longest input, or to somewhat more, by steps that mostly do nothing.
fn huge(random: &mut Random, over: usize) -> Vec<u8> {
    let mut draft = Draft::probing(random);
    let place = draft.steps + random.below(draft.lines.len() - draft.steps + 1);
    let mut left = (LONGEST + over).saturating_sub(draft.length());
    let fillers = ["c", "i", "x,0", "e,4294967295", "q,4294967295", "e,0", "q,16"];
    let (first, second) = (random.pick(&fillers), random.pick(&fillers));
    let mut filling: Vec<Vec<u8>> = Vec::new();
    while left > 20 {
        let line = random.pick(&[first, second]);
        left -= line.len() + 1;
        filling.push(line.into());
    }
    // Lines of 5 and 2 bytes make up every rest above 20.
    if left % 2 == 1 {
        left -= 5;
        filling.push(b"q,16".to_vec());
    }
    (0..left / 2).for_each(|_| filling.push(b"c".to_vec()));
    draft.lines.splice(place..place, filling);
    let mut text = draft.text();
    if random.one_in(5) {
        text.pop();
    }
    text
}
