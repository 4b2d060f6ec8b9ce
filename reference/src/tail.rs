//! Scripts in which a full bank is searched from the tail of a window: of every number of stages, from every
//! stage on, to a row before the wrap or across it, or to a stall, over other marks and over jumps.

use crate::events::BANKS;
use crate::generator::Draft;
use crate::prober::Prober;
use crate::random::Random;
use crate::reach::{at_word, constant};
use crate::text::Step;
use crate::window::{Code, Instruction, Sizes};

/// How many turns of windows there are: of 2 to 16 stages, from each stage on.
const TURNS: usize = 135;

/// Where a search is to end.
#[derive(Clone, Copy, PartialEq, Eq, Debug)]
enum Aim {
    /// At a row that starts at a wrapped stage: the search does not come to the wrap.
    Before,
    /// At a row that does not, after a mark of a wrapped stage.
    Across,
    /// At the first mark.
    First,
    Stall,
}

/// How many of the younger ones are marked: all, one, or this one and some others.
#[derive(Clone, Copy, PartialEq, Eq, Debug)]
enum Passed {
    All,
    One,
    Some,
}

/// Of the windows of a script, each of which starts one stage later than the one before it.
const AIMS: [[(Aim, Passed); 6]; 2] = [
    [
        (Aim::Before, Passed::All),
        (Aim::Across, Passed::One),
        (Aim::Stall, Passed::Some),
        (Aim::Before, Passed::Some),
        (Aim::First, Passed::All),
        (Aim::Across, Passed::All),
    ],
    [
        (Aim::Across, Passed::All),
        (Aim::Before, Passed::One),
        (Aim::First, Passed::One),
        (Aim::Across, Passed::Some),
        (Aim::Stall, Passed::All),
        (Aim::Stall, Passed::One),
    ],
];

/// Behind each window, a store and a load of its word: the load tells another distance if more or fewer have
/// committed than should have, though later commits make up for it.
const SIGN: [Instruction; 4] = [
    Instruction { code: Code::S, d: 1, s: 0, imm: 99 },
    Instruction { code: Code::L, d: 7, s: 0, imm: 99 },
    Instruction { code: Code::A, d: 7, s: 0, imm: 1 },
    Instruction { code: Code::A, d: 7, s: 0, imm: 2 },
];
const CODES: [Code; 4] = [Code::L, Code::S, Code::B, Code::H];

/// Twice as many scripts in a row as there are turns search in each turn with each aim.
pub fn tail(random: &mut Random, which: usize) -> Draft {
    let (stages, start) = turn(which % TURNS);
    let most = 8.min(stages - 1);
    let rows = if which % 2 == 1 { most.min(2 + which / 2 % 7) } else { 1 };
    let (banks, words) = (BANKS[which / 14 % 4], random.pick(&[100, 200]));
    let sizes = Sizes { banks, rows: rows as u32, stages: stages as u32, words };
    let aims = AIMS[which / TURNS % 2];
    // The shortest windows have each aim in each turn.
    let count = if stages > 3 { aims.len() } else { aims.len() * stages };
    let mut program: Vec<Instruction> = (0..3).map(constant).collect();
    let mut windows = Vec::new();
    for number in 0..count {
        let stage = (start + number + number / aims.len()) % stages;
        while program.len() % stages != stage {
            program.push(constant(program.len() as u32));
        }
        let (aim, passed) = aims[number % aims.len()];
        let scene = Scene { aim, passed, stages, rows, edge: stages - stage };
        let (window, early) = scene.plan(random).cast(random, banks);
        windows.push((program.len(), window.len(), early));
        program.extend(window.into_iter().chain(SIGN));
    }
    let mut prober = Prober::new(random, sizes, program.clone());
    for (start, length, early) in windows {
        prober.finish_before(start);
        prober.issue_before(start + length);
        early.into_iter().for_each(|place| prober.execute_index(start + place));
        prober.sweep();
        prober.finish_before(start + length);
        prober.issue_before(start + length + 2);
        prober.executes(&[0, 1]);
        (0..2).for_each(|_| prober.take(Step::Commit));
    }
    Draft::new(sizes, program, prober.stop())
}

/// The number of stages of a window and the one that it starts at.
fn turn(mut which: usize) -> (usize, usize) {
    let mut stages = 2;
    while which >= stages {
        which -= stages;
        stages += 1;
    }
    (stages, which)
}

/// What a window is about.
#[derive(Clone, Copy)]
struct Scene {
    aim: Aim,
    passed: Passed,
    stages: usize,
    rows: usize,
    /// The position that would be at stage 0.
    edge: usize,
}

impl Scene {
    /// With one row marks are as many or as far apart as can be, with more rows they are anywhere.
    fn anywhere(&self) -> bool {
        self.rows > 1 || self.passed == Passed::Some
    }

    /// Whether the window has to wrap.
    fn wraps(&self) -> bool {
        self.edge < self.stages && matches!(self.aim, Aim::Before | Aim::Across)
    }

    fn live(&self, random: &mut Random) -> usize {
        let least = 1 + if self.wraps() { self.rows.max(self.edge) } else { self.rows };
        let some = least + random.below(self.stages + 1 - least);
        match (self.aim, self.passed) {
            // Up to the last stage.
            (Aim::First, Passed::One) => least.max(self.edge),
            _ if self.anywhere() => random.pick(&[self.stages, self.stages, some]),
            _ => self.stages,
        }
    }

    /// Where the row starts that is found, or where the executing one is that finds none. Before it there is
    /// room for the other rows.
    fn last(&self, random: &mut Random, live: usize) -> usize {
        let places = match self.aim {
            Aim::Before if self.wraps() => self.rows.max(self.edge)..live,
            Aim::Across if self.wraps() && self.rows < self.edge => self.rows..self.edge,
            _ => self.rows..live,
        };
        let most = match self.passed {
            _ if self.anywhere() => places.len(),
            Passed::All if self.aim != Aim::Stall => places.len().min(2),
            _ => 1,
        };
        places.start + random.below(most)
    }

    fn plan(&self, random: &mut Random) -> Plan {
        let live = self.live(random);
        let last = self.last(random, live);
        let k = match self.aim {
            Aim::Stall => last,
            _ if self.anywhere() => random.below(last),
            _ => last - 1,
        };
        let mut plan = Plan { marks: vec![None; live], k, last, rows: self.rows };
        if self.aim == Aim::Stall {
            plan.older(random, self.rows);
        } else {
            plan.older(random, self.rows - 1);
            plan.marks[last] = Some(self.rows - 1);
        }
        let across = self.aim == Aim::Across && self.wraps();
        let least = if across { self.edge.max(last + 1) } else { last + 1 };
        if self.aim != Aim::First && least < live {
            plan.younger(random, least, self.passed);
        }
        plan
    }
}

/// The marks of a full bank.
struct Plan {
    /// The row that each live one is to be marked in.
    marks: Vec<Option<usize>>,
    /// The executing one. It is in a row of its own.
    k: usize,
    /// The search goes down to here.
    last: usize,
    rows: usize,
}

impl Plan {
    /// So many rows start before the last place.
    fn older(&mut self, random: &mut Random, rows: usize) {
        let mut places: Vec<usize> = (0..self.last).filter(|place| *place != self.k).collect();
        let count = if self.rows > 1 { rows + random.below(places.len() + 1 - rows) } else { rows };
        while places.len() > count {
            let left_out = if self.rows > 1 { random.below(places.len()) } else { places.len() - 1 };
            places.remove(left_out);
        }
        for (number, place) in places.into_iter().enumerate() {
            self.marks[place] = Some(if number < rows { number } else { random.below(rows) });
        }
    }

    /// Marks that are passed, one of them not before the least place.
    fn younger(&mut self, random: &mut Random, least: usize, passed: Passed) {
        let live = self.marks.len();
        let one = if self.rows > 1 { least + random.below(live - least) } else { live - 1 };
        for place in self.last + 1..live {
            let marked = match passed {
                Passed::All => true,
                Passed::One => place == one,
                Passed::Some => place == one || random.one_in(2),
            };
            self.marks[place] = marked.then(|| random.below(self.rows));
        }
    }

    /// The instructions of the window, and what executes of them, at last the one that needs a row.
    fn cast(&self, random: &mut Random, banks: u32) -> (Vec<Instruction>, Vec<usize>) {
        let (home, rows) = (random.number(8), self.rows);
        let shift = random.below(rows + 1);
        // A step of 8 words keeps to the bank whatever B is.
        let word = |row: usize| home + 8 * ((row + shift) % (rows + 1)) as u32;
        let (mut window, mut early) = (Vec::new(), Vec::new());
        for (place, mark) in self.marks.iter().enumerate() {
            let (code, row) = (random.pick(&CODES), random.below(rows + 1));
            let (waiting, elsewhere) = (at_word(random, code, word(row)), at_word(random, code, home ^ 1));
            let sum = (sum(random), random.one_in(2));
            let (instruction, executes) = match mark {
                _ if place == self.k => (at_word(random, code, word(rows)), false),
                Some(row) => (at_word(random, code, word(*row)), true),
                None => random.pick(&[
                    sum,
                    if banks > 1 { (elsewhere, true) } else { sum },
                    if place > self.last { (waiting, false) } else { sum },
                ]),
            };
            window.push(instruction);
            early.extend(executes.then_some(place));
        }
        early.push(self.k);
        (window, early)
    }
}

fn sum(random: &mut Random) -> Instruction {
    let code = random.pick(&[Code::A, Code::P]);
    Instruction { code, d: 5, s: random.number(4), imm: random.number(4) }
}
