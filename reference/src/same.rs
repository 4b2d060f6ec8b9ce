//! Scripts in which stores meet load sides that took the word stored, or a word that is nearly the same.

use crate::events::BANKS;
use crate::generator::Draft;
use crate::prober::Prober;
use crate::random::Random;
use crate::rules::{Rules, Stated};
use crate::taste::part_of;
use crate::window::{Code, Instruction, Sizes, LOADS, PARTS, STORES};

/// The word of the first window; each later one has another of the same bank.
const WORD: u32 = 5;
/// The register of loads, and of sums that concern nobody.
const LOADED: u32 = 7;
/// What two words differ in that are alike otherwise.
const UNLIKE: [u32; 9] = [1, 0x80, 0xff, 0x100, 0xff00, 0xffff, 0x0001_0000, 0xffff_0000, 1 << 31];

/// A store of this code and a load side so many positions younger that took the word stored, in a window for each code
/// of a load side. In the first two of three ways the last stage lies between them, in the second the window is as short
/// as can be. Then a load whose word comes so far, and the store between it and where it came from.
pub fn same(random: &mut Random, store: Code, distance: usize, way: usize) -> Draft {
    let short = distance + 1;
    let some = short + random.below(17 - short);
    // One table after the other, and in each way another one.
    let table = 3 * distance + store as usize + 4 * way;
    let mut script = Script::new(random, [16, short, some][way], table);
    let scene = Scene { store, distance, wraps: way < 2, ..PLAIN };
    LOADS.into_iter().for_each(|load| script.add(random, Scene { load, ..scene }));
    if distance > 1 {
        let nearer = 1 + random.below(distance - 1);
        script
            .add(random, Scene { distance: nearer, source: Some(distance - nearer), wraps: false, ..scene });
    }
    script.draft(random)
}

/// A store of this code and a load side of each code that took another word, or that is squashed after it was kept.
pub fn unlike(random: &mut Random, store: Code) -> Draft {
    let mut script = Script::any(random);
    for load in LOADS {
        let (distance, unlike) = (script.distance(random), random.one_in(2));
        script.add(random, Scene { store, load, distance, unlike, goes: true, ..PLAIN });
    }
    script.draft(random)
}

/// A store and a load side that took the word stored, outside the memory, or one of them an odd half word.
pub fn amiss(random: &mut Random, which: usize) -> Draft {
    let mut script = Script::any(random);
    let (store, load, distance) = (STORES[which % 3], LOADS[which % 3], script.distance(random));
    let (scene, any) = (Scene { distance, ..PLAIN }, random.pick(&LOADS));
    let scene = match which / 3 {
        0 => Scene { store, load: any, outside: true, ..scene },
        1 => Scene { store, load: Code::H, odd: true, ..scene },
        _ => Scene { store: Code::H, load, odd: true, ..scene },
    };
    script.add(random, scene);
    script.draft(random)
}

/// What a window is about.
#[derive(Clone, Copy)]
struct Scene {
    store: Code,
    load: Code,
    distance: usize,
    /// How far before the store the one is whose word the load side takes, if it must be in the window.
    source: Option<usize>,
    wraps: bool,
    unlike: bool,
    /// The load side may be squashed, or finished, by what comes after the store. In other windows no step makes up for a
    /// wrong squash.
    goes: bool,
    outside: bool,
    /// Half words are at odd byte numbers.
    odd: bool,
}

const PLAIN: Scene = Scene {
    store: Code::S,
    load: Code::L,
    distance: 1,
    source: None,
    wraps: false,
    unlike: false,
    goes: false,
    outside: false,
    odd: false,
};

struct Script {
    sizes: Sizes,
    program: Vec<Instruction>,
    /// What is done in each window, and the index that it starts with.
    windows: Vec<(usize, Vec<Move>)>,
}

/// A step that names a place of the window as it was issued, though older ones may have committed.
#[derive(Clone, Copy)]
enum Move {
    Execute(usize),
    /// A finish up to there.
    Finish(usize),
    Squash(usize),
    /// Issues of what was squashed.
    Issue,
}

impl Script {
    fn new(random: &mut Random, stages: usize, table: usize) -> Self {
        let (banks, rows) = (BANKS[table % 4], 1 + (table / 4 % 8) as u32);
        let sizes = Sizes { banks, rows, stages: stages as u32, words: random.pick(&[64, 200, 4096]) };
        Script { sizes, program: Vec::new(), windows: Vec::new() }
    }

    fn any(random: &mut Random) -> Self {
        let (stages, table) = (2 + random.below(15), random.below(32));
        Script::new(random, stages, table)
    }

    /// How far apart two can be.
    fn distance(&self, random: &mut Random) -> usize {
        1 + random.below(self.sizes.stages as usize - 1)
    }

    fn add(&mut self, random: &mut Random, scene: Scene) {
        let Scene { distance, source, wraps, .. } = scene;
        let (stages, least) = (self.sizes.stages as usize, source.unwrap_or(0));
        let place = least + random.below(stages - distance - least);
        let mut cast = Cast::new(random, self, scene);
        let moves = cast.act(random, place);
        let stage = if wraps { stages - 1 - random.below(distance) } else { random.below(stages) };
        while (self.program.len() + cast.before.len() + place) % stages != stage {
            cast.before.push(Instruction { code: Code::A, d: LOADED, s: 0, imm: random.number(9) });
        }
        self.program.extend(cast.before);
        self.windows.push((self.program.len(), moves));
        self.program.extend(cast.window);
    }

    fn draft(self, random: &mut Random) -> Draft {
        let Script { sizes, program, windows } = self;
        let mut prober = Prober::new(random, sizes, program.clone());
        for (start, moves) in windows {
            let end = start + sizes.stages as usize;
            prober.finish_before(start);
            prober.issue_before(end);
            for step in moves {
                match step {
                    Move::Execute(place) => prober.execute_index(start + place),
                    Move::Finish(place) => prober.finish_through(start + place),
                    Move::Squash(place) => prober.squash_index(start + place),
                    Move::Issue => prober.issue_before(end),
                }
            }
            prober.sweep();
        }
        Draft::new(sizes, program, prober.stop())
    }
}

/// What a store makes of the word that is there.
#[derive(Clone, Copy)]
enum Aim {
    Same,
    Other,
    /// This word, as far as the part goes.
    Word(u32),
}

/// The references of a window to its word.
struct Cast {
    scene: Scene,
    word: u32,
    /// What memory holds.
    memory: u32,
    /// What is finished before the window: it sets memory and registers.
    before: Vec<Instruction>,
    registers: u32,
    window: Vec<Instruction>,
}

impl Cast {
    fn new(random: &mut Random, script: &Script, scene: Scene) -> Self {
        let Sizes { banks, rows, stages, words } = script.sizes;
        let (any, past) = (random.word() as u32, random.pick(&[0, 8, 1 << 20]));
        let memory = random.pick(&[0, 0, 0, 7, 0xab, 0xffff, 1 << 31, u32::MAX, any, any]);
        let (word, memory) =
            if scene.outside { (words + past, 0) } else { (WORD + 8 * script.windows.len() as u32, memory) };
        let mut before = Vec::new();
        if memory > 0 {
            let constant = Instruction { code: Code::A, d: LOADED, s: 0, imm: memory };
            before.extend([constant, Instruction { code: Code::S, imm: word, ..constant }]);
        }
        // Each word of a window has a row.
        let others = match banks {
            1 => rows - 1,
            2 => rows,
            _ => 2,
        };
        let window = (0..stages).map(|_| filler(random, others)).collect();
        Cast { scene, word, memory, before, registers: 0, window }
    }

    /// The load side and what it may need executes, then the store at this place, then what may come to the load side
    /// after it.
    fn act(&mut self, random: &mut Random, place: usize) -> Vec<Move> {
        let Scene { store, load, distance, source, unlike, goes, .. } = self.scene;
        let (met, stages, mut there) = (place + distance, self.window.len(), self.memory);
        let (mut early, mut late) = (Vec::new(), Vec::new());
        let any = if place > 0 && random.one_in(2) { Some(1 + random.below(place)) } else { None };
        if let Some(source) = source.or(any) {
            let (source, code) = (place - source, random.pick(&STORES));
            there = self.store(random, source, code, there, Aim::Other);
            early.push(source);
        }
        let behind = self.load(random, met, load, there);
        early.push(met);
        if met + 1 < stages && random.one_in(2) {
            let further = met + 1 + random.below(stages - met - 1);
            let (between, code) = (met + 1 + random.below(further - met), random.pick(&LOADS));
            let aim = random.pick(&[Aim::Other, Aim::Other, Aim::Same, Aim::Word(there)]);
            if between < further {
                self.store(random, between, Code::S, behind, aim);
                early.push(between);
            }
            self.load(random, further, code, behind);
            early.push(further);
        }
        let other = random.pick(&[there, behind, self.memory]);
        let aim = match unlike {
            true if other != there => Aim::Word(other),
            true => Aim::Other,
            false => Aim::Same,
        };
        there = self.store(random, place, store, there, aim);
        if distance > 1 && (goes || random.one_in(2)) {
            let (nearer, code) = (place + 1 + random.below(distance - 1), random.pick(&STORES));
            let aim = if goes && random.one_in(2) { Aim::Other } else { Aim::Same };
            self.store(random, nearer, code, there, aim);
            late.push(nearer);
        }
        if random.one_in(2) {
            // Parts stay back: an older store would squash them, and what is younger with them.
            let Cast { word, window, .. } = &self;
            let free = |i: &Instruction| !i.code.is_part() && (i.code == Code::A || i.imm != *word);
            early.extend((0..stages).filter(|place| free(&window[*place]) && random.one_in(2)));
        }
        let mut moves: Vec<Move> = early.into_iter().map(Move::Execute).collect();
        moves.push(random.pick(&[Move::Execute(place), Move::Execute(place), Move::Finish(place)]));
        moves.extend(late.into_iter().map(Move::Execute));
        let any = place + random.below(distance + usize::from(goes));
        match random.below(6) {
            0 if goes => moves.push(Move::Squash(any)),
            1 => moves.push(Move::Finish(any)),
            _ => {}
        }
        moves.extend((goes && random.one_in(2)).then_some(Move::Issue));
        moves
    }

    /// A load side; answers the word that a load behind it would take.
    fn load(&mut self, random: &mut Random, place: usize, code: Code, there: u32) -> u32 {
        if code == Code::L {
            self.window[place] = Instruction { code, d: LOADED, s: 0, imm: self.word };
            return there;
        }
        let aim = random.pick(&[Aim::Same, Aim::Other]);
        self.store(random, place, code, there, aim)
    }

    /// Answers the word that it makes.
    fn store(&mut self, random: &mut Random, place: usize, code: Code, there: u32, aim: Aim) -> u32 {
        let byte = match aim {
            // Where the two words begin to differ.
            Aim::Word(word) if word != there => {
                let byte = (word ^ there).trailing_zeros() / 8;
                if code == Code::H {
                    byte & 2
                } else {
                    byte
                }
            }
            _ => part_of(random, code, false),
        };
        let part = Stated.merge(code, byte, 0, u32::MAX);
        let (low, ones) = (part.trailing_zeros(), part >> part.trailing_zeros());
        let same = there >> low & ones;
        let masks: Vec<u32> = UNLIKE.into_iter().filter(|mask| mask & !ones == 0).collect();
        let value = match aim {
            Aim::Same => same,
            Aim::Word(word) => word >> low & ones,
            // A part that is the whole word is another one at its place.
            Aim::Other if there <= ones && there != same => there,
            Aim::Other => same ^ random.pick(&masks),
        };
        self.registers += 1;
        let (d, more) = (self.registers, random.word() as u32 & !ones);
        self.before.push(Instruction { code: Code::A, d, s: 0, imm: value | more });
        let odd = u32::from(self.scene.odd && code == Code::H);
        let imm = if code.is_part() { 4 * self.word + byte + odd } else { self.word };
        self.window[place] = Instruction { code, d, s: 0, imm };
        Stated.merge(code, byte, there, value)
    }
}

/// Sums, some of them of what was loaded, and references to one or two other words.
fn filler(random: &mut Random, others: u32) -> Instruction {
    let (s, store, part) = (random.pick(&[0, 1, LOADED, LOADED]), 1 + random.number(6), random.pick(&PARTS));
    let sum = Instruction { code: Code::A, d: LOADED, s, imm: random.number(9) };
    let store = Instruction { code: Code::S, d: store, s: 0, imm: 6 };
    let part = Instruction { code: part, imm: 24 + part_of(random, part, false), ..store };
    let load = Instruction { code: Code::L, d: LOADED, s: 0, imm: 12 };
    match others {
        0 => sum,
        1 => random.pick(&[sum, store, part]),
        _ => random.pick(&[sum, sum, store, part, load]),
    }
}
