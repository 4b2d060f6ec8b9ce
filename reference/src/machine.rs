//! The window machine: issue, execute, squash, commit and finish over the plain list.

use crate::rules::Rules;
use crate::run::Recorded;
use crate::window::{Access, Code, Entry, Fate, Instruction, Sizes, Window};

/// So many numbers a commit answers.
pub const PLACES: usize = 5;

/// What the run records, and the distance.
#[derive(Clone, Copy, PartialEq, Eq, Debug)]
pub struct Commit {
    pub index: usize,
    pub code: Code,
    pub target: u32,
    pub value: u32,
    /// Of a load, else 0.
    pub distance: usize,
}

impl Commit {
    /// What is compared with the run.
    pub fn without_distance(self) -> Recorded {
        let Commit { index, code, target, value, .. } = self;
        Recorded { index, code, target, value }
    }
}

#[derive(Clone, Copy, PartialEq, Eq, Debug)]
pub struct Executed {
    /// Of a load, else 0.
    pub value: u32,
    /// How many positions older the store is whose word a load took; 0 for memory's, and for no load.
    pub distance: usize,
    pub squashed: Option<usize>,
}

#[derive(Clone)]
pub struct Machine<R> {
    pub rules: R,
    pub program: Vec<Instruction>,
    pub window: Window,
    pub next: usize,
    pub registers: [u32; 8],
    pub memory: Vec<u32>,
}

impl<R: Rules> Machine<R> {
    /// A machine without instructions; they are put to `program` before the first call.
    pub fn new(rules: R, sizes: Sizes) -> Self {
        let window = Window { sizes, live: Vec::new() };
        let memory = vec![0; sizes.words as usize];
        Machine { rules, program: Vec::new(), window, next: 0, registers: [0; 8], memory }
    }

    /// Answers the new position.
    pub fn issue(&mut self) -> Result<usize, u32> {
        if self.window.live.len() == self.window.sizes.stages as usize {
            return Err(5);
        }
        let instruction = *self.program.get(self.next).ok_or(6u32)?;
        let fate = self.rules.fresh(self.next);
        self.window.live.push(Entry { index: self.next, instruction, fate, distance: 0 });
        self.next += 1;
        Ok(self.window.live.len() - 1)
    }

    pub fn execute(&mut self, k: usize) -> Result<Executed, u32> {
        let entry = *self.window.live.get(k).ok_or(7u32)?;
        if !entry.waits() {
            return Err(8);
        }
        let Instruction { code, d, s, imm } = entry.instruction;
        let base = self.operand(k, s)?;
        match code {
            Code::A => Ok(self.other(k, self.rules.sum(base, imm))),
            Code::P => {
                let sum = self.rules.sum(base, self.operand(k, imm)?);
                Ok(self.other(k, sum))
            }
            Code::L => self.load(k, self.rules.sum(base, imm)),
            Code::S | Code::B | Code::H => {
                let value = self.operand(k, d)?;
                self.store(k, self.rules.sum(base, imm), value)
            }
        }
    }

    pub fn squash(&mut self, k: usize) -> Result<(), u32> {
        if k >= self.window.live.len() {
            return Err(7);
        }
        self.drop_from(k);
        Ok(())
    }

    pub fn commit(&mut self) -> Result<Commit, u32> {
        let oldest = *self.window.live.first().ok_or(11u32)?;
        let Fate::Executed { value, access } = oldest.fate else { return Err(12) };
        if self.past(&oldest) {
            return Err(13);
        }
        if self.odd(&oldest) {
            return Err(14);
        }
        let Instruction { code, d, .. } = oldest.instruction;
        let target = match access {
            Some(Access { number, word, .. }) if code.stores() => {
                self.memory[word as usize] = value;
                number
            }
            _ => {
                self.registers[d as usize] = value;
                d
            }
        };
        self.window.live.remove(0);
        let distance = if code == Code::L { oldest.distance } else { 0 };
        Ok(Commit { index: oldest.index, code, target, value, distance })
    }

    /// One round of finish: takes the oldest to its commit, issuing when the window is empty. None at the
    /// program's end and at a fault, which stays executed.
    pub fn advance(&mut self) -> Option<Commit> {
        if self.window.live.is_empty() {
            R::issue(self).ok()?;
        }
        if self.window.live[0].waits() {
            R::execute(self, 0).ok()?;
        }
        R::commit(self).ok()
    }

    /// Round after round, as many as the limit says.
    pub fn finish(&mut self, limit: u32) -> Vec<Commit> {
        (0..limit).map_while(|_| self.advance()).collect()
    }

    pub fn fate(&self) -> &'static str {
        match () {
            _ if self.done() => "done",
            _ if self.faulted() => "fault",
            _ => "open",
        }
    }

    /// All is committed.
    pub fn done(&self) -> bool {
        self.window.live.is_empty() && self.next == self.program.len()
    }

    /// The oldest has executed outside the memory, or is an H at an odd byte number.
    pub fn faulted(&self) -> bool {
        self.window.live.first().is_some_and(|oldest| self.past(oldest) || self.odd(oldest))
    }

    /// It has executed outside the memory.
    pub fn past(&self, entry: &Entry) -> bool {
        entry.mark().is_some_and(|word| word >= self.window.sizes.words)
    }

    /// It has executed at a byte number that an H must not have.
    pub fn odd(&self, entry: &Entry) -> bool {
        entry.access().is_some_and(|access| self.rules.misaligned(entry.code(), access.number))
    }

    fn operand(&self, k: usize, register: u32) -> Result<u32, u32> {
        self.rules.operand(&self.window, &self.registers, k, register)
    }

    fn other(&mut self, k: usize, value: u32) -> Executed {
        self.window.live[k].fate = Fate::Executed { value, access: None };
        Executed { value: 0, distance: 0, squashed: None }
    }

    fn load(&mut self, k: usize, address: u32) -> Result<Executed, u32> {
        let squashed = self.rules.room(&self.window, k, address)?;
        let (value, distance) = self.taken(k, address);
        self.mark(k, value, Access { number: address, word: address, taken: Some(value) }, squashed);
        self.window.live[k].distance = distance;
        Ok(Executed { value, distance, squashed })
    }

    /// A store of a part takes the word as a load does, and stores the whole of it.
    fn store(&mut self, k: usize, number: u32, value: u32) -> Result<Executed, u32> {
        let code = self.window.live[k].code();
        let word = self.rules.word(code, number);
        let evicted = self.rules.room(&self.window, k, word)?;
        let taken = code.is_part().then(|| self.taken(k, word).0);
        let whole = taken.map_or(value, |taken| self.rules.merge(code, number, taken, value));
        let squashed = evicted.or_else(|| self.rules.violation(&self.window, k, word, whole));
        self.mark(k, whole, Access { number, word, taken }, squashed);
        Ok(Executed { value: 0, distance: 0, squashed })
    }

    /// The word that position `k` takes, of the nearest older store to it, else of memory, else 0, and how far it came.
    fn taken(&self, k: usize, word: u32) -> (u32, usize) {
        let store = self.rules.forward(&self.window, k, word);
        let value = match store {
            Some(store) => self.window.live[store].value().unwrap_or(0),
            None => self.memory.get(word as usize).copied().unwrap_or(0),
        };
        (value, self.rules.distance(&self.window, k, word, store))
    }

    fn mark(&mut self, k: usize, value: u32, access: Access, squashed: Option<usize>) {
        if let Some(from) = squashed {
            self.drop_from(from);
        }
        self.window.live[k].fate = Fate::Executed { value, access: Some(access) };
    }

    fn drop_from(&mut self, from: usize) {
        self.next = self.rules.resume(&self.window, from);
        self.rules.drop_from(&mut self.window, from);
    }
}
