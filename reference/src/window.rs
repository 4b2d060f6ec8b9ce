//! The live instructions as a plain list, oldest first.

#[derive(Clone, Copy, PartialEq, Eq, Debug)]
pub struct Sizes {
    pub banks: u32,
    pub rows: u32,
    pub stages: u32,
    pub words: u32,
}

impl Sizes {
    pub fn fit(&self) -> bool {
        [1, 2, 4, 8].contains(&self.banks)
            && (1..=8).contains(&self.rows)
            && (1..=16).contains(&self.stages)
            && (1..=4096).contains(&self.words)
    }

    pub fn bank(&self, address: u32) -> u32 {
        address % 64 % 8 % self.banks
    }
}

#[derive(Clone, Copy, PartialEq, Eq, Debug)]
pub enum Code {
    A,
    P,
    L,
    S,
    B,
    H,
}

pub const CODES: [Code; 6] = [Code::A, Code::P, Code::L, Code::S, Code::B, Code::H];
pub const LOADS: [Code; 3] = [Code::L, Code::B, Code::H];
pub const STORES: [Code; 3] = [Code::S, Code::B, Code::H];
pub const PARTS: [Code; 2] = [Code::B, Code::H];

impl Code {
    /// Takes a word: a store of a part needs the rest of its word.
    pub fn loads(self) -> bool {
        LOADS.contains(&self)
    }

    pub fn stores(self) -> bool {
        STORES.contains(&self)
    }

    /// Stores a part of a word, at a byte number.
    pub fn is_part(self) -> bool {
        PARTS.contains(&self)
    }
}

#[derive(Clone, Copy, PartialEq, Eq, Debug)]
pub struct Instruction {
    pub code: Code,
    pub d: u32,
    pub s: u32,
    pub imm: u32,
}

impl Instruction {
    pub fn fits(&self) -> bool {
        self.d <= 7 && self.s <= 7 && (self.code != Code::P || self.imm <= 7)
    }

    pub fn writes(&self, register: u32) -> bool {
        !self.code.stores() && self.d == register
    }
}

/// What a load or store executed to.
#[derive(Clone, Copy, PartialEq, Eq, Debug)]
pub struct Access {
    /// As the record has it: of B and H the byte number, else the word number.
    pub number: u32,
    pub word: u32,
    /// The word that the load side took, of B and H before their part was put into it.
    pub taken: Option<u32>,
}

/// What became of a live instruction; only loads and stores have an access. The value of a store is the whole word.
#[derive(Clone, Copy, PartialEq, Eq, Debug)]
pub enum Fate {
    Waiting,
    Executed { value: u32, access: Option<Access> },
}

#[derive(Clone, Copy, PartialEq, Eq, Debug)]
pub struct Entry {
    pub index: usize,
    pub instruction: Instruction,
    pub fate: Fate,
    /// Of a load that executed, how many positions older the store was whose word it took, or 0; else 0.
    pub distance: usize,
}

impl Entry {
    pub fn waits(&self) -> bool {
        self.fate == Fate::Waiting
    }

    pub fn access(&self) -> Option<Access> {
        match self.fate {
            Fate::Executed { access, .. } => access,
            Fate::Waiting => None,
        }
    }

    /// The word this one executed to: its mark.
    pub fn mark(&self) -> Option<u32> {
        self.access().map(|access| access.word)
    }

    /// What the load side took, for older stores to compare with.
    pub fn taken(&self) -> Option<u32> {
        self.access().and_then(|access| access.taken)
    }

    pub fn value(&self) -> Option<u32> {
        match self.fate {
            Fate::Executed { value, .. } => Some(value),
            Fate::Waiting => None,
        }
    }

    pub fn is(&self, code: Code) -> bool {
        self.code() == code
    }

    pub fn code(&self) -> Code {
        self.instruction.code
    }
}

/// An execution that was not refused.
#[derive(Clone, Copy)]
pub struct Execution<'a> {
    pub before: &'a Window,
    pub k: usize,
    /// What it became.
    pub entry: Entry,
    /// How many are live after it.
    pub left: usize,
    /// Whether a finish executed it.
    pub finished: bool,
}

impl Execution<'_> {
    /// What squashed from position `left` on, if anything did. Where the word has a row nothing is evicted.
    pub fn squashed_by(&self) -> Option<&'static str> {
        let at_word = |other: &Entry| other.mark() == self.entry.mark();
        match self.left < self.before.live.len() {
            true if self.before.live.iter().any(at_word) => Some("violation"),
            true => Some("eviction"),
            false => None,
        }
    }
}

/// A row in use: a word that live references executed to, and the position of the oldest of them.
#[derive(Clone, Copy, PartialEq, Eq, Debug)]
pub struct Row {
    pub address: u32,
    pub oldest: usize,
}

#[derive(Clone, PartialEq, Eq, Debug)]
pub struct Window {
    pub sizes: Sizes,
    pub live: Vec<Entry>,
}

impl Window {
    /// The stage of a position. Issue and commit both go through the stages one by one, so that an
    /// instruction's stage is its index modulo the number of stages. No rule below asks for it.
    pub fn stage(&self, position: usize) -> usize {
        self.live[position].index % self.sizes.stages as usize
    }

    /// The rows in use of a bank.
    pub fn rows(&self, bank: u32) -> Vec<Row> {
        let mut rows: Vec<Row> = Vec::new();
        for (oldest, entry) in self.live.iter().enumerate() {
            let Some(address) = entry.mark() else { continue };
            if self.sizes.bank(address) == bank && rows.iter().all(|row| row.address != address) {
                rows.push(Row { address, oldest });
            }
        }
        rows
    }
}
