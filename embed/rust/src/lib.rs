//! The proved address resolution buffer ([`Buffer`]) and window machine ([`Machine`]) over libarb.a.
//!
//! Both are plain values: a copy is a checkpoint. Memory and program are lent to each call. A call that is refused answers
//! `Err` with its [`Refusal`] and changes nothing.
mod machine;
mod raw;

pub use machine::{Committed, Entry, Machine, State, PER_COMMIT, PROGRAM, REGISTERS};
use std::fmt;

/// The most stages of a window.
pub const STAGES: usize = 16;
/// The length of a table's arrays by row: eight banks of eight rows.
pub const SLOTS: usize = 64;

/// The state of a buffer, in the layout of `arb.h`, which says what the fields hold. To be read, as by a debugger.
#[repr(C)]
#[derive(Clone, Copy, Debug, PartialEq, Eq)]
pub struct Table {
    pub banks: usize,
    pub rows: usize,
    pub stages: usize,
    pub words: usize,
    pub oldest: usize,
    pub live: usize,
    pub next: u32,
    pub executed: u32,
    pub numbers: [u32; STAGES],
    pub addresses: [u32; SLOTS],
    pub loads: [u32; SLOTS],
    pub stores: [u32; SLOTS],
    pub values: [u32; STAGES],
    pub taken: [u32; STAGES],
}

/// The name of a reference: its stage and the number under which it was issued.
#[repr(C)]
#[derive(Clone, Copy, Debug, PartialEq, Eq, Hash)]
pub struct Ticket {
    pub stage: usize,
    pub number: u32,
}

/// What an execution answers: of a load the word taken and how many references older its store is (0: memory's word), and the
/// oldest reference squashed, by its ticket or, of the machine, its position.
#[derive(Clone, Copy, Debug, PartialEq, Eq)]
pub struct Outcome<Name> {
    pub value: u32,
    pub distance: u32,
    pub squashed_from: Option<Name>,
}

/// Why a call was turned down: of the conditions that hold the one with the smallest number.
#[derive(Clone, Copy, Debug, PartialEq, Eq, Hash)]
#[non_exhaustive]
pub enum Refusal {
    BadSizes = 1,
    BrokenState = 2,
    MemoryLength = 3,
    BadProgram = 4,
    WindowFull = 5,
    ProgramEnded = 6,
    NotLive = 7,
    ExecutedBefore = 8,
    OperandWaits = 9,
    NoRow = 10,
    WindowEmpty = 11,
    OldestWaits = 12,
    OutsideMemory = 13,
    OddHalf = 14,
}

impl Refusal {
    /// 0 is no refusal.
    fn of(number: u32) -> Result<(), Refusal> {
        use Refusal::*;
        Err(match number {
            0 => return Ok(()),
            1 => BadSizes,
            2 => BrokenState,
            3 => MemoryLength,
            4 => BadProgram,
            5 => WindowFull,
            6 => ProgramEnded,
            7 => NotLive,
            8 => ExecutedBefore,
            9 => OperandWaits,
            10 => NoRow,
            11 => WindowEmpty,
            12 => OldestWaits,
            13 => OutsideMemory,
            14 => OddHalf,
            _ => unreachable!("no call has refusal {number}"),
        })
    }
}

impl fmt::Display for Refusal {
    fn fmt(&self, f: &mut fmt::Formatter<'_>) -> fmt::Result {
        f.write_str(match self {
            Refusal::BadSizes => "a size is outside its limits",
            Refusal::BrokenState => "the state breaks its own rules",
            Refusal::MemoryLength => "the memory has not the opened length",
            Refusal::BadProgram => "the program is bad or not the live entries'",
            Refusal::WindowFull => "the window is full",
            Refusal::ProgramEnded => "no instruction is left",
            Refusal::NotLive => "no live reference has this name",
            Refusal::ExecutedBefore => "it has executed before",
            Refusal::OperandWaits => "an operand's writer has not executed",
            Refusal::NoRow => "no row: each one of its bank has an older mark",
            Refusal::WindowEmpty => "nothing is live",
            Refusal::OldestWaits => "the oldest has not executed",
            Refusal::OutsideMemory => "its address is outside the memory",
            Refusal::OddHalf => "a half word at an odd byte",
        })
    }
}

impl std::error::Error for Refusal {}

/// An address resolution buffer.
#[derive(Clone, Copy, Debug, PartialEq, Eq)]
pub struct Buffer(Table);

// Every `unsafe` below passes values and live slices with their lengths: the functions require nothing else, touch nothing else
// and keep no pointer.
impl Buffer {
    /// `banks` 1, 2, 4 or 8, `rows` a bank 1 to 8, `stages` 1 to 16, over a memory of 1 to 4,096 words.
    pub fn open(banks: usize, rows: usize, stages: usize, memory: &[u32]) -> Result<Buffer, Refusal> {
        let (words, length) = (memory.len(), memory.len());
        let r = unsafe { raw::arb_v_open(banks, rows, stages, words, memory.as_ptr(), length) };
        Refusal::of(r.refusal).map(|()| Buffer(r.table))
    }

    /// The new youngest reference.
    pub fn issue(&mut self) -> Result<Ticket, Refusal> {
        let r = unsafe { raw::arb_v_issue(self.0) };
        self.named(r)
    }

    pub fn load(&mut self, at: Ticket, address: u32, memory: &[u32]) -> Result<Outcome<Ticket>, Refusal> {
        let r = unsafe { raw::arb_v_load(self.0, at, address, memory.as_ptr(), memory.len()) };
        self.executed(r)
    }

    pub fn store(
        &mut self,
        at: Ticket,
        address: u32,
        value: u32,
        memory: &[u32],
    ) -> Result<Outcome<Ticket>, Refusal> {
        let r = unsafe { raw::arb_v_store(self.0, at, address, value, memory.as_ptr(), memory.len()) };
        self.executed(r)
    }

    /// The low byte of `value` goes into the word that is there; addresses count bytes, as they do for half words.
    pub fn store_byte(
        &mut self,
        at: Ticket,
        byte: u32,
        value: u32,
        memory: &[u32],
    ) -> Result<Outcome<Ticket>, Refusal> {
        let r = unsafe { raw::arb_v_byte(self.0, at, byte, value, memory.as_ptr(), memory.len()) };
        self.executed(r)
    }

    pub fn store_half(
        &mut self,
        at: Ticket,
        byte: u32,
        value: u32,
        memory: &[u32],
    ) -> Result<Outcome<Ticket>, Refusal> {
        let r = unsafe { raw::arb_v_half(self.0, at, byte, value, memory.as_ptr(), memory.len()) };
        self.executed(r)
    }

    /// The reference has executed and touches no memory.
    pub fn other(&mut self, at: Ticket, memory: &[u32]) -> Result<Outcome<Ticket>, Refusal> {
        let r = unsafe { raw::arb_v_other(self.0, at, memory.as_ptr(), memory.len()) };
        self.executed(r)
    }

    /// Drops the reference and everything younger.
    pub fn squash(&mut self, at: Ticket) -> Result<(), Refusal> {
        let r = unsafe { raw::arb_v_squash(self.0, at) };
        Refusal::of(r.refusal).map(|()| self.0 = r.table)
    }

    /// The oldest leaves the window; a store writes its word.
    pub fn commit(&mut self, memory: &mut [u32]) -> Result<Ticket, Refusal> {
        let r = unsafe { raw::arb_v_commit(self.0, memory.as_mut_ptr(), memory.len()) };
        self.named(r)
    }

    /// The live reference that holds a stage now.
    pub fn holder(&self, stage: usize) -> Option<Ticket> {
        let t = &self.0;
        if stage >= t.stages {
            return None;
        }
        let position = (stage + t.stages - t.oldest) % t.stages;
        (position < t.live).then(|| Ticket { stage, number: t.numbers[stage] })
    }

    pub fn table(&self) -> &Table {
        &self.0
    }

    fn named(&mut self, r: raw::Named) -> Result<Ticket, Refusal> {
        Refusal::of(r.refusal)?;
        self.0 = r.table;
        Ok(r.ticket)
    }

    fn executed(&mut self, r: raw::Executed) -> Result<Outcome<Ticket>, Refusal> {
        Refusal::of(r.refusal)?;
        self.0 = r.table;
        let squashed_from = (r.squashed != 0).then_some(r.from);
        Ok(Outcome { value: r.value, distance: r.distance, squashed_from })
    }
}
