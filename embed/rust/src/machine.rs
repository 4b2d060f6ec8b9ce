//! The window machine.
use crate::{raw, Outcome, Refusal, Table, STAGES};

pub const REGISTERS: usize = 8;
/// The most numbers of a program: four an instruction.
pub const PROGRAM: usize = 1024;
/// The numbers that a finish writes for a commit.
pub const PER_COMMIT: usize = 5;

/// An instruction of the window, in the layout of `arb_machine.h`, and once it has executed its value, address and distance.
#[repr(C)]
#[derive(Clone, Copy, Debug, PartialEq, Eq)]
pub struct Entry {
    pub code: u8,
    pub d: u8,
    pub s: u8,
    pub executed: u8,
    pub imm: u32,
    pub index: u32,
    pub value: u32,
    pub address: u32,
    pub distance: u32,
}

/// The state of a machine, in the layout of `arb_machine.h`; entries stand at their stages. To be read, as by a debugger.
#[repr(C)]
#[derive(Clone, Copy, Debug, PartialEq, Eq)]
pub struct State {
    pub table: Table,
    pub window: [Entry; STAGES],
    pub registers: [u32; REGISTERS],
    pub count: u32,
    pub next: u32,
}

/// What a commit answers: index, code, register (of S the word number, of B and H the byte number), the word that stands there
/// now, and of L how far its word came, else 0.
#[derive(Clone, Copy, Debug, PartialEq, Eq)]
pub struct Committed {
    pub index: u32,
    pub code: u32,
    pub target: u32,
    pub value: u32,
    pub distance: u32,
}

/// A window machine. References are named by their positions, 0 the oldest. Every call after the opening is lent the program
/// that was opened; another one is refused.
#[derive(Clone, Copy, Debug, PartialEq, Eq)]
pub struct Machine(State);

// As in `Buffer`, every `unsafe` passes values and live slices with their lengths.
impl Machine {
    pub fn open(
        banks: usize,
        rows: usize,
        stages: usize,
        program: &[u32],
        memory: &[u32],
    ) -> Result<Machine, Refusal> {
        let (words, length) = (memory.len(), memory.len());
        let (of, numbers) = (program.as_ptr(), program.len());
        let r = unsafe { raw::arb_m_open(banks, rows, stages, words, of, numbers, memory.as_ptr(), length) };
        Refusal::of(r.numbers.refusal).map(|()| Machine(r.machine))
    }

    /// The next instruction comes into the window; its position.
    pub fn issue(&mut self, program: &[u32]) -> Result<usize, Refusal> {
        let r = unsafe { raw::arb_m_issue(self.0, program.as_ptr(), program.len()) };
        self.kept(r).map(|n| n.position)
    }

    pub fn execute(
        &mut self,
        program: &[u32],
        position: usize,
        memory: &[u32],
    ) -> Result<Outcome<usize>, Refusal> {
        let (of, numbers) = (program.as_ptr(), program.len());
        let r = unsafe { raw::arb_m_execute(self.0, of, numbers, position, memory.as_ptr(), memory.len()) };
        let n = self.kept(r)?;
        let squashed_from = (n.squashed != 0).then_some(n.position);
        Ok(Outcome { value: n.value, distance: n.distance, squashed_from })
    }

    /// Drops the instruction at the position and everything younger.
    pub fn squash(&mut self, program: &[u32], position: usize) -> Result<(), Refusal> {
        let r = unsafe { raw::arb_m_squash(self.0, program.as_ptr(), program.len(), position) };
        self.kept(r).map(|_| ())
    }

    /// The oldest instruction writes its register or word and leaves the window.
    pub fn commit(&mut self, program: &[u32], memory: &mut [u32]) -> Result<Committed, Refusal> {
        let (of, numbers) = (program.as_ptr(), program.len());
        let r = unsafe { raw::arb_m_commit(self.0, of, numbers, memory.as_mut_ptr(), memory.len()) };
        let raw::Numbers { index, code, target, value, distance, .. } = self.kept(r)?;
        Ok(Committed { index, code, target, value, distance })
    }

    /// Takes the oldest to its commit until `limit` commits, fewer than five places left in the list, the program's end or a
    /// fault; the number of commits. Their five numbers each stand from the list's start on.
    pub fn finish(
        &mut self,
        program: &[u32],
        limit: u32,
        memory: &mut [u32],
        list: &mut [u32],
    ) -> Result<usize, Refusal> {
        let (of, numbers) = (program.as_ptr(), program.len());
        let (at, words) = (memory.as_mut_ptr(), memory.len());
        let (to, places) = (list.as_mut_ptr(), list.len());
        let r = unsafe { raw::arb_m_finish(self.0, of, numbers, limit, at, words, to, places) };
        self.kept(r).map(|n| n.commits)
    }

    pub fn state(&self) -> &State {
        &self.0
    }

    fn kept(&mut self, r: raw::Answer) -> Result<raw::Numbers, Refusal> {
        Refusal::of(r.numbers.refusal)?;
        self.0 = r.machine;
        Ok(r.numbers)
    }
}
