//! The rules of the buffer, of the machine and of a script's limits as questions, and the calls of the machine.
//! A trait, so that the tests can put a wrong one in the place of a right one.

use crate::machine::{Commit, Executed, Machine};
use crate::window::{Code, Fate, Instruction, Sizes, Window};

pub const MOST_INSTRUCTIONS: usize = 256;

pub trait Rules: Clone {
    /// The store whose word position `k` takes, a load or a store of a part: the youngest older one to this address.
    fn forward(&self, window: &Window, k: usize, address: u32) -> Option<usize> {
        let stores = |p: &usize| window.live[*p].code().stores() && window.live[*p].mark() == Some(address);
        (0..k).rev().find(stores)
    }

    /// How many positions older the store is whose word position `k` takes; 0 for memory.
    fn distance(&self, _window: &Window, k: usize, _address: u32, store: Option<usize>) -> usize {
        store.map_or(0, |store| k - store)
    }

    /// Where a store of this word at position `k` squashes from. The first younger one at the address decides alone: a
    /// load side that took another word goes, one that took this word stays, and a store without one stays too.
    fn violation(&self, window: &Window, k: usize, address: u32, value: u32) -> Option<usize> {
        let first = (k + 1..window.live.len()).find(|&p| window.live[p].mark() == Some(address))?;
        window.live[first].taken().filter(|&taken| taken != value).map(|_| first)
    }

    /// A row for position `k`: had or free (nothing to squash), by eviction (where to squash from), or none.
    fn room(&self, window: &Window, k: usize, address: u32) -> Result<Option<usize>, u32> {
        let rows = window.rows(window.sizes.bank(address));
        if rows.iter().any(|row| row.address == address) || rows.len() < window.sizes.rows as usize {
            return Ok(None);
        }
        match rows.iter().map(|row| row.oldest).filter(|&oldest| oldest > k).max() {
            Some(oldest) => Ok(Some(oldest)),
            None => Err(10),
        }
    }

    /// Drops a live one and everything younger.
    fn drop_from(&mut self, window: &mut Window, from: usize) {
        window.live.truncate(from);
    }

    /// What is known of an instruction when it is issued.
    fn fresh(&mut self, _index: usize) -> Fate {
        Fate::Waiting
    }

    /// What a register holds for position `k`: of the nearest older writer, else as committed.
    fn operand(&self, window: &Window, registers: &[u32; 8], k: usize, register: u32) -> Result<u32, u32> {
        let mut older = window.live[..k].iter().rev();
        match older.find(|entry| entry.instruction.writes(register)) {
            Some(writer) => writer.value().ok_or(9),
            None => Ok(registers[register as usize]),
        }
    }

    fn sum(&self, left: u32, right: u32) -> u32 {
        left.wrapping_add(right)
    }

    /// The word that an instruction of this code is at. Rows, marks and memory go by it.
    fn word(&self, code: Code, number: u32) -> u32 {
        if code.is_part() {
            number / 4
        } else {
            number
        }
    }

    /// A word with the low bits of `value` put where the byte number says; an H at an odd one is at the byte below.
    fn merge(&self, code: Code, byte: u32, word: u32, value: u32) -> u32 {
        let (low, ones) = match code {
            Code::B => (byte % 4 * 8, 0xff),
            Code::H => (byte % 4 / 2 * 16, 0xffff),
            _ => (0, u32::MAX),
        };
        word & !(ones << low) | (value & ones) << low
    }

    /// Whether a commit at this number is refused although the memory has its word.
    fn misaligned(&self, code: Code, number: u32) -> bool {
        code == Code::H && number % 2 == 1
    }

    /// The next instruction after a squash from this position on.
    fn resume(&self, window: &Window, from: usize) -> usize {
        window.live[from].index
    }

    /// Whether a script may have these sizes.
    fn opens(&self, sizes: Sizes) -> bool {
        sizes.fit()
    }

    /// Whether one more instruction may follow; where not, the event that its line counts for.
    fn takes(&self, before: usize, stepped: bool, instruction: Instruction) -> Result<(), &'static str> {
        if stepped {
            return Err("instruction after a step");
        }
        if before == MOST_INSTRUCTIONS {
            return Err("257th instruction");
        }
        if !instruction.fits() {
            let registers = instruction.d.max(instruction.s);
            return Err(if registers > 7 { "register above 7" } else { "P's imm above 7" });
        }
        Ok(())
    }

    /// Whether a script prints the distance of a commit of this code.
    fn tells(&self, code: Code) -> bool {
        code == Code::L
    }

    fn issue(machine: &mut Machine<Self>) -> Result<usize, u32> {
        machine.issue()
    }

    fn execute(machine: &mut Machine<Self>, k: usize) -> Result<Executed, u32> {
        machine.execute(k)
    }

    fn squash(machine: &mut Machine<Self>, k: usize) -> Result<(), u32> {
        machine.squash(k)
    }

    fn commit(machine: &mut Machine<Self>) -> Result<Commit, u32> {
        machine.commit()
    }

    fn finish(machine: &mut Machine<Self>, limit: u32) -> Vec<Commit> {
        machine.finish(limit)
    }

    fn fate(machine: &Machine<Self>) -> &'static str {
        machine.fate()
    }
}

/// The rules as the scope states them.
#[derive(Clone)]
pub struct Stated;

impl Rules for Stated {}
