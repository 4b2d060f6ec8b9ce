//! The sequential run: one instruction after another, with its own registers and memory.

use crate::window::{Code, Instruction};

/// What a step adds to the record.
#[derive(Clone, Copy, PartialEq, Eq, Debug)]
pub struct Recorded {
    pub index: usize,
    pub code: Code,
    /// The register, for S the address, for B and H the byte number.
    pub target: u32,
    pub value: u32,
}

#[derive(Clone)]
pub struct Run {
    pub program: Vec<Instruction>,
    pub registers: [u32; 8],
    pub memory: Vec<u32>,
    pub index: usize,
}

impl Run {
    pub fn new(words: u32) -> Self {
        Run { program: Vec::new(), registers: [0; 8], memory: vec![0; words as usize], index: 0 }
    }

    /// What the next step adds to the record; None at the end and before a fault.
    pub fn ahead(&self) -> Option<Recorded> {
        let index = self.index;
        let Instruction { code, d, s, imm } = *self.program.get(index)?;
        let base = self.registers[s as usize];
        let sum = base.wrapping_add(imm);
        let (target, value) = match code {
            Code::A => (d, sum),
            Code::P => (d, base.wrapping_add(self.registers[imm as usize])),
            Code::L => (d, *self.memory.get(sum as usize)?),
            Code::S => {
                self.memory.get(sum as usize)?;
                (sum, self.registers[d as usize])
            }
            Code::B | Code::H => (sum, self.whole(code, sum, self.registers[d as usize])?),
        };
        Some(Recorded { index, code, target, value })
    }

    pub fn step(&mut self) -> Option<Recorded> {
        let recorded = self.ahead()?;
        let Recorded { code, target, value, .. } = recorded;
        match code {
            Code::S => self.memory[target as usize] = value,
            Code::B | Code::H => self.memory[target as usize / 4] = value,
            _ => self.registers[target as usize] = value,
        }
        self.index += 1;
        Some(recorded)
    }

    /// What the word of a byte number becomes by the lowest byte of a value, or by its lowest two. None before a fault.
    fn whole(&self, code: Code, byte: u32, value: u32) -> Option<u32> {
        let mut bytes = self.memory.get(byte as usize / 4)?.to_le_bytes();
        let (place, [first, second, ..]) = (byte as usize % 4, value.to_le_bytes());
        match code {
            Code::H if place % 2 == 1 => return None,
            Code::H => bytes[place..place + 2].copy_from_slice(&[first, second]),
            _ => bytes[place] = first,
        }
        Some(u32::from_le_bytes(bytes))
    }
}
