//! Programs by taste: which addresses, words and registers their instructions have.

use crate::random::Random;
use crate::window::{Code, Instruction, Sizes, PARTS};

/// What a program's instructions look like.
pub struct Taste {
    pub addresses: Vec<u32>,
    pub stride: u32,
    /// Addresses at W or more come once in this many references; 0 is never.
    pub faults: usize,
    outside: u32,
    /// Stores of a part come once in this many instructions; 0 is never.
    parts: usize,
    /// Odd byte numbers come once in this many H; 0 is never.
    pub odd: usize,
    /// Addresses are sums with a loaded or summed register.
    pub chained: bool,
    /// Addresses are sums that wrap: register 7 holds this much below 2^32.
    below: Option<u32>,
    zero_written: bool,
    /// The program starts with this many constants, for words that tell stores apart.
    constants: u32,
    /// What these constants are multiples of.
    scale: u32,
    /// They are all the same, so that stores of the word already there are many.
    alike: bool,
}

impl Taste {
    pub fn new(random: &mut Random, sizes: Sizes) -> Self {
        let anywhere = random.number(sizes.words);
        let base = random.pick(&[anywhere, anywhere, 0, sizes.words - 1]);
        // A stride of 8 keeps to one bank whatever B is, one of 64 to one home.
        let stride = random.pick(&[1, 1, 2, 8, 8, 64]);
        let count = random.pick(&[1, 1, 2, 2, 2, 3, 4, 8]);
        let any = random.word() as u32 / 2;
        let far = random.pick(&[0, 8, 64, u32::MAX - sizes.words, any]);
        Taste {
            addresses: (0..count).map(|step| (base + step * stride) % sizes.words).collect(),
            stride,
            faults: random.pick(&[0, 0, 0, 0, 0, 0, 2, 6, 20]),
            outside: sizes.words + far,
            parts: random.pick(&[0, 0, 2, 3, 4, 6]),
            odd: random.pick(&[0, 0, 0, 0, 0, 2, 5, 20]),
            chained: random.one_in(5),
            below: random.one_in(8).then(|| 1 + random.number(9)),
            zero_written: random.one_in(12),
            constants: random.pick(&[0, 1, 2, 3, 3]),
            scale: random.pick(&[10, 10, 0x0102_0304, 0xf1e2_d3c4, 0x0101_0101]),
            alike: random.one_in(5),
        }
    }

    pub fn program(&self, random: &mut Random, length: usize) -> Vec<Instruction> {
        let times = |d| if self.alike { 1 } else { d };
        let constant = |d| Instruction { code: Code::A, d, s: 0, imm: self.scale.wrapping_mul(times(d)) };
        let mut program: Vec<Instruction> = (1..=self.constants).map(constant).collect();
        if let Some(below) = self.below {
            program.push(Instruction { code: Code::A, d: 7, s: 0, imm: 0u32.wrapping_sub(below) });
        }
        let left = length.saturating_sub(program.len());
        program.extend((0..left).map(|_| self.instruction(random)));
        program.truncate(length);
        program
    }

    fn instruction(&self, random: &mut Random) -> Instruction {
        // Stores mostly take other registers than loads and sums write, and so seldom wait for them.
        let (written, stored) = (4 + random.number(3), 1 + random.number(3));
        let any = random.number(if self.zero_written { 4 } else { 7 });
        let mostly = random.pick(&[written, written, any.max(1)]);
        let d = if self.zero_written { random.number(3) } else { mostly };
        match random.below(20) {
            0..=1 => Instruction { code: Code::A, d, s: any, imm: self.word(random) },
            2 => Instruction { code: Code::P, d, s: any, imm: random.number(8) },
            _ if self.parts > 0 && random.one_in(self.parts) => {
                let (code, d) = (random.pick(&PARTS), random.pick(&[stored, stored, stored, any]));
                self.part(random, code, d)
            }
            3..=10 => self.reference(random, Code::L, d),
            _ => {
                let d = random.pick(&[stored, stored, stored, any]);
                self.reference(random, Code::S, d)
            }
        }
    }

    fn reference(&self, random: &mut Random, code: Code, d: u32) -> Instruction {
        if self.chained && random.one_in(2) {
            return Instruction { code, d, s: random.number(5), imm: random.number(3) };
        }
        let address = self.address(random);
        match self.below {
            Some(below) => Instruction { code, d, s: 7, imm: address.wrapping_add(below) },
            None => Instruction { code, d, s: 0, imm: address },
        }
    }

    fn part(&self, random: &mut Random, code: Code, d: u32) -> Instruction {
        let odd = self.odd > 0 && random.one_in(self.odd);
        if self.chained && random.one_in(2) {
            let (even, any) = (2 * random.number(4), random.number(8));
            let imm = if code == Code::B || odd { any } else { even };
            return Instruction { code, d, s: random.number(5), imm };
        }
        let place = part_of(random, code, odd);
        let address = self.address(random);
        let byte = address.checked_mul(4).unwrap_or(address & !3) + place;
        match self.below {
            Some(below) => Instruction { code, d, s: 7, imm: byte.wrapping_add(below) },
            None => Instruction { code, d, s: 0, imm: byte },
        }
    }

    fn address(&self, random: &mut Random) -> u32 {
        if self.faults > 0 && random.one_in(self.faults) {
            return self.outside;
        }
        random.pick(&self.addresses)
    }

    fn word(&self, random: &mut Random) -> u32 {
        let (small, address, any) = (random.number(10), random.pick(&self.addresses), random.word() as u32);
        random.pick(&[small, small, address, address, u32::MAX, any])
    }
}

/// A place in a word for a part, an odd one for an H only if it is to be odd.
pub fn part_of(random: &mut Random, code: Code, odd: bool) -> u32 {
    match code {
        Code::H => random.pick(&[0, 2]) + u32::from(odd),
        _ => random.number(4),
    }
}
