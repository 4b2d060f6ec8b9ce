//! Wrong programs: the generated scripts must tell each of them from the right one.

mod buffers;
mod commits;
mod distances;
mod limits;
mod lines;
mod machines;
mod parts;
mod same;
mod texts;
mod walks;

use crate::generator::generate;
use crate::machine::{Commit, Executed, Machine};
use crate::player::{play, play_by};
use crate::rules::{Rules, Stated};
use crate::watch::watch;
use crate::window::{Code, Instruction, Sizes, Window};
use std::sync::OnceLock;

const SCRIPTS: u64 = 3000;
/// So many scripts must differ. The search ends with them.
const ENOUGH: usize = 3;

type Distance = fn(&Window, usize, u32, Option<usize>) -> usize;
type Operand = fn(&Window, &[u32; 8], usize, u32) -> Result<u32, u32>;
type Wrong = Machine<Mutant>;

/// The stated rules and calls, some of which are replaced.
#[derive(Clone, Copy)]
struct Mutant {
    forward: fn(&Window, usize, u32) -> Option<usize>,
    distance: Distance,
    violation: fn(&Window, usize, u32, u32) -> Option<usize>,
    room: fn(&Window, usize, u32) -> Result<Option<usize>, u32>,
    operand: Operand,
    sum: fn(u32, u32) -> u32,
    word: fn(Code, u32) -> u32,
    merge: fn(Code, u32, u32, u32) -> u32,
    misaligned: fn(Code, u32) -> bool,
    resume: fn(&Window, usize) -> usize,
    opens: fn(Sizes) -> bool,
    takes: fn(usize, bool, Instruction) -> Result<(), &'static str>,
    tells: fn(Code) -> bool,
    issue: fn(&mut Wrong) -> Result<usize, u32>,
    execute: fn(&mut Wrong, usize) -> Result<Executed, u32>,
    squash: fn(&mut Wrong, usize) -> Result<(), u32>,
    commit: fn(&mut Wrong) -> Result<Commit, u32>,
    finish: fn(&mut Wrong, u32) -> Vec<Commit>,
    fate: fn(&Wrong) -> &'static str,
}

const RIGHT: Mutant = Mutant {
    forward: |window, k, address| Stated.forward(window, k, address),
    distance: |window, k, address, store| Stated.distance(window, k, address, store),
    violation: |window, k, address, value| Stated.violation(window, k, address, value),
    room: |window, k, address| Stated.room(window, k, address),
    operand: |window, registers, k, register| Stated.operand(window, registers, k, register),
    sum: |left, right| Stated.sum(left, right),
    word: |code, number| Stated.word(code, number),
    merge: |code, byte, word, value| Stated.merge(code, byte, word, value),
    misaligned: |code, number| Stated.misaligned(code, number),
    resume: |window, from| Stated.resume(window, from),
    opens: |sizes| Stated.opens(sizes),
    takes: |before, stepped, instruction| Stated.takes(before, stepped, instruction),
    tells: |code| Stated.tells(code),
    issue: |machine| machine.issue(),
    execute: |machine, k| machine.execute(k),
    squash: |machine, k| machine.squash(k),
    commit: |machine| machine.commit(),
    finish: |machine, limit| machine.finish(limit),
    fate: |machine| machine.fate(),
};

impl Rules for Mutant {
    fn forward(&self, window: &Window, k: usize, address: u32) -> Option<usize> {
        (self.forward)(window, k, address)
    }

    fn distance(&self, window: &Window, k: usize, address: u32, store: Option<usize>) -> usize {
        (self.distance)(window, k, address, store)
    }

    fn violation(&self, window: &Window, k: usize, address: u32, value: u32) -> Option<usize> {
        (self.violation)(window, k, address, value)
    }

    fn room(&self, window: &Window, k: usize, address: u32) -> Result<Option<usize>, u32> {
        (self.room)(window, k, address)
    }

    fn operand(&self, window: &Window, registers: &[u32; 8], k: usize, register: u32) -> Result<u32, u32> {
        (self.operand)(window, registers, k, register)
    }

    fn sum(&self, left: u32, right: u32) -> u32 {
        (self.sum)(left, right)
    }

    fn word(&self, code: Code, number: u32) -> u32 {
        (self.word)(code, number)
    }

    fn merge(&self, code: Code, byte: u32, word: u32, value: u32) -> u32 {
        (self.merge)(code, byte, word, value)
    }

    fn misaligned(&self, code: Code, number: u32) -> bool {
        (self.misaligned)(code, number)
    }

    fn resume(&self, window: &Window, from: usize) -> usize {
        (self.resume)(window, from)
    }

    fn opens(&self, sizes: Sizes) -> bool {
        (self.opens)(sizes)
    }

    fn takes(&self, before: usize, stepped: bool, instruction: Instruction) -> Result<(), &'static str> {
        (self.takes)(before, stepped, instruction)
    }

    fn tells(&self, code: Code) -> bool {
        (self.tells)(code)
    }

    fn issue(machine: &mut Wrong) -> Result<usize, u32> {
        (machine.rules.issue)(machine)
    }

    fn execute(machine: &mut Wrong, k: usize) -> Result<Executed, u32> {
        (machine.rules.execute)(machine, k)
    }

    fn squash(machine: &mut Wrong, k: usize) -> Result<(), u32> {
        (machine.rules.squash)(machine, k)
    }

    fn commit(machine: &mut Wrong) -> Result<Commit, u32> {
        (machine.rules.commit)(machine)
    }

    fn finish(machine: &mut Wrong, limit: u32) -> Vec<Commit> {
        (machine.rules.finish)(machine, limit)
    }

    fn fate(machine: &Wrong) -> &'static str {
        (machine.rules.fate)(machine)
    }
}

/// Generated scripts with what is printed for them.
fn generated() -> &'static [(Vec<u8>, Vec<u8>)] {
    static GENERATED: OnceLock<Vec<(Vec<u8>, Vec<u8>)>> = OnceLock::new();
    let both = |script: Vec<u8>| (script.clone(), play(&script));
    GENERATED.get_or_init(|| (0..SCRIPTS).map(generate).map(both).collect())
}

/// Counts how many wrong programs the scripts told apart.
#[derive(Default)]
struct Scripts {
    told: usize,
    latest: usize,
}

impl Scripts {
    /// Asserts that some of the scripts print something else under these rules.
    fn tell<R: Rules>(&mut self, name: &str, rules: R) {
        self.tell_player(name, |script, _| play_by(rules.clone(), script).out);
    }

    /// The same of a player, which is given the right output too.
    fn tell_player(&mut self, name: &str, play: impl Fn(&[u8], &[u8]) -> Vec<u8>) {
        self.tell_among(name, |_| true, play);
    }

    /// The same by scripts of these seeds.
    fn tell_among(
        &mut self,
        name: &str,
        among: impl Fn(usize) -> bool,
        play: impl Fn(&[u8], &[u8]) -> Vec<u8>,
    ) {
        let differs = |(script, output): &(Vec<u8>, Vec<u8>)| play(script, output) != *output;
        let scripts = generated().iter().enumerate().filter(|(seed, _)| among(*seed));
        let found: Vec<usize> =
            scripts.filter(|(_, both)| differs(both)).map(|(seed, _)| seed).take(ENOUGH).collect();
        println!("{name:56} {found:?}");
        assert_eq!(found.len(), ENOUGH, "{name} is told apart by {found:?} only");
        self.told += 1;
        self.latest = self.latest.max(found[ENOUGH - 1]);
    }

    fn close(&self, kind: &str) {
        println!("{} wrong {kind} told apart, the last one by script {}", self.told, self.latest);
    }
}

#[test]
fn the_right_one_is_not_told_apart() {
    for (script, output) in generated() {
        assert_eq!(play_by(RIGHT, script).out, *output);
    }
}

/// Plays by wrong rules until a check fails.
fn checked<R: Rules>(rules: R) {
    (0..SCRIPTS).for_each(|seed| drop(watch(rules.clone(), &generate(seed))));
}

#[test]
#[should_panic(expected = "three calls do not commit the next instruction")]
fn demand_3_is_checked() {
    checked(Mutant { operand: |_, registers, _, register| Ok(registers[register as usize]), ..RIGHT });
}

#[test]
#[should_panic(expected = "a commit after the end of the sequential run")]
fn demand_3_is_checked_at_an_odd_byte() {
    checked(Mutant { misaligned: |_, _| false, ..RIGHT });
}
