//! What the script program prints for a text.

use crate::machine::{Commit, Machine};
use crate::rules::{Rules, Stated};
use crate::text::{parse, why, Line, Step};
use crate::window::Instruction;

pub const LONGEST: usize = 65_536;

pub fn play(text: &[u8]) -> Vec<u8> {
    play_by(Stated, text).out
}

/// What is printed, and the bad line that ends it with the event that it counts for.
pub struct Printed {
    pub out: Vec<u8>,
    pub bad: Option<(usize, &'static str)>,
}

pub fn play_by<R: Rules>(rules: R, text: &[u8]) -> Printed {
    let mut player = Player { rules, game: None, out: Vec::new() };
    let bad = if text.len() > LONGEST { Some((0, "input longer")) } else { player.lines(text) };
    match bad {
        Some((line, _)) => player.out.extend(format!("bad,{line}\n").bytes()),
        None => player.end(),
    }
    Printed { out: player.out, bad }
}

struct Player<R> {
    rules: R,
    game: Option<Game<R>>,
    out: Vec<u8>,
}

/// A script after its first line.
struct Game<R> {
    machine: Machine<R>,
    commits: usize,
    stepped: bool,
}

impl<R: Rules> Player<R> {
    /// The first bad line, if there is one.
    fn lines(&mut self, text: &[u8]) -> Option<(usize, &'static str)> {
        if text.is_empty() {
            return Some((1, "input empty"));
        }
        for (before, line) in text.split_inclusive(|&byte| byte == b'\n').enumerate() {
            let Some(line) = line.strip_suffix(b"\n") else { return Some((before + 1, "line unended")) };
            if let Err(event) = self.line(line) {
                return Some((before + 1, event));
            }
        }
        None
    }

    fn line(&mut self, text: &[u8]) -> Result<(), &'static str> {
        let line = parse(text).ok_or_else(|| why(text))?;
        match (line, &mut self.game) {
            (Line::Sizes(sizes), None) if self.rules.opens(sizes) => {
                let machine = Machine::new(self.rules.clone(), sizes);
                self.game = Some(Game { machine, commits: 0, stepped: false });
            }
            (Line::Sizes(_), None) => return Err("size outside limits"),
            (Line::Sizes(_), Some(_)) => return Err("second N"),
            (_, None) => return Err("first line not N"),
            (Line::Instruction(instruction), Some(game)) => game.instruction(instruction)?,
            (Line::Step(step), Some(game)) => game.step(step, &mut self.out),
        }
        Ok(())
    }

    fn end(&mut self) {
        let Some(Game { machine, commits, .. }) = &self.game else { return };
        for (address, value) in machine.memory.iter().enumerate().filter(|(_, value)| **value != 0) {
            self.out.extend(format!("m,{address},{value}\n").bytes());
        }
        self.out.extend(format!("end,{},{commits}\n", R::fate(machine)).bytes());
    }
}

impl<R: Rules> Game<R> {
    fn instruction(&mut self, instruction: Instruction) -> Result<(), &'static str> {
        self.machine.rules.takes(self.machine.program.len(), self.stepped, instruction)?;
        self.machine.program.push(instruction);
        Ok(())
    }

    /// A refused step does nothing.
    fn step(&mut self, step: Step, out: &mut Vec<u8>) {
        self.stepped = true;
        let machine = &mut self.machine;
        match step {
            Step::Issue => drop(R::issue(machine)),
            Step::Execute(k) => drop(R::execute(machine, k as usize)),
            Step::Squash(k) => drop(R::squash(machine, k as usize)),
            Step::Commit => R::commit(machine).into_iter().for_each(|commit| self.print(commit, out)),
            Step::Finish(k) => R::finish(machine, k).into_iter().for_each(|commit| self.print(commit, out)),
        }
    }

    fn print(&mut self, commit: Commit, out: &mut Vec<u8>) {
        let Commit { index, code, target, value, distance } = commit;
        if self.machine.rules.tells(code) {
            out.extend(format!("f,{index},{distance}\n").bytes());
        }
        out.extend(format!("{index},{code:?},{target},{value}\n").bytes());
        self.commits += 1;
    }
}
