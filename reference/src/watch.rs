//! Counts what a text reaches, and asserts demand 3 on the way: its good lines are played once more, with a look at
//! the states around each step.

use crate::blame::blame;
use crate::check::Check;
use crate::distances::Distances;
use crate::events::{by_byte, Events, SPOILED};
use crate::kept::Kept;
use crate::machine::{Commit, Machine, PLACES};
use crate::player::{play_by, Printed, LONGEST};
use crate::rules::{Rules, MOST_INSTRUCTIONS};
use crate::sights;
use crate::text::{parse, Line, Step};
use crate::walks;
use crate::window::{Code, Execution, Instruction, Sizes, Window};

/// From here on a bad line counts as late.
const LATE: usize = 100;
/// More commits than a list of 256 places takes.
const MANY: usize = 256 / PLACES;

/// What is printed for a text, and what it reaches.
pub fn watch<R: Rules>(rules: R, text: &[u8]) -> (Vec<u8>, Events) {
    let Printed { out, bad } = play_by(rules.clone(), text);
    let mut events = Events::default();
    events.add_if(text.len() == LONGEST, "input of 65536 bytes");
    let good = match bad {
        Some((line, event)) => {
            spoiled(&mut events, text, line, event);
            events.add_if(out.iter().filter(|&&byte| byte == b'\n').count() > 1, "bad after a commit");
            line.saturating_sub(1)
        }
        None => usize::MAX,
    };
    let mut game: Option<Game<R>> = None;
    for line in text.split(|&byte| byte == b'\n').take(good) {
        let largest = line.split(|&byte| byte == b',').any(|field| field == b"4294967295");
        events.add_if(largest, "largest number");
        match (parse(line), &mut game) {
            (Some(Line::Sizes(sizes)), _) => {
                opened(&mut events, sizes);
                let (machine, check) = (Machine::new(rules.clone(), sizes), Check::new(sizes.words));
                game = Some(Game {
                    machine,
                    check,
                    stepped: false,
                    reached: 0,
                    again: Vec::new(),
                    distances: Distances::default(),
                    kept: Kept::default(),
                });
            }
            (Some(Line::Instruction(instruction)), Some(game)) => game.instruction(&mut events, instruction),
            (Some(Line::Step(step)), Some(game)) => game.step(&mut events, step),
            _ => {}
        }
    }
    if let (None, Some(game)) = (bad, &game) {
        game.end(&mut events);
    }
    (out, events)
}

/// A bad line: why it is one, and which byte is to blame.
fn spoiled(events: &mut Events, text: &[u8], number: usize, event: &str) {
    events.add(event);
    events.add_if(number >= LATE, "bad at a late line");
    let Some(number) = number.checked_sub(1) else { return };
    let line = text.split(|&byte| byte == b'\n').nth(number).unwrap_or_default();
    events.add_if(event == "line unended" && parse(line).is_some(), "line unended but good");
    if SPOILED.contains(&event) {
        let letter = String::from_utf8_lossy(&line[..1]).into_owned();
        events.add_known(&format!("{event}, {letter}"));
    }
    match parse(line) {
        None if event == "line unended" => {}
        None => {
            blame(text, number).iter().for_each(|&(way, byte)| events.add(&by_byte(way, byte)));
            let wraps = |number: u128| number > u128::from(u32::MAX) && (number as u32) < 16;
            let fields = String::from_utf8_lossy(line).into_owned();
            let wrapped = fields.split(',').any(|field| field.parse().is_ok_and(wraps));
            events.add_if(wrapped, "number of 32 bits and more that wraps to a good one");
        }
        Some(Line::Sizes(Sizes { banks, rows, stages, words })) => {
            for (letter, size) in [("B", banks), ("R", rows), ("n", stages), ("W", words)] {
                events.add_known(&format!("size outside, {letter} {size}"));
            }
        }
        Some(Line::Instruction(Instruction { code, d, s, imm })) => {
            events.add_if(d == 8, &format!("register 8, d of {code:?}"));
            events.add_if(s == 8, &format!("register 8, s of {code:?}"));
            events.add_if(code == Code::P && imm == 8, "register 8, imm of P");
        }
        Some(Line::Step(_)) => {}
    }
}

fn opened(events: &mut Events, sizes: Sizes) {
    for (letter, size) in [("B", sizes.banks), ("R", sizes.rows), ("W", sizes.words)] {
        events.add_known(&format!("size {letter} {size}"));
    }
}

/// A script after its first line.
struct Game<R> {
    machine: Machine<R>,
    check: Check,
    stepped: bool,
    /// One above the largest index issued so far.
    reached: usize,
    /// Whether the live instruction of an index was issued before.
    again: Vec<bool>,
    distances: Distances,
    kept: Kept,
}

impl<R: Rules> Game<R> {
    fn instruction(&mut self, events: &mut Events, instruction: Instruction) {
        self.machine.program.push(instruction);
        self.check.instruction(instruction);
        let Instruction { code, imm, .. } = instruction;
        events.add_if(code == Code::A && imm > 7, "A's imm above 7 taken");
    }

    fn step(&mut self, events: &mut Events, step: Step) {
        self.stepped = true;
        match step {
            Step::Issue => self.issue(events),
            Step::Execute(k) => self.execute(events, k as usize),
            Step::Squash(k) => self.squash(events, k as usize),
            Step::Commit => match self.machine.commit() {
                Ok(commit) => self.committed(events, commit, "c"),
                Err(number) => sights::uncommitted(events, &self.machine.window, number),
            },
            Step::Finish(limit) => self.finish(events, limit),
        }
        self.check.state(&self.machine);
    }

    fn issue(&mut self, events: &mut Events) {
        let position = match self.machine.issue() {
            Ok(position) => position,
            Err(number) => return events.add(&format!("refusal {number}")),
        };
        let window = &self.machine.window;
        let (index, stages) = (window.live[position].index, window.sizes.stages);
        events.add_if(window.stage(position) < window.stage(0), "issue wrapped");
        events.add_if(position + 1 == stages as usize, &format!("window full, n {stages:2}"));
        self.again.resize(self.again.len().max(index + 1), false);
        self.again[index] = index < self.reached;
        self.reached = self.reached.max(index + 1);
        self.distances.issued(index, stages as usize);
    }

    fn execute(&mut self, events: &mut Events, k: usize) {
        let (before, registers) = (self.machine.window.clone(), self.machine.registers);
        if let Err(number) = self.machine.execute(k) {
            if number == 10 {
                walks::refused(events, &before, k, self.word(k));
            }
            return sights::unexecuted(events, &before, k, number);
        }
        let overtaken = before.live[k + 1..].iter().any(|entry| !entry.waits());
        if overtaken && self.again.get(before.live[k].index) == Some(&true) {
            events.add("re-issued executed late");
            events.add_if(before.stage(k) < before.stage(0), "re-issued executed late, wrapped");
        }
        let entry = self.machine.window.live[k];
        events.add_if(k == 0 && self.machine.past(&entry), "fault by e");
        events.add_if(k == 0 && self.stopped_by_odd(), "fault by e of an odd H");
        sights::executed(events, &before, &registers, &self.machine.memory, k, entry);
        let left = self.machine.window.live.len();
        self.noted(events, &Execution { before: &before, k, entry, left, finished: false });
    }

    /// The word of a load or store whose operands are known.
    fn word(&self, k: usize) -> u32 {
        let Machine { rules, window, registers, .. } = &self.machine;
        let Instruction { code, s, imm, .. } = window.live[k].instruction;
        let base = rules.operand(window, registers, k, s).unwrap_or(0);
        rules.word(code, rules.sum(base, imm))
    }

    /// How far the word of an execution came, what it did to the load sides that it met, and where a row was
    /// found.
    fn noted(&mut self, events: &mut Events, execution: &Execution) {
        self.check.executed(execution, &self.machine.memory);
        self.kept.executed(events, execution, &self.machine.memory);
        walks::executed(events, execution);
        if let Some(by) = execution.squashed_by() {
            self.squashed(events, execution.before, execution.left, by);
        }
        self.distances.executed(events, execution, &self.machine.memory);
    }

    /// Everything from a position on.
    fn squashed(&mut self, events: &mut Events, before: &Window, from: usize, by: &'static str) {
        self.distances.squashed(before, from, by);
        self.kept.squashed(events, before, from, by);
    }

    fn squash(&mut self, events: &mut Events, k: usize) {
        let window = self.machine.window.clone();
        let before = &window.live;
        let (faulted, odd) = (self.machine.faulted(), self.stopped_by_odd());
        match self.machine.squash(k) {
            Ok(()) => {
                events.add_if(k == 0, "q of the oldest");
                events.add_if(k > 0 && k + 1 == before.len(), "q of the youngest");
                events.add_if(before[k..].iter().any(|entry| !entry.waits()), "q of executed ones");
                events.add_if(faulted && k == 0, "fault squashed");
                events.add_if(odd && k == 0, "fault of an odd H squashed");
                self.squashed(events, &window, k, "q");
            }
            Err(number) => events.add(&format!("refusal {number} of q")),
        }
    }

    fn committed(&mut self, events: &mut Events, commit: Commit, step: &'static str) {
        let Commit { index, code, target, value, .. } = commit;
        events.add_if(!code.stores() && target == 0, "register 0 written");
        events.add_if(value >= 1 << 31, "word above 2147483647");
        events.add_if(self.machine.faulted(), "fault by c or x, executed before");
        events.add_if(self.stopped_by_odd(), "fault by c or x of an odd H, executed before");
        if code.is_part() {
            let words = self.machine.window.sizes.words;
            let mut add_if = |reached, what: &str| events.add_if(reached, &format!("{code:?} {what}"));
            add_if(true, &format!("committed at byte {}", target % 4));
            add_if(target >= words, "committed at a byte number of W or more");
            add_if(value >= 1 << 31, "committed with a word above 2147483647");
            events.add_if(code == Code::B && target == 4 * words - 1, "B committed at byte 4W - 1");
            events.add_if(code == Code::H && target == 4 * words - 2, "H committed at byte 4W - 2");
        }
        self.check.committed(commit);
        self.distances.committed(events, index, step);
        self.kept.committed(events, index, code, step);
    }

    /// The oldest is an H at an odd byte number, below the end of memory.
    fn stopped_by_odd(&self) -> bool {
        let oldest = self.machine.window.live.first();
        oldest.is_some_and(|oldest| sights::odd(oldest) && !self.machine.past(oldest))
    }

    fn finish(&mut self, events: &mut Events, limit: u32) {
        events.add_if(limit == 0, "x limit 0");
        events.add_if(limit == 1, "x limit 1");
        events.add_if(limit > 256, "x limit above 256");
        events.add_if(limit >= 1 << 31, "x limit above 2147483647");
        for round in 0..limit {
            let (live, faulted) = (self.machine.window.live.len(), self.machine.faulted());
            let odd = self.stopped_by_odd();
            events.add_if(self.machine.done(), "x ended by the program's end");
            self.tried(events);
            let answer = self.machine.advance();
            events.add_if(!faulted && self.machine.faulted(), "fault by x");
            events.add_if(!odd && self.stopped_by_odd(), "fault by x of an odd H");
            events.add_if(self.machine.window.live.len() + 1 < live, "x squashed");
            events.add_if(answer.is_some() && round as usize == MANY, "x of more than 51 commits");
            self.reached = self.reached.max(self.machine.next);
            let Some(commit) = answer else { return };
            self.committed(events, commit, "x");
        }
        let left = self.machine.window.live.iter().any(|entry| !entry.waits());
        events.add_if(limit > 0, "x ended by its limit");
        events.add_if(limit > 0 && left, "x left live ones executed");
    }

    /// Notes what the next round of a finish executes, if it executes anything.
    fn tried(&mut self, events: &mut Events) {
        let mut tried = self.machine.clone();
        if tried.window.live.is_empty() && tried.issue().is_err() || !tried.window.live[0].waits() {
            return;
        }
        let before = tried.window.clone();
        if tried.execute(0).is_ok() {
            let (entry, left) = (tried.window.live[0], tried.window.live.len());
            self.noted(events, &Execution { before: &before, k: 0, entry, left, finished: true });
        }
    }

    fn end(&self, events: &mut Events) {
        let Machine { program, window, memory, next, .. } = &self.machine;
        events.add_if(program.is_empty(), "program empty");
        events.add_if(program.len() == MOST_INSTRUCTIONS, "256 instructions");
        events.add_if(!self.stepped, "no steps");
        events.add_if(memory[0] != 0, "m line of word 0");
        events.add_if(memory.get(4095).is_some_and(|word| *word != 0), "m line of word 4095");
        let all_issued = *next == program.len();
        events.add_if(self.machine.done() && program.len() == MOST_INSTRUCTIONS, "256 commits");
        let Some(oldest) = window.live.first() else {
            let fate = if all_issued { "end done" } else { "end open" };
            events.add(fate);
            events.add_if(!all_issued, "end open, none live");
            events.add_if(!all_issued && self.check.ahead().is_none(), "end open, the next would fault");
            return events.add_if(self.would_be_odd(), "end open, the next would be an odd H");
        };
        if self.machine.faulted() {
            let place = match (sights::odd(oldest), self.machine.past(oldest)) {
                (true, false) => "an odd H below W",
                (true, true) => "an odd H at W or more",
                _ => "an even H",
            };
            events.add_if(oldest.is(Code::H), &format!("end fault of {place}"));
            return events.add(&format!("end fault of {:?}", oldest.code()));
        }
        events.add("end open");
        let number = oldest.access().map_or(0, |access| access.number);
        events.add_if(oldest.is(Code::B) && number % 2 == 1, "end open, the oldest is an odd B");
        let beyond = oldest.code().is_part() && number >= window.sizes.words;
        events.add_if(beyond, "end open, the oldest is a part at a byte number of W or more");
        events.add_if(all_issued, "end open, all issued");
        let would = oldest.waits() && self.check.ahead().is_none();
        events.add_if(would, "end open, the oldest waits and would fault");
        let odd = oldest.waits() && self.would_be_odd();
        events.add_if(odd, "end open, the oldest waits and would be an odd H");
        let mut younger = window.live[1..].iter();
        let past = younger.clone().any(|entry| self.machine.past(entry));
        events.add_if(past, "end open, a younger one is past the end");
        let odd = younger.any(|entry| sights::odd(entry) && !self.machine.past(entry));
        events.add_if(odd, "end open, a younger one is an odd H");
    }

    /// The next that the sequential run comes to is an H at an odd byte number.
    fn would_be_odd(&self) -> bool {
        let mut tried = self.machine.clone();
        let stopped = tried.advance().is_none() && tried.faulted();
        stopped && tried.window.live.first().is_some_and(|oldest| sights::odd(oldest) && !tried.past(oldest))
    }
}
