//! The steps of a script, chosen by the state that they lead to.

use crate::machine::Machine;
use crate::random::Random;
use crate::rules::Stated;
use crate::text::Step;
use crate::window::{Instruction, Sizes};

/// Which waiting position is executed next.
#[derive(Clone, Copy)]
pub enum Order {
    Oldest,
    Youngest,
    Any,
    LoadsFirst,
}

/// Chooses steps by the state that they lead to, in rounds of issues, executions and commits.
pub struct Prober<'a> {
    random: &'a mut Random,
    machine: Machine<Stated>,
    steps: Vec<Step>,
}

impl<'a> Prober<'a> {
    pub fn new(random: &'a mut Random, sizes: Sizes, program: Vec<Instruction>) -> Self {
        let mut machine = Machine::new(Stated, sizes);
        machine.program = program;
        Prober { random, machine, steps: Vec::new() }
    }

    /// The first instructions are finished and a whole window is issued after them.
    pub fn start(&mut self, finished: u32) {
        self.take(Step::Finish(finished));
        self.fill();
    }

    /// As many issues as there are stages.
    pub fn fill(&mut self) {
        (0..self.machine.window.sizes.stages).for_each(|_| self.take(Step::Issue));
    }

    pub fn executes(&mut self, positions: &[u32]) {
        positions.iter().for_each(|&k| self.take(Step::Execute(k)));
    }

    /// Executes the live one of an index.
    pub fn execute_index(&mut self, index: usize) {
        self.position(index).into_iter().for_each(|k| self.take(Step::Execute(k)));
    }

    pub fn squash_index(&mut self, index: usize) {
        self.position(index).into_iter().for_each(|k| self.take(Step::Squash(k)));
    }

    fn position(&self, index: usize) -> Option<u32> {
        self.machine.window.live.iter().position(|entry| entry.index == index).map(|k| k as u32)
    }

    /// Commits the live ones up to an index, and executes those that wait before.
    pub fn commit_through(&mut self, index: usize) {
        for _ in 0..self.position(index).map_or(0, |k| k + 1) {
            if self.machine.window.live.first().is_some_and(|oldest| oldest.waits()) {
                self.take(Step::Execute(0));
            }
            self.take(Step::Commit);
        }
    }

    /// Issues what comes before an index.
    pub fn issue_before(&mut self, index: usize) {
        (self.machine.next..index).for_each(|_| self.take(Step::Issue));
    }

    /// Finishes what comes before an index.
    pub fn finish_before(&mut self, index: usize) {
        let Machine { window, next, .. } = &self.machine;
        let oldest = window.live.first().map_or(*next, |oldest| oldest.index);
        self.take(Step::Finish((index - oldest) as u32));
    }

    pub fn finish_through(&mut self, index: usize) {
        self.position(index).into_iter().for_each(|k| self.take(Step::Finish(k + 1)));
    }

    /// Every waiting one once, in this order.
    pub fn all(&mut self, order: Order) {
        let mut positions: Vec<u32> = (0..self.machine.window.live.len() as u32).collect();
        match order {
            Order::Oldest => {}
            Order::Youngest => positions.reverse(),
            _ => self.shuffle(&mut positions),
        }
        for k in positions {
            if self.machine.window.live.get(k as usize).is_some_and(|entry| entry.waits()) {
                self.take(Step::Execute(k));
            }
        }
    }

    /// All positions but these, in any order.
    pub fn rest(&mut self, without: &[usize]) {
        let others = (0..self.machine.window.live.len()).filter(|k| !without.contains(k));
        let mut others: Vec<u32> = others.map(|k| k as u32).collect();
        self.shuffle(&mut others);
        self.executes(&others);
    }

    /// Squashes or executions of every position so far above it.
    pub fn cut(&mut self, above: u32) {
        let squashes = self.heads();
        for k in 0..self.machine.window.live.len() as u32 {
            self.take(if squashes { Step::Squash(above + k) } else { Step::Execute(above + k) });
        }
    }

    /// The steps so far, and none after them.
    pub fn stop(self) -> Vec<Step> {
        self.steps
    }

    pub fn commit_all(mut self) -> Vec<Step> {
        (0..=self.machine.window.live.len()).for_each(|_| self.take(Step::Commit));
        self.steps
    }

    /// Commits what is live, and mostly ends there: once everything is committed nothing shows any more.
    pub fn show(mut self) -> Vec<Step> {
        self.sweep();
        if self.random.one_in(3) {
            return self.probe(60);
        }
        self.steps
    }

    pub fn heads(&mut self) -> bool {
        self.random.one_in(2)
    }

    fn shuffle(&mut self, positions: &mut [u32]) {
        (1..positions.len()).for_each(|last| positions.swap(last, self.random.below(last + 1)));
    }

    pub fn probe(mut self, budget: usize) -> Vec<Step> {
        if self.steps.is_empty() && self.random.one_in(2) {
            let limit = self.random.number(5);
            self.take(Step::Finish(limit));
        }
        let budget = self.steps.len() + budget;
        while self.steps.len() < budget {
            self.issues();
            self.executions();
            if self.random.one_in(3) {
                self.sweep();
            } else {
                self.commits();
            }
            if (self.machine.done() || self.machine.faulted()) && self.random.one_in(2) {
                break;
            }
        }
        self.close();
        self.steps
    }

    pub fn take(&mut self, step: Step) {
        self.steps.push(step);
        // A refusal is as good a step as any other.
        match step {
            Step::Issue => drop(self.machine.issue()),
            Step::Execute(k) => drop(self.machine.execute(k as usize)),
            Step::Squash(k) => drop(self.machine.squash(k as usize)),
            Step::Commit => drop(self.machine.commit()),
            Step::Finish(k) => drop(self.machine.finish(k)),
        }
    }

    fn issues(&mut self) {
        let stages = self.machine.window.sizes.stages as usize;
        let free = stages - self.machine.window.live.len();
        let some = self.random.below(stages + 1);
        for _ in 0..self.random.pick(&[free, free, free, free + 1, some, 1]) {
            self.take(Step::Issue);
        }
    }

    fn executions(&mut self) {
        let live = self.machine.window.live.len();
        let orders = [Order::Oldest, Order::Youngest, Order::Any, Order::Any, Order::LoadsFirst];
        let order = self.random.pick(&orders);
        for _ in 0..self.random.pick(&[live / 2, live, live + 2, live + 2]) {
            match self.random.below(32) {
                0 => self.odd(),
                1 => self.take(Step::Issue),
                2 => self.again(),
                _ => {
                    let Some(k) = self.waiting(order) else { return };
                    self.take(Step::Execute(k));
                }
            }
        }
    }

    /// A step that leaves the order: a squash, or a position that is executed or not there.
    fn odd(&mut self) {
        let near = self.random.number(self.machine.window.live.len() as u32 + 2);
        let far = self.random.pick(&[255, 256, 257, 65_536, 65_537, u32::MAX - 1, u32::MAX]);
        let k = self.random.pick(&[near, near, near, far]);
        let step = self.random.pick(&[Step::Squash(k), Step::Execute(k), Step::Finish(0), Step::Finish(1)]);
        self.take(step);
    }

    /// An execution of one that has executed.
    fn again(&mut self) {
        let live = &self.machine.window.live;
        let executed: Vec<usize> = (0..live.len()).filter(|&p| !live[p].waits()).collect();
        if !executed.is_empty() {
            let k = self.random.pick(&executed);
            self.take(Step::Execute(k as u32));
        }
    }

    fn waiting(&mut self, order: Order) -> Option<u32> {
        let live = &self.machine.window.live;
        let mut waiting: Vec<usize> = (0..live.len()).filter(|&p| live[p].waits()).collect();
        if matches!(order, Order::LoadsFirst) && waiting.iter().any(|&p| live[p].code().loads()) {
            waiting.retain(|&p| live[p].code().loads());
        }
        let position = match order {
            // Now and then another one, as the first can wait for a writer or a row.
            Order::Oldest if !self.random.one_in(5) => waiting.first().copied(),
            Order::Youngest if !self.random.one_in(3) => waiting.last().copied(),
            _ if waiting.is_empty() => None,
            _ => Some(self.random.pick(&waiting)),
        };
        position.map(|position| position as u32)
    }

    /// Executes what waits, or would if more were live than should be, and commits it all. No new issue makes
    /// up for a wrong squash.
    pub fn sweep(&mut self) {
        let live = self.machine.window.live.len();
        for k in 0..live + 2 {
            if self.machine.window.live.get(k).is_none_or(|entry| entry.waits()) {
                self.take(Step::Execute(k as u32));
            }
        }
        (0..live + 2).for_each(|_| self.take(Step::Commit));
    }

    /// Commits without new issues show what is left live after the executions.
    fn commits(&mut self) {
        let live = self.machine.window.live.len();
        let some = self.random.below(live + 1);
        match self.random.below(12) {
            0 => {
                let limit = self.random.pick(&[0, 1, 1, 2, 3, some as u32]);
                self.take(Step::Finish(limit));
                if self.random.one_in(2) {
                    self.sweep();
                }
            }
            1 => self.odd(),
            2 => {}
            _ => {
                for _ in 0..self.random.pick(&[some, some, live, live + 1, 1]) {
                    self.take(Step::Commit);
                }
            }
        }
    }

    fn close(&mut self) {
        if self.machine.faulted() && self.random.one_in(2) {
            return self.undo_fault();
        }
        let live = self.machine.window.live.len();
        match self.random.below(8) {
            0..=2 => {}
            3..=4 => (0..=live).for_each(|_| self.take(Step::Commit)),
            5 => self.take(Step::Finish(u32::MAX)),
            6 => self.take(Step::Finish(300)),
            _ => {
                let (few, some) = (self.random.number(9), self.random.number(257));
                let limit = self.random.pick(&[few, some]);
                self.take(Step::Finish(limit));
            }
        }
    }

    /// The oldest, which is past the end of memory, waits again or is not even live; some after it are executed.
    fn undo_fault(&mut self) {
        self.take(Step::Squash(0));
        if self.random.one_in(3) {
            return;
        }
        let issues = self.random.pick(&[1, 1, 4]);
        (0..issues).for_each(|_| self.take(Step::Issue));
        (1..issues).for_each(|k| self.take(Step::Execute(k)));
    }
}
