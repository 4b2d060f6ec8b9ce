//! The search for a row to evict, seen from the tail: it looks at the marked stages of the bank one after the
//! other, from the youngest position down. One that is its row's oldest mark is found; one that is not
//! younger than the executing one ends the search without a row. That the rule chose the row found is
//! asserted.

use crate::events::Events;
use crate::window::{Code, Entry, Execution, Window};

/// As many stages as there can be.
const MOST: usize = 16;
/// What a mark can be to the search.
const MARKS: [&str; 3] = ["a load mark", "a store mark", "both marks"];
/// What can be younger than every mark of the bank.
const UNMARKED: [&str; 3] = ["one that waits", "one of another bank", "a sum"];
/// Whose younger mark can be passed.
const PASSED: [&str; 3] =
    ["the row found", "a row older than the executing one", "a row younger than the executing one"];
/// What is told for every number of stages and for every stage that a window starts at: the least number, and
/// the first and the last of these stages.
const PLACED: [(&str, usize, usize, usize); 5] = [
    ("eviction past another mark", 3, 0, 15),
    ("eviction before the wrap", 3, 1, 15),
    ("eviction across the wrap", 3, 1, 14),
    ("refusal 10 past another mark", 3, 0, 15),
    ("refusal 10 across the wrap", 3, 1, 15),
];

/// The kinds of events that this file tells.
pub fn kinds() -> Vec<String> {
    let mut kinds: Vec<String> =
        (1..MOST).map(|count| format!("eviction after {count:2} marked stages")).collect();
    kinds.extend((0..MOST - 1).map(|count| format!("refusal 10 after {count:2} marked stages")));
    for stages in 2..=MOST {
        kinds.extend((0..stages).map(|start| format!("eviction, n {stages:2} from stage {start:2}")));
    }
    kinds.extend((2..=MOST).map(|stages| format!("eviction in a window up to the last stage, n {stages:2}")));
    for (what, least, from, to) in PLACED {
        kinds.extend((least..=MOST).map(|stages| format!("{what}, n {stages:2}")));
        kinds.extend((from..=to).map(|start| format!("{what}, from stage {start:2}")));
    }
    kinds.extend((1..=MOST - 3).map(|positions| format!("eviction after a jump over {positions:2}")));
    kinds.extend((1..=MOST - 2).map(|positions| format!("eviction, the first jump over {positions:2}")));
    kinds.extend(UNMARKED.map(|what| format!("eviction, the first jump over {what}")));
    kinds.extend(MARKS.map(|mark| format!("eviction past {mark}")));
    kinds.extend(MARKS.map(|mark| format!("eviction at {mark}, past another")));
    kinds.extend(PASSED.map(|row| format!("eviction past a mark of {row}")));
    kinds
}

/// An execution that was not refused.
pub fn executed(events: &mut Events, execution: &Execution) {
    let Execution { before, k, entry, left, .. } = *execution;
    let (Some("eviction"), Some(word)) = (execution.squashed_by(), entry.mark()) else { return };
    let walk = Walk::new(before, k, word);
    assert_eq!(walk.found(), Some(left), "the search from the tail finds another row");
    walk.evicts(events, left);
}

/// Position `k` got refusal 10 at this word.
pub fn refused(events: &mut Events, before: &Window, k: usize, word: u32) {
    let walk = Walk::new(before, k, word);
    assert_eq!(walk.found(), None, "no row although the search from the tail finds one");
    walk.stalls(events);
}

/// A search in the bank of a word for position `k`.
pub struct Walk<'a> {
    window: &'a Window,
    k: usize,
    bank: u32,
    /// The positions looked at that are younger than `k`, the youngest first.
    pub looked: Vec<usize>,
}

impl<'a> Walk<'a> {
    pub fn new(window: &'a Window, k: usize, word: u32) -> Self {
        let mut walk = Walk { window, k, bank: window.sizes.bank(word), looked: Vec::new() };
        let mut next = walk.marked_below(window.live.len());
        while let Some(p) = next.filter(|&p| p > k) {
            walk.looked.push(p);
            next = if walk.starts_row(p) { None } else { walk.marked_below(p) };
        }
        walk
    }

    /// Where everything is squashed from.
    pub fn found(&self) -> Option<usize> {
        self.looked.last().copied().filter(|&p| self.starts_row(p))
    }

    /// Whether a position is marked in the bank.
    fn marked(&self, p: usize) -> bool {
        let of_bank = |word| self.window.sizes.bank(word) == self.bank;
        self.window.live[p].mark().is_some_and(of_bank)
    }

    fn marked_below(&self, p: usize) -> Option<usize> {
        (0..p).rfind(|&older| self.marked(older))
    }

    /// Whether a mark is its row's oldest.
    fn starts_row(&self, p: usize) -> bool {
        self.oldest(p) == p
    }

    /// The oldest mark of the row of this one.
    fn oldest(&self, p: usize) -> usize {
        let Window { live, .. } = self.window;
        (0..p).find(|&older| live[older].mark() == live[p].mark()).unwrap_or(p)
    }

    fn evicts(&self, events: &mut Events, from: usize) {
        let Walk { window, looked, .. } = self;
        let (stages, count, first) = (window.sizes.stages as usize, looked.len(), looked[0]);
        let (start, last) = (window.stage(0), window.stage(window.live.len() - 1));
        events.add(&format!("eviction after {count:2} marked stages"));
        events.add(&format!("eviction, n {stages:2} from stage {start:2}"));
        self.placed_if(events, count > 1, "eviction past another mark");
        let beyond = |older| self.marked(older) && window.stage(older) > window.stage(from);
        self.placed_if(events, (0..from).any(beyond), "eviction before the wrap");
        self.placed_if(events, window.stage(first) < window.stage(from), "eviction across the wrap");
        let ends = last + 1 == stages;
        events.add_if(ends, &format!("eviction in a window up to the last stage, n {stages:2}"));
        for pair in looked.windows(2).filter(|pair| pair[0] > pair[1] + 1) {
            events.add(&format!("eviction after a jump over {:2}", pair[0] - pair[1] - 1));
        }
        let younger = &window.live[first + 1..];
        events.add_if(!younger.is_empty(), &format!("eviction, the first jump over {:2}", younger.len()));
        younger.iter().for_each(|e| events.add(&format!("eviction, the first jump over {}", unmarked(e))));
        for &passed in &looked[..count - 1] {
            events.add(&format!("eviction past {}", mark(&window.live[passed])));
            events.add(&format!("eviction past a mark of {}", self.row(passed, from)));
        }
        events.add_if(count > 1, &format!("eviction at {}, past another", mark(&window.live[from])));
    }

    fn stalls(&self, events: &mut Events) {
        let Walk { window, looked, .. } = self;
        events.add(&format!("refusal 10 after {:2} marked stages", looked.len()));
        let (Some(&first), Some(end)) = (looked.first(), self.marked_below(self.k)) else { return };
        self.placed_if(events, true, "refusal 10 past another mark");
        self.placed_if(events, window.stage(first) < window.stage(end), "refusal 10 across the wrap");
    }

    fn placed_if(&self, events: &mut Events, reached: bool, what: &str) {
        events.add_if(reached, &format!("{what}, n {:2}", self.window.sizes.stages));
        events.add_if(reached, &format!("{what}, from stage {:2}", self.window.stage(0)));
    }

    /// Whose mark is passed on the way to the one that is found.
    fn row(&self, passed: usize, found: usize) -> &'static str {
        match self.oldest(passed) {
            oldest if oldest == found => PASSED[0],
            oldest if oldest < self.k => PASSED[1],
            _ => PASSED[2],
        }
    }
}

/// What a reference is marked with.
fn mark(entry: &Entry) -> &'static str {
    match entry.code() {
        Code::L => MARKS[0],
        Code::S => MARKS[1],
        _ => MARKS[2],
    }
}

/// Why one is without a mark of the bank.
fn unmarked(entry: &Entry) -> &'static str {
    match entry.mark() {
        _ if entry.waits() => UNMARKED[0],
        Some(_) => UNMARKED[1],
        None => UNMARKED[2],
    }
}
