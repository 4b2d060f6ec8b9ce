//! Load sides that an older store meets: those that took the word stored are kept, the others are squashed. Counted when
//! they are met, and a kept one once more when it commits, since only then it shows.

use crate::events::Events;
use crate::rules::{Rules, Stated};
use crate::sights::odd;
use crate::window::{Code, Entry, Execution, Instruction, Window};
use std::collections::HashMap;

#[derive(Default)]
pub struct Kept {
    /// The stores that kept a live load side, by its index: the index and the code of each.
    keepers: HashMap<usize, Vec<(usize, Code)>>,
}

/// A store, and a younger load side that is the first one at its word.
struct Met<'a> {
    before: &'a Window,
    k: usize,
    store: Entry,
    first: usize,
    load: Entry,
    stored: u32,
    taken: u32,
    /// The word in memory, 0 at W or more.
    memory: u32,
}

impl Kept {
    pub fn executed(&mut self, events: &mut Events, execution: &Execution, memory: &[u32]) {
        let Execution { before, k, entry: store, left, finished } = *execution;
        let (true, Some(word), Some(stored)) = (store.code().stores(), store.mark(), store.value()) else {
            return;
        };
        if execution.squashed_by() == Some("eviction") {
            let same = before.live[left].taken() == Some(stored);
            return events.add_if(same, "eviction by a store of the word taken");
        }
        let Some(first) = (k + 1..before.live.len()).find(|&p| before.live[p].mark() == Some(word)) else {
            return;
        };
        let load = before.live[first];
        let Some(taken) = load.taken() else { return };
        let memory = memory.get(word as usize).copied().unwrap_or(0);
        let met = Met { before, k, store, first, load, stored, taken, memory };
        let (code, other) = (store.code(), load.code());
        let earlier = self.keepers.contains_key(&load.index);
        if taken == stored {
            events.add_if(finished, &format!("kept by x, {code:?} and {other:?}"));
            events.add_if(earlier, &format!("kept again, {code:?} and {other:?}"));
            met.kept(events);
            self.keepers.entry(load.index).or_default().push((store.index, code));
        } else {
            events.add_if(finished, &format!("violation by x, {code:?} and {other:?}"));
            events.add_if(earlier, &format!("violation of one kept before, {code:?} and {other:?}"));
            met.violated(events);
            let keeper = |(keeper, _): &(usize, Code)| *keeper == load.index;
            let behind =
                |entry: &Entry| self.keepers.get(&entry.index).is_some_and(|by| by.iter().any(keeper));
            events.add_if(before.live[first..].iter().any(behind), "violation of a part that kept another");
        }
    }

    /// Everything from a position on is squashed.
    pub fn squashed(&mut self, events: &mut Events, before: &Window, from: usize, by: &str) {
        for entry in &before.live[from..] {
            let kept = self.keepers.remove(&entry.index).is_some();
            events.add_if(kept, &format!("kept, then squashed by {by}"));
        }
    }

    pub fn committed(&mut self, events: &mut Events, index: usize, code: Code, step: &str) {
        let Some(keepers) = self.keepers.remove(&index) else { return };
        for (_, store) in &keepers {
            events.add(&format!("kept and committed, {store:?} and {code:?}"));
        }
        events.add(&format!("kept and committed by {step}"));
        events.add_if(keepers.len() > 1, "kept more than once and committed");
    }
}

impl Met<'_> {
    fn kept(&self, events: &mut Events) {
        let Met { before, k, store, first, load, stored, taken, memory } = *self;
        let (code, other, sizes, live) = (store.code(), load.code(), before.sizes, &before.live);
        let positions = first - k;
        events.add(&format!("kept over {positions:2} of {other:?} by {code:?}"));
        events.add(&format!("kept, B {} R {}", sizes.banks, sizes.rows));
        events.add(&format!("kept at stage {:2}", before.stage(first)));
        let wrapped = before.stage(first) < before.stage(k);
        events.add_if(wrapped, &format!("kept over {positions:2} across the wrap"));
        let longest = positions + 1 == sizes.stages as usize;
        events.add_if(longest, &format!("kept over n - 1, n {:2}", sizes.stages));
        let word = load.mark().unwrap_or(0);
        let forwarded = Stated.forward(before, first, word).is_some();
        let whence = if forwarded { "of an older store" } else { "of memory" };
        events.add(&format!("kept, {} {whence}", if taken == 0 { "0" } else { "a word" }));
        events.add_if(word == 0, "kept at word 0");
        let outside =
            if forwarded { "kept at W or more, a word of an older store" } else { "kept at W or more" };
        events.add_if(word >= sizes.words, outside);
        events.add_if(taken != memory, "kept, memory has another word");
        events.add_if(taken >= 1 << 31, "kept, a word above 2147483647");
        let more = code.is_part() && stored & !self.part() != 0;
        events.add_if(more, &format!("kept by {code:?}, the word has more than its part"));
        let same = if load.value() == Some(stored) { "the same" } else { "another" };
        events.add_if(other.is_part(), &format!("kept, {other:?} that stored {same} word"));
        events.add_if(odd(&load), "kept, an odd H");
        events.add_if(odd(&store), "kept by an odd H");
        let full = before.rows(sizes.bank(word)).len() == sizes.rows as usize;
        events.add_if(full, "kept in a full bank");
        let waits = |entry: &Entry| entry.code().stores() && entry.waits();
        events.add_if(live[k + 1..first].iter().any(waits), "kept, a store waits between");
        let Instruction { d, .. } = load.instruction;
        let used =
            |p: usize| !live[p].waits() && live[p].instruction.s == d && writer(before, p, d) == Some(first);
        events.add_if(other == Code::L && (first..live.len()).any(used), "kept, its register was used");
        self.behind(events);
    }

    /// What stands behind a kept one at its word: the walk does not come to it.
    fn behind(&self, events: &mut Events) {
        let at_word = |entry: &&Entry| entry.mark() == self.load.mark();
        let mut behind = self.before.live[self.first + 1..].iter().filter(at_word);
        let Some(next) = behind.next() else { return };
        let (further, store) = if next.is(Code::S) {
            (behind.find(|e| e.code().loads()), " and an S")
        } else {
            (Some(next), "")
        };
        let Some(further) = further else { return };
        let same = if further.taken() == Some(self.stored) { "the same" } else { "another" };
        events.add(&format!("kept, behind it{store} one that took {same} word"));
        events.add_if(
            same == "another",
            &format!("kept, behind it {:?} that took another word", further.code()),
        );
    }

    fn violated(&self, events: &mut Events) {
        let Met { store, load, stored, taken, memory, .. } = *self;
        let unlike = taken ^ stored;
        for bits in [8, 16, 31] {
            events
                .add_if(unlike.trailing_zeros() >= bits, &format!("violation, {bits} lower bits are alike"));
            events.add_if(unlike.leading_zeros() >= bits, &format!("violation, {bits} upper bits are alike"));
        }
        events.add_if(taken == 0, "violation of a word 0");
        events.add_if(stored == 0, "violation by a word 0");
        events.add_if(stored == memory, "violation by memory's word");
        let (code, other) = (store.code(), load.code());
        let same = other.is_part() && load.value() == Some(stored);
        events.add_if(same, &format!("violation, {other:?} that stored the same word"));
        let alike = code.is_part() && (stored & self.part()) >> self.part().trailing_zeros() == taken;
        events.add_if(alike, &format!("violation by {code:?}, its part is the word taken"));
    }

    /// The bits that a store of a part puts into its word.
    fn part(&self) -> u32 {
        let number = self.store.access().map_or(0, |access| access.number);
        Stated.merge(self.store.code(), number, 0, u32::MAX)
    }
}

/// The position that a register comes from.
fn writer(window: &Window, k: usize, register: u32) -> Option<usize> {
    (0..k).rfind(|&p| window.live[p].instruction.writes(register))
}
