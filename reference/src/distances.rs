//! How far the words of loads came: noted when a load executes, counted when it commits, since only then it shows.

use crate::events::{Events, CHANGES};
use crate::window::{Code, Entry, Execution, Window};
use std::collections::{BTreeSet, HashMap};

#[derive(Default)]
pub struct Distances {
    /// The live loads that have executed, by index.
    notes: HashMap<usize, Note>,
    /// The loads that a squash met executed, with the distance that they had and what squashed them.
    before: HashMap<usize, (usize, &'static str)>,
    /// The step that committed each index.
    commits: Vec<&'static str>,
}

struct Note {
    distance: usize,
    /// Whether a finish executed it.
    finished: bool,
    /// What its commit counts for.
    kinds: BTreeSet<String>,
}

impl Note {
    /// A store of this index, older than the load, executed to its word.
    fn overtaken(&mut self, load: usize, store: usize) {
        let older = self.distance > 0 && store < load - self.distance;
        self.kinds.insert(if older {
            "distance kept, an older store executed to its word".into()
        } else {
            format!("distance {:2} though a store is nearer", self.distance)
        });
    }
}

impl Distances {
    pub fn issued(&mut self, index: usize, stages: usize) {
        let committed = self.commits.len();
        let taken = |load: usize, note: &Note| {
            let store = load - note.distance;
            store < committed && (index - store) % stages == 0
        };
        self.keep(|load, note| taken(load, note), "its store's stage was issued again");
    }

    /// What it squashes is told apart from it.
    pub fn executed(&mut self, events: &mut Events, execution: &Execution, memory: &[u32]) {
        let Execution { before, k, entry, left, finished } = *execution;
        if entry.code().stores() {
            let at_word = |load: &&Entry| load.mark() == entry.mark();
            for load in before.live[k..left].iter().filter(at_word) {
                self.notes
                    .get_mut(&load.index)
                    .into_iter()
                    .for_each(|note| note.overtaken(load.index, entry.index));
            }
        }
        if entry.is(Code::L) {
            let kinds = kinds(events, before, memory, k, entry);
            self.notes.insert(entry.index, Note { distance: entry.distance, finished, kinds });
        }
    }

    /// Everything from a position on is squashed.
    pub fn squashed(&mut self, before: &Window, from: usize, by: &'static str) {
        for entry in &before.live[from..] {
            if let Some(Note { distance, .. }) = self.notes.remove(&entry.index) {
                self.before.insert(entry.index, (distance, by));
            }
        }
        self.keep(|_, _| true, "a younger one was squashed");
    }

    /// A commit by this step.
    pub fn committed(&mut self, events: &mut Events, index: usize, step: &'static str) {
        self.commits.push(step);
        let Some(Note { distance, finished, kinds }) = self.notes.remove(&index) else { return };
        kinds.iter().for_each(|kind| events.add(kind));
        let digits = |number: usize| number.to_string().len();
        events.add(&format!("f line, index of {} digits, distance of {}", digits(index), digits(distance)));
        events.add_if(index == 0, "f line of index 0");
        events.add_if(index == 255, "f line of index 255");
        if let Some((earlier, by)) = self.before.remove(&index) {
            let change = match (earlier, distance) {
                (0, 0) => 0,
                (0, _) => 1,
                (_, 0) => 2,
                _ if distance < earlier => 3,
                _ if distance > earlier => 4,
                _ => 5,
            };
            events.add(&format!("distance again after {by}, {}", CHANGES[change]));
        }
        if distance > 0 {
            let store = self.commits[index - distance];
            events.add(&format!("distance told by {step}, its store committed by {store}"));
            events.add_if(step == "x", "distance above 0 of a load executed before x");
        } else if step == "x" {
            let when = if finished { "that x executed" } else { "executed before x" };
            events.add(&format!("distance 0 of a load {when}"));
        }
    }

    /// What happened while these loads kept their distances.
    fn keep(&mut self, which: impl Fn(usize, &Note) -> bool, what: &str) {
        for (load, note) in &mut self.notes {
            if note.distance > 0 && which(*load, note) {
                note.kinds.insert(format!("distance kept, {what}"));
            }
        }
    }
}

/// What the commit of a load will count for. At W or more it has none.
fn kinds(events: &mut Events, before: &Window, memory: &[u32], k: usize, entry: Entry) -> BTreeSet<String> {
    let (word, d, live) = (entry.mark(), entry.distance, &before.live);
    let mut kinds = BTreeSet::new();
    let mut add_if = |reached: bool, kind: &str| {
        if reached {
            kinds.insert(kind.to_string());
        }
    };
    let how = if d > 0 { "above 0" } else { "0" };
    events.add_if(entry.mark() >= Some(before.sizes.words), &format!("distance {how} at W or more"));
    let is_store = |entry: &Entry| entry.code().stores();
    let younger = live[k + 1..].iter().any(|entry| is_store(entry) && entry.mark() == word);
    add_if(younger, &format!("distance {how} beside a younger store"));
    let memory = entry.mark().and_then(|word| memory.get(word as usize)).copied();
    if d == 0 {
        let mut stores = live[..k].iter().filter(|entry| is_store(entry));
        add_if(true, "distance 0");
        add_if(memory > Some(0), "distance 0 of a word that a store committed");
        add_if(stores.clone().any(|entry| !entry.waits()), "distance 0, an older store to another word");
        add_if(stores.any(Entry::waits), "distance 0, an older store waits");
        return kinds;
    }
    let (store, between) = (live[k - d], &live[k - d + 1..k]);
    let (code, Window { sizes, .. }) = (store.code(), before);
    add_if(true, &format!("distance {d:2} by {code:?}"));
    add_if(true, &format!("distance, B {} R {}", sizes.banks, sizes.rows));
    add_if(before.stage(k - d) > before.stage(k), &format!("distance {d:2} across the wrap"));
    add_if(d + 1 == sizes.stages as usize, &format!("distance n - 1, n {:2}", sizes.stages));
    let byte = store.access().map_or(0, |access| access.number % 4);
    add_if(code.is_part(), &format!("distance of {code:?} at byte {byte}"));
    add_if(live[..k - d].iter().any(|e| is_store(e) && e.mark() == word), "distance with a choice");
    add_if(entry.value() == memory, "distance of a word like memory's");
    add_if(entry.value() == Some(0), "distance of a word 0");
    between.iter().for_each(|entry| add_if(true, &format!("distance over {:?}", entry.code())));
    add_if(between.iter().any(Entry::waits), "distance over a waiting one");
    add_if(between.iter().any(|entry| entry.mark() == word), "distance over a load of its word");
    let elsewhere = between.iter().any(|entry| is_store(entry) && !entry.waits());
    add_if(elsewhere, "distance over a store to another word");
    kinds
}
