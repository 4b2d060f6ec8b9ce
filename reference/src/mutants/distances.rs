//! Wrong distances of right words.

use super::{checked, Mutant, Scripts, Wrong, RIGHT};
use crate::events::BANKS;
use crate::machine::{Commit, Executed, Machine};
use crate::rules::{Rules, Stated};
use crate::window::{Code, Entry, Window, STORES};

type Count = fn(&Window, usize, usize) -> usize;
type Found = fn(&Window, usize, u32) -> Option<usize>;
type Memory = fn(&Window, usize) -> usize;
type Execute = fn(&mut Wrong, usize) -> Result<Executed, u32>;
type Commits = fn(&mut Wrong) -> Result<Commit, u32>;
type Finish = fn(&mut Wrong, u32) -> Vec<Commit>;

/// By window and positions of the load and of the store.
const COUNTS: [(&str, Count); 27] = [
    ("0", |_, _, _| 0),
    ("1", |_, _, _| 1),
    ("one more", |_, k, store| k - store + 1),
    ("one less", |_, k, store| k - store - 1),
    ("the store's position", |_, _, store| store),
    ("the store's position from 1", |_, _, store| store + 1),
    ("the store's stage", |w, _, store| w.stage(store)),
    ("the store's index", |w, _, store| w.live[store].index),
    ("the load's position", |_, k, _| k),
    ("the load's stage", |w, k, _| w.stage(k)),
    ("from the youngest", |w, _, store| w.live.len() - 1 - store),
    ("between stage numbers", |w, k, store| w.stage(k).abs_diff(w.stage(store))),
    ("between stage numbers, 0 past the wrap", |w, k, store| w.stage(k).saturating_sub(w.stage(store))),
    ("on a circle of 16 stages", |w, k, store| (w.stage(k) + 16 - w.stage(store)) % 16),
    ("on a circle of one stage more", |w, k, store| k - store + usize::from(w.stage(k) < w.stage(store))),
    ("the other way around the circle", |w, k, store| w.sizes.stages as usize - (k - store)),
    ("by 3 bits", |_, k, store| (k - store) % 8),
    ("7 at most", |_, k, store| (k - store).min(7)),
    ("memory references only", |w, k, store| counted(w, k, store, |e| e.code().loads() || e.code().stores())),
    ("stores only", |w, k, store| counted(w, k, store, |e| e.code().stores())),
    ("loads only", |w, k, store| counted(w, k, store, |e| e.is(Code::L))),
    ("all but parts", |w, k, store| counted(w, k, store, |e| !e.code().is_part())),
    ("all but P", |w, k, store| counted(w, k, store, |e| !e.is(Code::P))),
    ("executed ones only", |w, k, store| counted(w, k, store, |e| !e.waits())),
    ("waiting ones only", |w, k, store| counted(w, k, store, Entry::waits)),
    ("marks only", |w, k, store| counted(w, k, store, |e| e.mark().is_some())),
    ("marks of the word only", |w, k, store| counted(w, k, store, |e| e.mark() == w.live[store].mark())),
];

/// By window, position of the load and address: the store that the distance is to.
const FOUND: [(&str, Found); 17] = [
    ("the oldest store", |w, k, a| (0..k).find(|&p| to(w, p, a))),
    ("the second nearest store", |w, k, a| (0..k).rev().filter(|&p| to(w, p, a)).nth(1)),
    ("the youngest store of the window", |w, _, a| (0..w.live.len()).rfind(|&p| to(w, p, a))),
    ("the nearest store by stage number", |w, k, a| {
        (0..k).filter(|&p| to(w, p, a)).max_by_key(|&p| w.stage(p))
    }),
    ("the nearest store at a lower stage", |w, k, a| {
        (0..k).rfind(|&p| to(w, p, a) && w.stage(p) < w.stage(k))
    }),
    ("the nearest store to any word", |w, k, _| (0..k).rfind(|&p| stored(w, p).is_some())),
    ("the nearest store to the bank", |w, k, a| {
        (0..k).rfind(|&p| stored(w, p).is_some_and(|word| w.sizes.bank(word) == w.sizes.bank(a)))
    }),
    ("the nearest store to the remainder by 64", |w, k, a| {
        (0..k).rfind(|&p| stored(w, p).is_some_and(|word| word % 64 == a % 64))
    }),
    ("the nearest store, waiting or executed", |w, k, _| (0..k).rfind(|&p| w.live[p].code().stores())),
    ("the nearest waiting store", |w, k, a| {
        let waits = |&p: &usize| w.live[p].code().stores() && w.live[p].waits();
        (0..k).rfind(waits).or_else(|| Stated.forward(w, k, a))
    }),
    ("the nearest reference", |w, k, a| (0..k).rfind(|&p| w.live[p].mark() == Some(a))),
    ("the nearest store of a word", |w, k, a| (0..k).rfind(|&p| to(w, p, a) && w.live[p].is(Code::S))),
    ("the nearest store of a part", |w, k, a| (0..k).rfind(|&p| to(w, p, a) && !w.live[p].is(Code::S))),
    ("the nearest store but B", |w, k, a| (0..k).rfind(|&p| to(w, p, a) && !w.live[p].is(Code::B))),
    ("the nearest store but H", |w, k, a| (0..k).rfind(|&p| to(w, p, a) && !w.live[p].is(Code::H))),
    ("parts by their byte number", |w, k, a| {
        let at = |p: usize| w.live[p].access().is_some_and(|access| access.number == a);
        (0..k).rfind(|&p| stored(w, p).is_some() && at(p))
    }),
    ("the nearest store of the value", |w, k, a| {
        let value = |p: usize| w.live[p].value();
        let store = Stated.forward(w, k, a)?;
        (0..k).rfind(|&p| stored(w, p).is_some() && value(p) == value(store))
    }),
];

/// By window and position of the load: what is told for memory.
const MEMORY: [(&str, Memory); 6] = [
    ("1 for memory", |_, _| 1),
    ("one more than the load's position for memory", |_, k| k + 1),
    ("the load's position for memory", |_, k| k),
    ("n for memory", |w, _| w.sizes.stages as usize),
    ("the largest number for memory", |_, _| u32::MAX as usize),
    ("the one before for memory", |_, k| k.min(1)),
];

const EXECUTES: [(&str, Execute); 4] = [
    ("0 for a word like memory's", |m, k| {
        let answer = m.execute(k)?;
        let entry = m.window.live[k];
        let memory = entry.mark().and_then(|word| m.memory.get(word as usize).copied());
        m.window.live[k].distance = if entry.value() == memory { 0 } else { entry.distance };
        Ok(answer)
    }),
    ("0 for a word 0", |m, k| {
        let answer = m.execute(k)?;
        if m.window.live[k].value() == Some(0) {
            m.window.live[k].distance = 0;
        }
        Ok(answer)
    }),
    ("an older store takes the distance away", |m, k| overtaken(m, k, |_| 0)),
    ("an older store becomes the nearest", |m, k| overtaken(m, k, |positions| positions)),
];

const COMMITS: [(&str, Commits); 4] = [
    ("looked for again at the commit", |m| m.commit().map(|commit| Commit { distance: 0, ..commit })),
    ("lost when its store commits", |m| {
        let commit = m.commit()?;
        let of_it = |load: &&mut Entry| load.index - load.distance == commit.index;
        m.window.live.iter_mut().filter(of_it).for_each(|load| load.distance = 0);
        Ok(commit)
    }),
    ("of the next one", |m| {
        let distance = m.window.live.get(1).map_or(0, |entry| entry.distance);
        m.commit().map(|commit| Commit { distance, ..commit })
    }),
    ("of the youngest load", |m| {
        let youngest = m.window.live.iter().rfind(|entry| entry.is(Code::L));
        let distance = youngest.map_or(0, |entry| entry.distance);
        m.commit().map(|commit| Commit { distance, ..commit })
    }),
];

const FINISHES: [(&str, Finish); 3] = [
    ("x tells 1 for 0", |m, k| told(m.finish(k), |distance| distance.max(1))),
    ("x tells the number of its commit", |m, k| {
        let commits = m.finish(k).into_iter().enumerate();
        commits.map(|(distance, commit)| Commit { distance, ..commit }).collect()
    }),
    ("x tells the distance of the one before", |m, k| {
        let commits = m.finish(k);
        let before = [0].into_iter().chain(commits.iter().map(|commit| commit.distance));
        commits.iter().zip(before).map(|(commit, distance)| Commit { distance, ..*commit }).collect()
    }),
];

fn stored(window: &Window, p: usize) -> Option<u32> {
    window.live[p].mark().filter(|_| window.live[p].code().stores())
}

fn to(window: &Window, p: usize, address: u32) -> bool {
    stored(window, p) == Some(address)
}

/// One more than stand between and are of a kind.
fn counted(window: &Window, k: usize, store: usize, kind: impl Fn(&Entry) -> bool) -> usize {
    1 + window.live[store + 1..k].iter().filter(|entry| kind(entry)).count()
}

/// A store changes the distances of younger loads of its word by how many positions younger they are.
fn overtaken(m: &mut Wrong, k: usize, distance: fn(usize) -> usize) -> Result<Executed, u32> {
    let answer = m.execute(k)?;
    let stored = stored(&m.window, k);
    for p in k + 1..m.window.live.len() {
        if stored.is_some() && m.window.live[p].is(Code::L) && m.window.live[p].mark() == stored {
            m.window.live[p].distance = distance(p - k);
        }
    }
    Ok(answer)
}

fn told(commits: Vec<Commit>, other: fn(usize) -> usize) -> Vec<Commit> {
    commits.into_iter().map(|commit| Commit { distance: other(commit.distance), ..commit }).collect()
}

#[derive(Clone)]
struct Counting(Count);

impl Rules for Counting {
    fn distance(&self, window: &Window, k: usize, _address: u32, store: Option<usize>) -> usize {
        store.map_or(0, |store| (self.0)(window, k, store))
    }
}

#[derive(Clone)]
struct Finding(Found);

impl Rules for Finding {
    fn distance(&self, window: &Window, k: usize, address: u32, _store: Option<usize>) -> usize {
        (self.0)(window, k, address).map_or(0, |store| k.abs_diff(store))
    }
}

#[derive(Clone)]
struct OfMemory(Memory);

impl Rules for OfMemory {
    fn distance(&self, window: &Window, k: usize, _address: u32, store: Option<usize>) -> usize {
        store.map_or_else(|| (self.0)(window, k), |store| k - store)
    }
}

/// Tells 0 where this holds of the window and of the positions of load and store.
#[derive(Clone)]
struct Blind<F>(F);

impl<F: Clone + Fn(&Window, usize, usize) -> bool> Rules for Blind<F> {
    fn distance(&self, window: &Window, k: usize, _address: u32, store: Option<usize>) -> usize {
        store.filter(|&store| !(self.0)(window, k, store)).map_or(0, |store| k - store)
    }
}

/// A squash takes the distances of what stays.
#[derive(Clone)]
struct Losing;

impl Rules for Losing {
    fn drop_from(&mut self, window: &mut Window, from: usize) {
        window.live.truncate(from);
        window.live.iter_mut().for_each(|entry| entry.distance = 0);
    }
}

/// Where distances are kept that do not stand with their loads.
#[derive(Clone, Copy, PartialEq, Eq)]
enum Place {
    /// One for all.
    Machine,
    /// A stage; it is not cleared for memory.
    Stage,
    /// The same, but a commit clears it.
    StageUntilCommit,
    /// An index; it is not changed by a second execution.
    Index,
}

const KEPT: [(&str, Place); 4] = [
    ("one distance for all loads", Place::Machine),
    ("a distance a stage, left for memory", Place::Stage),
    ("a distance a stage until a commit, left for memory", Place::StageUntilCommit),
    ("the first distance of an index", Place::Index),
];

#[derive(Clone)]
struct Apart {
    place: Place,
    distances: [Option<usize>; 256],
}

impl Apart {
    fn number(&self, window: &Window, position: usize) -> usize {
        match self.place {
            Place::Machine => 0,
            Place::Stage | Place::StageUntilCommit => window.stage(position),
            Place::Index => window.live[position].index,
        }
    }
}

impl Rules for Apart {
    fn execute(machine: &mut Machine<Self>, k: usize) -> Result<Executed, u32> {
        let answer = machine.execute(k)?;
        if machine.window.live[k].is(Code::L) {
            let number = machine.rules.number(&machine.window, k);
            let (place, kept) = (machine.rules.place, &mut machine.rules.distances[number]);
            let stays = match place {
                Place::Machine => false,
                Place::Stage | Place::StageUntilCommit => answer.distance == 0,
                Place::Index => kept.is_some(),
            };
            *kept = if stays { *kept } else { Some(answer.distance) };
        }
        Ok(answer)
    }

    fn commit(machine: &mut Machine<Self>) -> Result<Commit, u32> {
        let number = machine.window.live.first().map(|_| machine.rules.number(&machine.window, 0));
        let commit = machine.commit()?;
        let kept = &mut machine.rules.distances[number.unwrap_or(0)];
        let distance = kept.unwrap_or(0);
        if machine.rules.place == Place::StageUntilCommit {
            *kept = None;
        }
        Ok(Commit { distance, ..commit })
    }
}

/// Stores count after their commit, all of them or those that are less than n older.
#[derive(Clone)]
struct Committed {
    all: bool,
    stores: Vec<(usize, u32)>,
}

impl Rules for Committed {
    fn execute(machine: &mut Machine<Self>, k: usize) -> Result<Executed, u32> {
        let answer = machine.execute(k)?;
        let (entry, stages) = (&mut machine.window.live[k], machine.window.sizes.stages as usize);
        let same = |(_, word): &&(usize, u32)| entry.mark() == Some(*word);
        if let (true, 0, Some((store, _))) =
            (entry.is(Code::L), answer.distance, machine.rules.stores.iter().rfind(same))
        {
            let distance = entry.index - store;
            entry.distance = if machine.rules.all || distance < stages { distance } else { 0 };
        }
        Ok(answer)
    }

    fn commit(machine: &mut Machine<Self>) -> Result<Commit, u32> {
        let stored = machine.window.live.first().and_then(|_| stored(&machine.window, 0));
        let commit = machine.commit()?;
        machine.rules.stores.extend(stored.map(|word| (commit.index, word)));
        Ok(commit)
    }
}

#[test]
fn wrong_distances() {
    let mut scripts = Scripts::default();
    COUNTS.iter().for_each(|&(name, count)| scripts.tell(name, Counting(count)));
    FOUND.iter().for_each(|&(name, found)| scripts.tell(name, Finding(found)));
    MEMORY.iter().for_each(|&(name, memory)| scripts.tell(name, OfMemory(memory)));
    EXECUTES.iter().for_each(|&(name, execute)| scripts.tell(name, Mutant { execute, ..RIGHT }));
    COMMITS.iter().for_each(|&(name, commit)| scripts.tell(name, Mutant { commit, ..RIGHT }));
    FINISHES.iter().for_each(|&(name, finish)| scripts.tell(name, Mutant { finish, ..RIGHT }));
    KEPT.iter().for_each(|&(name, place)| scripts.tell(name, Apart { place, distances: [None; 256] }));
    scripts.tell("lost at a squash", Losing);
    scripts.tell("to committed stores too", Committed { all: true, stores: Vec::new() });
    scripts.tell("to committed stores less than n older", Committed { all: false, stores: Vec::new() });
    scripts.close("distances");
}

#[test]
fn wrong_distances_at_places() {
    let mut scripts = Scripts::default();
    for distance in 1..=15 {
        for code in STORES {
            let blind =
                Blind(move |w: &Window, k, store: usize| k - store == distance && w.live[store].is(code));
            scripts.tell(&format!("0 for {distance} by {code:?}"), blind);
        }
        let blind = Blind(move |_: &Window, k, store| k - store >= distance);
        scripts.tell(&format!("0 for {distance} and more"), blind);
        let blind = Blind(move |w: &Window, k, store| k - store == distance && w.stage(store) > w.stage(k));
        scripts.tell(&format!("0 for {distance} across the wrap"), blind);
        let shortest = move |w: &Window| w.sizes.stages as usize == distance + 1;
        let blind = Blind(move |w: &Window, k, store| k - store == distance && shortest(w));
        scripts.tell(&format!("0 for {distance} where n is one more"), blind);
    }
    for (banks, rows) in BANKS.into_iter().flat_map(|banks| (1..=8).map(move |rows| (banks, rows))) {
        let blind = Blind(move |w: &Window, _, _| (w.sizes.banks, w.sizes.rows) == (banks, rows));
        scripts.tell(&format!("0 where B is {banks} and R is {rows}"), blind);
    }
    scripts.close("distances at places");
}

#[test]
#[should_panic(expected = "no distance although an older store is to the word")]
fn no_distance_is_checked() {
    checked(Counting(|_, _, _| 0));
}

#[test]
#[should_panic(expected = "the distance is not to a store to the word")]
fn a_distance_is_checked() {
    checked(Finding(|w, k, _| (0..k).rfind(|&p| stored(w, p).is_some())));
}

#[test]
#[should_panic(expected = "a store to the word stands between")]
fn stores_between_are_checked() {
    let first_of_two = |w: &Window, k, a| {
        let mut stores = (0..k).rev().filter(|&p| to(w, p, a));
        let store = stores.next()?;
        Some(stores.find(|&p| w.live[p].value() == w.live[store].value()).unwrap_or(store))
    };
    checked(Finding(first_of_two));
}

#[test]
#[should_panic(expected = "the distance is not that of the execution")]
fn kept_distances_are_checked() {
    checked(Losing);
}
