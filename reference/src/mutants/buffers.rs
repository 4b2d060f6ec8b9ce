//! Wrong buffers.

use super::{Distance, Mutant, Scripts, RIGHT};
use crate::events::BANKS;
use crate::rules::{Rules, Stated};
use crate::window::{Code, Entry, Fate, Row, Window};

type Forward = fn(&Window, usize, u32) -> Option<usize>;
type Violation = fn(&Window, usize, u32, u32) -> Option<usize>;
type Room = fn(&Window, usize, u32) -> Result<Option<usize>, u32>;

const FORWARDS: [(&str, Forward); 5] = [
    ("nearest store by stage number", |w, k, a| older_stores(w, k, a).max_by_key(|&p| w.stage(p))),
    ("stores at lower stages only", |w, k, a| {
        older_stores(w, k, a).filter(|&p| w.stage(p) < w.stage(k)).last()
    }),
    ("oldest store", |w, k, a| older_stores(w, k, a).next()),
    ("younger stores too", |w, _, a| older_stores(w, w.live.len(), a).last()),
    ("no forward", |_, _, _| None),
];

/// Of a store on either side.
const EITHER: Distance = |_, k, _, store| store.map_or(0, |store| k.abs_diff(store));

const VIOLATIONS: [(&str, Violation); 8] = [
    ("a load past a store", |w, k, a, value| {
        let first = younger(w, k).find(|&p| marked(&w.live[p], Code::loads, a))?;
        took_another(&w.live[first], value).then_some(first)
    }),
    ("a load of any address", |w, k, _, value| first_load(w, k, value, |_| true)),
    ("a load of the bank", |w, k, a, value| first_load(w, k, value, |b| w.sizes.bank(b) == w.sizes.bank(a))),
    ("a load of the remainder by 64", |w, k, a, value| first_load(w, k, value, |b| b % 64 == a % 64)),
    ("a store too", |w, k, a, value| {
        let first = younger(w, k).find(|&p| w.live[p].mark() == Some(a))?;
        (w.live[first].is(Code::S) || took_another(&w.live[first], value)).then_some(first)
    }),
    ("no violation", |_, _, _, _| None),
    ("everything younger", |w, k, a, value| Stated.violation(w, k, a, value).map(|_| k + 1)),
    ("loads at higher stages only", |w, k, a, value| {
        Stated.violation(w, k, a, value).filter(|&from| w.stage(from) > w.stage(k))
    }),
];

const ROOMS: [(&str, Room); 12] = [
    ("evicts a row with an older mark", |w, k, a| {
        let nearest = |row: &Row| younger(w, k).find(|&p| w.live[p].mark() == Some(row.address));
        full(w, a, |rows| rows.iter().filter_map(nearest).max())
    }),
    ("evicts the oldest row", |w, k, a| full(w, a, |rows| evictable(rows, k).map(|row| row.oldest).min())),
    ("evicts by the youngest mark", |w, k, a| {
        let last = |row: &&Row| younger(w, k).rev().find(|&p| w.live[p].mark() == Some(row.address));
        full(w, a, |rows| evictable(rows, k).max_by_key(last).map(|row| row.oldest))
    }),
    ("evicts at higher stages only", |w, k, a| {
        let higher = |p: &usize| w.stage(*p) > w.stage(k);
        full(w, a, |rows| evictable(rows, k).map(|row| row.oldest).filter(higher).max())
    }),
    ("evicts everything younger", |w, k, a| Stated.room(w, k, a).map(|from| from.map(|_| k + 1))),
    ("evicts though the address has a row", |w, k, a| {
        let rows = w.rows(w.sizes.bank(a));
        let free = rows.len() < w.sizes.rows as usize;
        let chosen = evictable(&rows, k).filter(|row| row.address != a).map(|row| row.oldest).max();
        if free {
            Ok(None)
        } else {
            chosen.map_or_else(|| Stated.room(w, k, a), |from| Ok(Some(from)))
        }
    }),
    // These two leave the oldest alone: it would be stuck, which every finish shows.
    ("stalls without eviction", |w, k, a| if k > 0 { full(w, a, |_| None) } else { Stated.room(w, k, a) }),
    ("stalls before the rows are looked at", |w, k, a| {
        let all_used = w.rows(w.sizes.bank(a)).len() >= w.sizes.rows as usize;
        if k > 0 && all_used {
            Err(10)
        } else {
            Stated.room(w, k, a)
        }
    }),
    ("one bank", |w, k, a| {
        let mut window = w.clone();
        window.sizes.banks = 1;
        Stated.room(&window, k, a)
    }),
    ("one row more", |w, k, a| with_rows(w, k, a, w.sizes.rows + 1)),
    ("R 6 and more without limit", |w, k, a| {
        with_rows(w, k, a, if w.sizes.rows < 6 { w.sizes.rows } else { 99 })
    }),
    ("R 3 and more without limit where B is 8", |w, k, a| {
        let limited = w.sizes.banks < 8 || w.sizes.rows < 3;
        with_rows(w, k, a, if limited { w.sizes.rows } else { 99 })
    }),
];

fn with_rows(window: &Window, k: usize, address: u32, rows: u32) -> Result<Option<usize>, u32> {
    let mut window = window.clone();
    window.sizes.rows = rows;
    Stated.room(&window, k, address)
}

fn marked(entry: &Entry, side: fn(Code) -> bool, address: u32) -> bool {
    side(entry.code()) && entry.mark() == Some(address)
}

fn older_stores(window: &Window, k: usize, address: u32) -> impl Iterator<Item = usize> + '_ {
    (0..k).filter(move |&p| marked(&window.live[p], Code::stores, address))
}

fn younger(window: &Window, k: usize) -> std::ops::Range<usize> {
    k + 1..window.live.len()
}

/// The first younger one executed to a `near` address, if it is a load that took another word.
fn first_load(window: &Window, k: usize, word: u32, near: impl Fn(u32) -> bool) -> Option<usize> {
    let first = younger(window, k).find(|&p| window.live[p].mark().is_some_and(&near))?;
    took_another(&window.live[first], word).then_some(first)
}

fn took_another(entry: &Entry, word: u32) -> bool {
    entry.taken().is_some_and(|taken| taken != word)
}

/// Room by `choice` among the rows of a bank without a free one, and without one of this address.
fn full(
    window: &Window,
    address: u32,
    choice: impl Fn(&[Row]) -> Option<usize>,
) -> Result<Option<usize>, u32> {
    let rows = window.rows(window.sizes.bank(address));
    if rows.iter().any(|row| row.address == address) || rows.len() < window.sizes.rows as usize {
        return Ok(None);
    }
    choice(&rows).map(Some).ok_or(10)
}

fn evictable(rows: &[Row], k: usize) -> impl Iterator<Item = &Row> {
    rows.iter().filter(move |row| row.oldest > k)
}

/// What lies past the wrap, or everything, comes back with its stage after a squash.
#[derive(Clone)]
struct Returning {
    all: bool,
    missed: Vec<Entry>,
}

impl Rules for Returning {
    fn drop_from(&mut self, window: &mut Window, from: usize) {
        let missed = |p: &usize| self.all || window.stage(*p) < window.stage(from);
        self.missed = (from..window.live.len()).filter(missed).map(|p| window.live[p]).collect();
        window.live.truncate(from);
    }

    fn fresh(&mut self, index: usize) -> Fate {
        self.missed.iter().find(|entry| entry.index == index).map_or(Fate::Waiting, |entry| entry.fate)
    }
}

/// Other numbers of rows for a table of these sizes.
#[derive(Clone)]
struct Table {
    sizes: (u32, u32),
    rows: u32,
}

impl Rules for Table {
    fn room(&self, window: &Window, k: usize, address: u32) -> Result<Option<usize>, u32> {
        let here = (window.sizes.banks, window.sizes.rows) == self.sizes;
        with_rows(window, k, address, if here { self.rows } else { window.sizes.rows })
    }
}

/// At most so many rows.
#[derive(Clone)]
struct Capped(u32);

impl Rules for Capped {
    fn room(&self, window: &Window, k: usize, address: u32) -> Result<Option<usize>, u32> {
        with_rows(window, k, address, window.sizes.rows.min(self.0))
    }
}

/// Does not see what lies so many positions away.
#[derive(Clone)]
struct Blind {
    kind: &'static str,
    from: usize,
    to: usize,
}

impl Blind {
    fn sees(&self, kind: &str, distance: usize) -> bool {
        kind != self.kind || distance < self.from || distance > self.to
    }
}

impl Rules for Blind {
    fn forward(&self, window: &Window, k: usize, address: u32) -> Option<usize> {
        Stated.forward(window, k, address).filter(|store| self.sees("forward", k - store))
    }

    fn violation(&self, window: &Window, k: usize, address: u32, value: u32) -> Option<usize> {
        Stated.violation(window, k, address, value).filter(|from| self.sees("violation", from - k))
    }

    fn room(&self, window: &Window, k: usize, address: u32) -> Result<Option<usize>, u32> {
        let room = Stated.room(window, k, address)?;
        match room {
            Some(from) if !self.sees("eviction", from - k) => Err(10),
            _ => Ok(room),
        }
    }

    fn operand(&self, window: &Window, registers: &[u32; 8], k: usize, register: u32) -> Result<u32, u32> {
        let writer = (0..k).rev().find(|&p| window.live[p].instruction.writes(register));
        match writer {
            Some(writer) if !self.sees("operand", k - writer) => Ok(registers[register as usize]),
            _ => Stated.operand(window, registers, k, register),
        }
    }
}

#[test]
fn wrong_buffers() {
    let mut scripts = Scripts::default();
    FORWARDS
        .iter()
        .for_each(|&(name, forward)| scripts.tell(name, Mutant { forward, distance: EITHER, ..RIGHT }));
    VIOLATIONS.iter().for_each(|&(name, violation)| scripts.tell(name, Mutant { violation, ..RIGHT }));
    ROOMS.iter().for_each(|&(name, room)| scripts.tell(name, Mutant { room, ..RIGHT }));
    scripts.tell("clears to the largest stage", Returning { all: false, missed: Vec::new() });
    scripts.tell("squashed ones come back as they were", Returning { all: true, missed: Vec::new() });
    (1..8).for_each(|rows| scripts.tell(&format!("{rows} rows at most"), Capped(rows)));
    scripts.close("buffers");
}

#[test]
fn wrong_tables() {
    let mut scripts = Scripts::default();
    for (banks, rows) in BANKS.into_iter().flat_map(|banks| (1..=8).map(move |rows| (banks, rows))) {
        for wrong in [rows - 1, rows + 1, 99] {
            let name = format!("{wrong} rows where B is {banks} and R is {rows}");
            scripts.tell(&name, Table { sizes: (banks, rows), rows: wrong });
        }
    }
    scripts.close("tables");
}

#[test]
fn blind_spots() {
    let mut scripts = Scripts::default();
    for kind in ["forward", "violation", "eviction", "operand"] {
        for distance in 1..=15 {
            let name = format!("no {kind} over {distance}");
            scripts.tell(&name, Blind { kind, from: distance, to: distance });
            let name = format!("no {kind} over {distance} or more");
            scripts.tell(&name, Blind { kind, from: distance, to: 15 });
        }
    }
    scripts.close("blind spots");
}
