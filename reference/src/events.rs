//! Counters of what scripts reach. Each kind has a name; most are members of a family with a number or two.

use crate::walks;
use crate::window::{Code, CODES, LOADS, PARTS, STORES};
use std::collections::HashMap;
use std::sync::OnceLock;

const SINGLE: [&str; 160] = [
    "issue wrapped",
    "re-issued executed late",
    "re-issued executed late, wrapped",
    "violation squashing past the wrap",
    "violation of a word 0",
    "violation by a word 0",
    "violation by memory's word",
    "violation of a part that kept another",
    "store between",
    "kept, 0 of memory",
    "kept, a word of memory",
    "kept, 0 of an older store",
    "kept, a word of an older store",
    "kept, a word above 2147483647",
    "kept, memory has another word",
    "kept at word 0",
    "kept at W or more",
    "kept at W or more, a word of an older store",
    "kept in a full bank",
    "kept, a store waits between",
    "kept, its register was used",
    "kept, an odd H",
    "kept by an odd H",
    "kept, then squashed by violation",
    "kept, then squashed by eviction",
    "kept, then squashed by q",
    "kept and committed by c",
    "kept and committed by x",
    "kept more than once and committed",
    "eviction by a store of the word taken",
    "full bank, an address marked on both sides",
    "forward with a choice",
    "forward across the wrap",
    "forward at W or more",
    "violation at W or more",
    "operand with a choice",
    "operand across the wrap",
    "operand of a load",
    "operand of the registers, a younger one writes",
    "q of the oldest",
    "q of the youngest",
    "q of executed ones",
    "largest number",
    "fault by e",
    "fault by c or x, executed before",
    "fault by x",
    "fault squashed",
    "fault by e of an odd H",
    "fault by c or x of an odd H, executed before",
    "fault by x of an odd H",
    "fault of an odd H squashed",
    "odd H executed below W",
    "odd H executed at W",
    "odd H executed above W",
    "odd H forwards",
    "odd H takes a forwarded word",
    "odd H squashed by a store",
    "odd H evicted",
    "B executed at byte 4W",
    "B committed at byte 4W - 1",
    "H committed at byte 4W - 2",
    "x limit 0",
    "x limit 1",
    "x limit above 256",
    "x limit above 2147483647",
    "x ended by its limit",
    "x ended by the program's end",
    "x squashed",
    "x left live ones executed",
    "x of more than 51 commits",
    "distance 0",
    "distance 0 of a load that x executed",
    "distance 0 of a load executed before x",
    "distance above 0 of a load executed before x",
    "distance 0 beside a younger store",
    "distance above 0 beside a younger store",
    "distance 0 at W or more",
    "distance above 0 at W or more",
    "distance 0 of a word that a store committed",
    "distance 0, an older store to another word",
    "distance 0, an older store waits",
    "distance with a choice",
    "distance of a word like memory's",
    "distance of a word 0",
    "distance over a waiting one",
    "distance over a load of its word",
    "distance over a store to another word",
    "distance kept, an older store executed to its word",
    "distance kept, its store's stage was issued again",
    "distance kept, a younger one was squashed",
    "f line of index 0",
    "f line of index 255",
    "register 0 written",
    "word above 2147483647",
    "refusal 5",
    "refusal 6",
    "refusal 7 of e",
    "refusal 7 of q",
    "refusal 8",
    "refusal 9",
    "refusal 9, an older writer has executed",
    "refusal 11",
    "refusal 12",
    "refusal 12, a younger one has executed",
    "refusal 13",
    "refusal 13 of an odd H",
    "refusal 14",
    "input empty",
    "input of 65536 bytes",
    "input longer",
    "line empty",
    "line unended",
    "line unended but good",
    "first line not N",
    "second N",
    "instruction after a step",
    "size outside limits",
    "register above 7",
    "P's imm above 7",
    "A's imm above 7 taken",
    "256 instructions",
    "257th instruction",
    "letter unknown",
    "letter in wrong case",
    "field missing",
    "field extra",
    "field empty",
    "trailing comma",
    "number with leading zero",
    "number too large",
    "number of 32 bits and more that wraps to a good one",
    "number signed",
    "number with another byte",
    "byte carriage return",
    "byte blank",
    "byte tab",
    "byte NUL",
    "byte 128 or more",
    "bad after a commit",
    "bad at a late line",
    "program empty",
    "no steps",
    "m line of word 0",
    "m line of word 4095",
    "256 commits",
    "end done",
    "end fault of an odd H below W",
    "end fault of an odd H at W or more",
    "end fault of an even H",
    "end open",
    "end open, none live",
    "end open, all issued",
    "end open, the oldest waits and would fault",
    "end open, the next would fault",
    "end open, the oldest waits and would be an odd H",
    "end open, the next would be an odd H",
    "end open, a younger one is past the end",
    "end open, a younger one is an odd H",
    "end open, the oldest is an odd B",
    "end open, the oldest is a part at a byte number of W or more",
];

/// How one byte makes a line differ from a good one.
#[derive(Clone, Copy, PartialEq, Eq, Debug)]
pub enum Way {
    Replaced,
    Inserted,
    Appended,
}

pub const WAYS: [Way; 3] = [Way::Replaced, Way::Inserted, Way::Appended];
pub const BANKS: [u32; 4] = [1, 2, 4, 8];
/// Sizes just outside their limits.
const OUTSIDE: [&str; 9] = ["B 0", "B 3", "B 16", "R 0", "R 9", "n 0", "n 17", "W 0", "W 4097"];

/// Events of a bad line that are told by its letter, too.
pub const SPOILED: [&str; 3] = ["field missing", "field extra", "instruction after a step"];
/// What a store and a load side can be to each other.
const OF_PAIR: [&str; 8] = [
    "forward",
    "violation",
    "violation by x",
    "violation of one kept before",
    "store between",
    "kept by x",
    "kept again",
    "kept and committed",
];
/// What a store of a part can meet.
const OF_PART: [&str; 8] = [
    "of a larger register",
    "into a word of memory",
    "into a forwarded word unlike memory's",
    "of the word already there",
    "in another bank than its byte number's",
    "at W or more takes a forwarded word",
    "committed at a byte number of W or more",
    "committed with a word above 2147483647",
];

/// The distances of a load that is executed again.
pub const CHANGES: [&str; 6] =
    ["0 then 0", "0 then above", "above then 0", "above then smaller", "above then larger", "the same above"];

pub fn by_byte(way: Way, byte: u8) -> String {
    format!("byte {byte} {way:?}")
}

struct Kinds {
    names: Vec<String>,
    places: HashMap<String, usize>,
}

fn kinds() -> &'static Kinds {
    static KINDS: OnceLock<Kinds> = OnceLock::new();
    KINDS.get_or_init(|| {
        let names = all();
        let places = names.iter().cloned().zip(0..).collect();
        Kinds { names, places }
    })
}

fn all() -> Vec<String> {
    let mut names: Vec<String> = SINGLE.map(String::from).into();
    let tables = BANKS.into_iter().flat_map(|banks| (1..=8).map(move |rows| (banks, rows)));
    let tables: Vec<(u32, u32)> = tables.collect();
    for kind in ["eviction", "refusal 10", "distance", "kept"] {
        names.extend(tables.iter().map(|(banks, rows)| format!("{kind}, B {banks} R {rows}")));
    }
    names.extend((2..=8).map(|rows| format!("eviction with a choice, R {rows}")));
    names.extend((1..=8).map(|rows| format!("full bank, the address has a row, R {rows}")));
    for kind in ["forward", "violation", "eviction", "operand"] {
        names.extend((1..=15).map(|positions| format!("{kind} over {positions:2}")));
    }
    for code in STORES {
        names.extend((1..=15).map(|distance| format!("distance {distance:2} by {code:?}")));
    }
    names.extend((1..=15).map(|distance| format!("distance {distance:2} across the wrap")));
    let passed = [0].into_iter().chain(2..=15);
    names.extend(passed.map(|distance| format!("distance {distance:2} though a store is nearer")));
    names.extend((2..=16).map(|stages| format!("distance n - 1, n {stages:2}")));
    for (step, store) in [("c", "c"), ("c", "x"), ("x", "c"), ("x", "x")] {
        names.push(format!("distance told by {step}, its store committed by {store}"));
    }
    for by in ["violation", "eviction", "q"] {
        names.extend(CHANGES.map(|change| format!("distance again after {by}, {change}")));
    }
    for (index, distance) in [(1, 1), (2, 1), (2, 2), (3, 1), (3, 2)] {
        names.push(format!("f line, index of {index} digits, distance of {distance}"));
    }
    names.extend((1..=16).map(|stages| format!("window full, n {stages:2}")));
    names.extend((1..=15).map(|positions| format!("kept over {positions:2} across the wrap")));
    names.extend((2..=16).map(|stages| format!("kept over n - 1, n {stages:2}")));
    names.extend((0..16).map(|stage| format!("kept at stage {stage:2}")));
    for store in ["", " and an S"] {
        names.extend(
            ["the same", "another"].map(|word| format!("kept, behind it{store} one that took {word} word")),
        );
    }
    for side in ["lower", "upper"] {
        names.extend([8, 16, 31].map(|bits| format!("violation, {bits} {side} bits are alike")));
    }
    names.extend(walks::kinds());
    names.extend(BANKS.map(|banks| format!("size B {banks}")));
    names.extend((1..=8).map(|rows| format!("size R {rows}")));
    names.extend([1, 4096].map(|words| format!("size W {words}")));
    names.extend(OUTSIDE.map(|size| format!("size outside, {size}")));
    names.extend(CODES.into_iter().flat_map(of_code));
    names.push("register 8, imm of P".into());
    names.extend(WAYS.into_iter().flat_map(|way| (0..=255).map(move |byte| by_byte(way, byte))));
    names
}

/// The kinds of a code.
fn of_code(code: Code) -> Vec<String> {
    let mut kinds =
        vec![format!("sum of {code:?} wrapped"), format!("refusal 9 of the first operand of {code:?}")];
    kinds.push(format!("distance over {code:?}"));
    kinds.extend(["d", "s"].map(|field| format!("register 8, {field} of {code:?}")));
    kinds.extend(SPOILED.map(|event| format!("{event}, {code:?}")));
    if code == Code::P || code.stores() {
        kinds.push(format!("refusal 9 of the second operand of {code:?}"));
    }
    if code.loads() {
        kinds.push(format!("kept, behind it {code:?} that took another word"));
    }
    if code.loads() || code.stores() {
        kinds.extend(["by", "of"].map(|word| format!("eviction {word} {code:?}")));
        kinds.extend([10, 13].map(|number| format!("refusal {number} of {code:?}")));
        kinds.push(format!("end fault of {code:?}"));
    }
    if code.stores() {
        kinds.push(format!("operand past a store of the register, {code:?}"));
        for load in LOADS {
            let over = |positions| format!("kept over {positions:2} of {load:?} by {code:?}");
            kinds.extend((1..=15).map(over));
            kinds.extend(OF_PAIR.map(|event| format!("{event}, {code:?} and {load:?}")));
        }
    }
    if code.is_part() {
        kinds.extend((0..4).map(|place| format!("{code:?} at byte {place}")));
        let places = (0..4).filter(|place| code == Code::B || place % 2 == 0);
        for place in places {
            kinds.push(format!("{code:?} committed at byte {place}"));
            kinds.push(format!("distance of {code:?} at byte {place}"));
        }
        for older in PARTS {
            kinds.extend(["beside", "over"].map(|how| format!("{code:?} {how} {older:?}")));
        }
        kinds.extend(OF_PART.map(|event| format!("{code:?} {event}")));
        kinds.extend(["the same", "another"].map(|word| format!("kept, {code:?} that stored {word} word")));
        kinds.push(format!("kept by {code:?}, the word has more than its part"));
        kinds.push(format!("violation, {code:?} that stored the same word"));
        kinds.push(format!("violation by {code:?}, its part is the word taken"));
    }
    kinds
}

#[derive(Clone)]
pub struct Events(Vec<u64>);

impl Default for Events {
    fn default() -> Self {
        Events(vec![0; kinds().names.len()])
    }
}

impl Events {
    pub fn add(&mut self, name: &str) {
        let place = *kinds().places.get(name).unwrap_or_else(|| panic!("{name} is no kind of event"));
        self.0[place] += 1;
    }

    pub fn add_if(&mut self, reached: bool, name: &str) {
        if reached {
            self.add(name);
        }
    }

    /// Adds where this name is a kind: a family need not have every number.
    pub fn add_known(&mut self, name: &str) {
        self.add_if(kinds().places.contains_key(name), name);
    }

    pub fn join(&mut self, other: &Events) {
        self.0.iter_mut().zip(&other.0).for_each(|(sum, count)| *sum += count);
    }

    /// Lines that tell how often each kind was reached: of a family with numbers how many kinds it has, and the least
    /// of them.
    pub fn table(&self) -> Vec<String> {
        let mut families: Vec<(&str, usize, u64)> = Vec::new();
        for (name, count) in self.list() {
            match families.last_mut() {
                Some((last, kinds, least)) if family(last) == family(name) => {
                    (*kinds, *least) = (*kinds + 1, count.min(*least))
                }
                _ => families.push((name, 1, count)),
            }
        }
        let line = |(name, kinds, least)| match kinds {
            1 => format!("{name:60} {least:8}"),
            _ => format!("{:40} {kinds:4} kinds, least {least:8}", family(name)),
        };
        families.into_iter().map(line).collect()
    }

    pub fn list(&self) -> impl Iterator<Item = (&'static str, u64)> + '_ {
        kinds().names.iter().map(String::as_str).zip(self.0.iter().copied())
    }
}

/// The name with `#` for each number.
fn family(name: &str) -> String {
    let plain = |word: &str| word.bytes().any(|byte| !byte.is_ascii_digit());
    let words: Vec<&str> = name.split_whitespace().map(|word| if plain(word) { word } else { "#" }).collect();
    words.join(" ")
}
