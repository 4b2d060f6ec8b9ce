//! Wrong searches for a row to evict, from the tail of the window.

use super::{checked, generated, Mutant, Scripts, RIGHT};
use crate::machine::{Executed, Machine};
use crate::player::play_by;
use crate::rules::{Rules, Stated};
use crate::walks::Walk;
use crate::window::{Access, Code, Entry, Fate, Instruction, Sizes, Window};
use std::cell::RefCell;
use std::sync::OnceLock;

type Turn = fn(u32, u32, u32) -> u32;
type Side = fn(Code) -> bool;
type Sees = fn(&Search, u32) -> bool;
type Asks = fn(&Search, usize) -> bool;
type Finds = fn(&Search) -> Option<usize>;

/// Above every refusal: what is squashed from that position on has the executing one in it.
const ITSELF: u32 = 100;

/// A search in a full bank for position `k`.
struct Search<'a> {
    window: &'a Window,
    k: usize,
    bank: u32,
}

impl Search<'_> {
    fn stages(&self) -> u32 {
        self.window.sizes.stages
    }

    /// The stage of the oldest.
    fn start(&self) -> u32 {
        self.window.stage(0) as u32
    }

    fn live(&self) -> usize {
        self.window.live.len()
    }

    fn entry(&self, p: usize) -> Option<&Entry> {
        self.window.live.get(p)
    }

    /// The word of a position that is marked in the bank.
    fn mark(&self, p: usize) -> Option<u32> {
        self.entry(p)?.mark().filter(|&word| self.window.sizes.bank(word) == self.bank)
    }

    /// The row of a mark, oldest first.
    fn row(&self, p: usize) -> impl Iterator<Item = usize> + '_ {
        let mark = self.entry(p).and_then(Entry::mark);
        (0..self.live()).filter(move |&other| mark.is_some() && self.window.live[other].mark() == mark)
    }

    fn starts_row(&self, p: usize) -> bool {
        self.row(p).next() == Some(p)
    }

    /// The stages of these positions as a word.
    fn word(&self, positions: impl Iterator<Item = usize>) -> u32 {
        positions.fold(0, |word, p| word | 1 << self.window.stage(p))
    }

    /// The stages that are marked in the bank.
    fn marks(&self) -> u32 {
        self.word((0..self.live()).filter(|&p| self.mark(p).is_some()))
    }

    /// The positions that are marked in the bank, youngest first.
    fn looked(&self) -> impl Iterator<Item = usize> + '_ {
        bits(turned(self.marks(), self.start(), self.stages()))
    }

    /// The same without those that are not younger than the executing one.
    fn younger(&self) -> impl Iterator<Item = usize> + '_ {
        self.looked().take_while(|&p| p > self.k)
    }

    fn found(&self) -> Option<usize> {
        self.younger().find(|&p| self.starts_row(p))
    }

    /// The positions looked at up to the one that is found.
    fn path(&self) -> Vec<usize> {
        let found = self.found();
        self.younger().take_while(|&p| Some(p) >= found).collect()
    }
}

/// A word of stages as a word of positions, in so many bits.
fn turned(word: u32, start: u32, width: u32) -> u32 {
    (word >> start | word << (width - start)) & ((1 << width) - 1)
}

/// The bits of a word, the highest first.
fn bits(mut word: u32) -> impl Iterator<Item = usize> {
    std::iter::from_fn(move || {
        let highest = 31u32.checked_sub(word.leading_zeros())?;
        word &= !(1 << highest);
        Some(highest as usize)
    })
}

/// By word of stages, stage of the oldest and number of stages. A rotate of 32 or of 16 bits and a turn in
/// the next power of two put wrapped marks too high. Modulo n, as a position becomes a stage, they are right
/// where n is a power of two.
const TURNS: [(&str, Turn); 12] = [
    ("not turned", |word, _, _| word),
    ("turned without the wrapped part", |word, start, _| word >> start),
    ("turned, the wrapped part alone", |word, start, n| turned(word & ((1 << start) - 1), start, n)),
    ("turned by a rotate of 32 bits", |word, start, _| word.rotate_right(start)),
    ("turned by a rotate of 16 bits", |word, start, _| u32::from((word as u16).rotate_right(start))),
    ("turned in the next power of two", |word, start, n| turned(word, start, n.next_power_of_two())),
    ("turned in one bit more", |word, start, n| turned(word, start, n + 1)),
    ("turned in one bit less", |word, start, n| word >> start | word << (n - 1 - start)),
    ("turned by one stage more", |word, start, n| turned(word, (start + 1) % n, n)),
    ("turned by one stage less", |word, start, n| turned(word, (start + n - 1) % n, n)),
    ("turned the other way", |word, start, n| turned(word, (n - start) % n, n)),
    ("turned and counted from the other end", |word, start, n| {
        turned(word, start, n).reverse_bits() >> (32 - n)
    }),
];

/// The bank's word is turned so.
fn bank_turned(s: &Search, turn: Turn) -> Option<usize> {
    let stages = s.stages() as usize;
    let looked = bits(turn(s.marks(), s.start(), s.stages())).map(|bit| bit % stages);
    let found = |&p: &usize| s.mark(p).is_some() && s.starts_row(p);
    looked.take_while(|&p| p > s.k).find(found)
}

/// The rows' words are turned so.
fn rows_turned(s: &Search, turn: Turn) -> Option<usize> {
    let row = |p: usize| turn(s.word(s.row(p)), s.start(), s.stages());
    s.younger().find(|&p| row(p).trailing_zeros() as usize == p)
}

/// All words are turned so: a bit is found if it is the lowest one of a row.
fn all_turned(s: &Search, turn: Turn) -> Option<usize> {
    let stages = s.stages() as usize;
    let starts = (0..s.live()).filter(|&p| s.mark(p).is_some() && s.starts_row(p));
    let rows: Vec<u32> = starts.map(|p| turn(s.word(s.row(p)), s.start(), s.stages())).collect();
    let lowest = |bit: usize| rows.iter().any(|row| row.trailing_zeros() as usize == bit);
    let looked = bits(turn(s.marks(), s.start(), s.stages())).take_while(|bit| bit % stages > s.k);
    looked.filter(|&bit| lowest(bit)).map(|bit| bit % stages).next()
}

/// The marks that are in a word.
const SIDES: [(&str, Side); 6] = [
    ("load marks alone", Code::loads),
    ("store marks alone", Code::stores),
    ("both marks alone", Code::is_part),
    ("one mark alone", |code| !code.is_part()),
    ("all but B", |code| code != Code::B),
    ("all but H", |code| code != Code::H),
];

/// Whether a mark of this bank is in the word.
const BANKED: [(&str, Sees); 3] = [
    ("every bank", |_, _| true),
    ("bank 0", |_, bank| bank == 0),
    ("the next bank", |s, bank| bank == (s.bank + 1) % s.window.sizes.banks),
];

fn of_banks(s: &Search, sees: Sees) -> Option<usize> {
    let marked = |p: usize| s.window.live[p].mark().is_some_and(|word| sees(s, s.window.sizes.bank(word)));
    (s.k + 1..s.live()).rev().find(|&p| marked(p) && s.starts_row(p))
}

/// What makes a mark the one that is found.
const DECIDES: [(&str, Asks); 7] = [
    // As the youngest mark of a row is.
    ("every mark", |_, _| true),
    // As from the oldest up.
    ("the oldest mark of the bank", |s, p| (0..p).all(|older| s.mark(older).is_none())),
    ("the oldest mark of the window", |s, p| s.window.live[..p].iter().all(|older| older.mark().is_none())),
    ("the only mark of a row", |s, p| s.row(p).count() == 1),
    ("the lowest stage of a row", |s, p| s.row(p).all(|other| s.window.stage(other) >= s.window.stage(p))),
    ("the next mark is of another row", |s, p| {
        (0..p).rev().find_map(|older| s.mark(older)).is_none_or(|next| s.mark(p) != Some(next))
    }),
    ("the one next to it is of another row", |s, p| p == 0 || s.mark(p - 1) != s.mark(p)),
];

/// What ends the search without a row.
const ENDS: [(&str, Asks); 7] = [
    ("one stage too early", |s, p| p <= s.k + 1),
    ("one stage too late", |s, p| p + 1 < s.k),
    ("at the oldest", |_, p| p == 0),
    ("never", |_, _| false),
    ("by stage numbers", |s, p| s.window.stage(p) <= s.window.stage(s.k)),
    ("by the executing one's stage number", |s, p| p <= s.window.stage(s.k)),
    ("by the stage number looked at", |s, p| s.window.stage(p) <= s.k),
];

const OTHERS: [(&str, Finds); 18] = [
    ("by stage numbers", |s| by_stage(s).into_iter().take_while(|&p| p > s.k).find(|&p| s.starts_row(p))),
    ("by stage numbers, past older ones", |s| by_stage(s).into_iter().find(|&p| p > s.k && s.starts_row(p))),
    ("turned by the executing one's stage", |s| {
        let (stages, from) = (s.stages() as usize, s.window.stage(s.k) as u32);
        bits(turned(s.marks(), from, s.stages())).map(|bit| (s.k + bit) % stages).find(|&p| s.starts_row(p))
    }),
    ("turned by a rotate of 32 bits, from past the youngest", |s| {
        let stages = s.stages() as usize;
        bits(s.marks().rotate_right(s.start()))
            .take_while(|&bit| bit > s.k)
            .find(|bit| s.mark(bit % stages).is_some() && s.starts_row(bit % stages))
    }),
    ("from the youngest but one", |s| s.younger().find(|&p| p + 1 < s.live() && s.starts_row(p))),
    ("without those next to one looked at", |s| {
        let mut next = s.live();
        s.younger().find(|&p| {
            let looks = p < next;
            next = if looks { p.saturating_sub(1) } else { next };
            looks && s.starts_row(p)
        })
    }),
    ("every second mark", |s| s.younger().step_by(2).find(|&p| s.starts_row(p))),
    ("ends at a row with an older mark", |s| {
        s.younger().take_while(|&p| s.row(p).next() > Some(s.k)).find(|&p| s.starts_row(p))
    }),
    ("the row of the first mark", |s| {
        s.younger().next().and_then(|p| s.row(p).next()).filter(|&oldest| oldest > s.k)
    }),
    ("the second row", |s| s.younger().filter(|&p| s.starts_row(p)).nth(1)),
    ("the second row or the first", |s| {
        s.younger().filter(|&p| s.starts_row(p)).nth(1).or_else(|| s.found())
    }),
    ("squashes from the first mark", |s| s.found().and_then(|_| s.younger().next())),
    ("squashes from the mark before", |s| {
        let found = s.found()?;
        s.path().into_iter().rev().find(|&p| p > found).or(Some(found))
    }),
    ("squashes from the next older mark", |s| s.looked().find(|&p| Some(p) < s.found())),
    ("squashes from one younger", |s| s.found().map(|p| p + 1)),
    ("squashes from one older", |s| s.found().map(|p| p - 1)),
    ("load marks first", |s| sides_first(s, Code::loads)),
    ("store marks first", |s| sides_first(s, Code::stores)),
];

/// The marked positions by falling stage numbers.
fn by_stage(s: &Search) -> Vec<usize> {
    bits(s.marks()).filter_map(|stage| (0..s.live()).find(|&p| s.window.stage(p) == stage)).collect()
}

/// Those with a mark of this side, then all.
fn sides_first(s: &Search, side: Side) -> Option<usize> {
    s.younger().find(|&p| side(s.window.live[p].code()) && s.starts_row(p)).or_else(|| s.found())
}

/// The stated rules with another search.
#[derive(Clone)]
struct Searching<F>(F);

impl<F: Clone + Fn(&Search) -> Option<usize>> Rules for Searching<F> {
    fn room(&self, window: &Window, k: usize, address: u32) -> Result<Option<usize>, u32> {
        let bank = window.sizes.bank(address);
        let rows = window.rows(bank);
        if rows.iter().any(|row| row.address == address) || rows.len() < window.sizes.rows as usize {
            return Ok(None);
        }
        match (self.0)(&Search { window, k, bank }) {
            None => Err(10),
            Some(from) if from <= k => Err(ITSELF + from as u32),
            // From past the youngest nothing is squashed.
            Some(from) => Ok(Some(from).filter(|&from| from < window.live.len())),
        }
    }

    fn execute(machine: &mut Machine<Self>, k: usize) -> Result<Executed, u32> {
        let answer = machine.execute(k);
        let Some(from) = answer.err().and_then(|number| number.checked_sub(ITSELF)) else { return answer };
        machine.squash(from as usize)?;
        Ok(Executed { value: 0, distance: 0, squashed: Some(from as usize) })
    }
}

/// What a search comes to by the stated rules.
struct Spot {
    k: usize,
    bank: u32,
    stages: usize,
    start: usize,
    live: usize,
    path: Vec<usize>,
    found: Option<usize>,
}

impl Spot {
    fn new(s: &Search) -> Self {
        let (stages, start) = (s.stages() as usize, s.start() as usize);
        Spot { k: s.k, bank: s.bank, stages, start, live: s.live(), path: s.path(), found: s.found() }
    }

    /// Found after more than so many marks.
    fn after(&self, marks: usize) -> bool {
        self.found.is_some() && self.path.len() > marks
    }

    /// How many positions are jumped over: before the first mark, then between marks.
    fn jumps(&self) -> (usize, Vec<usize>) {
        let first = self.path.first().map_or(0, |first| self.live - 1 - first);
        (first, self.path.windows(2).map(|pair| pair[0] - pair[1] - 1).collect())
    }
}

/// The searches of each generated script.
fn spots() -> &'static [Vec<Spot>] {
    static SPOTS: OnceLock<Vec<Vec<Spot>>> = OnceLock::new();
    SPOTS.get_or_init(|| {
        let met = RefCell::new(Vec::new());
        let rules = Searching(|s: &Search| {
            met.borrow_mut().push(Spot::new(s));
            s.found()
        });
        let spots = |script: &[u8]| {
            play_by(rules.clone(), script);
            met.take()
        };
        generated().iter().map(|(script, _)| spots(script)).collect()
    })
}

/// Tells searches apart by the scripts that come to the places where they are wrong.
#[derive(Default)]
struct Tails(Scripts);

impl Tails {
    fn tell(&mut self, name: &str, finds: impl Fn(&Search) -> Option<usize>) {
        self.tell_at(name, |_| true, finds);
    }

    fn tell_at(&mut self, name: &str, at: impl Fn(&Spot) -> bool, finds: impl Fn(&Search) -> Option<usize>) {
        let rules = Searching(|s: &Search| if at(&Spot::new(s)) { finds(s) } else { s.found() });
        let among = |seed: usize| spots()[seed].iter().any(&at);
        self.0.tell_among(name, among, |script, _| play_by(rules.clone(), script).out);
    }
}

#[test]
fn wrong_searches() {
    let mut tails = Tails::default();
    for (name, turn) in TURNS {
        tails.tell(&format!("the bank's word {name}"), |s| bank_turned(s, turn));
        tails.tell(&format!("the rows' words {name}"), |s| rows_turned(s, turn));
        tails.tell(&format!("all words {name}"), |s| all_turned(s, turn));
    }
    for (name, side) in SIDES {
        let seen = |s: &Search, p: usize| side(s.window.live[p].code());
        let starts = |s: &Search, p: usize| !s.row(p).any(|older| older < p && seen(s, older));
        tails.tell(&format!("in the bank's word {name}"), |s| {
            s.younger().find(|&p| seen(s, p) && s.starts_row(p))
        });
        tails.tell(&format!("in the rows' words {name}"), |s| s.younger().find(|&p| starts(s, p)));
        tails.tell(&format!("in all words {name}"), |s| s.younger().find(|&p| seen(s, p) && starts(s, p)));
    }
    BANKED.iter().for_each(|(name, sees)| tails.tell(&format!("marks of {name}"), |s| of_banks(s, *sees)));
    for (name, decides) in DECIDES {
        tails.tell(&format!("found: {name}"), |s| s.younger().find(|&p| decides(s, p)));
    }
    for (name, ends) in ENDS {
        let finds = |s: &Search| s.looked().take_while(|&p| !ends(s, p)).find(|&p| s.starts_row(p));
        tails.tell(&format!("ends {name}"), finds);
    }
    OTHERS.iter().for_each(|(name, finds)| tails.tell(name, finds));
    tails.0.close("searches from the tail");
}

#[test]
fn wrong_lengths_of_searches() {
    let mut tails = Tails::default();
    // After one as if it were not cleared, where such a search would never end.
    for marks in 1..=14 {
        tails.tell_at(&format!("10 after {marks} marks"), |spot| spot.after(marks), |_| None);
    }
    // The oldest would be stuck, which every finish shows.
    for marks in 1..=13 {
        let name = format!("10 after {marks} marks, but not of the oldest");
        tails.tell_at(&name, |spot| spot.after(marks) && spot.k > 0, |_| None);
    }
    for mark in 2..=14 {
        let found = |s: &Search| s.younger().take(mark).find(|&p| s.starts_row(p));
        let finds = |s: &Search| found(s).or_else(|| s.younger().nth(mark - 1));
        tails.tell(&format!("mark {mark} is found in any case"), finds);
    }
    for mark in 1..=15 {
        let name = format!("mark {mark} is passed over");
        let finds = |s: &Search| s.younger().zip(1..).find(|&(p, number)| number != mark && s.starts_row(p));
        tails.tell(&name, |s| finds(s).map(|(p, _)| p));
    }
    for positions in 1..=13 {
        let at = |spot: &Spot| spot.after(0) && spot.jumps().1.contains(&positions);
        tails.tell_at(&format!("10 after a jump over {positions}"), at, |_| None);
    }
    for positions in 1..=14 {
        let at = |spot: &Spot| spot.after(0) && spot.jumps().0 == positions;
        tails.tell_at(&format!("10 after a first jump over {positions}"), at, |_| None);
    }
    tails.0.close("lengths of searches from the tail");
}

/// What is wrong in some places only: the name, the least number of stages and the first stage that can show
/// it.
const MISTAKES: [(&str, usize, usize, Finds); 4] = [
    ("no wrapped part", 2, 1, |s| bank_turned(s, |word, start, _| word >> start)),
    ("not turned", 2, 1, |s| bank_turned(s, |word, _, _| word)),
    ("every mark is found", 3, 0, |s| s.younger().next()),
    ("10 after a mark", 3, 0, |s| s.younger().next().filter(|&p| s.starts_row(p))),
];

#[test]
fn wrong_searches_at_places() {
    let mut tails = Tails::default();
    for (name, least, first, finds) in MISTAKES {
        for stages in least..=16 {
            tails.tell_at(&format!("{name}, n {stages}"), |spot| spot.stages == stages, finds);
        }
        for start in first..16 {
            tails.tell_at(&format!("{name}, from stage {start}"), |spot| spot.start == start, finds);
        }
    }
    let (name, _, _, finds) = MISTAKES[0];
    for (stages, start) in (2..=16).flat_map(|stages| (1..stages).map(move |start| (stages, start))) {
        let at = |spot: &Spot| (spot.stages, spot.start) == (stages, start);
        tails.tell_at(&format!("{name}, n {stages} from stage {start}"), at, finds);
    }
    for bank in 0..8 {
        tails.tell_at(&format!("no eviction in bank {bank}"), |spot| spot.bank == bank, |_| None);
    }
    for stage in 0..16 {
        let seen = |s: &Search, p: usize| s.window.stage(p) != stage && s.starts_row(p);
        tails.tell(&format!("no mark of stage {stage}"), |s| s.younger().find(|&p| seen(s, p)));
    }
    for position in 1..16 {
        let seen = |s: &Search, p: usize| p != position && s.starts_row(p);
        tails.tell(&format!("no mark of position {position}"), |s| s.younger().find(|&p| seen(s, p)));
    }
    tails.0.close("places of searches from the tail");
}

/// What no script tells from what is right. The executing one has no mark, and where what is older is not
/// seen the search ends all the same.
const SILENT: [(&str, Finds); 5] = [
    ("ends before the executing one", |s| s.looked().take_while(|&p| p >= s.k).find(|&p| s.starts_row(p))),
    ("looks at every live one", |s| {
        (s.k + 1..s.live()).rev().find(|&p| s.mark(p).is_some() && s.starts_row(p))
    }),
    ("without the mark of position 0", |s| {
        let marks = turned(s.marks(), s.start(), s.stages()) & !1;
        bits(marks).take_while(|&p| p > s.k).find(|&p| s.starts_row(p))
    }),
    ("15 marks at most", |s| s.younger().take(15).find(|&p| s.starts_row(p))),
    ("a rotate of 32 bits where n is a power of two", |s| {
        if s.stages().is_power_of_two() {
            bank_turned(s, |word, start, _| word.rotate_right(start))
        } else {
            s.found()
        }
    }),
];

#[test]
fn silent_searches() {
    let searched = generated().iter().zip(spots()).filter(|(_, spots)| !spots.is_empty());
    for ((script, output), _) in searched {
        assert_eq!(play_by(Searching(|s: &Search| s.found()), script).out, *output);
        for (name, finds) in SILENT {
            assert_eq!(play_by(Searching(finds), script).out, *output, "{name}");
        }
    }
}

/// What a live one can be: waiting, marked in one of three rows of a bank, or marked in another one.
const WORDS: [Option<u32>; 5] = [None, Some(0), Some(2), Some(4), Some(1)];

/// Every window of these stages from this one on.
fn windows(stages: usize, start: usize) -> impl Iterator<Item = Window> {
    let entry = move |p: usize, word: Option<u32>| {
        let instruction = Instruction { code: Code::L, d: 1, s: 0, imm: word.unwrap_or(0) };
        let access = word.map(|word| Access { number: word, word, taken: Some(0) });
        let fate = access.map_or(Fate::Waiting, |access| Fate::Executed { value: 0, access: Some(access) });
        Entry { index: start + p, instruction, fate, distance: 0 }
    };
    let numbers =
        (1..=stages as u32).flat_map(|live| (0..5usize.pow(live)).map(move |number| (live, number)));
    numbers.map(move |(live, number)| {
        let word = |p| WORDS[number / 5usize.pow(p) % 5];
        let live = (0..live).map(|p| entry(p as usize, word(p))).collect();
        Window { sizes: Sizes { banks: 2, rows: 3, stages: stages as u32, words: 8 }, live }
    })
}

/// Told by positions and by words of stages, where the bank has no more rows than are used.
#[test]
fn the_search_finds_the_row_of_the_rule() {
    for (stages, start) in (1..=6).flat_map(|stages| (0..stages).map(move |start| (stages, start))) {
        for mut window in windows(stages, start) {
            window.sizes.rows = window.rows(0).len() as u32;
            for k in (0..window.live.len()).filter(|&k| window.live[k].waits() && window.sizes.rows > 0) {
                let rule = Stated.room(&window, k, 6).ok().flatten();
                assert_eq!(Walk::new(&window, k, 6).found(), rule, "{k} in {window:?}");
                assert_eq!(Search { window: &window, k, bank: 0 }.found(), rule, "{k} in {window:?}");
            }
        }
    }
}

#[test]
#[should_panic(expected = "the search from the tail finds another row")]
fn rows_found_are_checked() {
    checked(Mutant { room: |w, k, a| Stated.room(w, k, a).map(|from| from.map(|_| k + 1)), ..RIGHT });
}

#[test]
#[should_panic(expected = "no row although the search from the tail finds one")]
fn stalls_are_checked() {
    let room = |w: &Window, k: usize, a: u32| match Stated.room(w, k, a) {
        // With the oldest stuck demand 3 would fail first.
        Ok(Some(_)) if k > 0 => Err(10),
        room => room,
    };
    checked(Mutant { room, ..RIGHT });
}
