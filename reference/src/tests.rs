//! The scope's sample and examples, the readings of a script's text, and the limits.

use crate::events::Events;
use crate::generator::generate;
use crate::machine::{Executed, Machine};
use crate::player::play;
use crate::rules::{Rules, Stated};
use crate::text::{parse, Line};
use crate::walks::Walk;
use crate::watch::watch;
use crate::window::{Access, Code, Fate, Sizes};

/// Lines parted by blanks here.
fn played(lines: &str) -> String {
    let text: String = lines.split(' ').map(|line| format!("{line}\n")).collect();
    text_played(text.as_bytes())
}

fn text_played(text: &[u8]) -> String {
    String::from_utf8(play(text)).unwrap().trim_end().replace('\n', " ")
}

/// The examples' machine: `memory` holds 140 at 100, and the constants of the program are committed.
fn machine(rows: u32, stages: u32, program: &str, constants: usize) -> Machine<Stated> {
    let mut machine = Machine::new(Stated, Sizes { banks: 1, rows, stages, words: 200 });
    machine.memory[100] = 140;
    for line in program.split(' ') {
        let Some(Line::Instruction(instruction)) = parse(line.as_bytes()) else { panic!("{line}") };
        machine.program.push(instruction);
    }
    advance(&mut machine, constants);
    while machine.issue().is_ok() {}
    machine
}

fn advance(machine: &mut Machine<Stated>, count: usize) {
    (0..count).for_each(|_| assert!(machine.advance().is_some()));
}

fn took(value: u32) -> Result<Executed, u32> {
    came(value, 0)
}

fn came(value: u32, distance: usize) -> Result<Executed, u32> {
    Ok(Executed { value, distance, squashed: None })
}

fn squashed_from(position: usize) -> Result<Executed, u32> {
    Ok(Executed { value: 0, distance: 0, squashed: Some(position) })
}

#[test]
fn sample() {
    let output = played("N,1,2,4,8 A,1,0,5 S,1,0,3 L,2,0,3 i i i e,2 e,0 e,1 c c i e,0 c");
    assert_eq!(output, "0,A,1,5 1,S,3,5 f,2,0 2,L,2,5 m,3,5 end,done,3");
}

#[test]
fn table_1() {
    let mut machine = machine(4, 4, "A,1,0,120 A,2,0,50 S,1,0,100 S,2,0,120 L,3,0,100 L,4,3,0", 2);
    assert_eq!(machine.execute(2), took(140));
    assert_eq!(machine.execute(1), took(0));
    assert_eq!(machine.execute(3), took(0));
    assert_eq!(machine.execute(0), squashed_from(2));
    assert!(machine.commit().is_ok() && machine.commit().is_ok());
    assert_eq!((machine.issue(), machine.issue()), (Ok(0), Ok(1)));
    assert_eq!((machine.execute(0), machine.execute(1)), (took(120), took(50)));
}

#[test]
fn table_1_as_a_script() {
    let program = "N,1,4,4,200 A,1,0,140 S,1,0,100 A,1,0,120 A,2,0,50 S,1,0,100 S,2,0,120 L,3,0,100 L,4,3,0";
    let steps = "x,4 i i i i e,2 e,1 e,3 e,0 c c c i i e,0 e,1 c c";
    let commits =
        "0,A,1,140 1,S,100,140 2,A,1,120 3,A,2,50 4,S,100,120 5,S,120,50 f,6,0 6,L,3,120 f,7,0 7,L,4,50";
    let end = "m,100,120 m,120,50 end,done,8";
    assert_eq!(played(&format!("{program} {steps}")), format!("{commits} {end}"));
}

#[test]
fn forwards() {
    let mut older = machine(4, 4, "A,1,0,7 S,1,0,5 L,2,0,5", 1);
    assert_eq!((older.execute(0), older.execute(1)), (took(0), came(7, 1)));
    let mut younger = machine(4, 4, "A,1,0,7 L,2,0,5 S,1,0,5", 1);
    assert_eq!((younger.execute(1), younger.execute(0)), (took(0), took(0)));
}

#[test]
fn store_between() {
    let program = "A,1,0,7 S,1,0,5 S,1,0,5 L,2,0,5";
    let mut between = machine(4, 4, program, 1);
    assert_eq!((between.execute(1), between.execute(2), between.execute(0)), (took(0), came(7, 1), took(0)));
    let mut bare = machine(4, 4, program, 1);
    assert_eq!((bare.execute(2), bare.execute(0)), (took(0), squashed_from(2)));
}

#[test]
fn evictions() {
    let mut one = machine(1, 4, "L,1,0,6 L,2,0,5", 0);
    assert_eq!((one.execute(1), one.execute(0)), (took(0), squashed_from(1)));
    let mut stalled = machine(1, 4, "L,1,0,5 L,2,0,6", 0);
    assert_eq!((stalled.execute(0), stalled.execute(1)), (took(0), Err(10)));
    let mut two = machine(2, 4, "L,1,0,6 L,2,0,5 L,3,0,6 L,4,0,7", 0);
    assert_eq!((two.execute(1), two.execute(3), two.execute(0)), (took(0), took(0), squashed_from(3)));
    assert_eq!((two.window.live.len(), two.window.live[1].waits()), (3, false));
}

#[test]
fn row_with_an_older_mark_stays() {
    let mut machine = machine(1, 4, "L,1,0,5 L,2,0,6 L,3,0,5", 0);
    assert_eq!((machine.execute(0), machine.execute(2), machine.execute(1)), (took(0), took(0), Err(10)));
}

/// The rows of the two youngest marks have older ones; the third mark, past the wrap, is its row's oldest.
#[test]
fn evictions_from_the_tail() {
    let program = "A,1,0,1 A,1,0,1 A,1,0,1 A,2,0,2 L,3,0,0 L,4,0,8 A,5,0,5 L,6,0,16 L,7,0,16 L,6,0,8";
    let mut machine = machine(2, 7, program, 3);
    for k in [2, 6, 4, 5] {
        assert_eq!(machine.execute(k), took(0));
    }
    let walk = Walk::new(&machine.window, 1, 0);
    assert_eq!((walk.looked.as_slice(), walk.found()), ([6, 5, 4].as_slice(), Some(4)));
    assert_eq!((machine.window.stage(3), machine.window.stage(4)), (6, 0));
    assert_eq!(machine.execute(1), squashed_from(4));
}

#[test]
fn evictions_from_the_tail_as_scripts() {
    let examples = [
        (
            "N,1,2,7,64 A,1,0,1 A,1,0,1 A,1,0,1 A,2,0,2 L,3,0,0 L,4,0,8 A,5,0,5 L,6,0,16 L,7,0,16 L,6,0,8 \
             x,3 i i i i i i i e,2 e,6 e,4 e,5 e,1 e,0 c c c e,0 c c",
            "0,A,1,1 1,A,1,1 2,A,1,1 3,A,2,2 f,4,0 4,L,3,0 f,5,0 5,L,4,0 6,A,5,5 end,open,7",
        ),
        (
            "N,1,2,3,60 A,1,0,1 L,2,0,16 L,2,0,8 B,1,0,3 x,1 i i i e,1 e,2 e,0 c c c",
            "0,A,1,1 f,1,0 1,L,2,0 f,2,0 2,L,2,0 end,open,3",
        ),
    ];
    for (lines, output) in examples {
        assert_eq!(played(lines), output, "{lines}");
    }
}

#[test]
fn last_word_and_beyond() {
    assert_eq!(played("N,1,4,4,200 L,1,0,199 i e,0 c"), "f,0,0 0,L,1,0 end,done,1");
    let mut beyond = machine(4, 4, "L,1,0,200", 0);
    assert_eq!((beyond.execute(0), beyond.commit()), (took(0), Err(13)));
}

#[test]
fn forward_beyond_memory() {
    let mut machine = machine(4, 4, "A,1,0,7 S,1,0,200 L,2,0,200", 1);
    assert_eq!((machine.execute(0), machine.execute(1)), (took(0), came(7, 1)));
    machine.squash(0).unwrap();
    while machine.issue().is_ok() {}
    assert_eq!((machine.execute(1), machine.execute(0)), (took(0), squashed_from(1)));
}

#[test]
fn refusals_of_issue_execute_and_squash() {
    let mut machine = machine(4, 4, "A,1,0,1 A,2,1,1 A,3,0,1 A,4,0,1 A,5,0,1", 0);
    assert_eq!(machine.issue(), Err(5));
    assert_eq!((machine.execute(1), machine.execute(4)), (Err(9), Err(7)));
    assert_eq!((machine.commit(), machine.squash(4)), (Err(12), Err(7)));
    assert_eq!((machine.execute(0), machine.execute(0)), (took(0), Err(8)));
    assert_eq!((machine.squash(0), machine.commit()), (Ok(()), Err(11)));
    assert_eq!(machine.next, 0);
    advance(&mut machine, 5);
    assert_eq!(machine.issue(), Err(6));
}

#[test]
fn forward_across_the_last_stage() {
    let mut machine = machine(4, 4, "A,1,0,7 A,2,0,8 A,3,0,9 S,1,0,5 L,4,0,5 L,5,0,5", 0);
    advance(&mut machine, 2);
    while machine.issue().is_ok() {}
    assert_eq!((machine.window.stage(1), machine.window.stage(2)), (3, 0));
    assert_eq!((machine.execute(1), machine.execute(2)), (took(0), came(7, 1)));
}

/// Against a word as an array of bytes, and by quotients and remainders.
#[test]
fn merges() {
    let words =
        [0, 1, 127, 128, 255, 256, 65_535, 65_536, 1 << 31, u32::MAX - 1, u32::MAX, 0x0102_0304, 0xf0e0_d0c0];
    for byte in (0..8).chain([
        16_383,
        16_384,
        (1 << 31) - 1,
        1 << 31,
        u32::MAX - 3,
        u32::MAX - 2,
        u32::MAX - 1,
        u32::MAX,
    ]) {
        for (word, value) in words.into_iter().flat_map(|word| words.map(|value| (word, value))) {
            let (place, stored) = (byte as usize % 4, value.to_le_bytes());
            let mut one = word.to_le_bytes();
            one[place] = stored[0];
            let mut two = word.to_le_bytes();
            two[place & 2] = stored[0];
            two[place & 2 | 1] = stored[1];
            let replaced = |low: u32, width: u32| {
                let (word, value) = (u64::from(word), u64::from(value));
                let above = word >> (low + width) << (low + width);
                (above + ((value % (1 << width)) << low) + word % (1 << low)) as u32
            };
            for (code, bytes, computed) in
                [(Code::B, one, replaced(byte % 4 * 8, 8)), (Code::H, two, replaced(byte % 4 / 2 * 16, 16))]
            {
                let whole = Stated.merge(code, byte, word, value);
                assert_eq!(whole, u32::from_le_bytes(bytes), "{code:?} {byte} {word} {value}");
                assert_eq!(whole, computed, "{code:?} {byte} {word} {value}");
            }
        }
    }
}

#[test]
fn parts_as_scripts() {
    let examples = [
        (
            "N,1,1,4,1 A,1,0,511 B,1,0,3 H,1,0,0 B,0,0,1 L,2,0,0 x,9",
            "0,A,1,511 1,B,3,4278190080 2,H,0,4278190591 3,B,1,4278190335 f,4,0 4,L,2,4278190335 m,0,4278190335 end,done,5",
        ),
        (
            "N,1,2,4,8 A,1,0,255 B,1,0,0 B,1,0,1 i i i e,0 e,2 e,1 c c c x,1",
            "0,A,1,255 1,B,0,255 2,B,1,65535 m,0,65535 end,done,3",
        ),
        ("N,1,1,2,2 A,1,0,7 B,1,0,7 B,1,0,8 x,9", "0,A,1,7 1,B,7,117440512 m,1,117440512 end,fault,2"),
        ("N,1,1,2,2 A,1,0,7 H,1,0,5 L,2,0,1 i i e,0 c i e,0 e,1 c c x,3", "0,A,1,7 end,fault,1"),
        ("N,1,1,4,8 B,0,0,3 L,1,0,0 B,0,0,4 i i i e,0 e,1 e,2 c c", "0,B,3,0 f,1,1 1,L,1,0 end,open,2"),
    ];
    for (lines, output) in examples {
        assert_eq!(played(lines), output, "{lines}");
    }
}

#[test]
fn parts_take_words_as_loads_do() {
    let mut memory = machine(4, 4, "A,1,0,511 B,1,0,401 L,2,0,100", 1);
    assert_eq!((memory.execute(0), memory.execute(1)), (took(0), came(140 + (255 << 8), 1)));
    let mut store = machine(4, 4, "A,1,0,65541 S,1,0,5 H,1,0,22 L,2,0,5", 1);
    assert_eq!(
        (store.execute(0), store.execute(1), store.execute(2)),
        (took(0), took(0), came(0x0005_0005, 1))
    );
    let mut younger = machine(4, 4, "A,1,0,511 B,1,0,20 S,1,0,5 L,2,0,5", 1);
    assert_eq!((younger.execute(1), younger.execute(0)), (took(0), took(0)));
    assert_eq!((younger.window.live[0].value(), younger.execute(2)), (Some(255), came(511, 1)));
    let mut beyond = machine(4, 4, "A,1,0,1 B,1,0,801 H,1,0,802 L,2,0,200", 1);
    assert_eq!(
        (beyond.execute(0), beyond.execute(1), beyond.execute(2)),
        (took(0), took(0), came(0x0001_0100, 1))
    );
    assert_eq!(beyond.commit(), Err(13));
}

/// Whatever the bytes are.
#[test]
fn parts_are_met_load_side_first() {
    for older in ["S,1,0,5", "B,1,0,20", "H,1,0,20"] {
        for younger in ["L,2,0,5", "B,1,0,23", "H,1,0,22", "B,0,0,20"] {
            let mut met = machine(4, 4, &format!("A,1,0,257 {older} A,3,0,1 {younger} L,4,0,9"), 1);
            assert_eq!(
                (met.execute(2), met.execute(3), met.execute(0)),
                (took(0), took(0), squashed_from(2))
            );
            assert_eq!((met.window.live.len(), met.next), (2, 3), "{older} {younger}");
            let mut between = machine(4, 4, &format!("A,1,0,257 {older} S,1,0,5 {younger}"), 1);
            let answer = if younger.starts_with('L') { came(257, 1) } else { took(0) };
            assert_eq!(
                (between.execute(1), between.execute(2), between.execute(0)),
                (took(0), answer, took(0))
            );
        }
    }
}

#[test]
fn same_words_as_scripts() {
    let examples = [
        ("N,1,2,4,8 S,0,0,5 L,1,0,5 i i e,1 e,0 c c", "0,S,5,0 f,1,0 1,L,1,0 end,done,2"),
        (
            "N,1,2,4,8 A,1,0,7 S,1,0,5 S,1,0,5 L,2,0,5 i i i i e,0 e,1 e,3 e,2 c c c c",
            "0,A,1,7 1,S,5,7 2,S,5,7 f,3,2 3,L,2,7 m,5,7 end,done,4",
        ),
        (
            "N,1,2,4,8 A,1,0,7 S,1,0,5 S,0,0,5 L,2,0,5 i i i i e,0 e,1 e,3 e,2 c c c c x,1",
            "0,A,1,7 1,S,5,7 2,S,5,0 f,3,0 3,L,2,0 end,done,4",
        ),
        (
            "N,1,2,4,8 A,1,0,1 S,0,0,0 B,1,0,1 L,2,0,0 i i i i e,0 e,2 e,3 e,1 c c c c",
            "0,A,1,1 1,S,0,0 2,B,1,256 f,3,1 3,L,2,256 m,0,256 end,done,4",
        ),
        // The first load took the word stored, the second one another.
        (
            "N,1,2,5,8 A,1,0,7 S,0,0,5 L,2,0,5 S,1,0,5 L,3,0,5 i i i i i e,0 e,3 e,4 e,2 e,1 x,9",
            "0,A,1,7 1,S,5,0 f,2,0 2,L,2,0 3,S,5,7 f,4,1 4,L,3,7 m,5,7 end,done,5",
        ),
        // A finish spares, too.
        ("N,1,2,4,8 S,0,0,5 L,1,0,5 i i e,1 x,1 c", "0,S,5,0 f,1,0 1,L,1,0 end,done,2"),
        // An eviction does not.
        ("N,1,1,4,8 S,0,0,6 L,1,0,5 i i e,1 e,0 c c", "0,S,6,0 end,open,1"),
    ];
    for (lines, output) in examples {
        assert_eq!(played(lines), output, "{lines}");
    }
}

/// The word at 5 is 257 throughout.
#[test]
fn same_words_of_every_code() {
    let program = "A,1,0,257 A,2,0,1 S,1,0,5";
    for older in ["S,1,0,5", "B,1,0,20", "B,2,0,21", "B,0,0,23", "H,1,0,20", "H,0,0,22"] {
        for younger in ["L,3,0,5", "B,1,0,20", "B,0,0,21", "H,2,0,20", "H,1,0,22"] {
            let mut met = machine(4, 4, &format!("{program} {older} A,4,0,1 {younger} L,5,0,5"), 3);
            let first = met.execute(2);
            assert_eq!(first, if younger.starts_with('L') { took(257) } else { took(0) });
            let last = met.execute(3).map(|answer| (answer.distance, answer.squashed));
            assert_eq!(last, Ok((usize::from(!younger.starts_with('L')), None)));
            let before = met.window.live.clone();
            assert_eq!(met.execute(0), took(0), "{older} {younger}");
            assert_eq!(met.window.live[1..], before[1..], "{older} {younger}");
            assert_eq!((met.window.live[0].value(), met.window.live[2].taken()), (Some(257), Some(257)));
        }
    }
}

#[test]
fn other_words_of_every_code() {
    let program = "A,1,0,257 A,2,0,2 S,1,0,5";
    for (older, younger) in [
        ("S,2,0,5", "B,2,0,20"),
        ("S,0,0,5", "L,3,0,5"),
        ("B,0,0,21", "B,0,0,21"),
        ("B,1,0,22", "H,1,0,22"),
        ("H,2,0,20", "H,2,0,20"),
        ("H,1,0,22", "L,3,0,5"),
    ] {
        let mut met = machine(4, 4, &format!("{program} {older} A,4,0,1 {younger} L,5,0,5"), 3);
        assert!(met.execute(2).is_ok() && met.execute(3).is_ok());
        assert_eq!(met.execute(0), squashed_from(2), "{older} {younger}");
    }
}

/// Not memory's word and not the one that is seen at the store: no call reaches a window in which the last one differs.
#[test]
fn the_word_taken_decides() {
    for (memory, seen, taken, squashed) in
        [(0, 7, 7, false), (7, 9, 9, true), (0, 0, 7, false), (0, 7, 0, true)]
    {
        let mut spoiled = machine(4, 4, &format!("A,1,0,{seen} A,2,0,7 S,1,0,5 S,2,0,5 B,1,0,20"), 2);
        spoiled.memory[5] = memory;
        assert!(spoiled.execute(0).is_ok() && spoiled.execute(2).is_ok());
        let Fate::Executed { access: Some(access), .. } = &mut spoiled.window.live[2].fate else { panic!() };
        assert_eq!(access.taken, Some(seen));
        access.taken = Some(taken);
        assert_eq!(
            spoiled.execute(1).map(|answer| answer.squashed.is_some()),
            Ok(squashed),
            "{memory} {seen}"
        );
    }
}

#[test]
fn kept_loads_are_met_again() {
    let program = "A,1,0,7 S,0,0,5 S,0,0,5 S,1,0,5 L,2,0,5";
    let mut kept = machine(4, 4, program, 1);
    assert_eq!((kept.execute(3), kept.execute(0), kept.execute(1)), (took(0), took(0), took(0)));
    assert_eq!(kept.window.live[3].distance, 0);
    assert_eq!((kept.execute(2), kept.issue(), kept.execute(3)), (squashed_from(3), Ok(3), came(7, 1)));
    let mut part = machine(4, 4, "A,1,0,7 S,1,0,5 B,0,0,20 L,2,0,5", 1);
    assert_eq!((part.execute(2), part.execute(1), part.execute(0)), (took(0), took(0), squashed_from(1)));
}

/// A load behind a kept one stays, whatever it took and wherever it took it from.
#[test]
fn the_walk_ends_at_a_kept_load() {
    for middle in ["S,1,0,5", "B,1,0,20", "H,1,0,22"] {
        let mut kept = machine(4, 5, &format!("A,1,0,7 S,0,0,5 L,2,0,5 {middle} L,3,0,5"), 1);
        assert!(kept.execute(2).is_ok() && kept.execute(3).is_ok() && kept.execute(1).is_ok());
        assert_eq!((kept.execute(0), kept.window.live.len()), (took(0), 4), "{middle}");
        advance(&mut kept, 3);
        assert_eq!(kept.commit().map(|commit| commit.distance), Ok(1), "{middle}");
    }
}

#[test]
fn same_words_at_the_end_of_memory() {
    let mut beyond = machine(4, 4, "A,1,0,7 S,0,0,200 S,1,0,200 L,3,0,200", 1);
    assert_eq!((beyond.execute(2), beyond.execute(0)), (took(0), took(0)));
    assert_eq!((beyond.execute(1), beyond.commit()), (squashed_from(2), Err(13)));
}

#[test]
fn rows_of_parts_go_by_the_word() {
    let mut one = machine(1, 4, "B,0,0,20 H,0,0,22 L,1,0,5 B,0,0,24", 0);
    assert_eq!((one.execute(0), one.execute(1), one.execute(2)), (took(0), took(0), came(0, 1)));
    assert_eq!(one.execute(3), Err(10));
    let mut evicts = machine(1, 4, "B,0,0,24 L,1,0,5", 0);
    assert_eq!((evicts.execute(1), evicts.execute(0)), (took(0), squashed_from(1)));
    let mut evicted = machine(1, 4, "L,1,0,5 H,0,0,24", 0);
    assert_eq!((evicted.execute(1), evicted.execute(0)), (took(0), squashed_from(1)));
}

#[test]
fn operands_of_parts() {
    let mut waits = machine(4, 4, "A,1,0,21 A,2,0,3 B,2,1,0 A,3,2,0", 0);
    assert_eq!((waits.execute(2), waits.execute(0), waits.execute(2)), (Err(9), took(0), Err(9)));
    assert_eq!((waits.execute(1), waits.execute(2), waits.execute(3)), (took(0), took(0), took(0)));
    assert_eq!(waits.window.live[3].value(), Some(3));
    advance(&mut waits, 4);
    assert_eq!((waits.registers, waits.memory[5]), ([0, 21, 3, 3, 0, 0, 0, 0], 3 << 8));
}

/// Executes as at the byte below, keeps its number, and is refused by 13 before 14.
#[test]
fn odd_half_words() {
    let mut below = machine(4, 4, "A,1,0,511 H,1,0,403 L,2,0,100", 1);
    assert_eq!((below.execute(0), below.execute(1)), (took(0), came(140 + (511 << 16), 1)));
    let access = Some(Access { number: 403, word: 100, taken: Some(140) });
    assert_eq!(below.window.live[0].fate, Fate::Executed { value: 140 + (511 << 16), access });
    assert_eq!((below.commit(), below.fate(), below.memory[100]), (Err(14), "fault", 140));
    assert_eq!((below.finish(9), below.window.live.len()), (Vec::new(), 2));
    for (byte, refusal) in
        [(799, Err(14)), (800, Err(13)), (801, Err(13)), (803, Err(13)), (u32::MAX, Err(13))]
    {
        let mut last = machine(4, 4, &format!("H,0,0,{byte}"), 0);
        assert_eq!((last.finish(9), last.commit(), last.fate()), (Vec::new(), refusal, "fault"), "{byte}");
        assert!(!last.window.live[0].waits());
        assert_eq!((last.squash(0), last.fate()), (Ok(()), "open"));
    }
    for line in ["H,0,0,798", "B,0,0,799", "B,0,0,201"] {
        assert!(machine(4, 4, line, 0).advance().is_some(), "{line}");
    }
    assert_eq!(machine(4, 4, "B,0,0,800", 0).advance(), None);
}

#[test]
fn distances_as_scripts() {
    let examples = [
        (
            "N,1,2,8,8 A,1,0,5 S,1,0,3 A,2,0,6 S,2,0,3 L,3,0,3 L,4,0,4 i i i i i i e,0 e,1 e,2 e,3 e,4 e,5 x,9",
            "0,A,1,5 1,S,3,5 2,A,2,6 3,S,3,6 f,4,1 4,L,3,6 f,5,0 5,L,4,0 m,3,6 end,done,6",
        ),
        (
            "N,1,2,4,8 A,1,0,5 B,1,0,12 L,2,0,3 i i i e,0 e,1 e,2 c c c",
            "0,A,1,5 1,B,12,5 f,2,1 2,L,2,5 m,3,5 end,done,3",
        ),
        (
            "N,1,2,4,8 A,1,0,5 S,1,0,3 L,2,0,3 L,3,0,3 i i i i e,0 e,1 e,2 x,9",
            "0,A,1,5 1,S,3,5 f,2,1 2,L,2,5 f,3,0 3,L,3,5 m,3,5 end,done,4",
        ),
        (
            "N,1,2,4,8 A,1,0,5 S,1,0,3 B,1,0,13 H,1,0,14 x,9",
            "0,A,1,5 1,S,3,5 2,B,13,1285 3,H,14,328965 m,3,328965 end,done,4",
        ),
    ];
    for (lines, output) in examples {
        assert_eq!(played(lines), output, "{lines}");
    }
    let late = format!("N,1,1,2,8{} S,1,0,3 L,2,0,3 x,99 i i e,0 e,1 c c", " A,1,0,5".repeat(99));
    assert!(played(&late).ends_with("98,A,1,5 99,S,3,5 f,100,1 100,L,2,5 m,3,5 end,done,101"));
}

/// Whatever stands between, executed or not.
#[test]
fn every_distance() {
    for (store, value) in [("S,1,0,5", 7), ("B,1,0,21", 7 << 8), ("H,1,0,22", 7 << 16)] {
        for between in ["A,3,0,1", "P,3,0,2", "L,3,0,6", "S,1,0,6", "B,1,0,24", "H,1,0,26"] {
            for distance in 1..=15 {
                let program =
                    format!("A,1,0,7 {store}{} L,2,0,5", format!(" {between}").repeat(distance - 1));
                let mut machine = machine(2, 16, &program, 1);
                assert_eq!((machine.execute(0), machine.execute(distance)), (took(0), came(value, distance)));
                advance(&mut machine, distance);
                let commit = machine.commit().unwrap();
                assert_eq!((commit.value, commit.distance), (value, distance), "{program}");
            }
        }
    }
}

#[test]
fn distance_of_the_nearest() {
    let mut nearest = machine(4, 6, "A,1,0,7 S,1,0,5 H,1,0,20 A,2,0,1 S,1,0,6 L,3,0,5 S,1,0,5", 1);
    assert_eq!((nearest.execute(0), nearest.execute(1), nearest.execute(3)), (took(0), took(0), took(0)));
    assert_eq!((nearest.execute(5), nearest.execute(4)), (took(0), came(7, 3)));
    let mut waiting = machine(4, 4, "A,1,0,7 A,2,0,8 S,1,0,5 S,2,0,5 L,3,0,5", 2);
    assert_eq!((waiting.execute(0), waiting.execute(2)), (took(0), came(7, 2)));
    assert_eq!(waiting.execute(1), squashed_from(2));
    assert_eq!((waiting.issue(), waiting.execute(2)), (Ok(2), came(8, 1)));
}

#[test]
fn distances_are_kept() {
    let mut machine = machine(4, 3, "A,1,0,7 S,1,0,5 A,2,0,1 L,3,0,5 S,1,0,5 L,4,0,5", 1);
    assert_eq!((machine.execute(0), machine.execute(2)), (took(0), came(7, 2)));
    advance(&mut machine, 2);
    assert_eq!((machine.issue(), machine.issue()), (Ok(1), Ok(2)));
    assert_eq!((machine.execute(1), machine.execute(2)), (took(0), came(7, 1)));
    assert_eq!(machine.squash(1), Ok(()));
    assert_eq!(machine.commit().map(|commit| (commit.index, commit.distance)), Ok((3, 2)));
}

/// A store of the same word comes nearer than where the word came from, a store or memory.
#[test]
fn distances_are_kept_before_a_nearer_store() {
    for (first, distance) in [("S,1,0,5", 3), ("A,2,0,1", 0)] {
        for nearer in ["S,1,0,5", "B,1,0,20", "H,1,0,20"] {
            let mut kept = machine(4, 4, &format!("A,1,0,7 S,1,0,5 {first} A,3,0,1 {nearer} L,4,0,5"), 2);
            assert_eq!((kept.execute(0), kept.execute(3)), (took(0), came(7, distance)));
            assert_eq!((kept.execute(2), kept.window.live[3].distance), (took(0), distance));
            advance(&mut kept, 3);
            let commit = kept.commit().map(|commit| (commit.value, commit.distance));
            assert_eq!(commit, Ok((7, distance)), "{first} {nearer}");
        }
    }
}

#[test]
fn distances_of_a_second_execution() {
    let program = "A,1,0,7 S,1,0,5 A,2,0,1 L,3,0,5";
    let mut later = machine(4, 4, program, 1);
    assert_eq!((later.execute(2), later.execute(0)), (took(0), squashed_from(2)));
    assert_eq!((later.issue(), later.execute(2)), (Ok(2), came(7, 2)));
    assert_eq!((later.squash(1), later.commit().is_ok()), (Ok(()), true));
    assert_eq!((later.issue(), later.issue(), later.execute(1)), (Ok(0), Ok(1), took(7)));
    advance(&mut later, 1);
    assert_eq!(later.commit().map(|commit| commit.distance), Ok(0));
}

#[test]
fn distances_at_the_end_of_memory() {
    let mut beyond = machine(4, 4, "A,1,0,7 L,2,0,200 S,1,0,200 A,2,0,1 L,3,0,200", 1);
    assert_eq!((beyond.execute(0), beyond.execute(1)), (took(0), took(0)));
    assert_eq!((beyond.execute(3), beyond.commit()), (came(7, 2), Err(13)));
}

/// Stores of parts look for a store, too.
#[test]
fn no_distance_of_other_codes() {
    for line in ["A,2,0,1", "P,2,0,1", "S,1,0,5", "B,1,0,20", "H,1,0,22"] {
        let mut other = machine(4, 4, &format!("A,1,0,7 S,1,0,5 {line}"), 1);
        assert_eq!((other.execute(0), other.execute(1)), (took(0), took(0)), "{line}");
        assert_eq!(other.window.live[1].distance, 0, "{line}");
        other.window.live[1].distance = 3;
        advance(&mut other, 1);
        assert_eq!(other.commit().map(|commit| commit.distance), Ok(0), "{line}");
    }
}

#[test]
fn small_scripts() {
    assert_eq!(played("N,1,1,1,1"), "end,done,0");
    assert_eq!(played("N,1,1,1,1 A,1,0,1"), "end,open,0");
    assert_eq!(played("N,8,8,16,4096 i e,0 q,0 c x,9"), "end,done,0");
    assert_eq!(played("N,1,1,1,1 A,1,0,1 x,0"), "end,open,0");
    assert_eq!(played("N,1,1,1,1 A,1,0,1 S,1,0,0 i i e,0 c i e,0 c"), "0,A,1,1 1,S,0,1 m,0,1 end,done,2");
    assert_eq!(played("N,1,1,1,1 A,1,0,1 e,4294967295 q,4294967295 x,4294967295"), "0,A,1,1 end,done,1");
}

#[test]
fn fates() {
    let program = "N,1,1,2,4 A,1,0,3 L,2,1,1";
    assert_eq!(played(&format!("{program} x,9")), "0,A,1,3 end,fault,1");
    assert_eq!(played(&format!("{program} i i e,0 e,1 c")), "0,A,1,3 end,fault,1");
    assert_eq!(played(&format!("{program} i i e,0 e,1")), "end,open,0");
    assert_eq!(played(&format!("{program} x,1 i")), "0,A,1,3 end,open,1");
    assert_eq!(played(&format!("{program} x,1 i e,0 c c")), "0,A,1,3 end,fault,1");
    assert_eq!(played(&format!("{program} x,9 q,0")), "0,A,1,3 end,open,1");
}

#[test]
fn finish_keeps_live_entries() {
    let program = "N,1,1,4,4 A,1,0,1 A,2,0,2 A,3,0,3";
    assert_eq!(played(&format!("{program} i i i e,2 e,1 x,1 c c c")), "0,A,1,1 1,A,2,2 2,A,3,3 end,done,3");
    assert_eq!(played(&format!("{program} i i i e,2 x,2 c c")), "0,A,1,1 1,A,2,2 2,A,3,3 end,done,3");
}

#[test]
fn sums_wrap_and_register_0_is_ordinary() {
    let program = "N,1,1,2,8 A,0,0,4294967295 P,1,0,0 S,1,0,6 L,2,0,6";
    let commits = "0,A,0,4294967295 1,P,1,4294967294 2,S,5,4294967294 f,3,0 3,L,2,4294967294";
    assert_eq!(played(&format!("{program} x,4")), format!("{commits} m,5,4294967294 end,done,4"));
}

#[test]
fn whole_texts() {
    assert_eq!(text_played(b""), "bad,1");
    assert_eq!(text_played(b"\n"), "bad,1");
    assert_eq!(text_played(b"N,1,1,1,1"), "bad,1");
    assert_eq!(text_played(b"N,1,1,1,1\n"), "end,done,0");
    assert_eq!(text_played(b"N,1,1,1,1\n\n"), "bad,2");
    assert_eq!(text_played(b"N,1,1,1,1\nA,1,0,1\nx,1\ni"), "0,A,1,1 bad,4");
    assert_eq!(text_played(b"i\n"), "bad,1");
    assert_eq!(text_played(b"N,1,1,1,1\r\n"), "bad,1");
    assert_eq!(play(b"N,1,1,1,1\nS,1,0,0\nx,1\n?\n"), b"0,S,0,0\nbad,4\n");
}

/// Each as the fifth line, after a commit that stands printed.
#[test]
fn malformed_steps() {
    let start = b"N,1,2,4,8\nA,1,0,5\nS,1,0,3\nx,2\n";
    #[rustfmt::skip]
    let lines: [&[u8]; 33] = [
        b"", b"i,", b"i,0", b"e", b"e,", b"e,00", b"e,01", b"e,+1", b"e,-1", b"e, 1", b"e,1 ",
        b" e,1", b"e,4294967296", b"e,18446744073709551616", b"e,1,", b"e,1,2", b"E,1", b"I", b"x",
        b"x,", b"n,1,2,4,8", b"N,1,2,4,8", b"A,1,0,5", b"z", b"ii", b"i\r", b"i\0", b"\ti",
        b"i\x80", b"\xff", b",", b"B,1,0,5", b"H,1,0,5",
    ];
    for line in lines {
        let text = [start, line, b"\nx,9\n"].concat();
        assert_eq!(text_played(&text), "0,A,1,5 1,S,3,5 bad,5", "{}", line.escape_ascii());
    }
}

#[test]
fn instruction_lines() {
    let bad = ["A,8,0,0", "A,0,8,0", "P,0,0,8", "L,8,0,0", "S,0,4294967295,0", "A,1", "A,1,2,3,4", "A,,0,0"];
    let parts = ["B,8,0,0", "H,0,8,0", "B,1,0", "H,1,0", "B,1,0,0,0", "H,1,0,0,", "b,1,0,0", "H1,0,0"];
    for line in bad.into_iter().chain(parts) {
        assert_eq!(played(&format!("N,1,1,1,1 A,7,7,0 {line} x,1")), "bad,3", "{line}");
    }
    for line in [
        "A,7,7,4294967295",
        "P,7,7,7",
        "L,7,7,4294967295",
        "S,7,7,8",
        "A,0,0,0",
        "B,7,7,8",
        "H,7,7,4294967295",
    ] {
        assert_eq!(played(&format!("N,1,1,1,1 A,7,7,0 {line}")), "end,open,0", "{line}");
    }
}

#[test]
fn sizes() {
    for line in ["1,1,1,1", "2,1,1,1", "4,8,16,4096", "8,8,16,4096"] {
        assert_eq!(played(&format!("N,{line}")), "end,done,0", "{line}");
    }
    let bad = ["0,1,1,1", "3,1,1,1", "16,1,1,1", "1,0,1,1", "1,9,1,1", "1,1,0,1", "1,1,17,1", "1,1,1,0"];
    for line in bad.into_iter().chain(["1,1,1,4097", "4294967295,1,1,1", "1,1,1", "1,1,1,1,1", "01,1,1,1"]) {
        assert_eq!(played(&format!("N,{line}")), "bad,1", "{line}");
    }
}

#[test]
fn longest_program() {
    let longest = format!("N,1,1,1,1{}", " A,1,1,1".repeat(256));
    assert!(played(&format!("{longest} x,300")).ends_with("255,A,1,256 end,done,256"));
    assert_eq!(played(&format!("{longest} A,1,1,1 x,300")), "bad,258");
}

#[test]
fn longest_input() {
    let mut text = b"N,1,1,1,1\nA,1,0,1\nx,1\n".to_vec();
    text.resize(65_534, b'\n');
    (22..65_534).step_by(2).for_each(|place| text[place] = b'c');
    text.extend(b"c\n");
    assert_eq!((text.len(), text_played(&text).as_str()), (65_536, "0,A,1,1 end,done,1"));
    text.push(b'\n');
    assert_eq!(text_played(&text), "bad,0");
}

#[test]
fn every_event_is_reached() {
    let mut events = Events::default();
    (0..3000).for_each(|seed| events.join(&watch(Stated, &generate(seed)).1));
    for (name, count) in events.list() {
        // Of 3,000 scripts each byte spoils one in each of the three ways.
        let least = if name.starts_with("byte ") { 1 } else { 3 };
        assert!(count >= least, "{name}: {count}");
    }
}
