//! Scripts with a malformed line, or one outside the limits, at a random place.

use crate::blame::GRAMMAR;
use crate::events::Way;
use crate::generator::Draft;
use crate::random::Random;
use crate::window::CODES;

/// How many places `just_beyond` knows.
pub const BEYOND: usize = 40;
/// How many ways `spoil_line` knows, the first ones of fields.
pub const SPOILED_LINES: usize = FIELDS + 6;
const FIELDS: usize = 14;

pub fn spoil(random: &mut Random, mut draft: Draft) -> Vec<u8> {
    match random.below(10) {
        0 => unended(random, &draft),
        1 => {
            misplaced(random, &mut draft);
            draft.text()
        }
        2..=4 => {
            beyond(random, &mut draft);
            draft.text()
        }
        _ => {
            let which = random.below(SPOILED_LINES);
            spoil_line(random, draft, which)
        }
    }
}

/// A line of a likely letter, spoiled in this way.
pub fn spoil_line(random: &mut Random, mut draft: Draft, which: usize) -> Vec<u8> {
    let place = place(random, &draft);
    let line = &mut draft.lines[place];
    *line = match which.checked_sub(FIELDS) {
        None => fields(random, line, which),
        Some(which) => bytes(random, line, which),
    };
    draft.text()
}

/// One line with this byte in the place of a comma, before another byte, or at its end. A byte of the grammar goes to
/// where it makes the line bad, too.
pub fn spoil_by(random: &mut Random, mut draft: Draft, way: Way, byte: u8) -> Vec<u8> {
    let grammar = GRAMMAR.contains(&byte);
    let mut place = place(random, &draft);
    if way == Way::Appended && grammar {
        place = draft.steps + random.below(draft.lines.len() - draft.steps + 1);
        draft.lines.insert(place, random.pick(&[b"i", b"c"]).to_vec());
    }
    if way == Way::Replaced && !draft.lines[place].contains(&b',') {
        place = random.below(draft.steps);
    }
    let line = &mut draft.lines[place];
    let commas: Vec<usize> = (0..line.len()).filter(|&place| line[place] == b',').collect();
    let comma = if commas.is_empty() { 0 } else { random.pick(&commas) };
    match way {
        Way::Appended => line.push(byte),
        Way::Inserted if grammar => line.insert(0, byte),
        Way::Inserted => line.insert(random.below(line.len()), byte),
        Way::Replaced if byte == b',' => line[0] = byte,
        Way::Replaced if grammar => line[commas[0]] = byte,
        Way::Replaced => line[comma] = byte,
    }
    draft.text()
}

/// A line of a letter that is as likely as the other letters, although lines of it may be few.
fn place(random: &mut Random, draft: &Draft) -> usize {
    let letter = random.pick(b"NAPLSBHieqcx");
    let of_it = |place: &usize| draft.lines[*place][0] == letter;
    let places: Vec<usize> = (0..draft.lines.len()).filter(of_it).collect();
    if places.is_empty() {
        random.below(draft.lines.len())
    } else {
        random.pick(&places)
    }
}

/// Cut before the last line feed, or anywhere.
fn unended(random: &mut Random, draft: &Draft) -> Vec<u8> {
    let mut text = draft.text();
    let cut = random.below(text.len());
    let last = text.len() - 1;
    text.truncate(random.pick(&[cut, last]));
    text
}

/// A good line where it must not stand, or an empty one.
fn misplaced(random: &mut Random, draft: &mut Draft) {
    let place = random.below(draft.lines.len() + 1);
    let after = draft.steps + random.below(draft.lines.len() - draft.steps + 1);
    match random.below(5) {
        0 => draft.lines.insert(place, Vec::new()),
        1 => draft.lines.insert(place.max(1), draft.lines[0].clone()),
        2 => drop(draft.lines.remove(0)),
        _ => draft.lines.insert(after, draft.lines[random.below(draft.steps)].clone()),
    }
}

/// A size, a register or P's imm outside its limits. Some would be inside with their upper bits cut off.
fn beyond(random: &mut Random, draft: &mut Draft) {
    let outside = random.pick(&[8, 8, 8, 9, 256, 257, 65_537, u32::MAX]);
    let place = 1 + random.below(draft.steps);
    let line = match random.below(8) {
        0 => format!("N,{},1,4,8", random.pick(&[0, 3, 3, 5, 6, 7, 9, 16, 16, 257, u32::MAX])),
        1 => format!("N,1,{},4,8", random.pick(&[0, 9, 257, u32::MAX])),
        2 => format!("N,1,1,{},8", random.pick(&[0, 0, 17, 17, 32, 257, u32::MAX])),
        3 => format!("N,1,1,4,{}", random.pick(&[0, 4097, 65_537, u32::MAX])),
        4 => format!("{:?},{outside},0,1", random.pick(&CODES)),
        5 => format!("{:?},0,{outside},1", random.pick(&CODES)),
        _ => format!("P,1,2,{outside}"),
    };
    if line.starts_with('N') {
        draft.lines[0] = line.into();
    } else {
        draft.lines.insert(place, line.into());
    }
}

/// A size just outside its limits, register 8, or an instruction with a field less, with one more, or after a step.
pub fn just_beyond(random: &mut Random, mut draft: Draft, which: usize) -> Vec<u8> {
    let sizes = [
        "0,1,4,8",
        "3,1,4,8",
        "16,1,4,8",
        "1,0,4,8",
        "1,9,4,8",
        "1,1,0,8",
        "1,1,17,8",
        "1,1,4,0",
        "1,1,4,4097",
    ];
    let before = 1 + random.below(draft.steps);
    let after = draft.steps + 1 + random.below(draft.lines.len() - draft.steps);
    let (code, any) = (CODES[which % 6], random.number(8));
    let (place, line) = match which {
        0..=8 => (0, format!("N,{}", sizes[which])),
        9 => (before, "P,0,0,8".into()),
        10..=15 => (before, format!("{code:?},8,0,{any}")),
        16..=21 => (before, format!("{code:?},0,8,{any}")),
        22..=27 => (before, format!("{code:?},1,{any}")),
        28..=33 => (before, format!("{code:?},1,0,{any},0")),
        _ => (after, format!("{code:?},1,0,{any}")),
    };
    if place == 0 {
        draft.lines.remove(0);
    }
    draft.lines.insert(place, line.into());
    draft.text()
}

/// Another field, one less, or a number written in a way that no number is.
fn fields(random: &mut Random, line: &[u8], which: usize) -> Vec<u8> {
    let mut fields: Vec<Vec<u8>> = line.split(|&byte| byte == b',').map(<[u8]>::to_vec).collect();
    let place = random.below(fields.len()).max(fields.len().min(2) - 1);
    let field = fields[place].clone();
    // The last three are small numbers if a sum of 32 or 64 bits wraps.
    let large = ["99999999999", "4294967296", "4294967297", "18446744073709551617"];
    match which {
        0 => drop(fields.pop()),
        1 => fields.push(b"0".to_vec()),
        2 => fields.push(Vec::new()),
        3 => fields[place].clear(),
        4 => fields.insert(1, Vec::new()),
        5 => fields[place] = [b"0", field.as_slice()].concat(),
        6 => fields[place] = [b"+", field.as_slice()].concat(),
        7 => fields[place] = [b"-", field.as_slice()].concat(),
        8 => fields[place] = [field.as_slice(), random.pick(&[b"a", b":", b"/", b"."])].concat(),
        9 => fields.last_mut().into_iter().for_each(|field| field.push(0)),
        _ => fields[place] = large[which - 10].into(),
    }
    fields.join(&b',')
}

/// Another letter, or a byte that no line has.
fn bytes(random: &mut Random, line: &[u8], which: usize) -> Vec<u8> {
    let mut line = line.to_vec();
    let place = random.below(line.len() + 1);
    let high = 128 + random.number(128) as u8;
    match which {
        0 => line[0] = random.pick(b"CZbzMn0,\"#"),
        1 => line[0] ^= 32,
        2 => line.insert(1, line[0]),
        3 => line.insert(place, high),
        4 => line.push(b'\r'),
        _ => line.insert(place, random.pick(b"\r  \t\t\0\0")),
    }
    line
}
