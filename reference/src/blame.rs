//! Which single byte makes a bad line differ from a good one, seen from the outside.

use crate::events::Way;
use crate::text::parse;

/// The bytes of good lines.
pub const GRAMMAR: &[u8] = b"0123456789,NAPLSBHieqcx";
/// Longer lines are not looked at: no good line comes near.
const LONGEST_LINE: usize = 80;

/// The bytes to blame in the line of this number, counted from 0, with the way of each. A line feed joins the
/// line with the one before or after it.
pub fn blame(text: &[u8], number: usize) -> Vec<(Way, u8)> {
    let lines: Vec<&[u8]> = text.split(|&byte| byte == b'\n').collect();
    let line = |number: usize| lines.get(number).copied().unwrap_or_default();
    let bad = line(number);
    let mut found: Vec<(Way, u8)> =
        (0..bad.len()).filter_map(|place| Some((way(bad, place)?, bad[place]))).collect();
    let before = number.checked_sub(1).map(|before| (line(before), bad));
    for (first, second) in before.into_iter().chain([(bad, line(number + 1))]) {
        let joined = [first, b"\n", second].concat();
        found.extend(way(&joined, first.len()).map(|way| (way, b'\n')));
    }
    found
}

/// How the byte at this place makes the line differ from a good one, if it alone does.
fn way(line: &[u8], place: usize) -> Option<Way> {
    if line.len() > LONGEST_LINE {
        return None;
    }
    let (before, after) = (&line[..place], &line[place + 1..]);
    if parse(&[before, after].concat()).is_some() {
        return Some(if after.is_empty() { Way::Appended } else { Way::Inserted });
    }
    let good = |&byte: &u8| parse(&[before, &[byte], after].concat()).is_some();
    GRAMMAR.iter().any(good).then_some(Way::Replaced)
}
