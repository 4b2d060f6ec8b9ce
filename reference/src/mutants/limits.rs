//! Wrong limits of sizes and programs.

use super::{Mutant, Scripts, RIGHT};
use crate::rules::{Rules, Stated};
use crate::window::{Code, Instruction, Sizes};

type Opens = fn(Sizes) -> bool;
type Takes = fn(usize, bool, Instruction) -> Result<(), &'static str>;

const OPENINGS: [(&str, Opens); 15] = [
    ("B 3 taken", |z| z.fit() || z.banks == 3),
    ("B 16 taken", |z| z.fit() || z.banks == 16),
    ("R 0 taken", |z| z.fit() || z.rows == 0),
    ("R 9 taken", |z| z.fit() || z.rows == 9),
    ("n 0 taken", |z| z.fit() || z.stages == 0),
    ("n 17 taken", |z| z.fit() || z.stages == 17),
    ("W 0 taken", |z| z.fit() || z.words == 0),
    ("W 4097 taken", |z| z.fit() || z.words == 4097),
    ("B 8 refused", |z| z.fit() && z.banks != 8),
    ("R 8 refused", |z| z.fit() && z.rows != 8),
    ("R 1 refused", |z| z.fit() && z.rows != 1),
    ("n 16 refused", |z| z.fit() && z.stages != 16),
    ("n 1 refused", |z| z.fit() && z.stages != 1),
    ("W 4096 refused", |z| z.fit() && z.words != 4096),
    ("W 1 refused", |z| z.fit() && z.words != 1),
];

const TAKEN: [(&str, Takes); 6] = [
    ("instruction after a step taken", |before, _, i| Stated.takes(before, false, i)),
    ("257th instruction taken", |before, stepped, i| Stated.takes(before.min(255), stepped, i)),
    ("256th instruction refused", |before, stepped, i| Stated.takes(before + 1, stepped, i)),
    ("register 7 refused", |before, stepped, i| {
        if i.d == 7 || i.s == 7 {
            Err("register 7")
        } else {
            Stated.takes(before, stepped, i)
        }
    }),
    ("P's imm of 7 refused", |before, stepped, i| {
        if i.code == Code::P && i.imm == 7 {
            Err("imm 7")
        } else {
            Stated.takes(before, stepped, i)
        }
    }),
    ("imm above 7 refused for A", |before, stepped, i| {
        if i.code == Code::A && i.imm > 7 {
            Err("imm of A")
        } else {
            Stated.takes(before, stepped, i)
        }
    }),
];

#[test]
fn wrong_limits() {
    let mut scripts = Scripts::default();
    OPENINGS.iter().for_each(|&(name, opens)| scripts.tell(name, Mutant { opens, ..RIGHT }));
    TAKEN.iter().for_each(|&(name, takes)| scripts.tell(name, Mutant { takes, ..RIGHT }));
    scripts.close("limits");
}
