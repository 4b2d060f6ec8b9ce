//! Wrong lines of distances.

use super::{Mutant, Scripts, Wrong, RIGHT};
use crate::machine::Commit;
use crate::player::play_by;
use crate::rules::{Rules, Stated};
use crate::window::Code;

type Tells = fn(Code) -> bool;
type Printing = fn(&Told) -> String;

/// A line of a distance, and the commit line after it.
struct Told<'a> {
    index: usize,
    distance: usize,
    commit: &'a str,
    /// The lines of distances before this one, and the distance of the last of them.
    before: usize,
    last: Option<usize>,
}

const TELLS: [(&str, Tells); 7] = [
    ("no lines", |_| false),
    ("lines of every code", |_| true),
    ("lines of A too", |code| Stated.tells(code) || code == Code::A),
    ("lines of P too", |code| Stated.tells(code) || code == Code::P),
    ("lines of S too", |code| Stated.tells(code) || code == Code::S),
    ("lines of B too", |code| Stated.tells(code) || code == Code::B),
    ("lines of H too", |code| Stated.tells(code) || code == Code::H),
];

const PRINTINGS: [(&str, Printing); 17] = [
    ("after the commit line", |t| format!("{}\n{}", t.commit, line(t))),
    ("twice", |t| format!("{}\n{}\n{}", line(t), line(t), t.commit)),
    ("as the last field of the commit line", |t| format!("{},{}", t.commit, t.distance)),
    ("without a line feed", |t| format!("{},{}", line(t), t.commit)),
    ("none for 0", |t| if t.distance == 0 { t.commit.into() } else { both(line(t), t) }),
    ("none above 0", |t| if t.distance > 0 { t.commit.into() } else { both(line(t), t) }),
    ("none above 9", |t| if t.distance > 9 { t.commit.into() } else { both(line(t), t) }),
    ("none of the distance before", |t| {
        if t.last == Some(t.distance) {
            t.commit.into()
        } else {
            both(line(t), t)
        }
    }),
    ("without index", |t| both(format!("f,{}", t.distance), t)),
    ("distance first", |t| both(format!("f,{},{}", t.distance, t.index), t)),
    ("index from 1", |t| both(format!("f,{},{}", t.index + 1, t.distance), t)),
    ("index by 4 bits", |t| both(format!("f,{},{}", t.index % 16, t.distance), t)),
    ("index by 7 bits", |t| both(format!("f,{},{}", t.index % 128, t.distance), t)),
    ("index of the store", |t| both(format!("f,{},{}", t.index - t.distance, t.distance), t)),
    ("number of the load for index", |t| both(format!("f,{},{}", t.before, t.distance), t)),
    ("in upper case", |t| both(line(t).to_uppercase(), t)),
    ("with two digits", |t| both(format!("f,{},{:02}", t.index, t.distance), t)),
];

fn line(told: &Told) -> String {
    format!("f,{},{}", told.index, told.distance)
}

fn both(line: String, told: &Told) -> String {
    format!("{line}\n{}", told.commit)
}

/// An output with each line of a distance printed otherwise.
fn printed(out: &[u8], printing: Printing) -> Vec<u8> {
    let out = String::from_utf8_lossy(out);
    let (mut lines, mut printed) = (out.lines(), String::new());
    let (mut before, mut last) = (0, None);
    while let Some(line) = lines.next() {
        let told = line.strip_prefix("f,").and_then(|fields| fields.split_once(','));
        let line = match told.map(|(index, distance)| (index.parse(), distance.parse())) {
            Some((Ok(index), Ok(distance))) => {
                let told = Told { index, distance, commit: lines.next().unwrap_or_default(), before, last };
                (before, last) = (before + 1, Some(distance));
                printing(&told)
            }
            _ => line.into(),
        };
        printed += &(line + "\n");
    }
    printed.into_bytes()
}

/// All lines of distances in front of the commit lines, or behind them.
fn moved(out: &[u8], front: bool) -> Vec<u8> {
    let lines: Vec<&[u8]> = out.split_inclusive(|&byte| byte == b'\n').collect();
    let is = |line: &&[u8], letters: &[u8]| letters.contains(&line[0]);
    let commits = lines.iter().copied().filter(|line| !is(line, b"fmeb"));
    let distances = lines.iter().copied().filter(|line| is(line, b"f"));
    let end = lines.iter().copied().filter(|line| is(line, b"meb"));
    let moved: Vec<&[u8]> = if front {
        distances.chain(commits).chain(end).collect()
    } else {
        commits.chain(distances).chain(end).collect()
    };
    moved.concat()
}

/// Lines of distances count as commits.
fn counted(out: &[u8]) -> Vec<u8> {
    let out = String::from_utf8_lossy(out);
    let distances = out.lines().filter(|line| line.starts_with('f')).count();
    match out.trim_end().rsplit_once(',') {
        Some((before, commits)) if before.contains("end,") => {
            format!("{before},{}\n", commits.parse().map_or(0, |commits: usize| commits + distances))
        }
        _ => out.into(),
    }
    .into_bytes()
}

/// A store of a part keeps the distance of the word that it takes, and a line tells it.
const OF_PARTS: Mutant = Mutant {
    execute: |m, k| {
        let before = m.window.clone();
        let answer = m.execute(k)?;
        let entry = m.window.live[k];
        if let (true, Some(word)) = (entry.code().is_part(), entry.mark()) {
            m.window.live[k].distance = Stated.forward(&before, k, word).map_or(0, |store| k - store);
        }
        Ok(answer)
    },
    commit: |m| {
        let distance = m.window.live.first().map_or(0, |oldest| oldest.distance);
        m.commit().map(|commit| Commit { distance, ..commit })
    },
    tells: Code::loads,
    ..RIGHT
};

/// A distance that is printed otherwise.
const OTHER: usize = usize::MAX;

/// What c commits is printed otherwise; a finish commits by the right call.
const BY_COMMIT: Mutant = Mutant {
    commit: |m| m.commit().map(|commit| Commit { distance: OTHER, ..commit }),
    finish: |m, k| {
        let wrong = m.rules;
        m.rules = RIGHT;
        let commits = m.finish(k);
        m.rules = wrong;
        commits
    },
    ..RIGHT
};

/// What x commits is printed otherwise.
const BY_FINISH: Mutant = Mutant {
    finish: |m: &mut Wrong, k| {
        let commits = m.finish(k).into_iter();
        commits.map(|commit| Commit { distance: OTHER, ..commit }).collect()
    },
    ..RIGHT
};

#[test]
fn wrong_lines() {
    let mut scripts = Scripts::default();
    TELLS.iter().for_each(|&(name, tells)| scripts.tell(name, Mutant { tells, ..RIGHT }));
    for (name, printing) in PRINTINGS {
        scripts.tell_player(name, |_, out| printed(out, printing));
    }
    scripts.tell_player("all in front", |_, out| moved(out, true));
    scripts.tell_player("all behind the commits", |_, out| moved(out, false));
    scripts.tell_player("counted as commits", |_, out| counted(out));
    scripts.tell("lines of parts with their distances", OF_PARTS);
    for (step, rules) in [("c", BY_COMMIT), ("x", BY_FINISH)] {
        scripts.tell_player(&format!("no lines by {step}"), |script, _| {
            let lines = |t: &Told| if t.distance == OTHER { t.commit.into() } else { both(line(t), t) };
            printed(&play_by(rules, script).out, lines)
        });
        scripts.tell_player(&format!("{step} tells 0"), |script, _| {
            let zero = |t: &Told| both(format!("f,{},{}", t.index, t.distance % OTHER), t);
            printed(&play_by(rules, script).out, zero)
        });
    }
    scripts.close("lines of distances");
}
