//! Wrong readings of a text and wrong printing, around the right player.

use super::{generated, Scripts};
use crate::blame::GRAMMAR;
use crate::player::{play, LONGEST};

/// What is played in the place of a text.
type Reading = fn(&[u8]) -> Vec<u8>;
/// What is printed in the place of an output.
type Printing = fn(&str) -> String;

const READINGS: [(&str, Reading); 26] = [
    ("last line unended taken", |text| {
        let end: &[u8] = if text.is_empty() || text.ends_with(b"\n") { b"" } else { b"\n" };
        [text, end].concat()
    }),
    ("empty lines skipped", |text| {
        let lines = text.split_inclusive(|&byte| byte == b'\n');
        lines.filter(|line| *line != b"\n").collect::<Vec<_>>().concat()
    }),
    ("bad line skipped", |text| match bad_line(text) {
        Some(bad) if bad > 0 => {
            let lines = text.split_inclusive(|&byte| byte == b'\n').enumerate();
            lines.filter(|(place, _)| place + 1 != bad).flat_map(|(_, line)| line.to_vec()).collect()
        }
        _ => text.to_vec(),
    }),
    ("longer input cut", |text| text[..text.len().min(LONGEST)].to_vec()),
    ("65536 bytes refused", |text| if text.len() < LONGEST { text.to_vec() } else { [text, b"\n"].concat() }),
    ("letters in any case", |text| {
        by_lines(text, |line| {
            let mut line = line.to_vec();
            if let Some(letter) = line.first_mut() {
                let other = *letter ^ 32;
                *letter =
                    if other.is_ascii_alphabetic() && GRAMMAR.contains(&other) { other } else { *letter };
            }
            line
        })
    }),
    ("second N skipped", |text| {
        let lines = text.split_inclusive(|&byte| byte == b'\n').enumerate();
        lines
            .filter(|(place, line)| *place == 0 || line[0] != b'N')
            .flat_map(|(_, line)| line.to_vec())
            .collect()
    }),
    ("leading zeros taken", |text| {
        by_fields(text, |field| {
            let zeros = field.iter().take_while(|&&byte| byte == b'0').count();
            field[zeros.min(field.len().saturating_sub(1))..].to_vec()
        })
    }),
    ("empty field is 0", |text| {
        by_fields(text, |field| if field.is_empty() { b"0".to_vec() } else { field.to_vec() })
    }),
    ("plus sign taken", |text| by_fields(text, |field| field.strip_prefix(b"+").unwrap_or(field).to_vec())),
    ("minus sign taken", |text| by_fields(text, |field| field.strip_prefix(b"-").unwrap_or(field).to_vec())),
    ("digits up to another byte", |text| {
        by_fields(text, |field| field.iter().copied().take_while(u8::is_ascii_digit).collect())
    }),
    ("numbers of 32 bits wrap", |text| by_fields(text, |field| number(field, |number| number as u32))),
    ("numbers of 64 bits wrap", |text| {
        by_fields(text, |field| number(field, |number| u32::try_from(number as u64).unwrap_or(u32::MAX)))
    }),
    ("too large numbers are the largest", |text| {
        by_fields(text, |field| number(field, |number| u32::try_from(number).unwrap_or(u32::MAX)))
    }),
    ("largest number refused", |text| {
        by_fields(text, |field| if field == b"4294967295" { b"4294967296".to_vec() } else { field.to_vec() })
    }),
    ("trailing comma taken", |text| by_lines(text, |line| line.strip_suffix(b",").unwrap_or(line).to_vec())),
    ("extra fields skipped", |text| {
        by_lines(text, |line| {
            let fields: Vec<&[u8]> = line.split(|&byte| byte == b',').collect();
            fields[..fields.len().min(wanted(fields[0]).unwrap_or(fields.len()))].join(&b',')
        })
    }),
    ("missing fields are 0", |text| {
        by_lines(text, |line| {
            let mut fields: Vec<&[u8]> = line.split(|&byte| byte == b',').collect();
            fields.resize(fields.len().max(wanted(fields[0]).unwrap_or(0)), b"0");
            fields.join(&b',')
        })
    }),
    ("registers by 3 bits", |text| {
        by_lines(text, |line| {
            let registers = match line.first() {
                Some(b'P') => 3,
                Some(b'A' | b'L' | b'S' | b'B' | b'H') => 2,
                _ => 0,
            };
            registers_cut(line, registers)
        })
    }),
    ("registers of B by 3 bits", |text| {
        by_lines(text, |line| registers_cut(line, if line.starts_with(b"B") { 2 } else { 0 }))
    }),
    ("registers of H by 3 bits", |text| {
        by_lines(text, |line| registers_cut(line, if line.starts_with(b"H") { 2 } else { 0 }))
    }),
    ("B and H without imm taken", |text| {
        by_lines(text, |line| {
            let short = line.starts_with(b"B,") || line.starts_with(b"H,");
            let commas = line.iter().filter(|&&byte| byte == b',').count();
            if short && commas == 2 {
                [line, b",0"].concat()
            } else {
                line.to_vec()
            }
        })
    }),
    ("B and H exchanged", |text| {
        by_lines(text, |line| match line.split_first() {
            Some((b'B', rest)) => [b"H", rest].concat(),
            Some((b'H', rest)) => [b"B", rest].concat(),
            _ => line.to_vec(),
        })
    }),
    ("no banks are one", |text| {
        by_lines(text, |line| {
            line.strip_prefix(b"N,0,").map_or(line.to_vec(), |rest| [b"N,1,", rest].concat())
        })
    }),
    ("a line ends at NUL", |text| {
        by_lines(text, |line| line.split(|&byte| byte == 0).next().unwrap_or_default().to_vec())
    }),
];

const PRINTINGS: [(&str, Printing); 13] = [
    ("bad lines counted from 0", |out| renumbered(out, |line| line.saturating_sub(1))),
    ("bad lines counted from 2", |out| renumbered(out, |line| if line > 0 { line + 1 } else { 0 })),
    ("bad lines counted by 8 bits", |out| renumbered(out, |line| line % 256)),
    ("longer input is line 1", |out| renumbered(out, |line| line.max(1))),
    ("commits before a bad line not printed", |out| {
        out.find("bad,").map_or(out.into(), |place| out[place..].into())
    }),
    ("end line after a bad line", |out| {
        if out.contains("bad,") {
            format!("{out}end,open,0\n")
        } else {
            out.into()
        }
    }),
    ("m lines up to word 4094", |out| without(out, |line| line.starts_with("m,4095,"))),
    ("m lines from word 1 on", |out| without(out, |line| line.starts_with("m,0,"))),
    ("m lines falling", |out| {
        let mut lines: Vec<&str> = out.split_inclusive('\n').collect();
        let words = lines.iter().filter(|line| line.starts_with('m')).count();
        let end = lines.len().saturating_sub(1);
        if words > 0 {
            lines[end - words..end].reverse();
        }
        lines.concat()
    }),
    ("words signed", |out| {
        let signed =
            |field: &str| field.parse::<u32>().map_or(field.into(), |word| (word as i32).to_string());
        let line = |line: &str| line.split(',').map(signed).collect::<Vec<_>>().join(",");
        out.lines().map(|text| line(text) + "\n").collect()
    }),
    ("commits counted by 8 bits", |out| match out.rsplit_once(',') {
        Some((before, count)) if before.contains("end,") => {
            format!("{before},{}\n", count.trim_end().parse::<usize>().map_or(0, |count| count % 256))
        }
        _ => out.into(),
    }),
    ("no end line without commits", |out| if out.starts_with("end") { String::new() } else { out.into() }),
    ("last line feed missing", |out| out.trim_end().into()),
];

fn by_lines(text: &[u8], other: impl Fn(&[u8]) -> Vec<u8>) -> Vec<u8> {
    text.split(|&byte| byte == b'\n').map(other).collect::<Vec<_>>().join(&b'\n')
}

/// Every field but a line's first is read as another one.
fn by_fields(text: &[u8], other: impl Fn(&[u8]) -> Vec<u8>) -> Vec<u8> {
    by_lines(text, |line| {
        let mut fields = line.split(|&byte| byte == b',').enumerate();
        let field = |(place, field): (usize, &[u8])| if place == 0 { field.to_vec() } else { other(field) };
        fields.by_ref().map(field).collect::<Vec<_>>().join(&b',')
    })
}

/// A field of digits with its number taken otherwise.
fn number(field: &[u8], other: impl Fn(u128) -> u32) -> Vec<u8> {
    let digits = String::from_utf8_lossy(field);
    let plain =
        !field.is_empty() && field.iter().all(u8::is_ascii_digit) && (field.len() == 1 || field[0] != b'0');
    match digits.parse() {
        Ok(number) if plain => other(number).to_string().into_bytes(),
        _ => field.to_vec(),
    }
}

/// A line with so many registers cut to 3 bits.
fn registers_cut(line: &[u8], registers: usize) -> Vec<u8> {
    let mut fields: Vec<Vec<u8>> = line.split(|&byte| byte == b',').map(<[u8]>::to_vec).collect();
    let cut = fields.iter_mut().skip(1).take(registers);
    cut.for_each(|field| *field = number(field, |n| n as u32 % 8));
    fields.join(&b',')
}

fn wanted(letter: &[u8]) -> Option<usize> {
    match letter {
        b"N" => Some(5),
        b"A" | b"P" | b"L" | b"S" | b"B" | b"H" => Some(4),
        b"e" | b"q" | b"x" => Some(2),
        b"i" | b"c" => Some(1),
        _ => None,
    }
}

fn bad_line(text: &[u8]) -> Option<usize> {
    let out = String::from_utf8(play(text)).unwrap_or_default();
    out.lines().last()?.strip_prefix("bad,")?.parse().ok()
}

fn renumbered(out: &str, other: impl Fn(usize) -> usize) -> String {
    match out.rsplit_once("bad,") {
        Some((before, line)) => {
            format!("{before}bad,{}\n", line.trim_end().parse().map_or(0, other))
        }
        None => out.into(),
    }
}

fn without(out: &str, left_out: impl Fn(&str) -> bool) -> String {
    out.split_inclusive('\n').filter(|line| !left_out(line)).collect()
}

#[test]
fn wrong_readings() {
    let mut scripts = Scripts::default();
    for (name, reading) in READINGS {
        scripts.tell_player(name, |script, output| {
            let read = reading(script);
            if read == script {
                output.to_vec()
            } else {
                play(&read)
            }
        });
    }
    scripts.close("readings");
}

#[test]
fn wrong_printings() {
    let mut scripts = Scripts::default();
    for (name, printing) in PRINTINGS {
        scripts.tell_player(name, |_, output| printing(&String::from_utf8_lossy(output)).into_bytes());
    }
    scripts.close("printings");
}

/// Every byte that no good line has, skipped within a line, skipped at its end, and read as a comma.
#[test]
fn foreign_bytes() {
    let foreign = |byte: &u8| !GRAMMAR.contains(byte) && *byte != b'\n';
    let spoiled: Vec<_> = generated().iter().filter(|(script, _)| script.iter().any(foreign)).collect();
    let mut told = 0;
    for byte in (0..=255).filter(foreign) {
        let skipped = |line: &[u8]| {
            let (last, body) = line.split_last().map_or((None, line), |(last, body)| (Some(*last), body));
            body.iter().copied().filter(|&other| other != byte).chain(last).collect()
        };
        let trimmed = |line: &[u8]| line.strip_suffix(&[byte]).unwrap_or(line).to_vec();
        let comma =
            |line: &[u8]| line.iter().map(|&other| if other == byte { b',' } else { other }).collect();
        let readings: [(&str, &dyn Fn(&[u8]) -> Vec<u8>); 3] =
            [("skipped", &skipped), ("skipped at the end", &trimmed), ("a comma", &comma)];
        for (name, reading) in readings {
            let differs = |(script, output): &&(Vec<u8>, Vec<u8>)| {
                script.contains(&byte) && play(&by_lines(script, reading)) != *output
            };
            assert!(spoiled.iter().copied().any(|both| differs(&both)), "byte {byte} {name}");
            told += 1;
        }
    }
    println!("{told} foreign bytes skipped or taken told apart");
}
