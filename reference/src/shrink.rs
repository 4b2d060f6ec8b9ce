//! A smaller script for which something still holds: with fewer lines, then with lower numbers.

pub fn shrink(script: &[u8], holds: impl Fn(&[u8]) -> bool) -> Vec<u8> {
    let mut lines: Vec<Vec<u8>> = script.split_inclusive(|&byte| byte == b'\n').map(<[u8]>::to_vec).collect();
    drop_lines(&mut lines, &holds);
    for place in 0..lines.len() {
        lower_numbers(&mut lines, place, &holds);
    }
    drop_lines(&mut lines, &holds);
    lines.concat()
}

/// Leaves out runs of lines, long runs first, until no single line can go.
fn drop_lines(lines: &mut Vec<Vec<u8>>, holds: &impl Fn(&[u8]) -> bool) {
    let mut run = lines.len().div_ceil(2);
    while run > 0 {
        let (mut place, before) = (0, lines.len());
        while place < lines.len() {
            let end = lines.len().min(place + run);
            let without = [&lines[..place], &lines[end..]].concat();
            if holds(&without.concat()) {
                *lines = without;
            } else {
                place = end;
            }
        }
        if run > 1 || lines.len() == before {
            run /= 2;
        }
    }
}

fn lower_numbers(lines: &mut [Vec<u8>], place: usize, holds: &impl Fn(&[u8]) -> bool) {
    let fields = lines[place].split(|&byte| byte == b',').count();
    for field in 1..fields {
        while lower(lines, place, field, holds) {}
    }
}

/// Whether one number could be lowered.
fn lower(lines: &mut [Vec<u8>], place: usize, field: usize, holds: &impl Fn(&[u8]) -> bool) -> bool {
    let before = lines[place].clone();
    let text = String::from_utf8_lossy(&before).into_owned();
    let (body, end) = text.strip_suffix('\n').map_or((text.as_str(), ""), |body| (body, "\n"));
    let mut fields: Vec<String> = body.split(',').map(String::from).collect();
    let Ok(number) = fields[field].parse::<u32>() else { return false };
    for lowered in [0, 1, number / 2, number.saturating_sub(1)] {
        fields[field] = lowered.to_string();
        lines[place] = (fields.join(",") + end).into_bytes();
        if lowered < number && holds(&lines.concat()) {
            return true;
        }
    }
    lines[place] = before;
    false
}
