//! How fast a script is played, in bytes a second: by another program, and by this player without its checks.

use crate::outside;
use crate::player::{play, LONGEST};
use std::path::Path;
use std::time::{Duration, Instant};

const ROUNDS: usize = 20;

/// The largest script: three instructions issued, executed out of order with a violation, and squashed, again and again.
fn script() -> Vec<u8> {
    let steps: &[u8] = b"i\ni\ni\ne,1\ne,2\ne,0\nq,0\n";
    let mut text = b"N,2,4,16,64\nA,1,0,9\nS,1,0,5\nL,2,0,5\nL,3,0,7\nx,1\n".to_vec();
    while text.len() + steps.len() <= LONGEST {
        text.extend_from_slice(steps);
    }
    text
}

fn least(mut play: impl FnMut()) -> Duration {
    let time = |_| {
        let start = Instant::now();
        play();
        start.elapsed()
    };
    (0..ROUNDS).map(time).min().unwrap_or_default()
}

/// Whether both print the same; shows the pace of each, by the least time of some rounds.
pub fn pace(program: &Path) -> bool {
    let text = script();
    let expected = play(&text);
    let same = outside::play(program, &text).is_ok_and(|printed| printed == expected);
    let own = least(|| drop(play(&text)));
    let other = least(|| drop(outside::play(program, &text)));
    for (name, time) in [("program", other), ("reference", own)] {
        println!("{name:9} {:9.0} bytes a second", text.len() as f64 / time.as_secs_f64());
    }
    same
}
