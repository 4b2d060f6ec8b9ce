//! The reference player of scripts, the generator of scripts and the comparison with another player.

pub mod blame;
pub mod check;
pub mod compare;
pub mod distances;
pub mod events;
pub mod far;
pub mod generator;
pub mod kept;
pub mod machine;
pub mod outside;
pub mod pace;
pub mod player;
pub mod prober;
pub mod random;
pub mod reach;
pub mod rules;
pub mod run;
pub mod same;
pub mod shrink;
pub mod sights;
pub mod spoil;
pub mod tail;
pub mod taste;
pub mod text;
pub mod walks;
pub mod watch;
pub mod window;

#[cfg(test)]
mod mutants;
#[cfg(test)]
mod tests;
