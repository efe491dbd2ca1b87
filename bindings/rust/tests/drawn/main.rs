//! Drawn calls on maps of all kinds, each compared with the same call on a `BTreeMap`: some fifty million of them.
//!
//! Each case has a seed of its own. One that fails prints it, and `NIFFORAN_SEED=SEED cargo test --test drawn TEST` runs
//! that case alone.

mod calls;
mod dice;
mod growing;
mod pairs;
mod room;
mod sorted;
