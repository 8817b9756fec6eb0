//! An independent implementation of the rules in `docs/RULES.md`.
//!
//! It exists so that the proved tool can be tested against something that shares no code and no
//! algorithm with it. Nothing here is proved; the unit tests hold it against brute force.

#![forbid(unsafe_code)]

pub mod agree;
pub mod at_random;
#[cfg(test)]
mod brute;
pub mod by_hand;
pub mod case;
pub mod compare;
pub mod damage;
pub mod lists;
pub mod material;
pub mod model;
pub mod packed;
pub mod packed_by_hand;
pub mod peer;
pub mod rng;
pub mod samples;
pub mod stream;
pub mod table;
pub mod text;
pub mod texts;
