//! A plain, independent writing of the double ciphertext mirror.
//!
//! It serves as the oracle in tests and as the baseline in benchmarks, so each
//! part follows the wording of the requirement rather than the shortest path.

pub mod aes;
pub mod answer;
pub mod brw;
pub mod collide;
pub mod field;
pub mod frames;
pub mod hex;
pub mod history;
pub mod machine;
pub mod map;
pub mod marks;
pub mod rng;
pub mod seal;
pub mod suspects;
pub mod volume;
pub mod writes;
