//! A second implementation of what Haskumye does, written from the standards and the scope document alone, and its comparison with the proved core.
//! Nothing here is shared with the core: `core` only declares the functions of the linked archives.

pub mod announcing;
pub mod answer;
pub mod compare;
pub mod core;
pub mod engine;
pub mod faults;
pub mod files;
pub mod limits;
pub mod line;
pub mod linked;
pub mod opinion;
pub mod packet;
pub mod programs;
pub mod random;
pub mod recording;
pub mod relay;
pub mod rules;
pub mod samples;
pub mod saved;
pub mod sha256;
pub mod survey;
pub mod tables;
pub mod traffic;
pub mod vectors;
