//! An independent simulator of the console, written from docs/MANUAL.md alone.
//!
//! It shares no code with the verified program. `compare` runs both on the
//! same random scripts and compares every byte of their answers.

pub mod audit;
pub mod bench;
pub mod compare;
pub mod damage;
pub mod denomination;
pub mod generator;
pub mod random;
pub mod refusal;
pub mod script;
pub mod text;
pub mod world;
