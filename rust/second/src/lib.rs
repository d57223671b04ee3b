//! AEZ a second time, written from Figures 5 and 6 of the AEZ paper and from
//! FIPS 197 alone. It shares nothing with the proved crates and is there to be
//! compared with them, byte for byte: plain code, not fast, not constant time.

pub mod aes;
pub mod day_edits;
pub mod day_file;
pub mod document01;
pub mod figure5;
pub mod figure6;
pub mod ledger;
pub mod pause;
