//! The proved library against the second program, on many inputs from fixed
//! seeds: the answer, the length, and every byte of the output.

mod both;
mod exports;

mod bad_entries;
mod damage;
mod day;
mod headers;
mod lengths;
mod log_headers;
mod pauses;
mod refusals;
mod rooms;
