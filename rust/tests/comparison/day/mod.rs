//! Day files (requests E1 and E13): the proved library against the second program.

mod both;
mod changed;
mod exports;

mod changes;
mod counts;
mod full_changes;
mod opening;
mod reading;
mod writing;
mod wrong_lists;
