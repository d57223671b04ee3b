//! Pauses and reports (request E12): the proved library against the second program.

mod both;
mod exports;

mod locales;
mod marks;
mod reports;
mod sizes;
mod texts;
