//! The tariff clock in plain Rust, written from docs/ alone. It shares nothing with the proved crates.
pub mod calendar;
pub mod check;
pub mod clock;
pub mod engine;
pub mod image;
pub mod look;
pub mod order;
pub mod summer;
