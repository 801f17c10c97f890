//! Measures the engine against the reference, which enumerates all choices and evaluates each in full,
//! and against the engine's own algorithm written by hand in Rust.

pub mod calls;
pub mod compare;
pub mod family;
pub mod files;
pub mod hand;
pub mod measure;
pub mod memory;
pub mod office;
pub mod page;
pub mod picture;
pub mod posting;
pub mod runs;
pub mod steps;
pub mod table;
pub mod texts;
pub mod worst;
