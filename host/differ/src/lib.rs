//! Holds the proved library to the plain one: the same inputs through every call, and what both leave in lent slices.

#![deny(missing_docs)]

pub mod clinics;
pub mod expected;
pub mod lent;
pub mod report;
pub mod rows;
pub mod systems;
pub mod texts;
pub mod trials;
