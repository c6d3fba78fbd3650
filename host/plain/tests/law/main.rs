//! The crate held to the scope document: its examples, its refusals, and drawn cases where two ways of
//! finding the answer must agree.

mod draw;
mod lasting;
mod lines;
mod meanings;
mod models;
mod reading;
mod rows;
mod searches;
mod spell;
mod systems;
mod tables;
mod walks;
