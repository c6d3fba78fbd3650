//! The program `gongcollar`. What it does stands in the library beside it.
//!
//! It begins as a C program does. The beginning that Rust would make puts /dev/null in the place of a standard stream
//! that is closed: a model read from there would have no states and a verdict, and a lost output would look written. It
//! would also ignore the signal by which the system ends a program whose output nobody reads.

#![no_main]

use std::env;
use std::ffi::{c_char, c_int};
use std::panic::catch_unwind;

/// What a fault of the program ends with, too.
const TROUBLE: c_int = gongcollar_cli::Status::Trouble as c_int;

#[no_mangle]
pub extern "C" fn main(_count: c_int, _arguments: *const *const c_char) -> c_int {
    catch_unwind(|| gongcollar_cli::run(env::args_os()) as c_int).unwrap_or(TROUBLE)
}
