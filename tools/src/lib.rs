//! What the tools `airfield`, `records` and `totals` share.
//!
//! - `system`: the calls of the system that the standard library lacks
//! - `standard`: standard input, output and error, with every fault told
//! - `command`: words of a command line as messages show them, and how a program ends
//! - `filter`: standard input to standard output, as it comes

#[cfg(not(all(target_os = "linux", target_arch = "x86_64")))]
compile_error!("the tools are for Linux on x86-64: src/system.rs has its numbers");

pub mod command;
pub mod filter;
pub mod standard;
pub mod system;
