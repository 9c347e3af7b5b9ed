//! A backend in small: programs of a small language become code of a made-up machine, by rules.
//!
//! `rules/` has the rules. `build.rs` makes Rust code of them, which is taken in here as the module `rules`; what that
//! code asks of Rust is its trait `Context`, which `lowering` implements.

pub mod input;
pub mod lowering;
pub mod machine;
pub mod memory;

// What the rules name and Rust has: their code looks for it here.
use input::{Condition, Instruction, Operation, Value};
use machine::{Register, ZERO};

/// How many results a call of a `multi` term gives at most: the cheapest of so many addresses is cheap enough.
const MAX_ISLE_RETURNS: usize = 64;

/// The list that holds the results where one term with rules calls another that is `multi`.
type ConstructorVec<T> = Vec<T>;

/// Made by build.rs from the files of `rules/`.
pub mod rules {
    include!(concat!(env!("OUT_DIR"), "/rules.rs"));
}
