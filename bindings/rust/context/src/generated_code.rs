//! The code of the rules, and nothing else: each name that the code doesn't declare comes from the module above. Its lints are
//! allowed here, because included code can't have attributes of its file.
#![allow(
    dead_code,
    unreachable_code,
    unreachable_patterns,
    unused_imports,
    unused_variables,
    unused_mut,
    unused_assignments,
    irrefutable_let_patterns,
    non_snake_case,
    non_camel_case_types
)]

include!(concat!(env!("OUT_DIR"), "/rules.rs"));
