//! Learns of `isle-proved-sys` whether the compiler is an archive or a program.

use std::env;

fn main() {
    println!("cargo::rustc-check-cfg=cfg(isle_program)");
    if env::var_os("DEP_ISLE_CAPI_PROGRAM").is_some() {
        println!("cargo::rustc-cfg=isle_program");
    }
}
