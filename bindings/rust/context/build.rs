//! Compiles the rules. If ISLE_CODE is set, it names a file whose code is used instead.

use std::{env, fs, path::Path};

fn main() {
    println!("cargo::rerun-if-env-changed=ISLE_CODE");
    match env::var("ISLE_CODE") {
        Ok(file) => {
            println!("cargo::rerun-if-changed={file}");
            let folder = env::var("OUT_DIR").unwrap();
            fs::copy(file, Path::new(&folder).join("rules.rs")).unwrap();
        }
        Err(_) => isle_proved::build(
            &["rules/types.isle", "rules/opts.isle", "rules/lower.isle"],
            "rules.rs",
        ),
    }
}
