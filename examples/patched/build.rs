//! Compiles the rules, as a build script for the original compiler does.

use cranelift_isle as isle;
use isle::error::Errors;
use std::path::PathBuf;
use std::{env, fs, process};

// The rules of one file of code, and that file.
struct Compilation {
    inputs: Vec<PathBuf>,
    output: PathBuf,
}

fn main() {
    let manifest = PathBuf::from(env::var_os("CARGO_MANIFEST_DIR").unwrap());
    let out = PathBuf::from(env::var_os("OUT_DIR").unwrap());
    let compilation = Compilation {
        inputs: ["prelude.isle", "lower.isle"]
            .map(|name| manifest.join("rules").join(name))
            .into(),
        output: out.join("isle_lower.rs"),
    };
    for input in &compilation.inputs {
        println!("cargo:rerun-if-changed={}", input.display());
    }
    if let Err(errors) = run(&compilation) {
        eprintln!("Error building ISLE files:");
        eprintln!("{errors:?}");
        process::exit(1);
    }
}

fn run(compilation: &Compilation) -> Result<(), Errors> {
    let mut options = isle::codegen::CodegenOptions::default();
    // The code is included, so the attributes are in the module around it.
    options.exclude_global_allow_pragmas = true;
    if let Ok(manifest) = env::var("CARGO_MANIFEST_DIR") {
        options.prefixes.push(isle::codegen::Prefix {
            prefix: manifest,
            name: "<PATCHED>".to_string(),
        });
    }
    let code = isle::compile::from_files(&compilation.inputs, &options)?;
    fs::write(&compilation.output, code)
        .map_err(|error| Errors::from_io(error, "failed writing output"))
}
