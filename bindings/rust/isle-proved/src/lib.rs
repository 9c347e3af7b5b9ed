//! The compiler of ISLE definitions, for build scripts and tools.
//!
//! It is proved that a text is read as the definitions that it spells, that there are errors exactly if these aren't accepted,
//! what their trees do, and that the bodies of Rust functions are printed as code that does the same. Everything else that is
//! printed is only tested (`docs/CLAIMS.md`).
//!
//! A build script of three lines compiles rules to Rust code:
//!
//! ```no_run
//! fn main() {
//!     isle_proved::build(&["src/rules.isle"], "rules.rs");
//! }
//! ```
//!
//! A module includes the code by `include!(concat!(env!("OUT_DIR"), "/rules.rs"));`. `docs/RUST-CODE.md` describes the code,
//! what the module above must have, and what a `Context` must guarantee.
//!
//! All files of a call together are one list of definitions. A file is a name, which messages contain, and a text.

// A build script is shown whole.
#![allow(clippy::needless_doctest_main)]

use std::path::Path;
use std::{env, fmt, fs, process};

#[cfg(not(isle_program))]
use archive::answer;
#[cfg(isle_program)]
use program::answer;

#[cfg(not(isle_program))]
mod archive;
#[cfg(isle_program)]
mod program;

/// The form of an answer.
#[derive(Clone, Copy, Debug, PartialEq, Eq)]
pub struct Options {
    /// The form of errors and warnings.
    pub format: Format,
    /// Whether uses of internal extractors are replaced by their templates. For Rust code they always are.
    pub expand: bool,
}

impl Default for Options {
    /// Errors are shown with their source lines, and extractors are expanded.
    fn default() -> Options {
        Options {
            format: Format::Text,
            expand: true,
        }
    }
}

/// The form of errors and warnings.
#[derive(Clone, Copy, Debug, PartialEq, Eq)]
pub enum Format {
    /// For a person, with source lines.
    Text,
    /// Each error or warning is one line.
    Line,
    /// As `Text`, in a terminal's colours.
    Colored,
    /// As one JSON object (`docs/JSON.md`).
    Json,
}

/// How Rust code is written. The original's `CodegenOptions`.
#[derive(Clone, Debug, PartialEq, Eq)]
pub struct CodegenOptions {
    /// Whether the code begins without attributes `#![allow(..)]`. `include!` refuses code that has them.
    pub exclude_global_allow_pragmas: bool,
    /// What to show in place of the beginnings of file names. If a name has several of these beginnings, the first one counts.
    pub prefixes: Vec<Prefix>,
    /// Whether the code logs each result, by the crate `log`.
    pub emit_logging: bool,
}

/// The beginning of a file name, and what Rust code shows in its place. The original's `Prefix`.
#[derive(Clone, Debug, PartialEq, Eq)]
pub struct Prefix {
    /// The beginning.
    pub prefix: String,
    /// What to show.
    pub name: String,
}

impl Default for CodegenOptions {
    /// Code for `include!`: no attributes, whole file names, no logging.
    fn default() -> CodegenOptions {
        CodegenOptions {
            exclude_global_allow_pragmas: true,
            prefixes: Vec::new(),
            emit_logging: false,
        }
    }
}

impl CodegenOptions {
    // The prefixes as pairs.
    #[cfg(not(isle_program))]
    fn pairs(&self) -> Vec<(&str, &str)> {
        self.prefixes
            .iter()
            .map(|prefix| (prefix.prefix.as_str(), prefix.name.as_str()))
            .collect()
    }
}

// What a call does.
#[derive(Clone, Copy, Debug, PartialEq, Eq)]
enum Task {
    Trees,
    Check,
    Code,
}

/// Why there is no answer. `Display` and `Debug` print its text, so a program that ends with it shows the text too.
#[derive(Clone, PartialEq, Eq)]
pub enum Errors {
    /// The definitions are wrong, and the text says why.
    Definitions(String),
    /// The definitions are accepted, but two names would be the same in Rust. The text says which.
    Names(String),
    /// An allocation failed. This says nothing about the definitions.
    Memory,
    /// The program `isle`, which is used if there is no archive, can't be run, or can't be given these files. The text says why.
    Program(String),
}

impl fmt::Display for Errors {
    fn fmt(&self, out: &mut fmt::Formatter<'_>) -> fmt::Result {
        match self {
            Errors::Definitions(text) | Errors::Names(text) | Errors::Program(text) => {
                out.write_str(text)
            }
            Errors::Memory => out.write_str("error: out of memory\n"),
        }
    }
}

impl fmt::Debug for Errors {
    fn fmt(&self, out: &mut fmt::Formatter<'_>) -> fmt::Result {
        write!(out, "\n{self}")
    }
}

impl std::error::Error for Errors {}

/// For a build script: compiles the files at these paths to Rust code, and writes the code to the file `name` in cargo's
/// `OUT_DIR`. Cargo runs the script again if one of the files changes. If something is wrong, this prints it and ends the process
/// with status 1.
pub fn build(paths: &[&str], name: &str) {
    if let Err(why) = try_build(paths, name) {
        eprint!("{why}");
        process::exit(1);
    }
}

// The same, but gives the error as text.
fn try_build(paths: &[&str], name: &str) -> Result<(), String> {
    let mut texts = Vec::new();
    for path in paths {
        println!("cargo::rerun-if-changed={path}");
        texts.push(
            fs::read_to_string(path).map_err(|error| format!("cannot read {path}: {error}\n"))?,
        );
    }
    let files: Vec<(&str, &str)> = paths
        .iter()
        .copied()
        .zip(texts.iter().map(String::as_str))
        .collect();
    let code = compile(&files, Options::default()).map_err(|errors| errors.to_string())?;
    let folder = env::var("OUT_DIR")
        .map_err(|_| "OUT_DIR is not set: this is for a build script\n".to_string())?;
    let file = Path::new(&folder).join(name);
    fs::write(&file, code).map_err(|error| format!("cannot write {}: {error}\n", file.display()))
}

/// The Rust code of all terms with rules, as `docs/RUST-CODE.md` describes it. `files` are names and texts.
pub fn compile(files: &[(&str, &str)], options: Options) -> Result<String, Errors> {
    compile_with(files, options, &CodegenOptions::default())
}

/// The same, written as `code` says.
pub fn compile_with(
    files: &[(&str, &str)],
    options: Options,
    code: &CodegenOptions,
) -> Result<String, Errors> {
    answer(
        Task::Code,
        files,
        Options {
            expand: true,
            ..options
        },
        code,
    )
}

/// The trees of all terms with rules, as `./isle lower` prints them. With `Format::Json` this is the same as `json`.
pub fn lower(files: &[(&str, &str)], options: Options) -> Result<String, Errors> {
    answer(Task::Trees, files, options, &CodegenOptions::default())
}

/// Types, terms, rules and trees as one JSON object (`docs/JSON.md`). Errors are such an object too, for any `options.format`.
pub fn json(files: &[(&str, &str)], options: Options) -> Result<String, Errors> {
    lower(
        files,
        Options {
            format: Format::Json,
            ..options
        },
    )
}

/// The warnings about accepted definitions, as `./isle check` prints them. Without warnings it is the empty text, or with
/// `Format::Json` an object without warnings.
pub fn check(files: &[(&str, &str)], options: Options) -> Result<String, Errors> {
    answer(Task::Check, files, options, &CodegenOptions::default())
}
