//! From files to code.

use crate::codegen::CodegenOptions;
use crate::error::Errors;
use isle_proved::{compile_with, Format, Options};
use std::fs;
use std::path::Path;

/// The Rust code of the rules in these files, which together are one list of definitions, in this order.
///
/// # Errors
///
/// A file that can't be read, or what is wrong with the rules.
pub fn from_files<P: AsRef<Path>>(
    inputs: impl IntoIterator<Item = P>,
    options: &CodegenOptions,
) -> Result<String, Errors> {
    let mut texts = Vec::new();
    for path in inputs {
        let name = path.as_ref().display().to_string();
        let text = fs::read_to_string(&path)
            .map_err(|error| Errors::from_io(error, format!("cannot read file {name}")))?;
        texts.push((name, text));
    }
    let files: Vec<(&str, &str)> = texts
        .iter()
        .map(|(name, text)| (name.as_str(), text.as_str()))
        .collect();
    let format = Options {
        format: Format::Json,
        ..Options::default()
    };
    compile_with(&files, format, &code_options(options))
        .map_err(|errors| Errors::of(errors, &files))
}

// The options as `isle-proved` has them.
fn code_options(options: &CodegenOptions) -> isle_proved::CodegenOptions {
    isle_proved::CodegenOptions {
        exclude_global_allow_pragmas: options.exclude_global_allow_pragmas,
        prefixes: options
            .prefixes
            .iter()
            .map(|prefix| isle_proved::Prefix {
                prefix: prefix.prefix.clone(),
                name: prefix.name.clone(),
            })
            .collect(),
        emit_logging: options.emit_logging,
    }
}
