//! The compiler as the program `isle`, which is started for each call.
//!
//! The program reads files, and its messages have their names. So a file whose text is that of the file of its name on the disk
//! is read there. If the text of some file is another, all files with relative names are written to a folder that is removed
//! after the call.

use crate::{CodegenOptions, Errors, Format, Options, Task};
use std::ffi::OsString;
use std::path::{Component, Path, PathBuf};
use std::process::{Command, Output};
use std::sync::atomic::{AtomicUsize, Ordering};
use std::{env, fs, io, process};

// The program's answer to a task.
pub(crate) fn answer(
    task: Task,
    files: &[(&str, &str)],
    options: Options,
    code: &CodegenOptions,
) -> Result<String, Errors> {
    let placed = Placed::of(files)?;
    if task == Task::Code && options.format == Format::Json {
        // The code has no JSON, but its errors do: those of `check`.
        placed.said(&words_of(Task::Check, options, code)?)?;
    }
    placed.said(&words_of(task, options, code)?)
}

// The words for a task and its options.
fn words_of(task: Task, options: Options, code: &CodegenOptions) -> Result<Vec<String>, Errors> {
    let (word, has_json) = match task {
        Task::Trees => ("lower", true),
        Task::Check => ("check", true),
        Task::Code => ("rust", false),
    };
    let (format, color) = match options.format {
        Format::Json if has_json => ("json", "never"),
        Format::Text | Format::Json => ("text", "never"),
        Format::Line => ("line", "never"),
        Format::Colored => ("text", "always"),
    };
    let mut words: Vec<String> = [word, "--format", format, "--color", color]
        .map(String::from)
        .into();
    if task == Task::Code {
        words.extend(words_of_code(code)?);
    } else if !options.expand {
        words.push("--no-expand".into());
    }
    Ok(words)
}

// The words for how Rust code is written.
fn words_of_code(code: &CodegenOptions) -> Result<Vec<String>, Errors> {
    let mut words = Vec::new();
    if !code.exclude_global_allow_pragmas {
        words.push("--with-allows".into());
    }
    if code.emit_logging {
        words.push("--log".into());
    }
    for prefix in &code.prefixes {
        // The program takes what comes before the first `=` to be the prefix.
        if prefix.prefix.contains('=') {
            return Err(unanswered(&format!(
                "a prefix has the sign =: {}",
                prefix.prefix
            )));
        }
        words.push("--prefix".into());
        words.push(format!("{}={}", prefix.prefix, prefix.name));
    }
    Ok(words)
}

// Files where the program finds them.
struct Placed {
    names: Vec<String>,
    // the folder that has copies of them, if they aren't on the disk
    copies: Option<Copies>,
}

impl Placed {
    fn of(files: &[(&str, &str)]) -> Result<Placed, Errors> {
        for (name, _) in files {
            if name.is_empty() || name.starts_with('-') || name.contains('\0') {
                return Err(unnamed(name));
            }
        }
        let are_there = files.iter().all(|(name, text)| is_on_disk(name, text));
        Ok(Placed {
            names: files.iter().map(|(name, _)| name.to_string()).collect(),
            copies: if are_there {
                None
            } else {
                Some(Copies::of(files)?)
            },
        })
    }

    // What the program says when it gets these words before its files.
    fn said(&self, words: &[String]) -> Result<String, Errors> {
        let mut all: Vec<OsString> = words.iter().map(OsString::from).collect();
        if let Some(copies) = &self.copies {
            all.extend(["-C".into(), copies.0.clone().into()]);
        }
        all.extend(self.names.iter().map(OsString::from));
        if self.names.is_empty() {
            // No file is as one without a text.
            all.push("/dev/null".into());
        }
        // Internal extractors that use one another may nest so deep that they take half a gigabyte of stack.
        let output = Command::new("sh")
            .args([
                "-c",
                "ulimit -S -s 1048576 2> /dev/null; exec \"$0\" \"$@\"",
            ])
            .arg(isle_proved_sys::PROGRAM)
            .args(&all)
            .output()
            .map_err(|error| unanswered(&error.to_string()))?;
        read(output)
    }
}

// The answer of the program by what it wrote and its status.
fn read(output: Output) -> Result<String, Errors> {
    let text = |bytes| String::from_utf8(bytes).map_err(|error| unanswered(&error.to_string()));
    let (out, err) = (text(output.stdout)?, text(output.stderr)?);
    // The program writes one side only.
    let said = if out.is_empty() { err } else { out };
    match output.status.code() {
        Some(0) => Ok(said),
        Some(1) if said.starts_with("error[names]: ") => Err(Errors::Names(said)),
        Some(1) => Err(Errors::Definitions(said)),
        Some(3) => Err(Errors::Memory),
        _ => Err(unanswered(&format!("{}: {said}", output.status))),
    }
}

fn unanswered(why: &str) -> Errors {
    let program = isle_proved_sys::PROGRAM;
    Errors::Program(format!(
        "error: no answer of {program}: {}\n",
        why.trim_end()
    ))
}

fn unnamed(name: &str) -> Errors {
    Errors::Program(format!(
        "error: the program isle can't be given a file of the name {name:?} with this text: link the archive\n"
    ))
}

// Whether the file of this name on the disk has this text.
fn is_on_disk(name: &str, text: &str) -> bool {
    fs::read(name).is_ok_and(|bytes| bytes == text.as_bytes())
}

// A folder with copies of files. It is removed with this value.
struct Copies(PathBuf);

static NUMBER: AtomicUsize = AtomicUsize::new(0);

impl Copies {
    fn of(files: &[(&str, &str)]) -> Result<Copies, Errors> {
        let number = NUMBER.fetch_add(1, Ordering::Relaxed);
        let folder = env::temp_dir().join(format!("isle-proved-{}-{number}", process::id()));
        let written = |error: io::Error| unanswered(&format!("{}: {error}", folder.display()));
        fs::create_dir(&folder).map_err(written)?;
        let copies = Copies(folder.clone());
        for (name, text) in files {
            let file = copies.0.join(name);
            let is_relative = Path::new(name)
                .components()
                .all(|part| matches!(part, Component::Normal(_) | Component::CurDir));
            if !is_relative && is_on_disk(name, text) && Path::new(name).is_absolute() {
                continue;
            }
            if !is_relative || (file.exists() && !is_on_disk(&file.to_string_lossy(), text)) {
                return Err(unnamed(name));
            }
            fs::create_dir_all(file.parent().unwrap_or(&copies.0)).map_err(written)?;
            fs::write(&file, text).map_err(written)?;
        }
        Ok(copies)
    }
}

impl Drop for Copies {
    fn drop(&mut self) {
        // A folder that can't be removed stays behind.
        let _ = fs::remove_dir_all(&self.0);
    }
}
