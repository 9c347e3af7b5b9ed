//! upstream-trees FILE..: prints the trees of the original compiler. Status 0: the trees are on standard output, and standard
//! error lists literals that their type doesn't have. 1: the original refuses the rules. 2: wrong use. 4: a file can't be read.
//! 101: the original panics.

use std::process::ExitCode;
use std::{env, fs, thread};

// Rules may nest deep, and the original calls itself for each level.
const STACK: usize = 1 << 30;

fn main() -> ExitCode {
    let names: Vec<String> = env::args().skip(1).collect();
    thread::Builder::new()
        .stack_size(STACK)
        .spawn(move || run(&names))
        .ok()
        .and_then(|thread| thread.join().ok())
        .unwrap_or(ExitCode::from(101))
}

fn run(names: &[String]) -> ExitCode {
    if names.is_empty() || names.iter().any(|name| name.starts_with("--")) {
        eprintln!("usage: upstream-trees FILE..");
        return ExitCode::from(2);
    }
    let mut texts = Vec::new();
    for name in names {
        match fs::read_to_string(name) {
            Ok(text) => texts.push(text),
            Err(error) => {
                eprintln!("upstream-trees: cannot read {name}: {error}");
                return ExitCode::from(4);
            }
        }
    }
    match upstream_trees::trees(&texts) {
        Ok(trees) => {
            for note in trees.notes {
                eprintln!("{note}");
            }
            print!("{}", trees.text);
            ExitCode::SUCCESS
        }
        Err(errors) => {
            for error in errors {
                eprintln!("{error}");
            }
            ExitCode::from(1)
        }
    }
}
