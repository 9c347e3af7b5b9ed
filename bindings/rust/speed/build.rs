//! Makes the code of both sets of rules. If ISLE_CODE is set, it names a folder with code that is used instead.

mod rule_by_rule;

use std::{env, fs, path::Path};

/// The folders in `examples`, each with its files in the order of its README.
const SETS: [(&str, &str); 2] = [
    (
        "backend",
        "prelude ir inst helpers conditions address lower lower_memory lower_float lower_vector lower_control",
    ),
    ("mid-end", "prelude nodes constants arithmetic bitops shifts compares selects extends"),
];

fn main() {
    println!("cargo::rerun-if-env-changed=ISLE_CODE");
    println!("cargo::rerun-if-changed=rule_by_rule.rs");
    for (set, files) in SETS {
        let code = match env::var("ISLE_CODE") {
            Ok(folder) => read(&Path::new(&folder).join(set).with_extension("rs")),
            Err(_) => code(set, files),
        };
        let folder = env::var("OUT_DIR").expect("cargo sets it");
        fs::write(Path::new(&folder).join(set).with_extension("rs"), code).expect("a file of code");
    }
}

/// The code of a set of rules.
fn code(set: &str, files: &str) -> String {
    let folder = Path::new("../../../examples").join(set);
    let path = |name: &str| folder.join(name).with_extension("isle");
    let mut texts: Vec<(String, String)> = files
        .split(' ')
        .map(|name| (format!("{name}.isle"), read(&path(name))))
        .collect();
    if env::var_os("CARGO_FEATURE_RULE_BY_RULE").is_none() {
        return compiled(&texts);
    }
    let definitions: String = texts.iter().map(|(_, text)| text.as_str()).collect();
    let alone = rule_by_rule::Alone::of(&definitions);
    texts.push(("alone.isle".into(), alone.definitions.clone()));
    alone.joined(&compiled(&texts))
}

fn compiled(texts: &[(String, String)]) -> String {
    let files: Vec<(&str, &str)> = texts
        .iter()
        .map(|(name, text)| (name.as_str(), text.as_str()))
        .collect();
    match isle_proved::compile(&files, isle_proved::Options::default()) {
        Ok(code) => code,
        Err(errors) => panic!("{errors}"),
    }
}

fn read(path: &Path) -> String {
    println!("cargo::rerun-if-changed={}", path.display());
    fs::read_to_string(path).unwrap_or_else(|error| panic!("{}: {error}", path.display()))
}
