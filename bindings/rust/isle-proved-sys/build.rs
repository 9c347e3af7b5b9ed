//! Finds the compiler: the archives, which it links, or else the program `isle`.

use std::env;
use std::path::{Path, PathBuf};
use std::process::Command;

const WHAT_TO_DO: &str = "set ISLE_PROGRAM to the command isle at the top of joshuapool, by its whole path, which needs no proof; \
    or prove and build the compiler, by `rt ci` at the top of joshuapool or by `rt lib` in crates/isle_capi; \
    or set ISLE_CAPI to the folder that has libisle_capi.a";

fn main() {
    for name in ["ISLE_CAPI", "ISLE_PROGRAM", "RATTLE_KIT", "PATH"] {
        println!("cargo::rerun-if-env-changed={name}");
    }
    println!("cargo::rustc-check-cfg=cfg(isle_program)");
    if let Err(why) = find() {
        println!("cargo::error={why}");
    }
}

// Links the archive, or says where the program is. What a variable names comes first, then what stands in the folder lib of a
// release, then the archive and the program that were proved and built here.
fn find() -> Result<(), String> {
    if let Some(program) = env::var_os("ISLE_PROGRAM") {
        return take_program(Path::new(&program));
    }
    if let Some(folder) = env::var_os("ISLE_CAPI") {
        return link(Path::new(&folder));
    }
    let top = Path::new(env!("CARGO_MANIFEST_DIR"))
        .ancestors()
        .nth(3)
        .ok_or("isle-proved-sys is in no copy of joshuapool")?;
    for folder in ["lib", "crates/isle_capi/out"] {
        let folder = top.join(folder);
        if folder.join("libisle_capi.a").is_file() {
            return link(&folder);
        }
    }
    let program = released_program(top)
        .or_else(|| proved_program(top))
        .ok_or_else(|| format!("there is no compiler: {WHAT_TO_DO}"))?;
    take_program(&program)
}

// The program of a release.
fn released_program(top: &Path) -> Option<PathBuf> {
    let program = top.join("lib/isle");
    program.is_file().then_some(program)
}

// The program that was proved and built of the sources as they are now.
fn proved_program(top: &Path) -> Option<PathBuf> {
    let found = Command::new(top.join("tools/run-program"))
        .args(["--where", "isle", "rt run -- lower fall.isle"])
        .output()
        .ok()?;
    if !found.status.success() {
        return None;
    }
    Some(String::from_utf8(found.stdout).ok()?.trim_end().into())
}

// Says where the program is, to this crate and to the build script of `isle-proved`.
fn take_program(program: &Path) -> Result<(), String> {
    if !program.is_file() {
        return Err(format!(
            "there is no program {}: {WHAT_TO_DO}",
            program.display()
        ));
    }
    let program = program
        .canonicalize()
        .map_err(|error| format!("{}: {error}", program.display()))?;
    // The script isle of a clone builds an unproved program first, if there is none.
    let answered = Command::new(&program).arg("--version").output();
    if !answered.is_ok_and(|answer| answer.status.success()) {
        return Err(format!(
            "{} --version gives no answer: run it to see why",
            program.display()
        ));
    }
    println!("cargo::rerun-if-changed={}", program.display());
    println!("cargo::rustc-cfg=isle_program");
    println!("cargo::rustc-env=ISLE_PROGRAM_FOUND={}", program.display());
    println!("cargo::metadata=program={}", program.display());
    Ok(())
}

// Links the archive in this folder, and the archive for requests for memory in this folder or the toolchain's.
fn link(folder: &Path) -> Result<(), String> {
    link_one("isle_capi", &[folder.to_path_buf()], WHAT_TO_DO)?;
    let mut folders = vec![folder.to_path_buf()];
    folders.extend(toolchain().map(|kit| kit.join("c")));
    link_one(
        "libc_c",
        &folders,
        "it is in the folder c of the toolchain: set RATTLE_KIT to the toolchain's folder",
    )
}

// The toolchain's folder: RATTLE_KIT names it, or else it is the one that has the command `rt`.
fn toolchain() -> Option<PathBuf> {
    if let Some(kit) = env::var_os("RATTLE_KIT") {
        return Some(kit.into());
    }
    let path = env::var_os("PATH")?;
    let command = env::split_paths(&path)
        .map(|folder| folder.join("rt"))
        .find(|file| file.is_file())?;
    Some(
        command
            .canonicalize()
            .ok()?
            .parent()?
            .parent()?
            .to_path_buf(),
    )
}

// Links the archive of this name, from the first of these folders that has it.
fn link_one(name: &str, folders: &[PathBuf], what_to_do: &str) -> Result<(), String> {
    let file = format!("lib{name}.a");
    let Some(folder) = folders.iter().find(|folder| folder.join(&file).is_file()) else {
        let places: Vec<String> = folders
            .iter()
            .map(|folder| folder.display().to_string())
            .collect();
        return Err(format!(
            "there is no {file} in {}: {what_to_do}",
            places.join(" or ")
        ));
    };
    println!("cargo::rerun-if-changed={}", folder.join(&file).display());
    println!("cargo::rustc-link-search=native={}", folder.display());
    println!("cargo::rustc-link-lib=static={name}");
    Ok(())
}
