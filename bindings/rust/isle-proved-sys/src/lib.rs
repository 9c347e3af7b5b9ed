//! The compiler of ISLE definitions as a static library: one unsafe function. `isle-proved` makes it safe. `bindings/c/isle.h`
//! says what the numbers mean and what the caller must ensure. Nothing compares these declarations with the library.
//!
//! If there is no library, but a program `isle` that was proved and built, this crate has the place of the program instead.

/// The lengths in bytes of a file's name and text.
#[repr(C)]
#[derive(Clone, Copy, Debug, PartialEq, Eq)]
pub struct File {
    /// The length of its name.
    pub name_length: usize,
    /// The length of its text, which follows its name.
    pub text_length: usize,
}

/// The lengths in bytes of a prefix. Where the name of a file begins with it, Rust code shows its name in its place.
#[repr(C)]
#[derive(Clone, Copy, Debug, PartialEq, Eq)]
pub struct Prefix {
    /// The length of the prefix.
    pub prefix_length: usize,
    /// The length of its name, which follows the prefix.
    pub name_length: usize,
}

/// What a call does, and in which form it answers.
#[repr(C)]
#[derive(Clone, Copy, Debug, PartialEq, Eq)]
pub struct Options {
    /// `TREES`, `CHECK` or `CODE`.
    pub task: u32,
    /// `TEXT`, `LINE`, `COLORED` or `JSON`.
    pub format: u32,
    /// 1: uses of internal extractors are replaced by their templates, as `CODE` requires. 0: they aren't.
    pub expand: u32,
    /// Of `CODE`: 0: the code begins with attributes `#![allow(..)]`. 1: it doesn't, as `include!` requires.
    pub exclude_global_allow_pragmas: u32,
    /// Of `CODE`: 1: the code logs each result, by the crate `log`. 0: it doesn't.
    pub emit_logging: u32,
}

/// The size of a text in bytes.
#[repr(C)]
#[derive(Clone, Copy, Debug, Default, PartialEq, Eq)]
pub struct Sizes {
    /// The bytes that were written: the whole text, or none of it.
    pub written: usize,
    /// The bytes of the text.
    pub needed: usize,
}

/// A task: the trees of the terms.
pub const TREES: u32 = 0;
/// A task: warnings.
pub const CHECK: u32 = 1;
/// A task: the Rust code of the terms.
pub const CODE: u32 = 2;

/// A format: for a person, with source lines.
pub const TEXT: u32 = 0;
/// A format: each error or warning is one line.
pub const LINE: u32 = 1;
/// A format: as `TEXT`, in a terminal's colours.
pub const COLORED: u32 = 2;
/// A format: one JSON object.
pub const JSON: u32 = 3;

/// A status: the text is the answer.
pub const DONE: u32 = 0;
/// A status: the definitions are wrong.
pub const ERRORS: u32 = 1;
/// A status: an option has an undefined value, or two options don't fit together.
pub const WRONG_OPTION: u32 = 2;
/// A status: an allocation failed.
pub const NO_MEMORY: u32 = 3;
/// A status: the lengths of the files don't add up to the bytes.
pub const WRONG_LENGTHS: u32 = 5;
/// A status: a name or a text isn't UTF-8.
pub const NOT_UTF8: u32 = 6;
/// A status: the buffer is too small.
pub const NO_ROOM: u32 = 7;
/// A status: two names would be the same in Rust.
pub const NO_CODE: u32 = 8;
/// A status: the lengths of the prefixes don't add up to their bytes, or a prefix isn't UTF-8.
pub const WRONG_PREFIX: u32 = 9;

/// The place of the program `isle`, which is used because there is no archive.
#[cfg(isle_program)]
pub const PROGRAM: &str = env!("ISLE_PROGRAM_FOUND");

#[cfg(not(isle_program))]
unsafe extern "C" {
    /// Compiles files of ISLE text, and returns a status.
    ///
    /// # Safety
    ///
    /// Each pointer is that of a slice with as many items as the length after it says. `options` and `sizes` each point to one
    /// value. `out` and `sizes` overlap nothing, and no one else uses them during the call. No one writes the others during the
    /// call. There is as much stack as `isle.h` says.
    pub fn isle_capi_lower(
        bytes: *const u8,
        bytes_length: usize,
        files: *const File,
        files_length: usize,
        options: *const Options,
        prefix_bytes: *const u8,
        prefix_bytes_length: usize,
        prefixes: *const Prefix,
        prefixes_length: usize,
        out: *mut u8,
        out_length: usize,
        sizes: *mut Sizes,
    ) -> u32;
}
