//! The compiler as a library that is linked.

use crate::{CodegenOptions, Errors, Format, Options, Task};
use isle_proved_sys as sys;
use std::thread;

// The library's answer to a task.
pub(crate) fn answer(
    task: Task,
    files: &[(&str, &str)],
    options: Options,
    code: &CodegenOptions,
) -> Result<String, Errors> {
    let input = Input {
        files: Texts::of(files),
        prefixes: Texts::of(&code.pairs()),
    };
    let options = sys::Options {
        task: match task {
            Task::Trees => sys::TREES,
            Task::Check => sys::CHECK,
            Task::Code => sys::CODE,
        },
        format: match options.format {
            Format::Text => sys::TEXT,
            Format::Line => sys::LINE,
            Format::Colored => sys::COLORED,
            Format::Json => sys::JSON,
        },
        expand: u32::from(options.expand),
        exclude_global_allow_pragmas: u32::from(code.exclude_global_allow_pragmas),
        emit_logging: u32::from(code.emit_logging),
    };
    let (status, text) = on_deep_stack(|| input.answer(&options));
    match status {
        sys::DONE => Ok(text),
        sys::ERRORS => Err(Errors::Definitions(text)),
        sys::NO_CODE => Err(Errors::Names(text)),
        sys::NO_MEMORY => Err(Errors::Memory),
        _ => unreachable!("status {status}: options, lengths and texts are right"),
    }
}

// The stack of a call. Internal extractors that use one another may nest so deep that they take half of it (docs/SPEED.md).
// Unused stack costs no memory.
const STACK: usize = 1 << 30;

// Calls a function on a stack of that size, or on the present stack if such a thread can't be started.
fn on_deep_stack<T: Send>(call: impl Fn() -> T + Sync) -> T {
    thread::scope(|scope| {
        match thread::Builder::new()
            .stack_size(STACK)
            .spawn_scoped(scope, &call)
        {
            Ok(thread) => thread
                .join()
                .unwrap_or_else(|panic| std::panic::resume_unwind(panic)),
            Err(_) => call(),
        }
    })
}

// Pairs of texts in the library's form: all texts one after the other, and the lengths of each pair.
struct Texts {
    bytes: Vec<u8>,
    lengths: Vec<(usize, usize)>,
}

impl Texts {
    fn of(pairs: &[(&str, &str)]) -> Texts {
        Texts {
            bytes: pairs
                .iter()
                .flat_map(|(one, other)| [one.as_bytes(), other.as_bytes()])
                .flatten()
                .copied()
                .collect(),
            lengths: pairs
                .iter()
                .map(|(one, other)| (one.len(), other.len()))
                .collect(),
        }
    }
}

// What a call is given beside its options.
struct Input {
    files: Texts,
    prefixes: Texts,
}

impl Input {
    // The status and the text of a call. If the text is unusually large, there is a second call with more room.
    fn answer(&self, options: &sys::Options) -> (u32, String) {
        let mut out = vec![0; self.files.bytes.len().saturating_mul(16).max(1 << 16)];
        let (mut status, mut sizes) = self.call(options, &mut out);
        if status == sys::NO_ROOM {
            out = vec![0; sizes.needed];
            (status, sizes) = self.call(options, &mut out);
        }
        out.truncate(sizes.written);
        (
            status,
            String::from_utf8(out).expect("the library writes UTF-8"),
        )
    }

    fn call(&self, options: &sys::Options, out: &mut [u8]) -> (u32, sys::Sizes) {
        let files: Vec<sys::File> = self
            .files
            .lengths
            .iter()
            .map(|&(name_length, text_length)| sys::File {
                name_length,
                text_length,
            })
            .collect();
        let prefixes: Vec<sys::Prefix> = self
            .prefixes
            .lengths
            .iter()
            .map(|&(prefix_length, name_length)| sys::Prefix {
                prefix_length,
                name_length,
            })
            .collect();
        let mut sizes = sys::Sizes::default();
        // SAFETY: the pointers and lengths are those of slices and of single values, which are borrowed during the call. `out` and
        // `sizes` are borrowed mutably, so they overlap nothing, and no one else uses them.
        let status = unsafe {
            sys::isle_capi_lower(
                self.files.bytes.as_ptr(),
                self.files.bytes.len(),
                files.as_ptr(),
                files.len(),
                options,
                self.prefixes.bytes.as_ptr(),
                self.prefixes.bytes.len(),
                prefixes.as_ptr(),
                prefixes.len(),
                out.as_mut_ptr(),
                out.len(),
                &mut sizes,
            )
        };
        (status, sizes)
    }
}
