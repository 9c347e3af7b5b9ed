// The compiler of ISLE definitions, called from C: one function.
//
// It is proved that a text is read as the definitions that it spells, that there are errors exactly if these aren't accepted,
// what their trees do, and that the bodies of Rust functions are printed as code that does the same. Everything else that is
// printed is only tested (docs/CLAIMS.md).
//
// Link two archives, both for x86-64 Linux: libisle_capi.a, which `rt lib` in crates/isle_capi builds in its folder out, and
// liblibc_c.a in the toolchain's folder c, which hands the library's requests for memory to malloc, realloc and free.
#ifndef ISLE_H
#define ISLE_H

#include <stddef.h>
#include <stdint.h>

#ifdef __cplusplus
extern "C" {
#endif

// The lengths in bytes of a file's name and text.
struct isle_file {
    size_t name_length;
    size_t text_length;
};

// What a call does.
enum isle_task {
    ISLE_TREES = 0, // gives the trees of all terms with rules, as `./isle lower` prints them
    ISLE_CHECK = 1, // gives warnings, as `./isle check` prints them, or the empty text
    ISLE_CODE = 2   // gives the Rust code of all terms with rules (docs/RUST-CODE.md)
};

// The lengths in bytes of a prefix. Where the name of a file begins with the prefix, Rust code shows the prefix's name in its place.
struct isle_prefix {
    size_t prefix_length;
    size_t name_length;
};

// The form of trees, errors and warnings. Rust code has only one form.
enum isle_format {
    ISLE_TEXT = 0,    // for a person; each error is shown with its source lines
    ISLE_LINE = 1,    // the same, but each error or warning is one line
    ISLE_COLORED = 2, // as ISLE_TEXT, in a terminal's colours
    ISLE_JSON = 3     // one JSON object (docs/JSON.md)
};

// With all members 0 except `expand`, the call gives trees for a person to read.
struct isle_options {
    uint32_t task;   // an isle_task
    uint32_t format; // an isle_format
    uint32_t expand; // 1: uses of internal extractors are replaced by their templates, as ISLE_CODE requires; 0: they aren't

    // Of ISLE_CODE. Other tasks ignore their values, which must be 0 or 1 all the same.
    uint32_t exclude_global_allow_pragmas; // 0: the code begins with attributes #![allow(..)]; 1: it doesn't, as include! requires
    uint32_t emit_logging;                 // 1: the code logs each result, by the crate log; 0: it doesn't
};

// The size of a text in bytes.
struct isle_sizes {
    size_t written; // the bytes that were written to the beginning of `out`: the whole text, or none of it
    size_t needed;  // the bytes of the text
};

// The result of a call. ISLE_DONE, ISLE_ERRORS and ISLE_NO_CODE come with a text, the others don't.
enum isle_status {
    ISLE_DONE = 0,          // the text is the answer
    ISLE_ERRORS = 1,        // the definitions are wrong, and the text says why
    ISLE_WRONG_OPTION = 2,  // an option has an undefined value, or the task is ISLE_CODE and `expand` is 0
    ISLE_NO_MEMORY = 3,     // an allocation failed; this says nothing about the definitions
    ISLE_WRONG_LENGTHS = 5, // the lengths in `files` don't add up to `bytes_length`
    ISLE_NOT_UTF8 = 6,      // a name or a text isn't UTF-8
    ISLE_NO_ROOM = 7,       // the text has `needed` bytes, but `out` has fewer, so nothing is written
    ISLE_NO_CODE = 8,       // the definitions are accepted, but two names would be the same in Rust; the text says which
    ISLE_WRONG_PREFIX = 9   // the lengths in `prefixes` don't add up to `prefix_bytes_length`, or a prefix isn't UTF-8
};

// Compiles files of ISLE text (docs/NOTATION.md), and returns an isle_status.
//
// `bytes` has the name and then the text of each file, file after file. `files` has their lengths. All files together are one
// list of definitions. Messages contain the names of the files. `prefix_bytes` has each prefix and then its name, prefix after
// prefix, and `prefixes` has their lengths. If a file's name has several of the prefixes, the first one counts. Only Rust code
// shows prefixes so: errors show whole names. The call writes its text to the beginning of `out`, in UTF-8 and
// without a zero at the end, and doesn't touch the bytes after it. If `out` is too small, the same call with `needed` bytes
// of room succeeds. It then makes the text again.
//
// The caller must ensure:
//   - No pointer is null, even if its length is 0. Each points to as many objects as its length says, aligned as in C.
//   - `out` and `sizes` overlap nothing else, and no one else reads or writes them during the call.
//   - No one writes the other inputs during the call.
//   - malloc, realloc and free belong to one allocator. The call isn't made in a signal handler, nor in the forked child of a
//     process with threads.
//   - There is enough stack. 8 MB are enough for definitions that nest 1,000 levels deep, and a text may not nest deeper.
//     Internal extractors that use one another can make rules 256 times as deep. These take up to half a gigabyte
//     (docs/SPEED.md, "Deep texts").
// Any number of threads may call at once. Nothing is kept between calls.
//
// The proof of trees requires this of what they call, and of what their Rust code calls:
//   - Extractors and pure constructors are functions of their arguments, and have no effect. Trees share such calls, make them
//     early and repeat them.
//   - Different constants of one type that patterns name have different values.
//   - No pattern names a constant of an enum or struct type.
// The compiler checks none of these.
uint32_t isle_capi_lower(const uint8_t *bytes, size_t bytes_length,
                         const struct isle_file *files, size_t files_length,
                         const struct isle_options *options,
                         const uint8_t *prefix_bytes, size_t prefix_bytes_length,
                         const struct isle_prefix *prefixes, size_t prefixes_length,
                         uint8_t *out, size_t out_length,
                         struct isle_sizes *sizes);

#ifdef __cplusplus
}
#endif

#endif
