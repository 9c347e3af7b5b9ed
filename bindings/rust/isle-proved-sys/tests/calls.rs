//! Calls of the library as C makes them: statuses, sizes and what is left in the buffer.

// Without the library there is nothing to call.
#![cfg(not(isle_program))]

use isle_proved_sys::*;

// The file `a.isle` with two rules, and its tree.
const FALL: &str = "(decl f (u8) u8)\n(rule one 1 (f 1) 10)\n(rule (f x) x)\n";
const FALL_TREE: &str = "term f
  b0 = arg 0
  b1 = int 10 u8
  match b0
    int 1 u8:
      return b1  ; one at a.isle:2:1
  return b0  ; a.isle:3:1
";

const TREES_FOR_A_PERSON: Options = Options {
    task: TREES,
    format: TEXT,
    expand: 1,
    exclude_global_allow_pragmas: 1,
    emit_logging: 0,
};

// Rust code for `include!`.
const CODE_TO_INCLUDE: Options = Options {
    task: CODE,
    ..TREES_FOR_A_PERSON
};

// What the buffer has where nothing was written.
const UNTOUCHED: u8 = b'?';

// What a call leaves behind.
#[derive(Debug, PartialEq)]
struct Left {
    status: u32,
    sizes: Sizes,
    out: Vec<u8>,
}

// A call over bytes, with this much room.
fn call(bytes: &[u8], files: &[File], options: &Options, room: usize) -> Left {
    call_with(bytes, files, options, (&[], &[]), room)
}

// A call over bytes and prefixes, with this much room.
fn call_with(
    bytes: &[u8],
    files: &[File],
    options: &Options,
    (prefix_bytes, prefixes): (&[u8], &[Prefix]),
    room: usize,
) -> Left {
    let mut out = vec![UNTOUCHED; room];
    let mut sizes = Sizes {
        written: 1234,
        needed: 1234,
    };
    let status = unsafe {
        isle_capi_lower(
            bytes.as_ptr(),
            bytes.len(),
            files.as_ptr(),
            files.len(),
            options,
            prefix_bytes.as_ptr(),
            prefix_bytes.len(),
            prefixes.as_ptr(),
            prefixes.len(),
            out.as_mut_ptr(),
            room,
            &mut sizes,
        )
    };
    Left { status, sizes, out }
}

// The bytes and the lengths of files.
fn handed_in(files: &[(&[u8], &[u8])]) -> (Vec<u8>, Vec<File>) {
    let bytes = files
        .iter()
        .flat_map(|(name, text)| [*name, *text].concat())
        .collect();
    let lengths = files
        .iter()
        .map(|(name, text)| File {
            name_length: name.len(),
            text_length: text.len(),
        })
        .collect();
    (bytes, lengths)
}

// A call over the file `a.isle` with this text.
fn call_on(text: &str, options: &Options, room: usize) -> Left {
    let (bytes, files) = handed_in(&[(b"a.isle", text.as_bytes())]);
    call(&bytes, &files, options, room)
}

// What a call leaves behind that writes this text.
fn with_text(status: u32, text: &str, room: usize) -> Left {
    let mut out = text.as_bytes().to_vec();
    out.resize(room, UNTOUCHED);
    Left {
        status,
        sizes: Sizes {
            written: text.len(),
            needed: text.len(),
        },
        out,
    }
}

// What a call leaves behind that has no text.
fn without_text(status: u32, room: usize) -> Left {
    with_text(status, "", room)
}

#[test]
fn trees_are_written_and_nothing_behind_them() {
    assert_eq!(
        call_on(FALL, &TREES_FOR_A_PERSON, 1000),
        with_text(DONE, FALL_TREE, 1000)
    );
}

#[test]
fn errors_are_written() {
    let told = "error[type]: Unknown variable 'y'
 --> a.isle:2:13
  |
2 | (rule (f x) y)
  |             ^

";
    let left = call_on(
        "(decl f (u8) u8)\n(rule (f x) y)\n",
        &TREES_FOR_A_PERSON,
        1000,
    );
    assert_eq!(left, with_text(ERRORS, told, 1000));
}

#[test]
fn a_buffer_of_the_needed_size_is_enough() {
    let needed = FALL_TREE.len();
    assert_eq!(
        call_on(FALL, &TREES_FOR_A_PERSON, needed),
        with_text(DONE, FALL_TREE, needed)
    );
}

#[test]
fn a_buffer_that_is_too_small_is_left_alone() {
    for room in [0, 1, FALL_TREE.len() - 1] {
        let sizes = Sizes {
            written: 0,
            needed: FALL_TREE.len(),
        };
        let out = vec![UNTOUCHED; room];
        assert_eq!(
            call_on(FALL, &TREES_FOR_A_PERSON, room),
            Left {
                status: NO_ROOM,
                sizes,
                out
            }
        );
    }
}

#[test]
fn no_room_is_wanted_for_no_text() {
    assert_eq!(call_on("", &TREES_FOR_A_PERSON, 0), without_text(DONE, 0));
    assert_eq!(
        call(&[], &[], &TREES_FOR_A_PERSON, 0),
        without_text(DONE, 0)
    );
}

#[test]
fn wrong_options_are_told() {
    for (task, format, expand) in [
        (3, TEXT, 1),
        (u32::MAX, TEXT, 1),
        (TREES, 4, 1),
        (TREES, u32::MAX, 1),
        (TREES, TEXT, 2),
        (TREES, TEXT, u32::MAX),
        (CODE, TEXT, 0),
    ] {
        let options = Options {
            task,
            format,
            expand,
            ..TREES_FOR_A_PERSON
        };
        assert_eq!(
            call_on(FALL, &options, 1000),
            without_text(WRONG_OPTION, 1000),
            "{options:?}"
        );
    }
}

#[test]
fn all_other_options_are_right() {
    for task in [TREES, CHECK, CODE] {
        for format in [TEXT, LINE, COLORED, JSON] {
            for expand in [0, 1] {
                let options = Options {
                    task,
                    format,
                    expand,
                    ..TREES_FOR_A_PERSON
                };
                let status = if task == CODE && expand == 0 {
                    WRONG_OPTION
                } else {
                    DONE
                };
                assert_eq!(
                    call_on(FALL, &options, 10_000).status,
                    status,
                    "{options:?}"
                );
            }
        }
    }
}

#[test]
fn lengths_that_do_not_add_up_are_told() {
    let (bytes, _) = handed_in(&[(b"a.isle", FALL.as_bytes())]);
    for (name_length, text_length) in [
        (6, FALL.len() - 1),
        (6, FALL.len() + 1),
        (7, FALL.len()),
        (0, 0),
        (usize::MAX, FALL.len()),
        (6, usize::MAX),
        (usize::MAX, usize::MAX),
        (usize::MAX, bytes.len() + 1),
    ] {
        let files = [File {
            name_length,
            text_length,
        }];
        assert_eq!(
            call(&bytes, &files, &TREES_FOR_A_PERSON, 10),
            without_text(WRONG_LENGTHS, 10),
            "{files:?}"
        );
    }
    assert_eq!(
        call(&bytes, &[], &TREES_FOR_A_PERSON, 10),
        without_text(WRONG_LENGTHS, 10)
    );
}

#[test]
fn bytes_that_are_not_utf8_are_told() {
    for files in [
        [(&b"a.isle"[..], &b"; \xff"[..]), (b"b.isle", b"")],
        [(b"a.isle", b""), (b"b\x80", b"")],
        // a character that is cut in two, half of it in each file
        [(b"a.isle", b"; \xc3"), (b"\xa4", b"")],
    ] {
        let (bytes, files) = handed_in(&files);
        assert_eq!(
            call(&bytes, &files, &TREES_FOR_A_PERSON, 10),
            without_text(NOT_UTF8, 10)
        );
    }
}

#[test]
fn options_are_tested_before_lengths_and_lengths_before_bytes() {
    let wrong = Options {
        task: 3,
        ..TREES_FOR_A_PERSON
    };
    let too_few = [File {
        name_length: 0,
        text_length: 0,
    }];
    assert_eq!(call(b"\xff", &too_few, &wrong, 10).status, WRONG_OPTION);
    assert_eq!(
        call(b"\xff", &too_few, &TREES_FOR_A_PERSON, 10).status,
        WRONG_LENGTHS
    );
}

#[test]
fn names_that_are_one_in_rust_are_told() {
    let text = "(decl a.b (u8) u8)\n(rule (a.b x) x)\n(decl a_b (u8) u8)\n(rule (a_b x) x)\n";
    let left = call_on(text, &CODE_TO_INCLUDE, 1000);
    assert_eq!(left.status, NO_CODE);
    assert!(left.out.starts_with(b"error[names]: "), "{left:?}");
}

#[test]
fn options_of_code_are_0_or_1() {
    for (exclude_global_allow_pragmas, emit_logging, status) in [
        (0, 0, DONE),
        (0, 1, DONE),
        (1, 0, DONE),
        (1, 1, DONE),
        (2, 0, WRONG_OPTION),
        (0, 2, WRONG_OPTION),
        (u32::MAX, u32::MAX, WRONG_OPTION),
    ] {
        for task in [TREES, CHECK, CODE] {
            let options = Options {
                task,
                exclude_global_allow_pragmas,
                emit_logging,
                ..TREES_FOR_A_PERSON
            };
            assert_eq!(
                call_on(FALL, &options, 10_000).status,
                status,
                "{options:?}"
            );
        }
    }
}

#[test]
fn code_shows_the_name_of_a_prefix() {
    let (bytes, files) = handed_in(&[(b"out/a.isle", FALL.as_bytes())]);
    let prefixes = [
        Prefix {
            prefix_length: 2,
            name_length: 3,
        },
        Prefix {
            prefix_length: 3,
            name_length: 5,
        },
    ];
    let left = call_with(
        &bytes,
        &files,
        &CODE_TO_INCLUDE,
        (b"ab<1>out<OUT>", &prefixes),
        10_000,
    );
    assert_eq!(left.status, DONE);
    let code = String::from_utf8(left.out).unwrap();
    assert!(code.contains("// - <OUT>/a.isle\n"), "{code}");
    assert!(code.contains("// Rule at <OUT>/a.isle line 2.\n"), "{code}");
}

#[test]
fn wrong_prefixes_are_told_after_wrong_bytes() {
    let (bytes, files) = handed_in(&[(b"a.isle", FALL.as_bytes())]);
    let one = |prefix_length, name_length| {
        [Prefix {
            prefix_length,
            name_length,
        }]
    };
    for (text, prefixes) in [
        (&b"ab"[..], &one(1, 2)[..]),
        (b"ab", &one(0, 1)),
        (b"ab", &one(usize::MAX, 3)),
        (b"ab", &[]),
        (b"a\xff", &one(1, 1)),
        // a character that is cut in two
        (b"\xc3\xa4", &one(1, 1)),
    ] {
        assert_eq!(
            call_with(&bytes, &files, &TREES_FOR_A_PERSON, (text, prefixes), 10),
            without_text(WRONG_PREFIX, 10),
            "{prefixes:?}"
        );
    }
    let (bytes, files) = handed_in(&[(b"a.isle", b"; \xff")]);
    let wrong: (&[u8], &[Prefix]) = (b"ab", &[]);
    assert_eq!(
        call_with(&bytes, &files, &TREES_FOR_A_PERSON, wrong, 10).status,
        NOT_UTF8
    );
}
