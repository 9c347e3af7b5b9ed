//! The original's calls: code of files, and errors with their places.

use cranelift_isle::codegen::{CodegenOptions, Prefix};
use cranelift_isle::compile::from_files;
use cranelift_isle::error::{Error, Errors, Kind, Place};
use std::{fs, io};

// The errors of a file in the folder of rules.
fn errors_of(file: &str) -> Errors {
    let path = format!("tests/rules/{file}");
    match from_files([path], &CodegenOptions::default()) {
        Ok(code) => panic!("{file} has code: {code}"),
        Err(errors) => errors,
    }
}

fn place(file: &str, line: usize, column: usize, text: &str) -> Place {
    Place {
        file: format!("tests/rules/{file}"),
        line,
        column,
        text: text.to_string(),
    }
}

#[test]
fn code_of_a_file() {
    let options = CodegenOptions {
        exclude_global_allow_pragmas: true,
        prefixes: vec![Prefix {
            prefix: "tests".to_string(),
            name: "<T>".to_string(),
        }],
        ..CodegenOptions::default()
    };
    let code = from_files(["tests/rules/right.isle"], &options).unwrap();
    assert!(
        code.contains("pub fn constructor_f<C: Context>(ctx: &mut C, arg0: u8) -> u8 {\n"),
        "{code}"
    );
    assert!(
        code.contains("// Rule at <T>/rules/right.isle line 2.\n"),
        "{code}"
    );
    assert!(!code.contains("#!["), "{code}");
}

// As the original's, the default options are those of code in a file of its own.
#[test]
fn code_begins_with_attributes_by_default() {
    let code = from_files(["tests/rules/right.isle"], &CodegenOptions::default()).unwrap();
    assert!(code.contains("\n#![allow("), "{code}");
}

#[test]
fn an_overlap_names_both_rules() {
    let errors = errors_of("overlap.isle");
    let help = "help: of rules with the same pattern only one is ever taken: remove the others";
    assert_eq!(
        errors.errors,
        [Error {
            kind: Kind::Overlap,
            message: "rules of the same priority match the same values".to_string(),
            places: vec![
                place("overlap.isle", 3, 1, "rule `second` (priority 0)"),
                place(
                    "overlap.isle",
                    2,
                    1,
                    "rule `first` (priority 0) has the same pattern",
                ),
            ],
            notes: vec!["both match `(f 1)`".to_string(), help.to_string()],
        }]
    );
}

#[cfg(not(feature = "fancy-errors"))]
#[test]
fn errors_print_their_places() {
    let told = "type error: Unknown variable 'y'
tests/rules/unknown.isle:2:13:

type error: Unknown variable 'z'
tests/rules/unknown.isle:3:15:

found 2 errors
";
    let errors = errors_of("unknown.isle");
    assert_eq!(errors.to_string(), told);
    assert_eq!(format!("{errors:?}"), told);
}

#[cfg(feature = "fancy-errors")]
#[test]
fn errors_print_their_lines() {
    let told = "error[type]: Unknown variable 'y'
 --> tests/rules/unknown.isle:2:13
  |
2 | (rule (g x) y)
  |             ^

error[type]: Unknown variable 'z'
 --> tests/rules/unknown.isle:3:15
  |
3 | (rule 1 (g 1) z)
  |               ^

found 2 errors
";
    let errors = errors_of("unknown.isle");
    assert_eq!(errors.to_string(), told);
    assert_eq!(format!("{errors:?}"), told);
}

#[test]
fn names_that_are_one_in_rust() {
    let errors = errors_of("names.isle");
    assert_eq!(errors.errors.len(), 1);
    assert_eq!(errors.errors[0].kind, Kind::Names);
    assert!(errors.to_string().contains("a_b"), "{errors}");
}

#[test]
fn a_file_that_cannot_be_read() {
    let errors = errors_of("nothing.isle");
    assert_eq!(errors.errors[0].kind, Kind::Io);
    let why = fs::read_to_string("tests/rules/nothing.isle").unwrap_err();
    assert_eq!(
        errors.to_string(),
        format!("cannot read file tests/rules/nothing.isle\n{why}\n\n")
    );
}

#[test]
fn errors_of_the_build_script() {
    let errors = Errors::from_io(io::Error::other("no room"), "failed writing output");
    assert_eq!(format!("{errors:?}"), "failed writing output\nno room\n\n");
}
