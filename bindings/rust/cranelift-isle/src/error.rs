//! What is wrong with rules.

use crate::json::Value;
use isle_proved::{check, Options};
use std::{fmt, io};

/// All errors of a call. `Debug` and `Display` print the same report, so a build script may end with these errors.
pub struct Errors {
    /// The errors.
    pub errors: Vec<Error>,
    // The errors with their source lines, if they are errors of rules and the feature `fancy-errors` is on.
    fancy: Option<String>,
}

/// An error. The original's type is an enum, whose variants have the names of `Kind` and the word `Error` behind it.
#[derive(Clone, Debug, PartialEq, Eq)]
pub struct Error {
    /// What is wrong, in general.
    pub kind: Kind,
    /// What is wrong, in one line.
    pub message: String,
    /// Where it is wrong. The first place is that of the error.
    pub places: Vec<Place>,
    /// More lines: what two rules both match, advice, or the reason of a failure.
    pub notes: Vec<String>,
}

/// What is wrong, in general.
#[derive(Clone, Debug, PartialEq, Eq)]
pub enum Kind {
    /// A file can't be read or written.
    Io,
    /// A text isn't ISLE.
    Parse,
    /// Something is declared or used wrongly.
    Type,
    /// No values match a rule.
    Unreachable,
    /// Rules of one priority match the same values.
    Overlap,
    /// A rule is never taken, since another rule always comes first.
    Shadowed,
    /// A rule passes a limit.
    Limit,
    /// Two names would be the same in Rust.
    Names,
    /// Anything else, with its word in JSON or an empty text.
    Other(String),
}

/// A place in a file.
#[derive(Clone, Debug, PartialEq, Eq)]
pub struct Place {
    /// The name of the file, as it was given.
    pub file: String,
    /// The line, from 1.
    pub line: usize,
    /// The column, from 1, in characters.
    pub column: usize,
    /// What the place has to do with the error. It may be empty.
    pub text: String,
}

impl Errors {
    /// An error of reading or writing files. The context says what failed.
    pub fn from_io(error: io::Error, context: impl Into<String>) -> Errors {
        Errors::from(Error {
            kind: Kind::Io,
            message: context.into(),
            places: Vec::new(),
            notes: vec![error.to_string()],
        })
    }

    // The errors of the compiler, which was asked for JSON.
    pub(crate) fn of(errors: isle_proved::Errors, files: &[(&str, &str)]) -> Errors {
        match errors {
            isle_proved::Errors::Definitions(document) => Errors::of_document(&document, files),
            isle_proved::Errors::Names(text) => Errors::from(Error::of_text(Kind::Names, &text)),
            other => Errors::from(Error::of_text(
                Kind::Other(String::new()),
                &other.to_string(),
            )),
        }
    }

    fn of_document(document: &str, files: &[(&str, &str)]) -> Errors {
        match Value::of(document) {
            Some(value) => Errors {
                errors: value.list("errors").iter().map(Error::of).collect(),
                fancy: fancy(files),
            },
            None => Errors::from(Error::of_text(Kind::Other(String::new()), document)),
        }
    }
}

// The errors of files with their source lines.
fn fancy(files: &[(&str, &str)]) -> Option<String> {
    if !cfg!(feature = "fancy-errors") {
        return None;
    }
    match check(files, Options::default()) {
        Ok(_) => None,
        Err(errors) => Some(errors.to_string()),
    }
}

impl From<Error> for Errors {
    fn from(error: Error) -> Errors {
        Errors {
            errors: vec![error],
            fancy: None,
        }
    }
}

impl Error {
    // The error of an object in JSON (`docs/JSON.md`).
    fn of(value: &Value) -> Error {
        let mut notes = value.texts("witness");
        notes.extend(
            value
                .texts("help")
                .iter()
                .map(|line| format!("help: {line}")),
        );
        Error {
            kind: Kind::of(&value.text("kind")),
            message: value.text("message"),
            places: value.list("places").iter().map(Place::of).collect(),
            notes,
        }
    }

    // An error without a place, whose text may begin with a word for its kind.
    fn of_text(kind: Kind, text: &str) -> Error {
        let text = text.trim_end();
        let message = text
            .strip_prefix("error[names]: ")
            .or_else(|| text.strip_prefix("error: "))
            .unwrap_or(text);
        Error {
            kind,
            message: message.into(),
            places: Vec::new(),
            notes: Vec::new(),
        }
    }
}

impl Kind {
    fn of(word: &str) -> Kind {
        match word {
            "syntax" => Kind::Parse,
            "type" => Kind::Type,
            "unreachable" => Kind::Unreachable,
            "overlap" => Kind::Overlap,
            "shadow" => Kind::Shadowed,
            "limit" => Kind::Limit,
            _ => Kind::Other(word.into()),
        }
    }

    // What comes before the message of an error.
    fn title(&self) -> &str {
        match self {
            Kind::Io => "",
            Kind::Parse => "parse error: ",
            Kind::Type => "type error: ",
            Kind::Unreachable => "unreachable rule: ",
            Kind::Overlap => "overlap error: ",
            Kind::Shadowed => "shadowed rule: ",
            Kind::Limit => "limit error: ",
            Kind::Names => "names error: ",
            Kind::Other(_) => "error: ",
        }
    }
}

impl Place {
    fn of(value: &Value) -> Place {
        Place {
            file: value.text("file"),
            line: value.number("line"),
            column: value.number("column"),
            text: value.text("text"),
        }
    }
}

/// A line for the message, one for each place, one for each note.
impl fmt::Display for Error {
    fn fmt(&self, out: &mut fmt::Formatter<'_>) -> fmt::Result {
        writeln!(out, "{}{}", self.kind.title(), self.message)?;
        for Place {
            file,
            line,
            column,
            text,
        } in &self.places
        {
            let text = format!("{file}:{line}:{column}: {text}");
            writeln!(out, "{}", text.trim_end())?;
        }
        for note in &self.notes {
            writeln!(out, "{note}")?;
        }
        Ok(())
    }
}

impl std::error::Error for Error {}

/// Each error, with an empty line behind it, or with the feature `fancy-errors` the source lines. The last line counts the errors
/// if there are several.
impl fmt::Display for Errors {
    fn fmt(&self, out: &mut fmt::Formatter<'_>) -> fmt::Result {
        match &self.fancy {
            Some(text) => out.write_str(text)?,
            None => {
                for error in &self.errors {
                    writeln!(out, "{error}")?;
                }
            }
        }
        if self.errors.len() > 1 {
            writeln!(out, "found {} errors", self.errors.len())?;
        }
        Ok(())
    }
}

impl fmt::Debug for Errors {
    fn fmt(&self, out: &mut fmt::Formatter<'_>) -> fmt::Result {
        fmt::Display::fmt(self, out)
    }
}

impl std::error::Error for Errors {}
