//! The trees of the original compiler, in the form that `isle lower` prints and `isle compare` reads.

mod literals;
mod print;

use cranelift_isle::lexer::Lexer;
use cranelift_isle::parser::parse;
use cranelift_isle::sema::{TermEnv, TypeEnv};
use cranelift_isle::{overlap, serialize::serialize};
use literals::literals_past_range;
use std::fmt::Debug;

/// What the original makes of definitions.
pub struct Trees {
    /// The trees of all terms with rules, ascending by term.
    pub text: String,
    /// Where a tree departs from ours because of a literal that its built-in type doesn't have: a line for each term.
    pub notes: Vec<String>,
}

/// The trees of all terms with rules in these texts, which together are one list of definitions. Internal extractors are expanded.
///
/// # Errors
///
/// What the original says is wrong with the texts, as it prints each error for its developers.
pub fn trees(texts: &[String]) -> Result<Trees, Vec<String>> {
    let mut defs = Vec::new();
    for (number, text) in texts.iter().enumerate() {
        let lexer = Lexer::new(number, text).map_err(shown)?;
        defs.extend(parse(lexer).map_err(shown)?);
    }
    let mut types = TypeEnv::from_ast(&defs).map_err(all_shown)?;
    let terms = TermEnv::from_ast(&mut types, &defs, true).map_err(all_shown)?;
    let sets = overlap::check(&terms).map_err(all_shown)?;
    let names = print::Names {
        types: &types,
        terms: &terms,
    };
    let mut trees = Trees {
        text: String::new(),
        notes: Vec::new(),
    };
    for (term, rules) in &sets {
        let block = serialize(rules);
        trees.text += &names.tree(*term, rules, &block);
        let literals = literals_past_range(&types, rules, &block);
        if !literals.is_empty() {
            trees.notes.push(format!(
                "term {} has literals that their type doesn't have: {}",
                names.term(*term),
                literals.join(", ")
            ));
        }
    }
    Ok(trees)
}

fn shown(error: impl Debug) -> Vec<String> {
    vec![format!("{error:?}")]
}

fn all_shown<E: Debug>(errors: Vec<E>) -> Vec<String> {
    errors.iter().map(|error| format!("{error:?}")).collect()
}
