//! Code that tests each rule alone. Each rule becomes the only rule of a term of its own, so that its code is that of its tree.
//! The function of a term then has the bodies of its rules one after the other, from the greatest priority to the least. That of a
//! `multi` term calls their functions, because rustc takes minutes for hundreds of loops in one function.

use std::collections::{HashMap, HashSet};

/// A term for each rule.
pub struct Alone {
    /// The declarations and rules of these terms.
    pub definitions: String,
    /// The names of these terms, by the term whose rule it is, from the greatest priority to the least.
    by_term: HashMap<String, Vec<String>>,
}

/// A rule, as `(rule PRIORITY? (TERM REST`.
struct Rule<'a> {
    priority: i64,
    term: &'a str,
    rest: &'a str,
}

impl Alone {
    /// The terms for the rules of a text. It has no comments in parentheses.
    pub fn of(text: &str) -> Self {
        let text: String = text
            .lines()
            .map(|line| line.split(';').next().unwrap_or("").to_owned() + "\n")
            .collect();
        let forms = forms(&text);
        let declarations: HashMap<&str, (&str, &str)> =
            forms.iter().filter_map(|form| declaration(form)).collect();
        let mut rules: Vec<Rule> = forms.iter().filter_map(|form| rule(form)).collect();
        rules.sort_by_key(|rule| -rule.priority);
        let mut alone = Alone {
            definitions: String::new(),
            by_term: HashMap::new(),
        };
        for (number, rule) in rules.iter().enumerate() {
            let name = format!("{}_alone_{number}", rule.term);
            let (flags, signature) = declarations[rule.term];
            alone.definitions +=
                &format!("{flags} {name} {signature}\n(rule ({name}{}\n", rule.rest);
            alone
                .by_term
                .entry(rule.term.into())
                .or_default()
                .push(name);
        }
        alone
    }

    /// The code of all definitions, of these and of the original ones, with the functions of the original terms made of these.
    pub fn joined(&self, code: &str) -> String {
        let items: Vec<&str> = code.split("\n\n").collect();
        let functions: HashMap<&str, &str> = items
            .iter()
            .filter_map(|item| Some((function_name(item)?, *item)))
            .collect();
        let alone: HashSet<&str> = self
            .by_term
            .values()
            .flatten()
            .map(String::as_str)
            .collect();
        let joined = items.iter().filter_map(|item| {
            let name = function_name(item).unwrap_or("");
            let function_of = |name: &String| functions[name.as_str()];
            match self.by_term.get(name) {
                Some(rules) if is_multi(item) => Some(calling_function(item, rules)),
                Some(rules) => Some(joined_function(item, rules.iter().map(function_of))),
                None if alone.contains(name) && !is_multi(item) => None,
                None => Some(item.to_string()),
            }
        });
        joined.collect::<Vec<_>>().join("\n\n")
    }
}

/// The forms at the top of a text.
fn forms(text: &str) -> Vec<&str> {
    let (mut forms, mut depth, mut start) = (Vec::new(), 0, 0);
    for (place, character) in text.char_indices() {
        match character {
            '(' => {
                if depth == 0 {
                    start = place;
                }
                depth += 1;
            }
            ')' => {
                depth -= 1;
                if depth == 0 {
                    forms.push(&text[start..=place]);
                }
            }
            _ => {}
        }
    }
    forms
}

/// The name of a declaration, with what comes before and behind it: `(decl FLAG.. NAME (TYPE..) TYPE)`.
fn declaration(form: &str) -> Option<(&str, (&str, &str))> {
    let inside = form.strip_prefix("(decl ")?;
    let signature = form.len() - inside.len() + inside.find('(')?;
    let head = form[..signature].trim_end();
    let (flags, name) = head.rsplit_once(' ')?;
    Some((name, (flags, &form[signature..])))
}

/// The parts of a rule: `(rule NAME? PRIORITY? (TERM REST`.
fn rule(form: &str) -> Option<Rule<'_>> {
    let inside = form.strip_prefix("(rule")?;
    let (words, pattern) = inside.split_once('(')?;
    let end = pattern.find([' ', ')', '\n'])?;
    Some(Rule {
        priority: words
            .split_whitespace()
            .find_map(|word| word.parse().ok())
            .unwrap_or(0),
        term: &pattern[..end],
        rest: &pattern[end..],
    })
}

/// The name of the term whose function an item is.
fn function_name(item: &str) -> Option<&str> {
    let (_, behind) = item.split_once("pub fn constructor_")?;
    Some(behind.split_once('<')?.0)
}

/// Whether an item is the function of a `multi` term.
fn is_multi(item: &str) -> bool {
    item.contains("returns: &mut (impl ")
}

/// The head of a function, then a call of each of the others, up to the bound of results.
fn calling_function(item: &str, rules: &[String]) -> String {
    let head = &item[..body_start(item)];
    let names = (0..).map(|number| format!("arg{number}"));
    let arguments: Vec<String> = names
        .take_while(|name| head.contains(&format!("{name}: ")))
        .collect();
    let mut text = head.to_owned();
    for rule in rules {
        text += &format!(
            "    constructor_{rule}(ctx, {}, returns);\n",
            arguments.join(", ")
        );
        text += "    if returns.len() >= MAX_ISLE_RETURNS {\n        return;\n    }\n";
    }
    text + "}"
}

/// The head of a function, then the bodies of the others, each in braces and without what it does if its rule doesn't match.
fn joined_function<'a>(item: &str, rules: impl Iterator<Item = &'a str>) -> String {
    let head = &item[..body_start(item)];
    let mut text = head.to_owned();
    for rule in rules {
        let body = rule[body_start(rule)..]
            .trim_end()
            .trim_end_matches('}')
            .trim_end();
        let (before, last) = body.rsplit_once('\n').unwrap_or(("", body));
        let falls_through = last.trim() == "None" || last.trim().starts_with("unreachable!(");
        text += &format!(
            "    {{\n{}\n    }}\n",
            if falls_through { before } else { body }
        );
    }
    let end = if head.contains("-> Option<") {
        "    None\n"
    } else {
        "    unreachable!()\n"
    };
    text + end + "}"
}

/// Where the body of a function begins: behind the line that ends its head.
fn body_start(item: &str) -> usize {
    let function = item.find("pub fn ").expect("a function");
    function + item[function..].find("{\n").expect("a body") + 2
}
