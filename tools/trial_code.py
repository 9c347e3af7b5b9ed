"""The program in Rust that makes calls of the code of a list: the stubs that `isle rust --stubs` prints, with bodies.

The program reads a line for each call: the number of the term, how many results are wanted (0: all), and the words of the arguments
without parentheses. It asks on standard output what functions from outside answer: `ask`, the number of the function, and the values that
it is called on. It reads how many answers there are, and their words, or `stop`. At the end of the call it says `done` or `panic`, and what
the call came to.
"""
import re

from trial_values import INTS

# The keywords that are written behind `r#`.
RAW = """as break const continue else enum extern false fn for if impl in let loop match mod move mut pub ref return static struct
trait true type unsafe use where while async await dyn abstract become box do final gen macro override priv try typeof unsized virtual
yield""".split()
# The variant of an enum from outside that stands for all that aren't declared.
OPAQUE = "TrialOpaque"

HEAD = """
/// Words of a line of standard input.
struct TrialWords(std::vec::IntoIter<String>);

impl TrialWords {
    fn next(&mut self) -> String {
        self.0.next().expect("a word is missing")
    }
}

fn trial_line() -> TrialWords {
    let mut line = String::new();
    std::io::stdin().read_line(&mut line).expect("no standard input");
    TrialWords(line.split_whitespace().map(String::from).collect::<std::vec::Vec<_>>().into_iter())
}

/// The number in a word, behind the last `#` in it.
fn trial_number(word: &str) -> i128 {
    word.rsplit('#').next().and_then(|it| it.parse().ok()).expect("no number")
}

/// A name with values.
fn trial_composed(name: &str, values: &[String]) -> String {
    let text: String = values.iter().map(|it| format!(" {it}")).collect();
    format!("({name}{text})")
}

/// How many answers a call has, and their words.
fn trial_ask(function: usize, values: &[String]) -> (usize, TrialWords) {
    println!("ask {function} {}", values.join(" "));
    let mut words = trial_line();
    let count = words.next();
    if count == "stop" {
        panic!("stopped");
    }
    (count.parse().expect("no count"), words)
}

/// Results of a call, before which others seem to stand.
struct TrialResults<T> {
    before: usize,
    own: std::vec::Vec<T>,
}

impl<T> TrialResults<T> {
    fn new(wanted: usize) -> Self {
        TrialResults { before: if wanted == 0 { 0 } else { MAX_ISLE_RETURNS - wanted }, own: std::vec::Vec::new() }
    }
}

impl<T> Extend<T> for TrialResults<T> {
    fn extend<I: IntoIterator<Item = T>>(&mut self, more: I) {
        self.own.extend(more);
    }
}

impl<T> Length for TrialResults<T> {
    fn len(&self) -> usize {
        self.before + self.own.len()
    }
}

/// What a panic says.
fn trial_said(panic: Box<dyn std::any::Any + Send>) -> String {
    match panic.downcast::<String>() {
        Ok(text) => *text,
        Err(panic) => panic.downcast::<&'static str>().map_or_else(|_| String::from("?"), |text| String::from(*text)),
    }
}

fn main() {
    std::panic::set_hook(Box::new(|_| {}));
    loop {
        let mut words = trial_line();
        let Some(term) = words.0.next() else { return };
        match std::panic::catch_unwind(std::panic::AssertUnwindSafe(|| trial_call(&term, words))) {
            Ok(text) => println!("done {text}"),
            Err(panic) => println!("panic {}", trial_said(panic)),
        }
    }
}
"""


def part_name(name):
    """A name as a part of an identifier."""
    front = "_" if not name or name[0] in "0123456789" else ""
    return front + re.sub("[^A-Za-z0-9]", "_", name)


def own_name(name):
    """A name as an identifier."""
    is_word = name in ("crate", "self", "super", "Self") or re.fullmatch("[^A-Za-z0-9]?", name)
    return ("r#" if name in RAW else "") + part_name(name) + ("_" if is_word else "")


def path_name(name):
    """The name of what stands in the module above: a path, or an identifier."""
    if "::" in name and all(re.fullmatch("[A-Za-z_][A-Za-z0-9_]*", it) and it != "_" for it in name.split("::")):
        return "::".join(("r#" if it in RAW else "") + it for it in name.split("::"))
    return own_name(name)


class Code:
    """The program for a list."""

    def __init__(self, definitions, stubs):
        self.definitions = definitions
        self.stubs = stubs
        self.numbers = {ty: number for number, ty in enumerate(["bool", *INTS, *definitions.types])}

    def text(self, terms):
        """The program that can call these terms."""
        lines = ["#![allow(warnings)]", *self.bodies(), HEAD]
        for ty in self.numbers:
            lines += [self.showing(ty), self.reading(ty)]
        lines.append("fn trial_call(term: &str, mut words: TrialWords) -> String {")
        lines.append('    let wanted: usize = words.next().parse().expect("no number");')
        lines.append("    match term {")
        for number, name in enumerate(terms):
            lines += [f'        "{number}" => {{', *(f"            {line}" for line in self.calling(name)), "        }"]
        return "\n".join([*lines, '        _ => panic!("no such term"),', "    }", "}", ""])

    # ---- The stubs -------------------------------------------------------------------------------------------------------

    def bodies(self):
        """The stubs with bodies, numbers that no rule writes for constants, and a variant more in enums from outside."""
        functions = {own_name(it.name): it for it in self.definitions.functions}
        types = {self.rust_type(ty): ty for ty in self.definitions.types}
        taken = set().union(*self.definitions.written.values())
        self.definitions.kept.clear()
        body = None
        for line in self.stubs.splitlines():
            found = re.match(r"    fn (\S+?)\(&mut self", line)
            if found and found[1] in functions:
                body = self.answering(functions[found[1]])
            found = re.match(r"impl ::std::(?:cmp::PartialEq|fmt::Debug) for (\S+) \{", line)
            if found:
                show = f"trial_show{self.numbers[types[found[1]]]}"
                body = f"        {show}(self) == {show}(other)" if "PartialEq" in line else f"        other.write_str(&{show}(self))"
            found = re.match(r"(pub const \S+: \S+ = )(\d+);", line)
            if found:
                # those of constants are below 100 or as many as there are constants, and each type of integers has numbers up to 127
                number = int(found[2])
                while number in taken:
                    number += 1
                taken.add(number)
                self.definitions.kept.add(number)
                line = f"{found[1]}{number};"
            line = line.replace("_: &", "other: &").replace("RETURNS: usize = 64", "RETURNS: usize = 1 << 30")
            yield body if line == "        todo!()" else line
            found = re.match(r"pub enum (\S+) \{", line)
            if found and self.definitions.is_opaque(types[found[1]]):
                yield f"    {OPAQUE}(i128),"

    def answering(self, function):
        """The body of a function from outside: it asks for its answer."""
        values = ", ".join(f"trial_show{self.numbers[ty]}(&arg{place})" for place, ty in enumerate(function.arguments))
        answer = ", ".join(f"trial_read{self.numbers[ty]}(&mut words)" for ty in function.outputs)
        if len(function.outputs) != 1:
            answer = f"({answer})"
        gives = {
            "plain": answer,
            "option": f"if count == 0 {{ None }} else {{ Some({answer}) }}",
            "iterator": f"for _ in 0..count {{ returns.extend(Some({answer})); }}",
        }[function.answer]
        return f"        let (count, mut words) = trial_ask({function.number}, &[{values}]);\n        {gives}"

    # ---- Values ----------------------------------------------------------------------------------------------------------

    def rust_type(self, ty):
        known = self.definitions.types.get(ty)
        return ty if known is None else path_name(ty) if known["kind"] == "primitive" else own_name(ty)

    def named(self, ty):
        """The constants of a type that has numbers, by name and path."""
        if not self.definitions.is_of_numbers(ty):
            return []
        return [(name, path_name(name)) for name, other in self.definitions.constants.items() if other == ty]

    def form(self, ty, shape, values):
        """A pattern or an expression of a form of values."""
        path = self.rust_type(ty) + (f"::{own_name(shape.own)}" if shape.own is not None else "")
        if not values:
            return path
        if shape.labels[0] is None:
            return f"{path}({', '.join(values)})"
        return f"{path} {{ {', '.join(f'{own_name(label)}: {value}' for label, value in zip(shape.labels, values))} }}"

    def showing(self, ty):
        """The function that shows a value of a type."""
        shapes, is_opaque = self.definitions.shapes(ty), self.definitions.is_opaque(ty)
        if ty == "bool":
            body = "value.to_string()"
        elif self.definitions.is_of_numbers(ty):
            arms = "".join(f'if *value == {path} {{ return String::from("${name}"); }} ' for name, path in self.named(ty))
            body = arms + (f'format!("{ty}#{{value}}")' if is_opaque else "(*value as i128).to_string()")
        else:
            arms = []
            for shape in shapes:
                fields = [f"field{place}" for place in range(len(shape.types))]
                shown = ", ".join(f"trial_show{self.numbers[it]}({field})" for it, field in zip(shape.types, fields))
                arms.append(f'{self.form(ty, shape, fields)} => trial_composed("{shape.name}", &[{shown}])')
            if is_opaque:
                arms.append(f'{self.rust_type(ty)}::{OPAQUE}(number) => format!("{ty}#{{number}}")')
            body = f"match {'value' if arms else '*value'} {{ {', '.join(arms)} }}"
        return f"fn trial_show{self.numbers[ty]}(value: &{self.rust_type(ty)}) -> String {{ {body} }}"

    def reading(self, ty):
        """The function that reads the words of a value of a type."""
        rust = self.rust_type(ty)
        if ty == "bool":
            arms = ['"true" => true', "_ => false"]
        elif self.definitions.is_of_numbers(ty):
            arms = [*(f'"${name}" => {path}' for name, path in self.named(ty)), f"word => trial_number(word) as {rust}"]
        else:
            arms = []
            for shape in self.definitions.shapes(ty):
                fields = [f"trial_read{self.numbers[it]}(words)" for it in shape.types]
                arms.append(f'"{shape.name}" => {self.form(ty, shape, fields)}')
            is_opaque = self.definitions.is_opaque(ty)
            arms.append(f"word => {rust}::{OPAQUE}(trial_number(word))" if is_opaque else '_ => panic!("no value")')
        head = f"fn trial_read{self.numbers[ty]}(words: &mut TrialWords) -> {rust}"
        return f"{head} {{ match words.next().as_str() {{ {', '.join(arms)} }} }}"

    # ---- Calls -----------------------------------------------------------------------------------------------------------

    def calling(self, name):
        """The lines that call a term and tell its outcome."""
        head = self.definitions.heads[name]
        types, answer = head["signature"]["arguments"], head["constructor"]["answer"]
        show = f"trial_show{self.numbers[head['signature']['result']]}"
        arguments = ["&mut Stubs"]
        for place, ty in enumerate(types):
            yield f"let arg{place} = trial_read{self.numbers[ty]}(&mut words);"
            known = self.definitions.types.get(ty)
            arguments.append(f"&arg{place}" if known and known["kind"] != "primitive" else f"arg{place}")
        call = f"rules::constructor_{part_name(name)}"
        if answer == "iterator":
            yield "let mut results = TrialResults::new(wanted);"
            yield f"{call}({', '.join([*arguments, '&mut results'])});"
            yield f'results.own.iter().fold(String::from("all"), |text, it| format!("{{text}} {{}}", {show}(it)))'
        elif answer == "option":
            yield f'{call}({", ".join(arguments)}).map_or(String::from("none"), |it| format!("some {{}}", {show}(&it)))'
        else:
            yield f'format!("some {{}}", {show}(&{call}({", ".join(arguments)})))'
