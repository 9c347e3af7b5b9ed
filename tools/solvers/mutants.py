#!/usr/bin/env python3
"""Changes rules and specs of the examples at one place each, and writes a table of what tools/try-smt says then (mutants.md is one).

Usage: mutants.py [--seed S] [--per N] [--answers FILE] [SET..], where a set is toy, widths or mid-end.

A change is one of: two arguments exchanged; an operator, a term, a variant or a variable that is another of its kind; a number that is another;
a priority that is another; an if-let or a part of `require`, `provide` or `and` that is dropped; a width that is another. A change that the
compiler or the reader of specs refuses isn't a mutant, and is only counted. A mutant is
  found    if a rule that was right is right no more; the table says which word it has now, and where
  unasked  if no text of a question differs: no rule depends on what was changed
  the same if texts differ and each rule that was right is so still, by z3 and by cvc5; equivalent.md says why, one by one.
The status is 1 if a mutant is neither found nor in equivalent.md."""
import argparse
import collections
import os
import random
import re
import shutil
import subprocess
import sys
import tempfile

import by_force

HERE = os.path.dirname(os.path.realpath(__file__))
TOP = os.path.dirname(os.path.dirname(HERE))
EXAMPLES = os.environ.get("EXAMPLES") or os.path.join(TOP, "examples")
SCRIPT = os.environ.get("TRY_SMT") or os.path.join(TOP, "tools", "try-smt")
SETS = {
    "toy": ["toy/rules/" + name for name in ("types.isle", "lower.isle", "addresses.isle", "specs.isle")],
    "widths": ["widths/rules.isle", "widths/specs.isle"],
    "mid-end": ["mid-end/" + name for name in ("prelude.isle", "nodes.isle", "arithmetic.isle", "bitops.isle", "compares.isle", "constants.isle",
                                               "extends.isle", "selects.isle", "shifts.isle", "specs.isle")],
}
CLASSES = [["bvadd", "bvsub", "bvmul"], ["bvand", "bvor", "bvxor"], ["bvshl", "bvlshr", "bvashr"], ["bvudiv", "bvurem", "bvsdiv", "bvsrem"],
           ["bvult", "bvule", "bvugt", "bvuge", "bvslt", "bvsle", "bvsgt", "bvsge"], ["bvnot", "bvneg"], ["rotl", "rotr"], ["+", "-"],
           ["<", "<=", ">", ">="], ["zero_ext", "sign_ext"], ["true", "false"]]
COMMUTATIVE = ["=", "and", "or", "+", "*", "bvadd", "bvmul", "bvand", "bvor", "bvxor", "require", "provide", "match"]
WORDS = "right|wrong|unknown|idle|without"
EXPLAINED = os.path.join(HERE, "equivalent.md")


def tokens_of(text):
    """(offset, token) of a text without its comments."""
    bare = re.sub(r";[^\n]*", lambda m: " " * len(m.group()), text)
    return [(m.start(), m.group()) for m in re.finditer(r"[()]|[^\s()]+", bare)]


def lists_of(text):
    """(start, end, parts, depth, path of heads) of each list, where parts are spans of what is in it."""
    stack, found = [], []
    for at, token in tokens_of(text):
        if token == "(":
            stack.append((at, []))
        elif token == ")":
            start, parts = stack.pop()
            found.append((start, at + 1, parts, len(stack)))
            if stack:
                stack[-1][1].append((start, at + 1))
        elif stack:
            stack[-1][1].append((at, at + len(token)))
    return found


class Kinds:
    """Terms, variants and constants that may stand for one another: those of one signature."""

    def __init__(self, texts):
        groups = collections.defaultdict(set)
        for text in texts.values():
            for form in by_force.read(text):
                if form[0] == "decl":
                    groups[str((form[-2], form[-1], "pure" in form[1:-3], "partial" in form[1:-3]))].add(form[-3])
                elif form[0] == "type":
                    for body in form[2:]:
                        if isinstance(body, list) and body[0] == "enum":
                            for v in body[1:]:
                                fields = [] if isinstance(v, str) else [f[1] for f in v[1:]]
                                groups[form[1] + str(fields)].add(form[1] + "." + (v if isinstance(v, str) else v[0]))
                elif form[:2] == ["extern", "const"]:
                    groups["const" + form[3]].add(form[2])
        self.others = {name: sorted(group - {name}) for group in groups.values() for name in group if len(group) > 1}


def changes_of(form, kinds, rng):
    """(kind, start, end, new text) of the changes of a rule or of a list of a spec."""
    is_rule = form.startswith("(rule")
    changes = []
    tokens = tokens_of(form)
    variables = sorted({t for _, t in tokens if re.fullmatch(r"[a-z]\w*", t) and tokens.count((0, t)) == 0}) if is_rule else []
    heads = {tokens[i + 1][1] for i in range(len(tokens) - 1) if tokens[i][1] == "("}
    variables = [v for v in variables if v not in heads and v not in kinds.others and v not in ("_", "true", "false")]
    for i, (at, token) in enumerate(tokens):
        end = at + len(token)
        for group in CLASSES:
            if token in group:
                changes.append(("operator", at, end, rng.choice([o for o in group if o != token])))
        if token in kinds.others and (is_rule or i > 3):
            changes.append(("another term", at, end, rng.choice(kinds.others[token])))
        if re.fullmatch(r"-?[0-9]+", token):
            is_priority = is_rule and i == 2
            is_width = tokens[i - 1][1] in ("bv", "zero_ext", "sign_ext", "conv_to", "int2bv")
            if is_width and tokens[i - 3][1] == "canon":
                continue
            changes.append(("priority" if is_priority else "width" if is_width else "constant", at, end,
                            str(rng.choice([w for w in (8, 16, 32, 64) if str(w) != token])) if is_width else str(int(token) + rng.choice([1, -1]))))
        if re.fullmatch(r"#x[0-9a-f]+", token):
            changes.append(("constant", at, end, token[:-1] + "%x" % (int(token[-1], 16) ^ rng.choice([1, 2, 4, 8]))))
        if is_rule and token in variables and len(variables) > 1:
            changes.append(("another variable", at, end, rng.choice([v for v in variables if v != token])))
    for start, end, parts, depth in lists_of(form):
        words = [form[a:b] for a, b in parts]
        for k in range(1, len(parts) - 1):
            if words[k] != words[k + 1] and "@" not in words and depth > 0 and words[0] not in COMMUTATIVE:
                (a, b), (c, d) = parts[k], parts[k + 1]
                changes.append(("exchange", a, d, form[c:d] + form[b:c] + form[a:b]))
        if words and words[0] in ("if-let", "if"):
            changes += [("dropped if-let", start, end, "")] if is_rule else []
        if words and words[0] in ("require", "provide", "and", "match") and not is_rule and len(words) > 2 and depth < 4:
            a, b = rng.choice(parts[1:])
            changes.append(("dropped part", a, b, ""))
    return changes


def forms_of(text):
    """(offset, text) of the rules, specs, macros and signatures of a text."""
    return [(start, text[start:end]) for start, end, parts, depth in lists_of(text)
            if depth == 0 and text[start:end].startswith(("(rule", "(spec", "(macro", "(form", "(instantiate"))]


def told(files, answers, options, extra=()):
    """The words that are told of rules, by their lines and terms, and all that is told."""
    command = [sys.executable, SCRIPT, "--jobs", str(options.jobs), "--seconds", str(options.seconds), "--answers", answers] + list(extra) + files
    run = subprocess.run(command, stdout=subprocess.PIPE, stderr=subprocess.STDOUT)
    out = run.stdout.decode("utf-8")
    words = {}
    for word, place, term in re.findall(r"^(%s): rule (?:\S+ )?at \S*?([^/\s]+:\d+) of ([^\s:,;]+)" % WORDS, out, re.M):
        words.setdefault(place + " of " + term, []).append(word)
    return words, out


def one_line(text):
    return re.sub(r"\s+", " ", text).replace("|", "\\|")


def around(form, start, end, new):
    """What was changed and into what, with a little around it."""
    begin, stop = max(0, start - 30), min(len(form), end + 15)
    return "`%s` → `%s`" % (one_line(form[begin:stop]).strip(), one_line(form[begin:start] + new + form[end:stop]).strip())


class Mutants:
    def __init__(self, name, options, room):
        self.name, self.options = name, options
        self.paths = [os.path.join(EXAMPLES, path) for path in SETS[name]]
        self.texts = {os.path.basename(path): open(path, encoding="utf-8").read() for path in self.paths}
        self.kinds, self.room = Kinds(self.texts), os.path.join(room, name)
        os.mkdir(self.room)
        self.answers = options.answers + "." + name if options.answers else os.path.join(room, name + ".answers")
        self.bases = {}
        self.files = [shutil.copy(path, self.room) for path in self.paths]

    def all_of(self, rng):
        """All changes, in a random order."""
        found = []
        for file, text in self.texts.items():
            for at, form in forms_of(text):
                found += [(file, at, form) + change for change in changes_of(form, self.kinds, rng)]
        rng.shuffle(found)
        return found

    def rule_of(self, file, at, is_alone):
        """The words that ask about one rule, or about all."""
        return ["--rule", "%s:%d" % (file, self.texts[file].count("\n", 0, at) + 1)] if is_alone else []

    def base_of(self, extra):
        """What is told without a change."""
        key = " ".join(extra)
        if key not in self.bases:
            self.bases[key], out = told(self.files, self.answers, self.options, extra)
            if not self.bases[key] and "error" in out:
                sys.exit("%s is refused without a change: %s" % (self.name, out[:500]))
        return self.bases[key]

    def run(self, rng):
        """Rows of the table, and how many changes were refused. Changes of specs are asked of all rules, and so not made of the mid-end's."""
        rows, refused, by_kind = [], 0, collections.Counter()
        quota = -(-self.options.per // 7)
        for file, at, form, kind, start, end, new in self.all_of(rng):
            side = "rule" if form.startswith("(rule") else "spec"
            if len(rows) >= self.options.per:
                break
            if by_kind[kind, side] >= quota or side == "spec" and self.name == "mid-end":
                continue
            extra = self.rule_of(file, at, side == "rule" and kind != "priority")
            base = self.base_of(extra)
            if not any(word == "right" for words in base.values() for word in words):
                continue
            outcome = self.changed(file, at + start, at + end, new, base, extra)
            if outcome is None:
                refused += 1
                continue
            by_kind[kind, side] += 1
            rows.append((self.name, "%s:%d" % (file, self.texts[file].count("\n", 0, at) + 1), side, kind, around(form, start, end, new), outcome))
            print("| %s |" % " | ".join(rows[-1]), flush=True)
        return rows, refused

    def changed(self, file, start, end, new, base, extra):
        """The outcome of a change."""
        text, path = self.texts[file], os.path.join(self.room, file)
        with open(path, "w", encoding="utf-8") as out:
            out.write(text[:start] + new + text[end:])
        outcome = self.outcome(base, extra)
        with open(path, "w", encoding="utf-8") as out:
            out.write(text)
        return outcome

    def outcome(self, base, extra):
        """What is told of a mutant; None if it is refused."""
        before = os.path.getsize(self.answers)
        words, out = told(self.files, self.answers, self.options, extra)
        if not words:
            return None
        for place in words:
            was = base.get(place, [])
            worse = [word for word, old in zip(words[place], was) if old == "right" and word != "right"]
            if worse:
                return "found: %s, %s" % (worse[0], place)
        if os.path.getsize(self.answers) == before:
            return "unasked"
        again, _ = told(self.files, self.answers, self.options, list(extra) + ["--solver", "both"])
        return "the same" if again == words else "solvers differ"


def main(arguments):
    parser = argparse.ArgumentParser(prog="mutants.py", description=__doc__, formatter_class=argparse.RawDescriptionHelpFormatter)
    parser.add_argument("--seed", type=int, default=1)
    parser.add_argument("--per", type=int, default=80, metavar="N", help="mutants of each set (80)")
    parser.add_argument("--seconds", type=int, default=8, help="the time for each text (8)")
    parser.add_argument("--jobs", type=int, default=1, help="how many texts at a time (1)")
    parser.add_argument("--answers", metavar="FILE", help="files of records, FILE.SET")
    parser.add_argument("sets", nargs="*", metavar="SET")
    options = parser.parse_args(arguments)
    explained = open(EXPLAINED, encoding="utf-8").read() if os.path.exists(EXPLAINED) else ""
    rows, refused = [], 0
    print("| Set | Place | Of a | Change | Old → new | Outcome |\n|---|---|---|---|---|---|")
    with tempfile.TemporaryDirectory() as room:
        for name in options.sets or sorted(SETS):
            more, count = Mutants(name, options, room).run(random.Random("%d %s" % (options.seed, name)))
            rows, refused = rows + more, refused + count
    outcomes = collections.Counter(row[5].split(",")[0] for row in rows)
    print("%d mutants: %s. %d changes were refused" % (len(rows), ", ".join("%d %s" % (n, word) for word, n in sorted(outcomes.items())), refused))
    open_rows = [row for row in rows if not row[5].startswith("found") and row[4] not in explained]
    for row in open_rows:
        print("to be explained: | %s |" % " | ".join(row))
    return 1 if open_rows or not rows else 0


if __name__ == "__main__":
    sys.exit(main(sys.argv[1:]))
