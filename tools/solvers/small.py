#!/usr/bin/env python3
"""Asks about the small files in small/: each alone, those that are accepted all in one file, and that with all rules on one line.
small/TABLE.md says what must be told of each rule, and why. `isle run` has to take each call that shows that a rule is wrong, and the
status has to be 1 where a rule is wrong, and with --ci where one isn't right.
Usage: small.py [--jobs N] [--answers FILE] SOLVER.., each z3, cvc5 or both. FILE keeps the answers for the next run; FILE.SOLVER is its name."""
import itertools
import os
import re
import subprocess
import sys
import tempfile

HERE = os.path.dirname(os.path.realpath(__file__))
SMALL = os.path.join(HERE, "small")
SCRIPT = os.path.join(os.path.dirname(HERE), "try-smt")
ISLE = os.environ.get("ISLE_PROGRAM") or os.path.join(os.path.dirname(os.path.dirname(HERE)), "isle")

# What may be told of the rules of each file, by their terms: a word, or several with bars between them.
TOLD = {
    "one-line": "f wrong, f right",
    "one-line-below": "f wrong, f right",
    "inner-widths": "f wrong",
    "inner-widths-below": "f wrong, f wrong",
    "result-width": "f wrong, g right",
    "result-width-of": "f wrong, g right",
    "right-side-signature": "f wrong",
    "goal-joins": "f wrong",
    "goal-joins-later": "f wrong",
    "unmet-require": "f wrong",
    "unmet-require-misfit": "f wrong",
    "structs-of-other-widths": "f wrong",
    "unknown-bit": "f wrong|unknown",
    "unknown-bit-of-width": "f wrong, f2 wrong",
    "unknown-function": "f wrong|unknown",
    "extractor-signature": "f right",
    "extractor-spec": "f right",
    "arm-not-taken": "f wrong",
    "arm-of-extractor": "f wrong",
    "rotations": "f right, g wrong, h right, k right",
    "rotation-far": "f right",
    "no-spec-of-term": "f right",
    "called-rule": "f right",
    "called-rule-wrong": "f wrong",
    "called-rules": "f without, g without, h without, k without, m right",
    "pure-require": "f wrong",
    "pure-require-met": "f right, g right",
    "pure-require-tested": "f right, g wrong",
    "pure-require-impure": "f right, g wrong, h wrong",
    "pure-require-signature": "f wrong",
    "pure-require-struct": "f wrong",
    "multi-call-required": "f without, g right",
    "never-taken": "f idle|without",
    "lazy-if": "f right",
    "default-arms": "f right, f right, g right, g right, h right, k right, k2 right",
    "default-arm-called": "f right, g right, g2 right",
    "default-keys": "f right, g right, j right, n right",
    "open-bits": "lower wrong, lower2 right",
    "unmet-spec": "f right, g right",
    "lower-wide": "f right",
    "internal-extractor": "lower right",
    "internal-extractor-unused": "lower right",
    "opaque": "f right, f right, f wrong",
    "below-match": "f right, f wrong|unknown",
    "below-numbers": "g right, g wrong|unknown",
    "below-a-call": "f right, f wrong|unknown",
    "below-a-field": "f right, f right, f right",
    "last-variant-above": "f right, f right, g right, g right, h right, h wrong",
    "equal-enums": "f unknown",
    "deep-equality": "f unknown",
    "other-values": "f right, g wrong",
    "unused-extractor": "f wrong|right, g right",
}
# What may be told with --lax, where that is something else.
LAX = {
    "pure-require": "f right",
    "pure-require-tested": "f right, g right",
    "pure-require-impure": "f right, g right, h right",
    "pure-require-signature": "f right",
    "pure-require-struct": "f right",
}
REFUSED = {
    "enum-value-twice": "spec-enum",
    "argument-result": "spec-argument",
    "argument-twice": "spec-argument",
    "misspelt-variant": "spec-variant",
    "misspelt-struct": "spec-variant",
    "no-provide": "spec-provide",
    "spec-of-variant": "spec-own",
    "builtin-model": "spec-model",
    "constant-model": "spec-model",
    "state": "spec-unsupported",
}
# What has to stand in lines: widths, and a warning.
NAMED = {
    "below-a-field": ["of f, where no rule of greater priority matches"],
    "other-values": ["call: (g (E.B) "],
    "internal-extractor-unused": ["warning: the spec of `iadd` at "],
    "extractor-signature": ["(arg0 of 8 bits)", "never taken (arg0 of 16 bits)"],
    "extractor-spec": ["(arg0 of 8 bits)", "never taken (arg0 of 16 bits)"],
    "lower-wide": ["(arg0 of %d bits)" % width for width in (8, 16, 32, 64)],
}


def text_of(name):
    with open(os.path.join(SMALL, name + ".isle"), encoding="utf-8") as file:
        return file.read()


def bare(text):
    """A text on one line, without its comments."""
    return " ".join(line.partition(";")[0].strip() for line in text.split("\n"))


def renamed(text, mark):
    """A text whose types, terms, constants and forms have names of their own."""
    text = bare(text)
    names = set(re.findall(r"\(type ([^\s()]+)", text)) | set(re.findall(r"\(form ([^\s()]+)", text)) | set(re.findall(r"\(extern const \$([^\s()]+)", text))
    names |= set(re.findall(r"\(decl (?:pure |partial |multi |rec )*([^\s()]+)", text))
    names -= {"Int"}  # also the sort of integers, and a type of one file alone
    return re.sub(r"[^\s().$]+", lambda found: found.group() + mark if found.group() in names else found.group(), text)


def run(solver, jobs, answers, text, more=()):
    """What is told of a text with more words, with a line for each fault behind it, and the status."""
    with tempfile.TemporaryDirectory() as room:
        path = os.path.join(room, "a.isle")
        with open(path, "w", encoding="utf-8") as file:
            file.write(text)
        command = [sys.executable, SCRIPT, "--solver", solver, "--seconds", "20", "--jobs", jobs, "--answers", answers, *more, path]
        told, status = output_of(command)
        words = [word for told_of_term in words_by_term(told).values() for word in told_of_term]
        faults = ["fault: isle run refuses %s" % call for call in calls_in(told) if output_of([ISLE, "run", path, "--"] + call)[1]]
        if words and status != int("wrong" in words):
            faults.append("fault: the status is %d" % status)
        if words and output_of(command + ["--ci"])[1] != int(set(words) != {"right"}):
            faults.append("fault: the status with --ci")
    return told + "".join(fault + "\n" for fault in faults), status


def output_of(command):
    found = subprocess.run(command, stdout=subprocess.PIPE, stderr=subprocess.STDOUT)
    return found.stdout.decode("utf-8"), found.returncode


def calls_in(told):
    """The calls that are told, each as its words."""
    return [words_of(call) for call in re.findall(r"^  call: \((.*)\)$", told, re.M)]


def words_of(call):
    """The words of a call, where each value with parentheses is one."""
    words = []
    for part in call.split(" "):
        if words and words[-1].count("(") > words[-1].count(")"):
            words[-1] += " " + part
        else:
            words.append(part)
    return words


def words_by_term(told, mark=""):
    """The words that are told of the rules of each term."""
    words = {}
    for line in told.split("\n"):
        found = re.match(r"(right|wrong|unknown|idle|without): rule (?:\S+ )?at \S+ of ([^\s:,;]+)", line)
        if found and found.group(2).endswith(mark):
            words.setdefault(found.group(2)[:len(found.group(2)) - len(mark)], []).append(found.group(1))
    return words


def fits(allowed_words, told, mark=""):
    """Whether what is told of the rules of a file is what may be told."""
    words, wanted = words_by_term(told, mark), {}
    for part in allowed_words.split(", "):
        term, _, allowed = part.partition(" ")
        wanted.setdefault(term, []).append(allowed.split("|"))
    return set(words) == set(wanted) and all(
        any(len(order) == len(wanted[term]) and all(word in allowed for word, allowed in zip(order, wanted[term]))
            for order in itertools.permutations(words[term])) for term in wanted)


def main(arguments):
    jobs, kept = "1", None
    while arguments[:1] in (["--jobs"], ["--answers"]):
        if arguments[0] == "--jobs":
            jobs = arguments[1]
        else:
            kept = os.path.abspath(arguments[1])
        arguments = arguments[2:]
    failed = []

    def check(name, is_so, told):
        print("%s %s" % ("pass" if is_so else "FAIL", name), flush=True)
        if not is_so:
            failed.append(name)
            print(told)

    for solver in arguments or ["z3"]:
        with tempfile.TemporaryDirectory() as room:
            answers = kept + "." + solver if kept else os.path.join(room, "answers")
            for name in TOLD:
                for how, text in (("as it stands", text_of(name)), ("on one line", bare(text_of(name)))):
                    told, _ = run(solver, jobs, answers, text)
                    is_so = fits(TOLD[name], told) and all(part in told for part in NAMED.get(name, [])) and "fault: " not in told
                    check("%s %s, %s" % (solver, name, how), is_so, told)
            for name, allowed in LAX.items():
                told, _ = run(solver, jobs, answers, text_of(name), ["--lax"])
                check("%s %s with --lax" % (solver, name), fits(allowed, told) and "fault: " not in told, told)
            for name, code in REFUSED.items():
                told, status = run(solver, jobs, answers, text_of(name))
                check("%s %s is refused" % (solver, name), status == 1 and "error[%s]" % code in told, told)
            parts = [renamed(text_of(name), "_%d" % number) for number, name in enumerate(TOLD)]
            for how, mark in (("in one file", "\n"), ("in one line", " ")):
                told, _ = run(solver, jobs, answers, mark.join(parts))
                for number, name in enumerate(TOLD):
                    lines = "\n".join(line for line in told.split("\n") if re.search(r" of \S+_%d\b" % number, line))
                    check("%s %s, %s" % (solver, name, how), fits(TOLD[name], lines, "_%d" % number), lines or told[:2000])
    print("%d failed" % len(failed))
    return 1 if failed else 0


if __name__ == "__main__":
    sys.exit(main(sys.argv[1:]))
