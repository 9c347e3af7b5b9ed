#!/usr/bin/env python3
"""Compares calls of generated Rust code with the runs of the trees that it is made of.

The code of each list of definitions is compiled with the stubs of `isle rust --stubs`, and with bodies in these: a program that asks this
tool what functions from outside answer. It makes N calls of each term with rules, with arguments by chance. What a function answers is by
chance, too, and may be none or several where that may be; in one call it answers the same on the same values. Then `isle run` makes the
same call with the answers that were given. Outcomes and impure calls in their order have to be alike. Once more it is run with the answers
that were given before one of them, by turns: it has to ask for just that one. So the code makes the calls that the tree makes, in the
tree's order. A call with at least two results is made again with a list that takes two: it has to give the first two, and may make only
calls that were made before.

The lists are the built-in samples, one that is written by hand (trials.isle beside this tool), and those of tools/generated-list, plain and
mixed. A term is left out if a type of its list holds values of its own, if an argument's type has no value, or if a rule that its calls may
take names a constant whose type has no numbers, or has variants. A call isn't counted if it asks more than 200 times, or for a value
whose type has no value, or if more than 200 calls of terms with rules are in one another.

With --faults only trials.isle is tried, with one fault after the other in its code, and each has to be told.
"""
import argparse
import concurrent.futures
import json
import os
import random
import re
import shutil
import subprocess
import sys
import tempfile

sys.dont_write_bytecode = True
import programs
from trial_code import Code
from trial_values import Definitions, values_in, words

TOP = programs.TOP
# How many times something from outside is called in one call, if it is compared.
MOST_ASKED = 200

# Faults: what each is, a pattern that the code of trials.isle has once, and what takes its place.
FAULTS = [
    ("an arm is dropped", r"        &P::A => \{.*?\n        \}\n", ""),
    ("two fields are exchanged", r"R \{ a: v1, b: v3 \}", "R { a: v3, b: v1 }"),
    ("an impure call is left out", r"C::tried_fn\(ctx, v10\)", "Some(v10)"),
    ("a pure call is made before the test", r"(constructor_half<.*\n)", r"\1    C::maybe_fn(ctx, arg0);\n"),
    ("two impure calls are exchanged", r"(    let v1 = C::emit_fn.*\n)(    let v2 = constructor_half.*\n)", r"\2\1"),
    ("a test is left out", r"if v10 == true \{", "{"),
    ("an equality is of another value", r"if v1 == v4 \{", "if v1 == v1 {"),
    ("a loop ends after its first answer", r"(returns.extend\(Some\(v2.0\)\);)", r"\1 return;"),
    ("a bound isn't kept", r"(returns.extend\(Some\(v2\)\);)\n.*", r"\1"),
]


class Answers:
    """What is answered in a call: of each function on the same values the same."""

    def __init__(self, definitions, seed):
        self.definitions = definitions
        self.seed = seed
        # each call that is asked for, the number of the function and the text of the values, in order
        self.asked = []
        # the answers of each such call, each a list of values
        self.given = {}

    def answer(self, number, text):
        """The line for the program."""
        self.asked.append((number, text))
        if len(self.asked) > MOST_ASKED:
            return "stop"
        if (number, text) not in self.given:
            function = self.definitions.functions[number]
            if not all(map(self.definitions.has_value, function.outputs)):
                return "stop"
            self.given[number, text] = self.made(function, text)
        answers = self.given[number, text]
        flat = " ".join(words(value) for answer in answers for value in answer)
        return f"{len(answers)} {flat.translate(str.maketrans('()', '  '))}"

    def made(self, function, text):
        """Answers by chance, which may be values that the function is called on, or parts of these."""
        chance = random.Random(f"{self.seed} {function.name} {text}")
        near = [part for ty, value in zip(function.arguments, values_in(text)) for part in self.definitions.parts(ty, value)]
        count = {"plain": 1, "option": chance.choice((0, 1, 1)), "iterator": chance.choice((0, 1, 2, 2, 3))}[function.answer]
        return [[self.definitions.value(chance, ty, near) for ty in function.outputs] for _ in range(count)]

    def lines(self, count):
        """The lines of a file with the first answers, so many."""
        for number, text in list(self.given)[:count]:
            answers = self.given[number, text]
            for before, name in self.definitions.functions[number].terms:
                call = f"{before}{name} {text}"
                yield from (f"{call} = {' '.join(map(words, answer))}" for answer in answers)
                if not answers:
                    yield f"{call} = none"

    def names(self, call):
        """A call as `isle run` may name it."""
        number, text = call
        return [f"{before}({f'{name} {text}'.strip()})" for before, name in self.definitions.functions[number].terms]

    def impure(self):
        """The impure calls that were asked for, in order."""
        return [call for call in self.asked if self.definitions.functions[call[0]].is_impure]


def run_silently(asked):
    """Runs a command, and keeps what it says."""
    return subprocess.run(asked, stdin=subprocess.DEVNULL, stdout=subprocess.PIPE, stderr=subprocess.PIPE, text=True, check=False)


class Program:
    """A program that makes calls, and is begun again where it ended."""

    def __init__(self, file):
        self.file = file
        self.process = None

    def call(self, line, answers):
        """What a call comes to: `done` or `panic` and a text, or `ended` and the status."""
        if self.process is None:
            pipes = {"stdin": subprocess.PIPE, "stdout": subprocess.PIPE, "stderr": subprocess.DEVNULL}
            self.process = subprocess.Popen([self.file], **pipes, text=True)
        while True:
            self.process.stdin.write(line + "\n")
            self.process.stdin.flush()
            kind, _, rest = self.process.stdout.readline().rstrip("\n").partition(" ")
            if kind == "ask":
                number, _, text = rest.partition(" ")
                line = answers.answer(int(number), text)
            elif kind:
                return kind, rest
            else:
                return "ended", str(self.end())

    def end(self):
        """Ends the program, and returns its status."""
        if self.process is None:
            return 0
        self.process.stdin.close()
        self.process.stdout.close()
        status, self.process = self.process.wait(), None
        return status


class Trial:
    """The calls of the terms of a list."""

    def __init__(self, isle, folder, name, seed):
        self.isle = isle
        self.folder = folder
        self.list = f"{folder}/list.isle"
        self.name = name
        self.seed = seed
        self.runs = self.failed = self.terms = self.left_out = 0
        self.differences = []
        self.is_refused = False

    def command(self, *asked):
        """What `isle` says, or None where it refuses the list."""
        ran = run_silently([self.isle, *asked])
        if ran.returncode == 1:
            return None
        if ran.returncode:
            raise programs.Missing(f"isle {asked[0]}: status {ran.returncode}: {ran.stderr.strip()}")
        return ran.stdout

    def run(self, count, fault=None):
        """Makes so many calls of each term that isn't left out, by code with a fault in it where one is given."""
        lowered = self.command("lower", "--format", "json", self.list)
        code, stubs = self.command("rust", self.list), self.command("rust", "--stubs", self.list)
        self.is_refused = None in (lowered, code, stubs)
        if self.is_refused:
            return
        definitions = Definitions(json.loads(lowered))
        terms = [name for name in definitions.terms if definitions.why_left_out(name) is None]
        self.left_out = len(definitions.terms) - len(terms)
        self.terms = len(terms)
        if any(map(definitions.is_endless, definitions.types)):
            return
        if not self.is_built(stubs, Code(definitions, stubs).text(terms), code if fault is None else with_fault(code, *fault)):
            return
        program = Program(f"{self.folder}/main")
        for number, term in enumerate(terms):
            for place in range(count):
                before = len(self.differences)
                self.try_call(definitions, program, number, term, place)
                self.failed += len(self.differences) > before
        program.end()

    def is_built(self, stubs, text, code):
        """Whether this code compiles with its stubs, and the program with it. If not, that is a difference."""
        for name, written in (("lib", stubs), ("main", text), ("rules", code)):
            with open(f"{self.folder}/{name}.rs", "w", encoding="utf-8") as file:
                file.write(written)
        for asked in (["--crate-type", "lib", "--emit", "metadata", "lib.rs"], ["main.rs"]):
            built = run_silently(["rustc", "--edition", "2021", "--out-dir", self.folder, *asked[:-1], f"{self.folder}/{asked[-1]}"])
            if built.returncode:
                self.failed += 1
                self.differences.append("\n".join([f"{asked[-1]} doesn't compile", *built.stderr.splitlines()[:20]]))
                return False
        return True

    def try_call(self, definitions, program, number, term, place):
        """Makes one call of a term, and the same by `isle run`."""
        seed = f"{self.seed} {term} {place}"
        arguments = [words(it) for it in definitions.arguments(random.Random(seed), term)]
        flat = " ".join(arguments).translate(str.maketrans("()", "  "))
        answers = Answers(definitions, seed)
        kind, told = program.call(f"{number} 0 {flat}", answers)
        if (kind, told) == ("panic", "stopped"):
            return
        found = re.search(r"no rule matched for term (\S+) at ", told) if kind == "panic" else None
        of_code = f"no rule of {found[1]}" if found else told if kind == "done" else f"{kind}: {told}"
        status, of_tree, calls = self.run_tree(answers, len(answers.given), term, arguments)
        if status and of_tree.startswith("error[limit]"):
            return
        self.runs += 1
        call = f"({' '.join([term, *arguments])})"
        flags = definitions.heads[term]["flags"]
        if not status and of_tree == "failed" and flags["partial"]:
            of_tree = "none"
        elif not status and of_tree == "none" and not flags["partial"]:
            of_tree = f"no rule of {term}"
        if of_code != of_tree:
            self.differ(answers, call, of_tree, of_code)
        elif not status and not self.are_alike(answers, calls):
            self.differ(answers, call, f"calls {calls}", f"calls {' '.join(answers.names(it)[0] for it in answers.impure())}")
        elif answers.given:
            self.try_order(answers, place % len(answers.given), term, arguments, call)
        if of_code.startswith("all ") and len(values_in(of_code)) > 2:
            self.try_bound(definitions, program, (f"{number} 2 {flat}", call), (answers, of_code))

    def run_tree(self, answers, count, term, arguments):
        """What `isle run` says of a call with so many of the answers: its status, the outcome or the error, and the impure calls."""
        path = f"{self.folder}/answers"
        with open(path, "w", encoding="utf-8") as file:
            file.writelines(f"{line}\n" for line in answers.lines(count))
        ran = run_silently([self.isle, "run", self.list, "--answers", path, "--", term, *arguments])
        if ran.returncode == 0:
            outcome, _, calls = ran.stdout.rstrip("\n").partition(", calls ")
            return 0, outcome, calls
        found = re.match(r"error\[call\]: no rule takes \((\S+?)[ )]", ran.stderr)
        return ran.returncode, f"no rule of {found[1]}" if found else ran.stderr.strip(), ""

    def are_alike(self, answers, calls):
        """Whether the impure calls of the tree are those of the code."""
        of_tree = [words(it) for it in values_in(calls)]
        of_code = answers.impure()
        return len(of_tree) == len(of_code) and all(call in answers.names(other) for call, other in zip(of_tree, of_code))

    def try_order(self, answers, place, term, arguments, call):
        """Looks whether the tree asks for the same answer at this place."""
        _, of_tree, _ = self.run_tree(answers, place, term, arguments)
        wanted = [f"error[call]: no answer for {it}" for it in answers.names(list(answers.given)[place])]
        if of_tree not in wanted:
            self.differ(answers, call, f"with {place} answers, {of_tree}", f"with {place} answers, {wanted[0]}")

    def try_bound(self, definitions, program, asked, whole):
        """Makes a call again that is to give two results at most."""
        (line, call), (before, outcome) = asked, whole
        answers = Answers(definitions, before.seed)
        _, told = program.call(line, answers)
        wanted = " ".join(["all", *map(words, values_in(outcome)[1:3])])
        if told != wanted or answers.asked != before.asked[: len(answers.asked)]:
            self.differ(answers, f"{call}, two results at most", wanted, told)

    def differ(self, answers, call, of_tree, of_code):
        """Notes a difference, with the answers that were given."""
        lines = [f"    {line}" for line in answers.lines(len(answers.given))]
        self.differences.append("\n".join([f"{call}: {of_tree}", f"  generated code: {of_code}", *lines]))


def with_fault(code, what, pattern, by):
    """The code with a fault."""
    code, count = re.subn(pattern, by, code, flags=re.S if ".*?" in pattern else 0)
    if count != 1:
        raise programs.Missing(f"no place for the fault that {what}: the code has {count}")
    return code


def samples(isle):
    """The samples that `isle samples` lists: the name of each, and its text, which no task of isle prints."""
    names = subprocess.run([isle, "samples"], stdout=subprocess.PIPE, text=True, check=True).stdout.split()
    source = "crates/report_queries/src/samples.rt"
    with open(f"{TOP}/{source}", encoding="utf-8") as file:
        texts = dict(re.findall(r'^const (\w+): &str = "([^"]*)";', file.read(), re.M))
    texts = {name: texts.get(name.upper().replace("-", "_")) for name in names}
    if not texts or None in texts.values():
        raise programs.Missing(f"{source} hasn't the samples that isle lists")
    return texts.items()


def worked():
    """The list that is written by hand."""
    with open(f"{TOP}/tools/trials.isle", encoding="utf-8") as file:
        return file.read()


def lists(isle, count):
    """The lists that are tried: the name, the seed and the text of each."""
    for name, text in samples(isle):
        yield f"sample-{name}", 1, text
    yield "trials.isle", 1, worked()
    for seed in range(count):
        for name, option in (("list", []), ("mixed", ["--mixed"])):
            made = subprocess.run([f"{TOP}/tools/generated-list", *option, str(seed)], stdout=subprocess.PIPE, text=True, check=True)
            yield f"{name}-{seed}", seed, made.stdout


def tried(isle, calls, room, name, seed, text, fault=None):
    """Tries a list in a folder of its own."""
    folder = tempfile.mkdtemp(dir=room)
    with open(f"{folder}/list.isle", "w", encoding="utf-8") as file:
        file.write(text)
    trial = Trial(isle, folder, name, seed)
    trial.run(calls, fault)
    shutil.rmtree(folder)
    return trial


def try_all(isle, calls, asked):
    """Tries lists, as many at a time as there are processors. The trials, in the order of the lists."""
    trials = []
    with tempfile.TemporaryDirectory() as room, concurrent.futures.ProcessPoolExecutor() as pool:
        begun = [pool.submit(tried, isle, calls, room, *it) for it in asked]
        for it in begun:
            trials.append(it.result())
            if len(trials) % 50 == 0:
                print(f"trials.py: {len(trials)} of {len(begun)} lists, {sum(it.runs for it in trials)} runs, "
                      f"{sum(it.failed for it in trials)} differences", file=sys.stderr, flush=True)  # fmt: skip
    return trials


def try_faults(isle, calls):
    """Tries code with faults, and prints what is told of each. The status."""
    trials = try_all(isle, calls, [("trials.isle", 1, worked(), fault) for fault in FAULTS])
    for (what, *_), trial in zip(FAULTS, trials):
        first = "\n".join(trial.differences[:1]).splitlines()[:8]
        print("\n  ".join([f"{what}: {trial.failed} of {trial.runs} calls differ", *first]))
    told = sum(0 < trial.failed < trial.runs for trial in trials)
    print(f"{len(FAULTS)} cases, {told} passed")
    return 0 if told == len(FAULTS) else 1


def main():
    parser = argparse.ArgumentParser(prog="trials.py", description=__doc__, formatter_class=argparse.RawDescriptionHelpFormatter)
    parser.add_argument("--lists", metavar="N", type=int, default=200, help="so many generated lists, and as many mixed ones (200)")
    parser.add_argument("--calls", metavar="N", type=int, default=100, help="so many calls of each term (100)")
    parser.add_argument("--faults", action="store_true", help="plants faults, which have to be told")
    programs.add_options(parser)
    options = parser.parse_args()
    isle = programs.asked_for(options)
    if options.faults:
        return try_faults(isle, options.calls)
    trials = try_all(isle, options.calls, lists(isle, options.lists))
    told = [f"{trial.name}: {difference}" for trial in trials for difference in trial.differences]
    print("\n".join("\n".join(told).splitlines()[:60]), end="\n" if told else "")
    runs, failed, unrun = sum(it.runs for it in trials), sum(it.failed for it in trials), sum(not it.runs for it in trials if it.failed)
    terms, left_out = sum(it.terms for it in trials), sum(it.left_out for it in trials)
    refused, named = sum(it.is_refused for it in trials), sum(it.name.startswith("sample-") for it in trials)
    print(f"{runs} runs of {terms} terms, of {named} samples, a worked list and {2 * options.lists} generated ones, {refused} of which are "
          f"refused; {left_out} terms left out; {failed} differences")  # fmt: skip
    print(f"{runs + unrun} cases, {runs + unrun - failed} passed")
    return 1 if failed else 0


if __name__ == "__main__":
    try:
        sys.exit(main())
    except (OSError, programs.Missing, subprocess.CalledProcessError) as error:
        print(f"trials.py: {error}", file=sys.stderr)
        sys.exit(70)
