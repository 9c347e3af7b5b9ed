#!/usr/bin/env python3
"""Tries try-smt on answers that are made up: fakes.py TRY-SMT. Small programs stand in for isle, z3 and cvc5: isle wants some texts
to be asked until a solver said `sat` or `unsat`, and then shows the file of records; a solver reads what it has to do from a comment
in the text. Status: 0 if all is as it must be, 1 if something isn't."""
import json
import os
import subprocess
import sys
import tempfile

# A solver that does what stands behind its name in each text: answers so, says something else, dies (`late` only behind another text), or
# hangs. It tells where a text ends.
SOLVER = """#!%(python)s
import os, re, signal, sys, time
open(%(room)r + "/started", "a").write("%(name)s\\n")
what, is_first = "unsat", True
for line in sys.stdin:
    found = re.match("; %(name)s ([^(\\n]*)", line)
    what = found.group(1) if found else what
    end = re.match('\\\\(echo "(.*)"\\\\)$', line)
    if end and what == "late":
        what = "unsat" if is_first else "die"
    if end and what in ("die", "fail"):
        print("unsat", flush=True)
        os.kill(os.getpid(), signal.SIGSEGV) if what == "die" else sys.exit(1)
    if end and what == "hang":
        time.sleep(60)
    if end:
        sys.stdout.write(what + "\\n" if what != "nothing" else "")
        print(end.group(1), flush=True)
    if line == "(reset)\\n":
        what, is_first = "unsat", False
"""

# Which texts lack an answer, and then the records, each line behind `told `.
ISLE = """#!%(python)s
import json, re, sys
words = sys.argv[1:]
path, asked = words[words.index("--answers") + 1], next(word for word in words if word.rpartition("/")[2].startswith("asked"))
if asked.rpartition(".")[2].isdigit():
    sys.exit(int(asked.rpartition(".")[2]))
records, text, behind = {}, "", False
for line in open(path, encoding="utf-8"):
    if line.startswith("> "):
        text = line if behind else text + line
    elif line.startswith("< "):
        records.setdefault(text, []).append(line[2:].strip())
    behind = not line.startswith("> ")
for text in json.load(open(asked, encoding="utf-8")):
    text = "".join("> %%s\\n" %% line for line in text.split("\\n"))
    if "--asked" in words or "--open" in words and not set(records.get(text, [])) & {"sat", "unsat"}:
        print(text)
for line in open(path, encoding="utf-8"):
    print("told " + line.rstrip("\\n"))
sys.exit(1 if "--deny" in words else 0)
"""


def text(what, number=0):
    """A text that says what each solver has to do."""
    pairs = what if isinstance(what, dict) else {"z3": what, "cvc5": what}
    return "; number %d\n" % number + "\n".join("; %s %s" % pair for pair in pairs.items())


# What is asked, with which words, and what each solver is noted to have written.
ROWS = [
    ("unsat", ["unsat"], [], ["= z3 20", "< unsat"]),
    ("sat", ["sat"], [], ["= z3 20", "< sat"]),
    ("dies", ["die"], [], ["= z3 20", "< nothing: it ended with the status -11", "= cvc5 20", "< nothing: it ended with the status -11"]),
    ("fails", ["fail"], [], ["= z3 20", "< nothing: it ended with the status 1", "= cvc5 20", "< nothing: it ended with the status 1"]),
    ("says nothing", ["nothing"], [], ["= z3 20", "= cvc5 20"]),
    ("nonsense", ["unsat unsat"], [], ["= z3 20", "< unsat unsat", "= cvc5 20", "< unsat unsat"]),
    ("doesn't know", ["unknown"], [], ["= z3 20", "< unknown", "= cvc5 20", "< unknown"]),
    ("hangs", [{"z3": "hang", "cvc5": "timeout"}], ["--seconds", "1"],
     ["= z3 1", "< timeout after 1 seconds", "= cvc5 1", "< timeout after 1 seconds"]),
    ("the second one knows", [{"z3": "unknown", "cvc5": "unsat"}], [], ["= z3 20", "< unknown", "= cvc5 20", "< unsat"]),
    ("the second one isn't asked", [{"z3": "unknown", "cvc5": "unsat"}], ["--solver", "z3"], ["= z3 20", "< unknown"]),
    ("both are asked", [{"z3": "sat", "cvc5": "unsat"}], ["--solver", "both", "--jobs", "1"], ["= z3 20", "< sat", "= cvc5 20", "< unsat"]),
    ("one text twice", ["unsat", "unsat"], [], ["= z3 20", "< unsat"]),
    ("dies behind another text, and is asked again", ["sat", "late"], ["--solver", "z3", "--jobs", "1"], ["= z3 20", "< sat", "= z3 20", "< unsat"]),
    ("dies behind another text, and alone", ["sat", "die"], ["--solver", "z3", "--jobs", "1"],
     ["= z3 20", "< sat", "= z3 20", "< nothing: it ended with the status -11"]),
    ("dies, and starts again", ["die", "sat"], ["--solver", "z3", "--jobs", "1"], ["= z3 20", "< nothing: it ended with the status -11", "= z3 20", "< sat"]),
]


def write(path, words, mode=0o644):
    with open(path, "w", encoding="utf-8") as file:
        file.write(words)
    os.chmod(path, mode)


def run(script, room, words, path=None):
    env = dict(os.environ, ISLE_PROGRAM=os.path.join(room, "isle"), PATH=path or room + os.pathsep + os.environ["PATH"])
    found = subprocess.run([sys.executable, script] + words, env=env, stdout=subprocess.PIPE, stderr=subprocess.STDOUT, timeout=120)
    return [line.removeprefix("told ") for line in found.stdout.decode("utf-8").splitlines()], found.returncode


def ask(script, room, texts, words):
    file = os.path.join(room, "asked")
    write(file, json.dumps(texts))
    return run(script, room, words + [file])


def main(script):
    failed = []

    def check(name, is_so, found):
        print("%s %s" % ("pass" if is_so else "FAIL", name), flush=True)
        if not is_so:
            failed.append(name)
            print("  " + repr(found))

    with tempfile.TemporaryDirectory() as room:
        write(os.path.join(room, "isle"), ISLE % {"python": sys.executable}, 0o755)
        for name in ("z3", "cvc5"):
            write(os.path.join(room, name), SOLVER % {"python": sys.executable, "name": name, "room": room}, 0o755)
        for name, texts, words, lines in ROWS:
            found = ask(script, room, [text(what) for what in texts], words)
            said = [line for line in found[0] if line[:2] in ("= ", "< ")]
            check(name, said == lines and found[1] == 0, found)
        kept = os.path.join(room, "answers")
        texts = [text("unsat"), text("unknown", 1)]
        first = ask(script, room, texts, ["--answers", kept])
        started = os.path.join(room, "started")
        os.remove(started)
        second = ask(script, room, texts, ["--answers", kept])
        check("a second run starts no solver", first == second and not os.path.exists(started), (first, second))
        third = ask(script, room, texts, ["--answers", kept, "--seconds", "30"])
        check("more time asks again what isn't known", "= z3 30" in third[0] and len(open(started).read().split()) == 2, third)
        with open(kept, "a", encoding="utf-8") as file:
            file.write("> cut")
        found = ask(script, room, texts + [text("sat", 2)], ["--answers", kept])
        check("a file that is cut off", found[1] == 0 and found[0].count("> ; number 2") == 1 and "> cut" in found[0], found)
        os.remove(started)
        again = ask(script, room, texts + [text("sat", 2)], ["--answers", kept])
        check("what is behind a text that was cut off is kept", again == found and not os.path.exists(started), again)
        for word in ("--deny", "--ci"):
            check("%s is isle's" % word, ask(script, room, texts, [word])[1] == 1, None)
        for status, wanted in ((1, 1), (2, 2), (3, 70), (70, 70)):
            found = run(script, room, [os.path.join(room, "asked.%d" % status)])
            check("isle ends with %d" % status, found[1] == wanted, found)
        check("no seconds", run(script, room, ["--seconds", "0", "a"])[1] == 2, None)
        os.remove(os.path.join(room, "cvc5"))
        empty = os.path.join(room, "empty")
        os.mkdir(empty)
        found = run(script, room, ["asked"], empty)
        check("no solver", found[1] == 70 and "apt-get install z3 cvc5" in found[0][0], found)
    print("%d failed" % len(failed))
    return 1 if failed else 0


if __name__ == "__main__":
    sys.exit(main(sys.argv[1]))
