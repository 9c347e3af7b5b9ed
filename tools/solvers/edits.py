#!/usr/bin/env python3
"""Makes the edits of each file FOLDER/*.edit in rules and specs: some rule must be wrong then that isn't so without them.

Usage: edits.py [--seconds N] [--jobs N] FOLDER FILE.. An edit has lines `file:`, `old:` and `new:`, and `old` stands once in the file."""
import argparse
import os
import shutil
import sys
import tempfile

import mutants


def edits_in(path):
    """The edits of a file: (file, old, new)."""
    with open(path, encoding="utf-8") as lines:
        pairs = [line.rstrip("\n").partition(": ")[::2] for line in lines if line.strip() and not line.startswith("#")]
    file, old, edits = None, None, []
    for key, rest in pairs:
        if key == "file":
            file = rest
        elif key == "old":
            old = rest
        elif key == "new" and file and old:
            edits.append((file, old, rest))
            old = None
        else:
            sys.exit("%s has a line that isn't file, old or new: %s" % (path, key))
    if not edits or old:
        sys.exit("%s has no whole edit" % path)
    return edits


def mutated(path, files, room):
    """Copies of the files with the edits made."""
    copies = {}
    for number, file in enumerate(files):
        folder = os.path.join(room, str(number))
        os.mkdir(folder)
        copies[os.path.basename(file)] = shutil.copy(file, folder)
    for name, old, new in edits_in(path):
        with open(copies.get(name, os.devnull), encoding="utf-8") as file:
            text = file.read()
        if text.count(old) != 1:
            sys.exit("%s: %r doesn't stand once in %s" % (path, old, name))
        with open(copies[name], "w", encoding="utf-8") as file:
            file.write(text.replace(old, new))
    return list(copies.values())


def main(arguments):
    parser = argparse.ArgumentParser(prog="edits.py", description=__doc__, formatter_class=argparse.RawDescriptionHelpFormatter)
    parser.add_argument("--seconds", type=int, default=20, metavar="N", help="the time for each text (20)")
    parser.add_argument("--jobs", type=int, default=os.cpu_count() or 1, metavar="N", help="how many texts at a time (one a processor)")
    parser.add_argument("folder", metavar="FOLDER")
    parser.add_argument("files", nargs="+", metavar="FILE")
    options = parser.parse_args(arguments)
    names, found = sorted(name for name in os.listdir(options.folder) if name.endswith(".edit")), 0
    with tempfile.TemporaryDirectory() as answers:
        answers = os.path.join(answers, "answers")
        known = mutants.told(options.files, answers, options)[0]
        for name in names:
            with tempfile.TemporaryDirectory() as room:
                words = mutants.told(mutated(os.path.join(options.folder, name), options.files, room), answers, options)[0]
            new = [place for place in words if words[place].count("wrong") > known.get(place, []).count("wrong")]
            found += bool(new)
            print("%s: %s" % (name[:-len(".edit")], "found: wrong, " + new[0] if new else "not found"), flush=True)
    print("%d of %d mutants are found" % (found, len(names)))
    return 0 if names and found == len(names) else 1


if __name__ == "__main__":
    sys.exit(main(sys.argv[1:]))
