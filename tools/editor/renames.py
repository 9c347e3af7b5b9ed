#!/usr/bin/env python3
"""Renames things at random in the examples, and lowers each result.

Each rename is one of a name at a random place: of a variable, rule, term, type, variant, field or constant. The trees have to be those
of before but for the name. Sets with specs, but for the mid-end whose questions take long, have the same questions for solvers, but
for the name. One name in eight is one that the files have already: it has to be refused, or change nothing else either.
"""

import argparse
import random
import re
import subprocess
import sys
import tempfile
from collections import Counter
from pathlib import Path

from client import Client, edited

TOP = Path(__file__).resolve().parent.parent.parent
SETS = ['backend/*.isle', 'mid-end/*.isle', 'toy/rules/*.isle', 'widths/*.isle', 'add.isle']
WORD = re.compile(r'[^\s();@]+')


def output(program, task, names, folder):
    done = subprocess.run([program, task, *names], cwd=folder, capture_output=True, text=True, check=False)
    # where rules stand may change
    return done.returncode, re.sub(r'\S+\.isle:\d+(:\d+)?|"(column|offset)":\d+', '', done.stdout + done.stderr)


def alike(before, after, old, new):
    """Whether two outputs are the same but for a name. What only lays out text may differ with the name's length."""
    def words(text):
        return [re.sub(r'(?<!\w)(' + re.escape(old) + '|' + re.escape(new) + r')(?![\w$])', '@', word) for word in text.split()]
    return before[0] == after[0] and words(before[1]) == words(after[1])


class Set:
    """A folder of rule files, with the server that has them open."""

    def __init__(self, program, pattern, room):
        self.program = program
        self.folder = Path(room) / pattern.split('/')[0]
        self.folder.mkdir()
        self.names = []
        self.uris = {}
        for path in sorted((TOP / 'examples').glob(pattern)):
            (self.folder / path.name).write_text(path.read_text())
            self.names.append(path.name)
        (self.folder / 'isle.files').write_text('\n'.join(self.names) + '\n')
        self.client = Client(program, self.folder)
        for name in self.names:
            self.uris[self.client.open(self.folder / name)] = name
        self.texts = {uri: (self.folder / name).read_text() for uri, name in self.uris.items()}
        has_specs = any('(spec ' in text for text in self.texts.values())
        self.tasks = ['lower', 'conditions'] if has_specs and 'mid-end' not in pattern else ['lower']
        self.seen = self.outputs()

    def outputs(self):
        return [output(self.program, task, self.names, self.folder) for task in self.tasks]

    def place(self, rng):
        uri = rng.choice(list(self.texts))
        words = list(WORD.finditer(self.texts[uri]))
        begin = rng.choice(words).start()
        before = self.texts[uri][:begin]
        return uri, before.count('\n'), begin - before.rfind('\n') - 1

    def rename(self, rng, number):
        """What came of a rename at random: None where nothing can be renamed at the place."""
        uri, line, character = self.place(rng)
        where = {'textDocument': {'uri': uri}, 'position': {'line': line, 'character': character + 1}}
        found = self.client.ask('textDocument/prepareRename', where)
        if 'error' in found:
            return None
        old = found['result']['placeholder']
        words = WORD.findall(self.texts[uri])
        new = rng.choice(words) if number % 8 == 0 else f'zz{number}'
        answer = self.client.ask('textDocument/rename', {**where, 'newName': new})
        if 'error' in answer:
            why = answer['error']['message']
            return f'refused: {why}' if new in words or 'several types' in why else f'FAIL {why}'
        for changed, edits in answer['result']['changes'].items():
            self.texts[changed] = edited(self.texts[changed], edits)
            self.client.change(changed, [{'text': self.texts[changed]}])
            (self.folder / self.uris[changed]).write_text(self.texts[changed])
        outputs = self.outputs()
        new = new.removeprefix('$')
        same = all(alike(before, after, old, new) for before, after in zip(self.seen, outputs))
        self.seen = outputs
        return 'the same' if same else f'FAIL {old} to {new} at {self.uris[uri]}:{line + 1}:{character + 1}'


def main():
    parser = argparse.ArgumentParser(prog='renames.py', description=__doc__, formatter_class=argparse.RawDescriptionHelpFormatter)
    parser.add_argument('program', metavar='PROGRAM', help='the program isle')
    parser.add_argument('count', metavar='COUNT', type=int, nargs='?', default=500, help='how many renames (500)')
    parser.add_argument('seed', metavar='SEED', type=int, nargs='?', default=1, help='chooses them (1)')
    asked = parser.parse_args()
    rng = random.Random(asked.seed)
    told = Counter()
    with tempfile.TemporaryDirectory() as room:
        sets = [Set(asked.program, pattern, room) for pattern in SETS]
        number = 0
        while number < asked.count:
            came = rng.choice(sets).rename(rng, number)
            if came is not None:
                number += 1
                told[came] += 1
        ends = [one.client.end() for one in sets]
    for came, count in told.most_common():
        print(f'{count:5} {came}')
    fails = sum(count for came, count in told.items() if came.startswith('FAIL')) + sum(end != 0 for end in ends)
    print(f'{asked.count} renames, {fails} wrong')
    sys.exit(1 if fails else 0)


if __name__ == '__main__':
    main()
