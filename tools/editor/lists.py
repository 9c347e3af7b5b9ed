#!/usr/bin/env python3
"""Opens two folders, of which one has two lists of files over one prelude, and looks at what the server shows of each file.

A file of one list is checked in that list, and a file of both in both. A name of the prelude is renamed in all of them.
"""

import argparse
import sys
import tempfile
from pathlib import Path

from client import Client

FILES = {
    'two/isle.files': '[left]\nprelude.isle\nleft.isle\n[right]\nprelude.isle\nright.isle\n',
    'two/prelude.isle': '(type A (enum (B) (C)))\n(decl f (A) A)\n(decl g (A) A)\n(rule (g _) (f (A.B)))\n',
    'two/left.isle': '(rule (f (A.B)) (A.C))\n(rule (f (A.C)) (A.B))\n',
    'two/right.isle': '(decl h (A) A)\n(rule (h _) (A.D))\n',
    'one/alone.isle': '(type A (enum (Q)))\n(decl f (A) A)\n(rule (f x) y)\n',
}

# What each file shows: the sources and the first lines of its diagnostics. In the right list `f` has no rules.
WANTED = {
    'two/prelude.isle': [('isle, right', "no rules, extractor, or external definition for declaration 'f'")],
    'two/left.isle': [],
    'two/right.isle': [('isle, right', "Unknown term in expression: 'A.D'")],
    'one/alone.isle': [('isle', "Unknown variable 'y'")],
}

# How many times the name of the type of the prelude stands in each file.
RENAMED = {'two/prelude.isle': 6, 'two/left.isle': 4, 'two/right.isle': 3}


def main():
    parser = argparse.ArgumentParser(prog='lists.py', description=__doc__)
    parser.add_argument('program', metavar='PROGRAM', help='the program isle')
    program = parser.parse_args().program
    with tempfile.TemporaryDirectory() as room:
        for name, text in FILES.items():
            path = Path(room) / name
            path.parent.mkdir(exist_ok=True)
            path.write_text(text)
        folders = [{'uri': (Path(room) / name).as_uri(), 'name': name} for name in ('two', 'one')]
        client = Client(program, room, workspaceFolders=folders)
        uris = {name: client.open(Path(room) / name) for name in WANTED}
        client.answer('textDocument/foldingRange', {'textDocument': {'uri': uris['one/alone.isle']}})
        shown = {
            name: [(one['source'], one['message'].split('\n')[0]) for one in client.shown[uri]] for name, uri in uris.items()
        }
        place = {'textDocument': {'uri': uris['two/prelude.isle']}, 'position': {'line': 0, 'character': 6}}
        changes = client.answer('textDocument/rename', {**place, 'newName': 'Z'})['changes']
        renamed = {name: len(changes[uri]) for name, uri in uris.items() if uri in changes}
        status = client.end()
    if shown != WANTED:
        print(f'FAIL the server shows {shown}')
    if renamed != RENAMED:
        print(f'FAIL the rename changes {renamed}')
    is_right = (shown, renamed, status) == (WANTED, RENAMED, 0)
    print(f'two folders, three lists: {"right" if is_right else "wrong"}')
    sys.exit(0 if is_right else 1)


if __name__ == '__main__':
    main()
