#!/usr/bin/env python3
"""Opens files with many errors, and looks at which of them the server shows."""

import argparse
import sys
import tempfile
from pathlib import Path

from client import Client

# How many errors of a file are shown.
MOST = 100


def main():
    parser = argparse.ArgumentParser(prog='errors.py', description=__doc__)
    parser.add_argument('program', metavar='PROGRAM', help='the program isle')
    program = parser.parse_args().program
    counts = {'a.isle': 3 * MOST, 'b.isle': 3, 'c.isle': MOST, 'd.isle': MOST + 1}
    with tempfile.TemporaryDirectory() as folder:
        for name, count in counts.items():
            rules = ''.join(f'(rule (f {number}) {name[0]}{number})\n' for number in range(count))
            (Path(folder) / name).write_text(rules)
        (Path(folder) / 'types.isle').write_text('(decl f (u32) u32)\n')
        (Path(folder) / 'isle.files').write_text('\n'.join(['types.isle', *counts]) + '\n')
        client = Client(program, folder)
        uris = {name: client.open(Path(folder) / name) for name in counts}
        client.answer('textDocument/foldingRange', {'textDocument': {'uri': uris['d.isle']}})
        wrong = 0
        for name, uri in uris.items():
            messages = [one['message'] for one in client.shown[uri]]
            rest = counts[name] - len(messages)
            told = [number for number, message in enumerate(messages) if 'of this file' in message]
            wanted = [len(messages) - 1] if rest else []
            is_right = len(messages) == min(MOST, counts[name]) and told == wanted
            if rest and not any(f'{rest} more error' in message for message in messages[-1:]):
                is_right = False
            if not is_right:
                wrong += 1
                print(f'FAIL {name}: {len(messages)} errors, and {told} say that there are more: {messages[-1:]}')
        wrong += client.end() != 0
    print(f'{len(counts)} files of {sum(counts.values())} errors, {wrong} wrong')
    sys.exit(1 if wrong else 0)


if __name__ == '__main__':
    main()
