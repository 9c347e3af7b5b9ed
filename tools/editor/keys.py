#!/usr/bin/env python3
"""Types a rule key by key at the end of a file of five definitions, and asks the server in each state.

In each state outline, hover and definition of the five have to live. One of them has a type error, which has to be shown in each
state in which the typed rule can't be read or is right.
"""

import argparse
import sys
import tempfile
from pathlib import Path

from client import Client

# The third definition has a type error: no term is called `Inst.Cpoy`.
FIVE = '''(type Operand (enum (Register (number u8)) (Constant (value u16))))
(type Inst (enum (Copy (a Operand)) (Add (a Operand) (b Operand))))
(decl add (Operand Operand) Inst)
(rule zero 2 (add a (Operand.Constant 0)) (Inst.Cpoy a))
(rule both 0 (add left right) (Inst.Add left right))
'''

# 68 keys.
TYPED = '(rule one 1 (add (Operand.Constant 1) b) (Inst.Add b (Inst.Copy b)))'

NAMES = ['Operand', 'Inst', 'add', 'zero', 'both']


def states():
    for count in range(1, len(TYPED) + 1):
        yield TYPED[:count]


def main():
    parser = argparse.ArgumentParser(prog='keys.py', description=__doc__)
    parser.add_argument('program', metavar='PROGRAM', help='the program isle')
    program = parser.parse_args().program
    with tempfile.TemporaryDirectory() as folder:
        path = Path(folder) / 'rules.isle'
        path.write_text(FIVE)
        client = Client(program, folder)
        uri = client.open(path)
        alive = errors = 0
        for typed in states():
            client.change(uri, [{'text': FIVE + typed}])
            document = {'textDocument': {'uri': uri}}
            outline = [entry['name'] for entry in client.answer('textDocument/documentSymbol', document)]
            hovered = client.at('textDocument/hover', uri, 4, 12)
            found = client.at('textDocument/definition', uri, 4, 15)
            is_alive = (
                outline[:5] == NAMES
                and hovered is not None and 'demands of (add' in hovered['contents']['value']
                and [place['range']['start']['line'] for place in found] == [2]
            )
            alive += is_alive
            messages = [one['message'] for one in client.shown[uri] if one['range']['start']['line'] == 3]
            errors += any('Inst.Cpoy' in message for message in messages)
            if not is_alive:
                print(f'FAIL behind {typed!r}: {outline} {hovered} {found}')
        status = client.end()
    print(f'{len(TYPED)} states: the five live in {alive}, the type error is shown in {errors}, the server ends with {status}')
    sys.exit(0 if (alive, status) == (len(TYPED), 0) and errors >= 60 else 1)


if __name__ == '__main__':
    main()
