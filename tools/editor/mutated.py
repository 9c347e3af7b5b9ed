#!/usr/bin/env python3
"""Sends messages that were changed at random to the server.

The messages are those of the recorded exchange (a row of crates/check_rows/stdin) without the ones that end the server. The server has to
go on, to answer a request that follows each message, to answer no id twice, and to end with the status 0 after shutdown and exit.
"""

import argparse
import json
import os
import queue
import random
import subprocess
import sys
import threading
import time

# For how many seconds an answer is awaited, and how many messages are sent before one is.
WAIT = 60
BATCH = 20

# A request that has an answer.
PING = (
    b'{"jsonrpc":"2.0","id":%d,"method":"textDocument/documentSymbol",'
    b'"params":{"textDocument":{"uri":"file:///x/types.isle"}}}'
)


def recorded():
    """The recorded messages, as texts."""
    top = os.path.dirname(os.path.dirname(os.path.dirname(os.path.realpath(__file__))))
    path = os.path.join(top, 'crates', 'check_rows', 'stdin')
    with open(path, encoding='utf-8', newline='\n') as file:
        row = file.read().split('\n# recorded exchange\n')[1].split('\n# ')[0]
    texts = [line[2:] for line in row.split('\n') if line.startswith('> ')]
    return [text for text in texts if '"shutdown"' not in text and '"exit"' not in text]


def framed(body, length=None):
    """A message with its head."""
    return b'Content-Length: %d\r\n\r\n' % (len(body) if length is None else length) + body


class Server:
    """The server, with what it has answered."""

    def __init__(self, program):
        self.process = subprocess.Popen([program, 'lsp'], stdin=subprocess.PIPE, stdout=subprocess.PIPE)
        self.answers = queue.Queue()
        self.seen = {}
        self.wrong = []
        threading.Thread(target=self.read, daemon=True).start()

    def read(self):
        out = self.process.stdout
        while True:
            head = out.readline()
            if not head:
                break
            if not head.startswith(b'Content-Length: '):
                self.wrong.append(f'no head: {head!r}')
                break
            length = int(head[16:])
            out.readline()
            message = json.loads(out.read(length))
            key = message.get('id')
            if 'method' not in message and key is not None:
                key = json.dumps(key)
                self.seen[key] = self.seen.get(key, 0) + 1
                if self.seen[key] > 1:
                    self.wrong.append(f'the id {key} is answered twice')
                if ('result' in message) == ('error' in message):
                    self.wrong.append(f'neither a result nor an error, or both: {message}')
                self.answers.put(key)
        self.answers.put(None)

    def send(self, data):
        try:
            self.process.stdin.write(data)
            self.process.stdin.flush()
        except BrokenPipeError:
            self.wrong.append('the server has ended')

    def answers_to(self, key):
        """Whether an id is answered in time."""
        end = time.monotonic() + WAIT
        while time.monotonic() < end:
            try:
                found = self.answers.get(timeout=max(0.01, end - time.monotonic()))
            except queue.Empty:
                return False
            if found is None:
                return False
            if found == key:
                return True
        return False


def changed(rng, body, others):
    """A message with some bytes changed."""
    data = bytearray(body)
    for _ in range(rng.randint(1, 4)):
        at = rng.randrange(len(data) + 1)
        end = min(len(data), at + rng.randint(1, 20))
        kind = rng.randrange(7)
        if kind == 0 and at < len(data):
            data[at] = rng.randrange(256)
        elif kind == 1:
            del data[at:end]
        elif kind == 2:
            data[at:at] = bytes(rng.randrange(256) for _ in range(rng.randint(1, 4)))
        elif kind == 3:
            data[at:at] = data[at:end]
        elif kind == 4:
            other = rng.choice(others)
            begin = rng.randrange(len(other))
            data[at:end] = other[begin:begin + rng.randint(1, 40)]
        elif kind == 5:
            data[at:at] = rng.choice([b'null', b'{}', b'[]', b'-1', b'99999999999999999999', b'"', b'\\ud835', b'1e9', b'()'])
        else:
            digits = [i for i, byte in enumerate(data) if 48 <= byte <= 57]
            if digits:
                data[rng.choice(digits)] = rng.randrange(48, 58)
    return bytes(data)


def with_id(rng, text):
    """A recorded message with an id of its own, if it has one."""
    message = json.loads(text)
    if isinstance(message, dict) and message.get('id') is not None:
        message['id'] = rng.randrange(10**11, 10**12)
    return json.dumps(message, ensure_ascii=rng.random() < 0.5).encode()


def message(rng, texts, others):
    """The bytes of a changed message, some of them with a wrong length or without a head."""
    sent = changed(rng, with_id(rng, rng.choice(texts)), others)
    if rng.random() < 0.03:
        return sent + b'\r\n'
    if rng.random() < 0.1:
        return framed(sent, max(0, len(sent) + rng.choice([-30, -3, -1, 1, 2, 40])))
    return framed(sent)


def main():
    parser = argparse.ArgumentParser(prog='mutated.py', description=__doc__)
    parser.add_argument('program', metavar='PROGRAM', help='the program isle')
    parser.add_argument('count', metavar='COUNT', type=int, help='how many messages')
    parser.add_argument('seed', metavar='SEED', type=int, nargs='?', default=1, help='chooses the messages (1)')
    asked = parser.parse_args()
    program, count, seed = asked.program, asked.count, asked.seed
    rng = random.Random(seed)
    texts = recorded()
    opening = [text for text in texts if 'didOpen' in text]
    others = [text.encode() for text in texts]
    server = Server(program)
    begin = next(text for text in texts if '"initialize"' in text)
    server.send(framed(begin.encode()))
    passed = failed = 0
    for first in range(0, count, BATCH):
        for text in opening:
            server.send(framed(text.encode()))
        batch = [message(rng, texts, others) for _ in range(first, min(first + BATCH, count))]
        for data in batch:
            server.send(data)
        # a wrong length may have swallowed the first of these
        for attempt in range(3):
            key = 10**15 + first * 10 + attempt
            server.send(b'\r\n' + framed(PING % key))
        answered = server.answers_to(json.dumps(key))
        if answered and not server.wrong and server.process.poll() is None:
            passed += len(batch)
            continue
        failed += len(batch)
        print(f'FAIL messages from {first} of seed {seed}: {server.wrong or "no answer"}: {batch!r}')
        server.wrong = []
        if server.process.poll() is not None:
            print(f'the server has ended with {server.process.returncode}')
            break
    server.send(framed(b'{"jsonrpc":"2.0","id":"end","method":"shutdown"}'))
    server.answers_to('"end"')
    server.send(framed(b'{"jsonrpc":"2.0","method":"exit"}'))
    server.process.stdin.close()
    status = server.process.wait(WAIT)
    if status == 0:
        passed += 1
    else:
        failed += 1
        print(f'FAIL the server ends with the status {status}')
    print(f'{passed + failed} cases, {passed} passed')
    sys.exit(1 if failed else 0)


if __name__ == '__main__':
    main()
