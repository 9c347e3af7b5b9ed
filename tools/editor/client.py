"""A client of `isle lsp`, for the scripts of this folder."""

import json
import subprocess
from pathlib import Path


class Client:
    """The server, asked in turn: each request waits for its answer."""

    def __init__(self, program, folder, **more):
        self.process = subprocess.Popen([program, 'lsp'], stdin=subprocess.PIPE, stdout=subprocess.PIPE)
        self.last = 0
        self.shown = {}
        self.noted = []
        self.versions = {}
        self.answer('initialize', {'processId': None, 'rootUri': Path(folder).as_uri(), 'capabilities': {}, **more})
        self.tell('initialized', {})

    def send(self, message):
        body = json.dumps({'jsonrpc': '2.0', **message}).encode()
        self.process.stdin.write(b'Content-Length: %d\r\n\r\n' % len(body) + body)
        self.process.stdin.flush()

    def receive(self):
        head = self.process.stdout.readline()
        if not head.startswith(b'Content-Length: '):
            raise SystemExit(f'the server ended with {self.process.wait()}, or sent no head: {head!r}')
        self.process.stdout.readline()
        return json.loads(self.process.stdout.read(int(head[16:])))

    def tell(self, method, params):
        self.send({'method': method, 'params': params})

    def ask(self, method, params):
        """The whole answer to a request."""
        self.last += 1
        self.send({'id': self.last, 'method': method, 'params': params})
        while True:
            message = self.receive()
            if message.get('method') == 'textDocument/publishDiagnostics':
                self.shown[message['params']['uri']] = message['params']['diagnostics']
            elif 'method' in message:
                self.noted.append(message)
            elif message['id'] == self.last:
                return message

    def answer(self, method, params):
        """The result of a request that has one."""
        message = self.ask(method, params)
        if 'error' in message:
            raise SystemExit(f'{method} {params}: {message["error"]}')
        return message['result']

    def open(self, path, text=None):
        uri = Path(path).as_uri()
        self.versions[uri] = 1
        text = Path(path).read_text() if text is None else text
        self.tell('textDocument/didOpen', {'textDocument': {'uri': uri, 'languageId': 'isle', 'version': 1, 'text': text}})
        return uri

    def change(self, uri, changes):
        self.versions[uri] += 1
        document = {'uri': uri, 'version': self.versions[uri]}
        self.tell('textDocument/didChange', {'textDocument': document, 'contentChanges': changes})

    def at(self, method, uri, line, character, **more):
        """The result of a request about a place."""
        place = {'line': line, 'character': character}
        return self.answer(method, {'textDocument': {'uri': uri}, 'position': place, **more})

    def end(self):
        """The status that the server ends with."""
        self.answer('shutdown', None)
        self.tell('exit', None)
        self.process.stdin.close()
        return self.process.wait()


def edited(text, edits):
    """A text with the protocol's edits, of a text in which each character is one UTF-16 unit and lines end with a line feed."""
    lines = text.split('\n')
    begins = [0]
    for line in lines:
        begins.append(begins[-1] + len(line) + 1)

    def offset(place):
        return begins[place['line']] + place['character']

    for edit in sorted(edits, key=lambda edit: offset(edit['range']['start']), reverse=True):
        begin, end = offset(edit['range']['start']), offset(edit['range']['end'])
        text = text[:begin] + edit['newText'] + text[end:]
    return text
