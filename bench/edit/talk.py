"""A conversation with redlsp: messages in their frames, sent at once, and what the program said to them."""
import json
import os
import subprocess

HERE = os.path.dirname(os.path.abspath(__file__))
PROGRAM = os.environ.get("REDLSP", os.path.join(HERE, "../../crates/redlsp/out/redlsp"))


def framed(message):
    """Returns a message, or bytes as they are, in a frame."""
    body = message if isinstance(message, bytes) else json.dumps(message).encode()
    return b"Content-Length: %d\r\n\r\n" % len(body) + body


def said(output):
    """Returns the messages in what a program wrote."""
    messages = []
    while output:
        head, _, rest = output.partition(b"\r\n\r\n")
        length = int(head.split(b":")[1])
        messages.append(json.loads(rest[:length]))
        output = rest[length:]
    return messages


def converse(data, folder):
    """Returns what the program says to these bytes, and its exit status."""
    run = subprocess.run([PROGRAM], input=data, cwd=folder, capture_output=True, timeout=60)
    return said(run.stdout), run.returncode


class Editor:
    """Collects what an editor says, with the numbers of its requests."""

    def __init__(self, folder, encodings=("utf-16",), begins=True):
        self.folder = folder
        self.sent = []
        self.number = 0
        if begins:
            self.ask("initialize", {"capabilities": {"general": {"positionEncodings": list(encodings)}}})
            self.tell("initialized", {})

    def uri(self, name):
        return f"file://{self.folder}/{name}"

    def ask(self, method, params):
        self.number += 1
        self.sent.append(framed({"jsonrpc": "2.0", "id": self.number, "method": method, "params": params}))
        return self.number

    def tell(self, method, params):
        self.sent.append(framed({"jsonrpc": "2.0", "method": method, "params": params}))

    def open(self, name, text):
        self.tell("textDocument/didOpen", {"textDocument": {"uri": self.uri(name), "languageId": "redplay", "version": 1, "text": text}})

    def change(self, name, *changes):
        """Each change is a text, or a start, an end and a text; a place is a line and a character."""
        listed = [{"text": c} if isinstance(c, str) else {"range": between(c[0], c[1]), "text": c[2]} for c in changes]
        self.tell("textDocument/didChange", {"textDocument": {"uri": self.uri(name), "version": 2}, "contentChanges": listed})

    def close(self, name):
        self.tell("textDocument/didClose", {"textDocument": {"uri": self.uri(name)}})

    def about(self, what, name, place=None, **more):
        """Asks something about a file, or about a place in it."""
        params = {"textDocument": {"uri": self.uri(name)}, **more}
        if place is not None:
            params["position"] = {"line": place[0], "character": place[1]}
        return self.ask(f"textDocument/{what}", params)

    def end(self):
        self.ask("shutdown", None)
        self.tell("exit", None)

    def play(self):
        """Returns the answers by their numbers, what was told unasked, and the exit status."""
        messages, status = converse(b"".join(self.sent), self.folder)
        answers = {m["id"]: m.get("result", m.get("error")) for m in messages if "id" in m}
        return answers, [m for m in messages if "method" in m], status


def between(start, end):
    return {"start": {"line": start[0], "character": start[1]}, "end": {"line": end[0], "character": end[1]}}


def diagnostics(notices, folder):
    """Returns what was told last of each file, by its name in the folder."""
    last = {}
    for notice in notices:
        if notice["method"] == "textDocument/publishDiagnostics":
            last[notice["params"]["uri"].removeprefix(f"file://{folder}/")] = notice["params"]["diagnostics"]
    return last
