"""How long a service of 2,000 objects takes from a change to what is told: `python3 bench/edit/pace.py [OBJECTS]`.

Scenes of 500 have boxes, and for each third one a link that a key makes move it. The time is that of a change of one digit, measured from the
last byte of the message to the last byte of what is told, twenty times; the middle of them is printed, with the longest.
"""
import json
import os
import subprocess
import sys
import tempfile
import time

from cases import APPLICATION, place_of
from talk import PROGRAM, Editor

IN_SCENE = 500
BOX = "        {{:Rectangle {0} :OrigBoxSize 24 32 :OrigRefFillColour '=FF=00=00=00'}}\n"
LINK = "        {{:Link {0} :EventSource 0 :EventType UserInput :EventData 100 :LinkEffect ( :SetPosition ({1} 24 {2}) )}}\n"


def scene(name):
    lines = []
    for number in range(1, IN_SCENE + 1):
        box = number - 1 if number % 4 == 0 else number
        lines.append(LINK.format(number, box, number % 500) if number % 4 == 0 else BOX.format(number))
    return f'{{:Scene ("~/{name}" 0)\n    :InputEventReg 3\n    :Items (\n' + "".join(lines) + "    )\n}\n"


class Talk:
    def __init__(self, folder):
        self.editor = Editor(folder)
        self.run = subprocess.Popen([PROGRAM], stdin=subprocess.PIPE, stdout=subprocess.PIPE)

    def send(self):
        data, self.editor.sent = b"".join(self.editor.sent), []
        self.run.stdin.write(data)
        self.run.stdin.flush()

    def message(self):
        length = 0
        while (line := self.run.stdout.readline()) != b"\r\n":
            length = int(line.split(b":")[1])
        return json.loads(self.run.stdout.read(length))

    def told(self, name):
        """Waits for what is found of a file."""
        while True:
            message = self.message()
            if message.get("params", {}).get("uri") == self.editor.uri(name):
                return message["params"]["diagnostics"]


def main(count=2000):
    names = ["s"] + [f"s{number}" for number in range(2, int(count) // IN_SCENE + 1)]
    files = {"a": APPLICATION, **{name: scene(name) for name in names}}
    text = files["s"]
    with tempfile.TemporaryDirectory() as folder:
        for name, written in files.items():
            with open(os.path.join(folder, name), "w") as file:
                file.write(written)
        talk = Talk(folder)
        talk.editor.open("s", text)
        talk.send()
        found = talk.told("s")
        line, character = place_of(text, "24 32")
        spans = []
        for turn in range(20):
            talk.editor.change("s", ((line, character), (line, character + 2), str(25 + turn)))
            began = time.monotonic()
            talk.send()
            talk.told("s")
            spans.append(time.monotonic() - began)
        talk.editor.end()
        talk.send()
        talk.run.wait()
    spans.sort()
    print(f"{count} objects in {len(names)} scenes, {sum(map(len, files.values()))} bytes, {len(found)} findings: {spans[10]:.3f} s, at most {spans[-1]:.3f} s")


if __name__ == "__main__":
    main(*sys.argv[1:])
