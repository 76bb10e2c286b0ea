"""Sends one telegram after another to one running `etcs`: `python3 coprocess.py PROGRAM < telegrams.hex`."""

import subprocess
import sys


class Codec:
    """A running `etcs convert`: an item in, its line of JSON out. After a refusal it is started again."""

    def __init__(self, program, kind):
        self.words = [program, "convert", "--kind", kind, "--to", "json"]
        self.process = None

    def ask(self, item):
        """Returns the JSON of an item's bytes and None, or None and the line with the refused bit."""
        if self.process is None:
            pipe = subprocess.PIPE
            self.process = subprocess.Popen(self.words, stdin=pipe, stdout=pipe, stderr=pipe, text=True)
        self.process.stdin.write(item.hex() + "\n")
        self.process.stdin.flush()
        answer = self.process.stdout.readline()
        if answer:
            return answer.rstrip("\n"), None
        _, fault = self.process.communicate()
        self.process = None
        return None, fault.rstrip("\n")


codec = Codec(sys.argv[1], "short")
for line in sys.stdin:
    item = bytes.fromhex(line)
    # etcs would wait for the rest of a shorter telegram
    print(codec.ask(item) if len(item) == 27 else (None, f"{len(item)} bytes"))
