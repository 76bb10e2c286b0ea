#!/usr/bin/env python3
"""Tries the script `etcs`, without a proof or a build.

    tests/script_test.py PROGRAM

PROGRAM is the built `etcs`. In a folder whose name has a blank, with the script, bindings/install, a file in each crate and
stand-ins for `rt`, tools/build.py, tools/unproved.py, tests/test.py, bindings/build and bindings/unproved_library.py, it checks
which words are answered without the program and that they are answered as by PROGRAM, which sources make a built program old,
both ways of a trial build, what is said at a terminal, and how `build`, `install`, `uninstall` and `test` end, well and badly:
with a full disk, odd names of folders, forged sums, and variables that others set. If PROGRAM is unproved, a copy that doesn't say
so is the stand-in for the proved one. The gate doesn't run it: run it when the script, bindings/install, bindings/build, crates.txt
or a text of the program changes. The status is 1 if something isn't as it should be.
"""

import fcntl
import glob
import hashlib
import os
import pty
import re
import resource
import shutil
import signal
import subprocess
import sys
import tempfile
import time
import zipfile
from concurrent.futures import ThreadPoolExecutor
from contextlib import suppress

TOP = os.path.dirname(os.path.dirname(os.path.realpath(__file__)))
sys.dont_write_bytecode = True
sys.path.append(f"{TOP}/tools")
import unproved

LIMIT = 100  # seconds for a call, on a machine that is shared
SOURCES, BUILT, CHANGED = 1_000_000_000, 1_000_000_100, 1_000_000_200
OUT, MARK, UNPROVED = "crates/etcs/out/etcs", "crates/etcs/out/building", "crates/etcs/out/unproved/etcs"
# What the script and bindings/install call, except python3.
TOOLS = (
    "awk cat cp cut date dirname find flock git grep head install kill ln ls mkdir mktemp mv readlink rm rmdir sed sh sha256sum sleep sort tail"
    " touch tr wc xargs"
).split()
RT = """#!/bin/sh
case $3 in explain) echo '<footer>etcs 1.2.3 proved</footer>' ;; *) echo tried ;; esac
printf 'checked: ended status=0\\nrun=ended status=0 runners=1 proved=no\\n' >&2
"""
# What the stand-ins begin with: a line of their words in the file `calls`, and the folder as $top or TOP.
SHELL = """#!/bin/sh
top=${0%/*/*}
echo "${0##*/} $*" >> "$top/calls"
"""
PYTHON = """import os, shutil, sys, time
TOP = os.path.dirname(os.path.dirname(os.path.realpath(__file__)))
print(os.path.basename(__file__), *sys.argv[1:], file=open(TOP + "/calls", "a"))
def make(path):
    os.makedirs(os.path.dirname(f"{TOP}/{path}"), exist_ok=True)
    shutil.copy(f"{TOP}/program", f"{TOP}/{path}")
def make_library(folder):
    os.makedirs(f"{TOP}/{folder}", exist_ok=True)
    for name in ("libetcs.a", "libetcs.so.1"):
        open(f"{TOP}/{folder}/{name}", "wb").write(b"\\0 unproved\\0")
if "--check" in sys.argv:
    sys.exit(not os.path.exists(TOP + "/same"))
"""
MAKES = f"make({OUT!r})\n"
# It also ends with the test's folder, if a test is ended.
WAITS = "open(TOP + '/pid', 'w').write(str(os.getpid()))\n" + MAKES
WAITS += "while os.path.exists(TOP + '/pid') and not os.path.exists(TOP + '/go'): time.sleep(0.02)\n"
# A tool that finds no room at its call number $2, and otherwise does what it should: $1 is its path.
NO_ROOM = """#!/bin/sh
echo >> "$0.calls"
if [ $(wc -l < "$0.calls") -eq {} ]; then echo "${{0##*/}}: No space left on device" >&2; exit 1; fi
exec {} "$@"
"""
# A tool that kills what calls it at its call number $2.
KILLS = """#!/bin/sh
echo >> "$0.calls"
if [ $(wc -l < "$0.calls") -eq {} ]; then kill -9 $PPID; exit 1; fi
exec {} "$@"
"""
# What bindings/build calls: the first makes the file that it names, the second the one after -o.
AR = """#!/bin/sh
case $1 in rcsD) echo library > "$2" ;; esac
"""
CC = """#!/bin/sh
while [ "$1" != -o ]; do shift; done
echo library > "$2"
"""
LIBRARY = 'mkdir -p "$top/bindings/out"; touch "$top/bindings/out/libetcs.a" "$top/bindings/out/libetcs.so.1"\n'
# What the script does itself.
OWN = ("build", "install", "uninstall", "test")
COMMANDS = ("show", "check", "convert", "group", "log", "explain")
SHORT = b"A0007F802000FFFFFFFFFFFFFFFFFFFFFFFFFFFFFFFFFFFFFFFFC0\n"
CHECK = ["check", "--kind", "short"]
# Words that are wrong at the first word, or at the one after `help`.
WRONG = (
    ["shwo"], ["sho", "--kind", "short"], ["h"], ["c"], ["ex"], ["logs", "-h"], ["Show"], ["SHOW"], ["converts"], ["short"], ["42"],
    [""], ["", "show"], ["show "], [" check"], ["a b", "c"], ["it's"], ['"log"'], ["gro\\up"], ["\\"], ["%s"], ["100%"], ["a\nb"], ["$x"],
    ["`log`"], ["*"], ["show, etcs show"], ["help show"], ["-"], ["-x"], ["-xh"], ["-v", "show"], ["--kind", "short"], ["--kind=short"],
    ["--a b"], ["--\\n", "%d"], ["help", "shwo"], ["help", ""], ["help", "-x"], ["help", "--help"], ["help", "shwo", "show"], ["biuld"],
    ["A" * 10_000], ["show" * 17], ["show" + "w" * 66], ["show" + "w" * 67], ["convert" + "x" * 60],
)  # fmt: skip
# Words after `install` that name no folder.
NO_FOLDER = ([], [""], ["-x"], ["--prefix"], ["--prefix", "-x"], ["--prefix", ""], ["a", "b"], ["--prefix=a", "b"])
# Words that only the program answers.
LEFT = (
    ["show"], CHECK, ["help", "show", "x"], ["help", "help", "x"], ["é"], ["shwo", "é"], ["--hlep"], ["--kind", "short", "show"],
    ["--", "show"], ["--"], ["-1"], ["--help", "x"], ["-Vx"], [b"\xff"],
)  # fmt: skip


def heed_signals():
    """Makes a command end by signals that this process may ignore, as in the background or under nohup."""
    for it in (signal.SIGINT, signal.SIGHUP, signal.SIGTERM):
        signal.signal(it, signal.SIG_DFL)


class Room:
    """A folder with the script, and what the script was found to do wrong."""

    def __init__(self, folder, program):
        self.folder, self.program, self.faults = folder, f"{folder}/program", []
        for name in ("crates.txt", "docs", "bindings", "examples", "share", "tools/similar.awk"):
            if os.path.isdir(f"{TOP}/{name}"):
                shutil.copytree(f"{TOP}/{name}", f"{folder}/{name}", ignore=shutil.ignore_patterns("out"))
            else:
                self.copy(f"{TOP}/{name}", f"{folder}/{name}")
        with open(program, "rb") as file:
            self.write("program", file.read().replace(b" unproved (", b"-in.proof (", 1))
        for line in open(f"{TOP}/crates.txt", encoding="utf-8"):
            if ":" in line and not line.startswith("#"):
                self.touch(f"crates/{line.split(':')[0].split()[0]}/src/lib.rt", SOURCES)
        # on a machine with the kit, no rt is to be found
        script = open(f"{TOP}/etcs", encoding="utf-8").read().replace("/opt/rattle/bin", "/nowhere")
        self.write("etcs", script)
        for name in TOOLS:
            os.makedirs(f"{folder}/path", exist_ok=True)
            os.symlink(shutil.which(name), f"{folder}/path/{name}")
        for name in ("rt", "cc", "objcopy", "ar", "ld"):
            self.write(f"bin/{name}", RT)
        self.write("python/python3", f'#!/bin/sh\nexec "{sys.executable}" "$@"\n')
        self.write("tools/build.py", PYTHON + MAKES)
        self.write("tools/unproved.py", PYTHON + f"make({UNPROVED!r})\n")
        self.write("tests/test.py", PYTHON + "sys.exit(len(sys.argv))\n")
        self.write("bindings/build", SHELL + LIBRARY)
        self.write("bindings/unproved_library.py", PYTHON + "make_library('bindings/out/unproved')\n")

    @staticmethod
    def copy(source, to):
        os.makedirs(os.path.dirname(to), exist_ok=True)
        shutil.copy(source, to)

    def write(self, path, text):
        """Writes a program."""
        os.makedirs(os.path.dirname(f"{self.folder}/{path}"), exist_ok=True)
        with open(f"{self.folder}/{path}", "wb") as file:
            file.write(text if isinstance(text, bytes) else text.encode())
        os.chmod(f"{self.folder}/{path}", 0o755)

    def touch(self, path, at):
        """Makes a file, and dates it and its folder."""
        path = f"{self.folder}/{path}"
        os.makedirs(os.path.dirname(path), exist_ok=True)
        open(path, "a", encoding="ascii").close()
        os.utime(path, (at, at))
        os.utime(os.path.dirname(path), (at, at))

    def build(self):
        """Makes the program newer than all sources."""
        self.copy(self.program, f"{self.folder}/{OUT}")
        os.utime(f"{self.folder}/{OUT}", (BUILT, BUILT))

    def is_there(self, path):
        return os.path.lexists(f"{self.folder}/{path}")

    def calls(self):
        """Returns which stand-ins were called since the last time, except for a mere look."""
        path = f"{self.folder}/calls"
        lines = [it.split() for it in open(path, encoding="utf-8")] if os.path.exists(path) else []
        open(path, "w", encoding="utf-8").close()
        return [it[0] for it in lines if it[-1] != "--check"]

    def start(self, words, given=subprocess.DEVNULL, tools=("bin", "python", "path"), env=(), script="etcs", **how):
        """Starts the script with these folders on the path."""
        path = ":".join(f"{self.folder}/{it}" for it in tools)
        how = {"stdin": given, "stdout": subprocess.PIPE, "stderr": subprocess.PIPE, "cwd": self.folder, **how}
        words = [script if script.startswith(".") else f"{self.folder}/{script}", *words]
        return subprocess.Popen(words, env={"PATH": path, **dict(env)}, preexec_fn=heed_signals, **how)

    def run(self, words, given=b"", **how):
        """Returns the status, the output and the faults of the script."""
        started = self.start(words, subprocess.PIPE, **how)
        return (started.communicate(given, timeout=LIMIT), started.returncode)[::-1]

    def answer(self, words, given=b"", **how):
        status, (output, faults) = self.run(words, given, **how)
        return status, output, faults

    def answer_of_program(self, words, given=b""):
        done = subprocess.run([self.program, *words], input=given, capture_output=True)
        return done.returncode, done.stdout, done.stderr

    def check(self, holds, what):
        if not holds:
            self.faults.append(what)

    def check_end(self, words, status, line, **how):
        """Checks that the script ends with this status, no output and this line."""
        answer = self.answer(words, **how)
        lines = answer[2].decode().splitlines() or [""]
        self.check(answer[:2] == (status, b"") and lines[-1] == f"etcs: {line}", f"{words}: {answer[0]} {answer[2].decode()}")


def without_own(text, script):
    """Returns a text without the lines that the script adds to the program's help; nothing if they aren't there."""
    text, *own = text.decode().rsplit("\n\n", 1)
    names = [it.removeprefix(f"{script} ").split()[0] for it in own[0].splitlines()] if own else []
    return f"{text}\n".encode() if names == [*OWN] else b""


def check_help(room):
    """Words that ask for help, the version or nothing are answered as by the program, with lines more where they ask for all commands."""
    version = open(f"{TOP}/share/help.txt", encoding="utf-8").read().split("== 0: etcs --version, etcs -V\n")[1].split("\n")[0]
    for words in (["-V"], ["--version"]):
        answer = room.answer(words, tools=["path"])
        room.check(answer == (0, version.replace(" (", " unproved (").encode() + b"\n", b""), f"{words}: not built: {answer}")
    asked = [["help", "help"], ["help", "-h"]]
    for command in COMMANDS:
        asked += [[command, "-h"], [command, "--help"], ["help", command]]
    for is_built in (False, True):
        for words in asked:
            answer = room.answer(words, tools=["path"])
            room.check(answer == room.answer_of_program(words), f"{words}: not as the program")
        for words in ([], ["-h"], ["--help"], ["help"]):
            status, output, faults = room.answer(words, tools=["path"])
            answer = [status, *(without_own(it, f"{room.folder}/etcs") if it else it for it in (output, faults))]
            room.check(answer == [*room.answer_of_program(words)], f"{words}: not as the program")
        for word in OWN:
            for words in ([word, "-h"], [word, "--help"], ["help", word]):
                status, output, faults = room.answer(words, tools=["path"])
                usage = f"Usage: {room.folder}/etcs {word}".encode()
                room.check((status, faults) == (0, b"") and output.startswith(usage), f"{words}: no usage")
        room.build()
        asked += [["-V"], ["--version"]]


def check_words(room):
    """Words of which the first is wrong are answered as by the program, without it; what isn't sure is left to it."""
    for words in WRONG:
        answer = room.answer(words, tools=["path"])
        room.check(answer == room.answer_of_program(words), f"{words}: not as the program: {answer}")
    for words in LEFT:
        status, output, faults = room.answer(words, tools=["path"])
        room.check((status, output) == (71, b"") and b"trial build not possible: rt is" in faults, f"{words}: not left to the program")


def check_age(room):
    """A source of a crate that the program rests on makes it old, and nothing else does."""
    answer = (0, b"item 1 ok 210 bits\n", b"")
    room.write("tools/unproved.py", PYTHON + "sys.exit(70)\n")
    room.build()
    for path in ("crates.txt", "crates/etcs_vectors/src/main.rt", "crates/etcs_codec/src/lib.rt", "crates/mine/src/main.rt"):
        room.touch(path, CHANGED)
        room.check(room.answer(CHECK, SHORT) == answer, f"{path}: not the built program")
    for crate in ("etcs", "etcs_cli", "etcs_bits", "etcs_log", "etcs_json_trees"):
        for path in ("src/lib.rt", "specs/Lib.antt", "proofs/Deep/In/It.antt"):
            room.touch(f"crates/{crate}/{path}", CHANGED)
            room.check(room.answer(CHECK)[1] == b"tried\n", f"{crate}/{path}: still the built program")
            room.touch(f"crates/{crate}/{path}", SOURCES)
        for part in ("src", "specs", "proofs", "proofs/Deep"):
            os.utime(f"{room.folder}/crates/{crate}/{part}", (SOURCES, SOURCES))
        room.check(room.answer(CHECK, SHORT) == answer, f"{crate}: not the built program again")
    room.check(room.answer(["build"]) == (0, b"", b"etcs: built already: no source is newer\n"), "build of what is built")


def check_look(room):
    """A trial build builds the unproved program once, and again if a source is newer; it says so, and answers as the program does."""
    for words, given in ((CHECK, SHORT), (CHECK, b"A0"), (["show"], b""), (["--hlep"], b"")):
        status, output, faults = room.answer_of_program(words, given)
        for lines in (2, 1):
            answer = room.answer(words, given)
            said = answer[2].splitlines(keepends=True)
            room.check(answer[:2] == (status, output) and b"".join(said[lines:]) == faults, f"{words}: {answer}")
            announced = b"".join(said[:lines])
            room.check(b"unproved" in announced and b"build proves" in announced, f"{words}: not said: {said}")
            room.check(room.calls() == ["unproved.py"] * (lines - 1), f"{words}: built at the wrong time")
        room.check(not room.is_there(OUT), "the unproved program is taken for the proved one")
        room.touch("crates/etcs_cli/src/lib.rt", time.time() + 60)
        room.check(room.answer(words, given)[1] == output and room.calls() == ["unproved.py"], f"{words}: not built anew")
        room.touch("crates/etcs_cli/src/lib.rt", SOURCES)
        room.check(room.answer(words, given, tools=["path"])[1] == output, f"{words}: not run where there is no rt")
        os.remove(f"{room.folder}/{UNPROVED}")
        room.calls()


def check_same(room):
    """If a source is newer but the same, as tools/unproved.py finds, the unproved program is run at once, and later without asking it."""
    room.touch("crates/etcs/src/lib.rt", time.time() - 10)
    room.copy(room.program, f"{room.folder}/{UNPROVED}")
    os.utime(f"{room.folder}/{UNPROVED}", (1, 1))
    room.touch("same", BUILT)
    for tools in (("bin", "python", "path"), ("path",)):
        answer = room.answer(CHECK, SHORT, tools=tools)
        room.check(answer[:2] == (0, b"item 1 ok 210 bits\n") and answer[2].startswith(b"etcs: unproved: "), f"same sources: {answer}")


def check_try(room):
    """If no unproved program can be built, `rt try` answers; if the sources are refused nothing does."""
    tried = (0, b"tried\n")
    room.check(room.answer(CHECK, tools=("bin", "path"))[:2] == tried, "no python3: no trial build")
    room.write("tools/unproved.py", PYTHON + "sys.exit(70)\n")
    answer = room.answer(CHECK)
    room.check(answer[:2] == tried and b"rt tries" in answer[2], f"nothing unproved can be built: {answer}")
    page = room.answer(["explain", "--kind", "short", "--to", "html"])[1]
    room.check(page == b"<footer>etcs 1.2.3 unproved</footer>\n", f"the foot of a page that rt tries: {page}")
    room.write("tools/unproved.py", PYTHON + "sys.exit(1)\n")
    room.check_end(CHECK, 71, "trial build failed, see above")
    room.calls()
    room.write("tools/unproved.py", PYTHON + "time.sleep(60)\n")
    started = room.start(CHECK)
    wait_for(lambda: room.calls())
    started.send_signal(signal.SIGTERM)
    _, faults = started.communicate(timeout=LIMIT)
    room.check(started.returncode == 71 and faults.endswith(b"etcs: trial build: it was ended\n"), f"ended: {faults}")


def check_terminal(room):
    """At a terminal the words that wait for input say so, and no others; of an unproved program too."""
    for path in (OUT, UNPROVED):
        room.copy(room.program, f"{room.folder}/{path}")
        for words, waits in (
            (CHECK, True),
            (["log", "--kind", "radio", "--good"], True),
            (["check"], False),
            (["check", "--kind", "shrt"], False),
            (["show", "--help"], False),
            ([], False),
        ):
            master, slave = pty.openpty()
            started = room.start(words, slave)
            os.close(slave)
            os.write(master, b"\x04\x04")
            _, faults = started.communicate(timeout=LIMIT)
            os.close(master)
            room.check((b"which Ctrl-D ends" in faults) == waits, f"{words}: at a terminal\n{faults.decode()}")
        os.remove(f"{room.folder}/{path}")


def check_faults(room):
    """What stops `build`, `install`, `test` and a trial build has its line, before anything is announced."""
    where = '(README.md, "What it needs")'
    for words, done, status in (
        (["build"], "not built", 70),
        (["install", "to"], "not installed", 70),
        (["test"], "not tested", 70),
        (CHECK, "trial build not possible", 71),
    ):
        line = f"{done}: rt is neither on PATH nor at /nowhere {where}"
        answer = room.answer(words, tools=("python", "path"))
        room.check(answer == (status, b"", f"etcs: {line}\n".encode()), f"{words}: no rt: {answer}")
        if status == 70:
            room.check_end(words, 70, f"{done}: there is no python3 on PATH {where}", tools=("bin", "path"))
    for words, fault in (
        (["build", "now"], b"build takes no arguments"),
        *(([word, *words], f"{word} takes a folder".encode()) for word in ("install", "uninstall") for words in NO_FOLDER),
        (["uninstall", "--unproved", "a"], b"uninstall takes a folder"),
    ):
        for tools in (("bin", "python", "path"), ("path",)):
            status, output, faults = room.answer(words, tools=tools)
            lines = faults.split(b"\n")
            room.check((status, output, lines[0]) == (2, b"", b"etcs: " + fault) and b"Usage: " in lines[1], f"{words}: {faults}")
    room.check(room.answer(["test", "a b", "-c"])[0] == 4, "test: not the words and the status of tests/test.py")
    room.check(room.calls() == ["test.py"], "something was begun")


def wait_for(holds):
    """Waits until something holds, or the time limit is over."""
    end = time.monotonic() + LIMIT
    while not holds() and time.monotonic() < end:
        time.sleep(0.02)


def check_build(room):
    """A build ends with a whole program and says so, or leaves none."""
    status, _, faults = room.answer(["build"])
    said = faults.endswith(f"etcs: built: {room.folder}/{OUT}\n".encode())
    room.check(status == 0 and said and room.is_there(OUT) and not room.is_there(MARK), f"build: {faults}")
    continues = f"as the lines above say; what is proved is kept, and {room.folder}/etcs build continues there"
    half = f"open({OUT!r}, 'w').write('half'); os.chmod({OUT!r}, 0o755)\n"
    for text, fault in (
        (half + "sys.exit(1)\n", continues),
        (half + "open('/dev/full', 'w', 1).write('\\n')\n", continues),
        (MAKES + "time.sleep(0.1); open(f'{TOP}/crates/etcs_bits/src/lib.rt', 'w')\n", "a source changed meanwhile, so build again"),
    ):
        room.touch("crates/etcs/src/lib.rt", time.time() + 60)
        room.write("tools/build.py", PYTHON + text)
        room.touch("crates/etcs/src/lib.rt", SOURCES)
        os.utime(f"{room.folder}/{OUT}", (1, 1)) if room.is_there(OUT) else None
        room.check_end(["build"], 70, f"not built: {fault}")
        room.check(not room.is_there(OUT) and not room.is_there(MARK), f"a program is left where it is {fault}")
    room.write("tools/build.py", PYTHON + MAKES)
    room.touch("crates/etcs_bits/src/lib.rt", SOURCES)
    os.utime(f"{room.folder}/crates/etcs_bits/src", (SOURCES, SOURCES))
    room.check_end(["build"], 0, f"built: {room.folder}/{OUT}")


def check_ended(room):
    """A build that is ended, by a signal to it alone or by Ctrl-C, ends what it began and leaves no program; one that comes late isn't taken."""
    room.write("tools/build.py", PYTHON + WAITS)
    for number, send in ((signal.SIGTERM, os.kill), (signal.SIGHUP, os.kill), (signal.SIGINT, os.killpg)):
        started = room.start(["build"], start_new_session=True)
        wait_for(lambda: room.is_there(OUT))
        send(started.pid, number)
        _, faults = started.communicate(timeout=LIMIT)
        said = b"etcs: not built: it was ended; what is proved is kept" in faults and b"etcs: built" not in faults
        room.check(started.returncode == 70 and said, f"ended by {number}: {faults}")
        room.check(not room.is_there(OUT), f"ended by {number}: a program is left")
        with open(f"{room.folder}/pid", encoding="ascii") as file:
            room.check(not os.path.exists(f"/proc/{file.read()}"), f"ended by {number}: what it began continues")
        room.build()
        room.check(b"unproved" in room.answer(CHECK, SHORT)[2], f"ended by {number}: a program that a build left is taken for whole")
        os.remove(f"{room.folder}/{OUT}")


def check_two(room):
    """A second build waits for the first, and finds the work done."""
    room.write("tools/build.py", PYTHON + WAITS)
    first = room.start(["build"])
    wait_for(lambda: room.is_there(OUT))
    second = room.start(["build"])
    said = second.stderr.readline()
    room.check(said == b"etcs: waiting for another build in this folder to end\n", f"two builds: {said}")
    room.touch("go", CHANGED)
    ends = [it.communicate(timeout=LIMIT) and it.returncode for it in (first, second)]
    room.check(ends == [0, 0] and room.calls() == ["build.py"], "two builds: not one after the other")


def check_unwritable(room):
    """If a folder can't be written, that is said before anything begins."""
    os.makedirs(f"{room.folder}/crates/etcs/out")
    os.makedirs(f"{room.folder}/kept")
    os.chmod(room.folder, 0o755)
    room.write("python/python3", "#!/bin/sh\necho etcs-0-any.whl\n")
    how = {"user": 65534, "group": 65534, "extra_groups": []} if os.geteuid() == 0 else {}
    if not how:
        os.chmod(f"{room.folder}/crates/etcs/out", 0o555)
        os.chmod(f"{room.folder}/kept", 0o555)
    room.check_end(["build"], 70, f"not built: {room.folder}/crates/etcs/out can't be written", **how)
    room.check_end(["install", "kept"], 70, f"not installed: {room.folder}/kept can't be written", **how)
    room.check_end(["install", "--prefix", "kept/in/it"], 70, f"not installed: {room.folder}/kept can't be written", **how)
    os.chmod(f"{room.folder}/crates/etcs/out", 0o755)
    os.chmod(f"{room.folder}/kept", 0o755)


def files_of(folder):
    """Returns all files of a folder with their contents, links with where they lead."""
    found = {}
    for here, folders, names in os.walk(folder):
        for name in [*names, *(it for it in folders if os.path.islink(f"{here}/{it}"))]:
            path = f"{here}/{name}"
            found[os.path.relpath(path, folder)] = os.readlink(path) if os.path.islink(path) else open(path, "rb").read()
    return found


def sums_hold(folder, sums):
    """Returns whether the files are those of a list of sums."""
    done = subprocess.run(["sha256sum", "--check", "--quiet", "--strict", sums], cwd=folder, capture_output=True)
    return done.returncode == 0


def check_install(room):
    """An installation is whole, in a folder of its own or below a prefix, and names what it wrote."""
    wanted = {"bin/etcs", "lib/libetcs.a", "lib/libetcs.so", "lib/libetcs.so.1", "lib/pkgconfig/etcs.pc", "include/etcs.h"}
    wanted |= {"share/etcs/etcs.schema.json", "share/man/man1/etcs.1", "share/man/man1/etcs-log.1"}
    wanted |= {"share/bash-completion/completions/etcs", "share/zsh/site-functions/_etcs", "share/fish/vendor_completions.d/etcs.fish"}
    for words, where, sums, docs in (
        (["in to"], "in to", "SHA256SUMS", "docs"),
        (["--prefix", "usr/local"], "usr/local", "share/doc/etcs/SHA256SUMS", "share/doc/etcs/docs"),
        (["--prefix=usr/local"], "usr/local", "share/doc/etcs/SHA256SUMS", "share/doc/etcs/docs"),
    ):
        if where == "usr/local":
            room.write("usr/local/bin/other", "kept")
        status, output, faults = room.answer(["install", *words])
        found = files_of(f"{room.folder}/{where}")
        texts = {f"{docs}/{it}.md" for it in ("BINDINGS", "FORMAT", "SUPPORTED", "COOKBOOK")}
        room.check(status == 0 and not (wanted | texts) - found.keys(), f"install {words}: {status} {faults}")
        named = {os.path.relpath(it, f"{room.folder}/{where}") for it in output.decode().splitlines()}
        room.check(named == found.keys() - {"bin/other"}, f"install {words}: named {named ^ found.keys()}")
        room.check(sums_hold(f"{room.folder}/{where}", sums), f"install {words}: sums")
        room.check(found.get("bin/other", b"kept") == b"kept", f"install {words}: another's file")
        check_links(room, f"{room.folder}/{where}")
        calls = ["build.py", "build"] if where != "in to" else ["build.py", "build.py", "build"]
        room.check(room.calls() == calls, f"install {words}: built at the wrong time")


def check_links(room, folder):
    """Each link of an installed document to a file leads to one."""
    for here, _, names in os.walk(folder):
        for name in [it for it in names if it.endswith(".md")]:
            with open(f"{here}/{name}", encoding="utf-8") as file:
                links = re.findall(r"\]\(([^)#:]+)(?:#[^)]*)?\)", file.read())
            room.check(all(os.path.exists(f"{here}/{it}") for it in links), f"{here}/{name}: of the links {links} one is dead")


def check_unproved(room):
    """Nothing unproved is installed unless that is asked for; then it is built first, and all that has a version says so."""
    room.write("unproved", "#!/bin/sh\necho 'etcs 0 unproved (kit)'\n")
    room.build()
    room.answer(["install", "earlier"])
    for words, fault in (
        (["to", f"{room.folder}/unproved"], "unproved is unproved: --unproved installs it"),
        (["to"], "bindings/out/libetcs.a is unproved: --unproved installs what is"),
    ):
        status, output, faults = room.answer(words, script="bindings/install")
        room.check((status, output, faults) == (1, b"", f"bindings/install: {room.folder}/{fault}\n".encode()), f"bindings/install {words}: {faults}")
        room.check(not room.is_there("to"), f"bindings/install {words}: something is written")
        room.write("bindings/out/libetcs.a", " unproved\0")
    os.remove(f"{room.folder}/bindings/out/libetcs.a")
    answer = room.answer(["to", f"{room.folder}/unproved"], script="bindings/install")
    room.check(b"unproved is unproved" in answer[2], f"bindings/install without a library: {answer}")
    room.write("tools/unproved.py", PYTHON + f"make({UNPROVED!r})\nos.replace(TOP + '/unproved', TOP + '/{UNPROVED}')\n")
    room.calls()
    for words, where, whole in ((["--unproved", "to it"], "to it", ""), (["--prefix=usr", "--unproved"], "usr", "share/doc/etcs/")):
        room.write("unproved", "#!/bin/sh\necho 'etcs 0 unproved (kit)'\n")
        status, _, faults = room.answer(["install", *words])
        room.check(status == 0 and room.calls() == ["unproved.py", "unproved_library.py"], f"install {words}: {faults}")
        found = files_of(f"{room.folder}/{where}")
        wheels = [it for it in found if it.endswith(".whl") and "+unproved-" in it]
        lines = found.get(f"{whole}VERSION", b"").splitlines()
        room.check(len(wheels) == 1 and lines[0].endswith(b" unproved") and b" unproved (" in lines[1], f"install {words}: not marked: {lines}")
        room.check(b"an unproved build" in found.get("lib/pkgconfig/etcs.pc", b""), f"install {words}: pkg-config")
        room.check(sums_hold(f"{room.folder}/{where}", f"{whole}SHA256SUMS"), f"install {words}: sums")
    room.write("tools/unproved.py", PYTHON + f"make({UNPROVED!r})\n")
    room.write("bindings/unproved_library.py", PYTHON + "sys.exit(1)\n")
    room.check_end(["install", "--unproved", "other"], 70, "not installed: no library was built, as the lines above say")
    room.write("tools/unproved.py", PYTHON + "sys.exit(1)\n")
    room.check_end(["install", "--unproved", "other"], 70, "not installed: no program was built, as the lines above say")
    room.check(not room.is_there("other"), "install --unproved: a folder is left")


def check_marks(room):
    """Each version in the sources is one that tools/unproved.py marks; a file without one, or with two, isn't marked."""
    with open(f"{TOP}/bindings/python/pyproject.toml", encoding="utf-8") as file:
        version = re.search('^version = "(.*)"$', file.read(), re.M)[1]
    sources = {os.path.relpath(it, f"{TOP}/crates"): open(it, encoding="utf-8").read() for it in glob.glob(f"{TOP}/crates/*/src/**/*.rt", recursive=True)}
    having = {name for name, text in sources.items() if version in text}
    room.check(having == {*unproved.VERSIONS}, f"{version} is in {having}")
    for name, pattern in unproved.VERSIONS.items():
        text = sources[name]
        room.check(unproved.marked(text, pattern, name).count(version + unproved.MARK) == 1, f"{name}: no mark")
        for wrong in (text.replace(version, "none"), text + text):
            with suppress(unproved.NotBuilt):
                unproved.marked(wrong, pattern, name)
                room.check(False, f"{name}: marked without one version")


def check_usage(room):
    """The scripts for the library say how they are used, and refuse other words."""
    for name in ("build", "test"):
        room.copy(f"{TOP}/bindings/{name}", f"{room.folder}/bindings/{name}")
    for name, wrong in (("build", ["now"]), ("build", ["again", "x"]), ("test", ["-x"]), ("install", []), ("install", ["-x"]), ("install", ["--uninstall", "a", "b"])):
        for words, status in ((["--help"], 0), (["-h"], 0), (wrong, 2)):
            answer = room.answer(words, script=f"bindings/{name}")
            usage, other = (answer[1], answer[2]) if status == 0 else (answer[2].split(b"\n", 1)[-1], answer[1])
            room.check(answer[0] == status and usage.startswith(f"Usage: bindings/{name}".encode()) and not other, f"bindings/{name} {words}: {answer}")
    room.check(room.calls() == [], "bindings/build or test: something was begun")


def check_commit(room):
    """VERSION has the commit of this repository, and says whether files differ from it; that of no other one."""
    def git(*words, folder=room.folder):
        done = subprocess.run(["git", "-c", "user.name=x", "-c", "user.email=x", *words], cwd=folder, capture_output=True, text=True)
        return done.stdout.strip()

    def commits(inner, **env):
        count = len(os.listdir(outside))
        status, _, faults = inner.answer(["install", f"{outside}/{count}"], env=env)
        room.check(status == 0, f"install in a repository: {faults}")
        with open(f"{outside}/{count}/VERSION", encoding="utf-8") as version:
            return re.findall("^commit (.*)$", version.read(), re.M)

    room.write(".gitignore", "calls\nout/\nvendored/\nothers/\noutside/\n")
    outside = f"{room.folder}/outside"
    os.makedirs(outside)
    room.write("others/it", "")
    room.build()
    room.check(commits(room) == [], "a commit without a repository")
    for folder in (room.folder, f"{room.folder}/others"):
        git("init", "-q", folder=folder)
        git("add", ".", folder=folder)
        git("commit", "-q", "-m", "x", folder=folder)
    head = git("rev-parse", "HEAD")
    other = f"{room.folder}/others"
    room.check(commits(room) == [head], f"not the commit {head}")
    env = {"GIT_DIR": f"{other}/.git", "GIT_WORK_TREE": other, "GIT_INDEX_FILE": f"{other}/.git/index"}
    room.check(commits(room, **env) == [head], "the commit of GIT_DIR")
    room.answer(["install", "dist"])
    room.answer(["uninstall", "dist"])
    room.answer(["install", "dist"])
    with open(f"{room.folder}/dist/VERSION", encoding="utf-8") as version:
        room.check(f"commit {head}\n" in version.read(), "the folder itself makes it dirty")
    room.check(commits(room) == [f"{head}-dirty"], "a new file isn't said")
    room.answer(["uninstall", "dist"])
    room.write("crates.txt", open(f"{TOP}/crates.txt", encoding="utf-8").read() + "# changed\n")
    room.check(commits(room) == [f"{head}-dirty"], "a changed file isn't said")
    inner = Room(f"{room.folder}/vendored", room.program)
    inner.build()
    room.check(commits(inner) == [] == commits(inner, **env), "the commit of a repository around it")
    room.faults += inner.faults


def check_killed(room):
    """What an installation that was killed left is replaced or removed by the next one."""
    room.build()
    room.answer(["install", "--prefix", "used"])
    for tool, number in (("ln", 1), ("mv", 1), ("mv", 2), ("mv", 30)):
        for words in (["--prefix", "used"], ["--prefix", f"new {tool} {number}"]):
            room.write("used/lib/libetcs.a", "of an earlier version")
            old = hashlib.sha256(b"of an earlier version").hexdigest()
            path = f"{room.folder}/used/share/doc/etcs/SHA256SUMS"
            with open(path, encoding="ascii") as sums:
                text = re.sub(r".{64}(?=  \./lib/libetcs\.a\n)", old, sums.read())
            room.write("used/share/doc/etcs/SHA256SUMS", text)
            room.write(f"bin/{tool}", KILLS.format(number, shutil.which(tool)))
            room.check(room.answer(["install", *words])[0] == 70, f"install {words}: not killed at {tool} {number}")
            os.remove(f"{room.folder}/bin/{tool}")
            os.remove(f"{room.folder}/bin/{tool}.calls")
            left = [it for it in os.listdir(f"{room.folder}/{words[1]}") if it.startswith(".etcs-")]
            room.check(len(left) == 1, f"install {words}, killed at {tool} {number}: {left}")
            status, _, faults = room.answer(["install", *words])
            room.check(status == 0, f"install {words} after one that was killed at {tool} {number}: {faults}")
            left = [it for it in os.listdir(f"{room.folder}/{words[1]}") if it.startswith(".")]
            room.check(not left, f"install {words} after one that was killed at {tool} {number}: {left}")
            room.check(sums_hold(f"{room.folder}/{words[1]}", "share/doc/etcs/SHA256SUMS"), f"install {words}: sums")
    # folders of others, and of one that runs
    for name in (".etcs-others", ".etcs-abcdef"):
        room.write(f"used/{name}/it", "")
    os.makedirs(f"{room.folder}/used/.etcs-locked/.kept")
    lock = os.open(f"{room.folder}/used/.etcs-locked", os.O_RDONLY)
    fcntl.flock(lock, fcntl.LOCK_EX)
    room.answer(["install", "--prefix", "used"])
    left = sorted(it for it in os.listdir(f"{room.folder}/used") if it.startswith("."))
    room.check(left == [".etcs-abcdef", ".etcs-locked", ".etcs-others"], f"install: removed more than what is left: {left}")
    os.close(lock)


def check_uninstall(room):
    """What an installation wrote is removed, with folders that are empty then, and nothing that was changed since or that others wrote."""
    room.build()
    for words, sums in ((["to"], "SHA256SUMS"), (["--prefix", "usr"], "share/doc/etcs/SHA256SUMS")):
        where = words[-1]
        room.answer(["install", *words])
        named = {*files_of(f"{room.folder}/{where}")}
        status, output, faults = room.answer(["uninstall", *words], tools=["path"])
        room.check((status, faults) == (0, f"etcs: uninstalled: {where}\n".encode()), f"uninstall {words}: {faults}")
        room.check({os.path.relpath(it, f"{room.folder}/{where}") for it in output.decode().splitlines()} == named, f"uninstall {words}: {output}")
        left = sorted(os.listdir(f"{room.folder}/{where}")) if room.is_there(where) else []
        room.check(left == ([] if where == "to" else ["bin", "include", "lib", "share"]), f"uninstall {words}: left {left}")
        room.check(not any(names for _, _, names in os.walk(f"{room.folder}/{where}")), f"uninstall {words}: files are left")
        status, output, faults = room.answer(["uninstall", *words])
        said = f"bindings/install: no installation is there: {room.folder}/{where}/{sums} lists none"
        room.check((status, output, said in faults.decode()) == (70, b"", True), f"uninstall {words} again: {status} {faults}")
        room.answer(["install", *words])
        room.write(f"{where}/bin/other", "kept")
        room.write(f"{where}/include/etcs.h", "changed")
        os.remove(f"{room.folder}/{where}/lib/libetcs.a")
        status, output, faults = room.answer(["uninstall", *words])
        said = f"bindings/install: left, since it isn't what was installed: {room.folder}/{where}/include/etcs.h"
        room.check((status, faults.decode().splitlines()[0]) == (0, said), f"uninstall {words}: {faults}")
        found = files_of(f"{room.folder}/{where}")
        room.check(found == {"bin/other": b"kept", "include/etcs.h": b"changed"}, f"uninstall {words}: left {found.keys()}")


def check_piped(room):
    """If nothing reads the names that it writes, the installation is whole all the same, and says so."""
    read, write = os.pipe()
    os.close(read)
    started = room.start(["install", "dist"], stdout=write)
    os.close(write)
    _, faults = started.communicate(timeout=LIMIT)
    room.check(started.returncode == 0 and faults.endswith(b"etcs: installed: dist\n"), f"install without a reader: {faults}")
    found = files_of(f"{room.folder}/dist")
    room.check(sums_hold(f"{room.folder}/dist", "SHA256SUMS") and not [it for it in found if it.startswith(".")], "install without a reader")
    room.check(not [it for it in os.listdir(f"{room.folder}/dist") if it.startswith(".")], "install without a reader: a folder is left")


def check_replaced(room):
    """What an earlier installation below a prefix wrote is replaced, or removed if a new one doesn't have it; nothing else, whatever its
    sums say."""
    room.build()
    room.answer(["install", "--prefix", "to"])
    for path in ("earlier", "other", "changed", "a b", "a", "b", "*", ".hidden"):
        room.write(f"to/share/etcs/{path}", "")
    room.write("victim", "")
    room.write("out of it/victim", "")
    os.symlink("../out of it", f"{room.folder}/to/link")
    os.symlink("../out of it/victim", f"{room.folder}/to/linked")
    os.symlink("share/etcs", f"{room.folder}/to/inside")
    empty = hashlib.sha256(b"").hexdigest()
    forged = ["./../victim", "../victim", f"{room.folder}/victim", f"./{room.folder}/victim", "./link/victim", "./linked", "./share/../../victim"]
    forged += ["./share/etcs/a b", "./share/etcs/*", "./share/etcs/./other", "./share//etcs/other", "./share/etcs/", "./share", "share/etcs/other", "."]
    with open(f"{room.folder}/to/share/doc/etcs/SHA256SUMS", "a", encoding="ascii") as sums:
        sums.write(f"{empty}  ./share/etcs/earlier\n{empty}  ./share/etcs/.hidden\n{'0' * 64}  ./share/etcs/changed\n")
        sums.write("".join(f"{empty}  {it}\n{empty} *{it}\n\\{empty}  {it}\n" for it in forged) + "no sum\n\xff\n".encode("ascii", "ignore").decode())
    before = files_of(room.folder)
    status, _, faults = room.answer(["install", "--prefix", "to"])
    gone = {it for it in before if it not in files_of(room.folder)}
    room.check(status == 0 and gone == {"to/share/etcs/earlier", "to/share/etcs/.hidden"}, f"install again: gone are {gone}: {faults}")
    room.check(b"left, since it isn't what was installed" in faults, f"install again: nothing is said of what is left: {faults}")
    room.write("to/bin/etcs", "of the user's own")
    line = f"not installed: {room.folder}/to/bin/etcs is there, and no installation of this wrote it as it is"
    room.check_end(["install", "--prefix", "to"], 70, line)


def check_refused(room):
    """If something is in the way of an installation, it is named before anything is proved, and nothing is written."""
    room.write("full/in", "")
    other = "is there, and no installation of this wrote it as it is"
    room.write("taken/bin/etcs", "another's")
    room.write("linked/real", "")
    os.makedirs(f"{room.folder}/linked/lib")
    os.symlink("../real", f"{room.folder}/linked/lib/libetcs.a")
    os.makedirs(f"{room.folder}/folder/include/etcs.h")
    room.write("file/share", "")
    for words, fault in (
        (["full"], "full isn't empty: --prefix installs below a folder that holds other things"),
        (["crates.txt"], "crates.txt is no folder"),
        (["crates.txt/in"], "crates.txt is no folder"),
        (["--prefix", "crates.txt"], "crates.txt is no folder"),
        (["--prefix", "taken"], f"taken/bin/etcs {other}"),
        (["--prefix", "linked"], f"linked/lib/libetcs.a {other}"),
        (["--prefix", "folder"], f"folder/include/etcs.h {other}"),
        (["--prefix", "file"], "file/share is no folder"),
    ):
        before = files_of(room.folder)
        room.check_end(["install", *words], 70, f"not installed: {room.folder}/{fault}")
        room.check(files_of(room.folder) == before, f"install {words}: something is written")
    room.answer(["install", "--prefix", "own"])
    os.rename(f"{room.folder}/own/lib/libetcs.a", f"{room.folder}/own/real")
    os.symlink("../real", f"{room.folder}/own/lib/libetcs.a")
    room.check_end(["install", "--prefix", "own"], 70, f"not installed: {room.folder}/own/lib/libetcs.a {other}")
    room.write("bindings/build", SHELL + "exit 3\n")
    room.check_end(["install", "to"], 70, "not installed: no library was built, as the lines above say")
    room.check(not room.is_there("to"), "install: a folder is left")


def check_no_room(room):
    """If the disk is full at any point of an installation, nothing of it is left, and an earlier one is as it was."""
    room.build()
    room.answer(["install", "--prefix", "earlier"])
    room.write("earlier/lib/other", "kept")
    for tool, numbers in (("install", (9,)), ("sha256sum", (1,)), ("mkdir", (3, 40)), ("mv", (2, 40))):
        for words in (["in/to"], ["--prefix", "earlier"], ["--prefix", "other/prefix"]):
            if (tool, words[-1]) == ("sha256sum", "earlier"):
                continue  # there it is needed to see what is in the way
            for number in numbers:
                room.write(f"bin/{tool}", NO_ROOM.format(number, shutil.which(tool)))
                before = files_of(room.folder)
                room.check_end(["install", *words], 70, "not installed, as the lines above say")
                os.remove(f"{room.folder}/bin/{tool}")
                with suppress(FileNotFoundError):
                    os.remove(f"{room.folder}/bin/{tool}.calls")
                for other in ("calls", f"bin/{tool}", *(f"bindings/out/{it}" for it in ("libetcs.a", "libetcs.so.1"))):
                    before.pop(other, None)
                after = {path: text for path, text in files_of(room.folder).items() if path in before or not path.startswith(("calls", "bindings/out"))}
                room.check(after == before, f"install {words}: a full disk at {tool} {number}: {after.keys() ^ before.keys()}")
                left = [it for it in ("in", "other") if room.is_there(it)]
                room.check(not left, f"install {words}: a full disk at {tool} {number}: folders are left")
    # a real one, of the size of a file alone
    limit = lambda: (heed_signals(), resource.setrlimit(resource.RLIMIT_FSIZE, (100_000, 100_000)))
    done = subprocess.run([f"{room.folder}/bindings/install", "small"], cwd=room.folder, capture_output=True, preexec_fn=limit)
    said = done.stderr.endswith(b"bindings/install: nothing was installed, and all is as it was\n")
    room.check(done.returncode and said and not room.is_there("small"), f"install: a file too large: {done.stderr}")


def check_environment(room):
    """Variables that others set for themselves change nothing: CDPATH, CC with options, a library for Python, TMPDIR of another user."""
    room.build()
    room.write("modules/zipfile.py", "raise ImportError\n")
    env = {"CDPATH": ".:/", "CC": "cc -m64", "OBJCOPY": "objcopy --verbose", "ETCS_LIBRARY": "/bin/true", "ETCS_PROGRAM": "/bin/true"}
    status, _, faults = room.answer(["install", "dist"], env={**env, "PYTHONPATH": f"{room.folder}/modules"})
    wheels = glob.glob(f"{room.folder}/dist/python/*.whl")
    with zipfile.ZipFile(wheels[0]) as parts, open(f"{room.folder}/dist/lib/libetcs.so.1", "rb") as library:
        room.check(parts.read("etcs/libetcs.so.1") == library.read(), "install with ETCS_LIBRARY: another library in the wheel")
    room.check(status == 0 and room.is_there("dist/bin/etcs") and sums_hold(f"{room.folder}/dist", "SHA256SUMS"), f"install with CDPATH: {faults}")
    room.check_end(["install", "to"], 70, "not installed: there is no nowhere, with which the library is linked", env={"CC": "nowhere -m64"})
    os.remove(f"{room.folder}/{OUT}")
    os.chmod(room.folder, 0o755)
    os.makedirs(f"{room.folder}/others", 0o700)
    how = {"user": 65534, "group": 65534, "extra_groups": []} if os.geteuid() == 0 else {}
    for folder in ("others" if how else "missing", "missing", ""):
        answer = room.answer(CHECK, tools=("bin", "path"), env={"TMPDIR": folder and f"{room.folder}/{folder}"}, **how)
        room.check(answer[:2] == (0, b"tried\n"), f"TMPDIR {folder}: {answer}")


def check_library(room):
    """bindings/build finds its folder by any name, and leaves a whole library or none."""
    room.copy(f"{TOP}/bindings/build", f"{room.folder}/bindings/build")
    for name, text in (("rt", "#!/bin/sh\necho /kit/START\n"), ("ar", AR), ("cc", CC)):
        room.write(f"bin/{name}", text)
    wanted = {"bindings/out/libetcs.a", "bindings/out/libetcs.so", "bindings/out/libetcs.so.1"}
    for script in ("bindings/build", "./bindings/build", "./bindings/../bindings/build"):
        done = room.answer([], script=script, env={"CDPATH": ".", "CC": "cc -m64"})
        found = {it for it in files_of(room.folder) if it.startswith("bindings/out/")}
        room.check(done[0] == 0 and found == wanted, f"{script}: {found} {done}")
    for tool in ("ar", "cc", "objcopy"):
        kept = open(f"{room.folder}/bin/{tool}", encoding="utf-8").read()
        room.write(f"bin/{tool}", CC.replace("library", "half") + "exit 1\n" if tool == "cc" else "#!/bin/sh\nexit 1\n")
        done = room.answer([], script="./bindings/build")
        room.check(done[0] and not {it for it in files_of(room.folder) if it.startswith("bindings/out/")}, f"bindings/build, {tool}: a part is left")
        room.write(f"bin/{tool}", kept)


def check_names(room):
    """Folders may have a newline in their name, and at its end."""
    inner = Room(f"{room.folder}/one\ntwo\n", room.program)
    inner.build()
    inner.check(inner.answer(CHECK, SHORT) == (0, b"item 1 ok 210 bits\n", b""), "not run")
    for words, where in ((["to\n"], "to\n"), (["--prefix", "a\nb\n\n"], "a\nb\n\n"), (["a\nb\n\n/in\n"], "a\nb\n\n/in\n")):
        done = inner.answer(["install", *words])
        inner.check(done[0] == 0 and inner.is_there(f"{where}/bin/etcs"), f"install {words}: {done}")
    inner.write("odd/\n", "")
    inner.check(inner.answer(["install", "odd"])[0] == 70, "a folder with a file whose name is a newline is taken for empty")
    room.faults += [f"in a folder with a newline: {it}" for it in inner.faults]
    room.copy(room.program, f"{room.folder}/it's $HOME; `program`")
    words = [f"{TOP}/tools/doc_examples.py", "--check", f"{room.folder}/it's $HOME; `program`", "examples/README.md"]
    done = subprocess.run([sys.executable, *words], capture_output=True, timeout=LIMIT)
    room.check(done.returncode == 0, f"tools/doc_examples.py with a program of an odd name: {done.stdout} {done.stderr}")


def check_bench(room):
    """bench/ works in a folder of the user's own, and finds its sources with CDPATH."""
    room.write("bin/rt", "#!/bin/sh\necho no\nexit 1\n")
    for name in ("HANDLES", "bench/run", "bench/rows.rt.txt"):
        room.copy(f"{TOP}/{name}", f"{room.folder}/{name}")
    for env, folder in (({"HOME": "home"}, "home/.cache"), ({"HOME": "home", "XDG_CACHE_HOME": "cache"}, "cache"), ({"BENCH": "own/etcs_bench"}, "own")):
        env = {name: f"{room.folder}/{value}" for name, value in env.items()}
        answer = room.answer(["rows"], script="bench/run", env={**env, "CDPATH": "."})
        sources = f"{folder}/etcs_bench/crates/bench_rows/src/main.rt"
        room.check(answer == (1, b"", b"no\n") and room.is_there(sources), f"bench/run: not in {folder}: {answer}")
    words = ["-c", f"import sys; sys.path.insert(0, {TOP + '/bench'!r}); import measure; print(measure.FOLDER)"]
    env = {"HOME": f"{room.folder}/home", "PATH": os.environ["PATH"]}
    done = subprocess.run([sys.executable, "-B", *words], env=env, capture_output=True, timeout=LIMIT)
    room.check(done.stdout.decode() == f"{room.folder}/home/.cache/etcs_bench\n", f"bench/measure.py: {done.stdout} {done.stderr}")


CHECKS = (
    check_help, check_words, check_age, check_look, check_same, check_try, check_terminal, check_faults, check_build, check_ended,
    check_two, check_unwritable, check_install, check_refused, check_no_room, check_environment, check_library, check_names,
    check_bench, check_piped, check_replaced, check_unproved, check_usage, check_marks, check_commit, check_killed, check_uninstall,
)  # fmt: skip


def faults_of(check, program):
    """Returns what a check finds in a folder of its own."""
    with tempfile.TemporaryDirectory(prefix="etcs script ") as folder:
        room = Room(os.path.realpath(folder), program)
        try:
            check(room)
        except subprocess.TimeoutExpired:
            room.faults.append(f"{check.__name__}: a call took more than {LIMIT} s")
        return room.faults


def main(words):
    if len(words) != 1 or words[0].startswith("-"):
        sys.exit(__doc__)
    with ThreadPoolExecutor(os.cpu_count()) as pool:
        faults = [it for found in pool.map(lambda check: faults_of(check, words[0]), CHECKS) for it in found]
    print("\n".join(faults) or "the script does as it should")
    return 1 if faults else 0


if __name__ == "__main__":
    sys.exit(main(sys.argv[1:]))
