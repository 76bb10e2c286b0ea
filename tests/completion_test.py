#!/usr/bin/env python3
"""Asks bash, zsh and fish what they propose with the files of share/completions/.

    tests/completion_test.py

Each installed shell is asked at the same places of command lines, and has to propose exactly the words that are expected,
which come from the program's help. A shell that isn't installed is named. The status is 1 if one proposes other words.
"""

import fcntl
import os
import pty
import re
import select
import shlex
import shutil
import subprocess
import sys
import tempfile
import termios
from concurrent.futures import ThreadPoolExecutor

TOP = os.path.dirname(os.path.dirname(os.path.realpath(__file__)))
COMMANDS = "show check convert group log explain blank schema tables completions help"
KINDS, FORMS = "long short radio train", "hex bin json"

# Files of the folder in which is typed.
FILES = ("telegrams.hex", "telegrams.log")
# What is typed, and all words that may follow there.
ASKED = (
    ("etcs ", COMMANDS),
    ("etcs sh", "show"),
    ("etcs c", "check convert completions"),
    ("etcs q", ""),
    ("etcs show --kind ", KINDS),
    ("etcs show --kind s", "short"),
    ("etcs group --kind ", "long short"),
    ("etcs check --from ", FORMS),
    ("etcs convert --kind short --to ", FORMS),
    ("etcs explain --kind radio --to ", "text html"),
    ("etcs show --f", "--from"),
    ("etcs log --", "--kind --good --to --packet --message --summary --groups --strict --quiet --help"),
    ("etcs log -k ", f"auto {KINDS}"),
    ("etcs log telegram", "telegrams.hex telegrams.log"),
    ("etcs explain --kind short telegrams.h", "telegrams.hex"),
    ("etcs blank --kind t", "train"),
    ("etcs completions ", "bash zsh fish"),
    ("etcs convert --kind short --t", "--to"),
    ("etcs check --kind=t", "train"),
    ("etcs help ", COMMANDS),
    ("etcs --v", "--version"),
)

BASH = """
source "$1"
# as bash cuts the line, at = too
words=$(sed 's/=/ = /g' <<< "$2")
read -ra COMP_WORDS <<< "$words"
[[ $words == *' ' ]] && COMP_WORDS+=('')
COMP_CWORD=$((${#COMP_WORDS[@]} - 1))
_etcs
printf '%s\\n' "${COMPREPLY[@]}"
"""

# What a zsh at a terminal reads before it is asked: a line of its own for each word that it proposes, and no other words.
ZSH = """
PS1= ; unsetopt beep; fpath=(%s $fpath); autoload -Uz compinit; compinit -u -d %s
compadd () {
  local -a found; builtin compadd -O found "$@"; print -rl -- "<"${^found}">"; builtin compadd "$@"
}
zstyle ':completion:*' menu no; zstyle ':completion:*' list-prompt ''; setopt no_auto_menu
end-asking () { print DO''NE }; zle -N end-asking; bindkey '^G' end-asking
"""


def make_files(folder):
    """Makes the files."""
    for name in FILES:
        with open(f"{folder}/{name}", "w", encoding="utf-8"):
            pass


def bash(line):
    """Returns the words that bash proposes."""
    with tempfile.TemporaryDirectory() as home:
        make_files(home)
        words = ["bash", "-c", BASH, "bash", f"{TOP}/share/completions/etcs.bash", line]
        return subprocess.run(words, capture_output=True, text=True, check=True, cwd=home).stdout.split()


def fish(line):
    """Returns the words that fish proposes."""
    ask = 'source $argv[1]; complete "-C$argv[2]"'
    with tempfile.TemporaryDirectory() as home:
        words = ["fish", "-N", "-c", ask, f"{TOP}/share/completions/etcs.fish", line]
        make_files(home)
        done = subprocess.run(words, capture_output=True, text=True, cwd=home, env={**os.environ, "HOME": home})
    return [it.split("\t")[0].split("=")[-1] for it in done.stdout.splitlines()]


def zsh(line):
    """Returns the words that zsh proposes, asked at a terminal."""
    with tempfile.TemporaryDirectory() as home:
        make_files(home)
        terminal, end = pty.openpty()
        how = {"stdin": end, "stdout": end, "stderr": end, "cwd": home, "env": {**os.environ, "HOME": home, "TERM": "dumb"}}
        take = lambda: fcntl.ioctl(0, termios.TIOCSCTTY, 0)
        shell = subprocess.Popen(["zsh", "-f", "-i"], start_new_session=True, preexec_fn=take, **how)
        os.close(end)
        os.write(terminal, (ZSH % (shlex.quote(f"{TOP}/share/completions"), shlex.quote(f"{home}/dump"))).encode() + b"print RE''ADY\n")
        read_until(terminal, "READY")
        # a terminal whose line mode gives neither Tab nor Ctrl-G a meaning
        os.write(terminal, line.encode() + b"\t\x07")
        text = read_until(terminal, "DONE")
        os.close(terminal)
        shell.wait()
    return re.findall(r"<([^<>\r\n]+)>", text)


def read_until(terminal, word):
    """Returns what a terminal writes until a word comes, or until nothing more comes for a minute."""
    text = ""
    while word not in text and select.select([terminal], [], [], 60)[0]:
        text += os.read(terminal, 65536).decode(errors="replace")
    return text


def main(words):
    if words:
        sys.exit(__doc__)
    wrong = count = 0
    for name, ask in (("bash", bash), ("zsh", zsh), ("fish", fish)):
        if not shutil.which(name):
            print(f"skipped: completion by {name}, which isn't installed")
            continue
        with ThreadPoolExecutor(8) as pool:
            proposed = list(pool.map(lambda it: ask(it[0]), ASKED))
        for (line, wanted), words in zip(ASKED, proposed):
            found = {it for it in words if not re.fullmatch("-[hV]", it)}
            count += 1
            if found != set(wanted.split()):
                wrong += 1
                print(f"{name}, {line!r}: {' '.join(sorted(found))}, wanted {wanted}")
    print(f"{count} completions, {wrong} wrong")
    return 1 if wrong else 0


if __name__ == "__main__":
    sys.exit(main(sys.argv[1:]))
