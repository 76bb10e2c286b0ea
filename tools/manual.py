#!/usr/bin/env python3
"""Writes the pages of the manual and the completions of shells, from the program's own help.

    tools/manual.py [--check]

share/man/ has a page for `etcs` and one for each command, share/completions/ a file each for bash, zsh and fish. The texts are those of the
vectors `help`, as in share/help.txt. With --check nothing is written, and the status is 1 if a file differs or is superfluous.
"""

import os
import re
import sys
from collections import namedtuple

sys.dont_write_bytecode = True
sys.path.append(os.path.join(os.path.dirname(os.path.dirname(os.path.realpath(__file__))), "tests"))
from help_texts import STDIN, TOP
from vectors import vectors_of

# What a command's help says: what it does, its words, its commands with what they do, its arguments and options, and the texts after
# them.
Help = namedtuple("Help", "summary usage commands arguments options texts")
# An argument: what it is called, its text, and the words that it may be.
Argument = namedtuple("Argument", "name text words")
# An option: its letter, or nothing; its name; what its value is called, or nothing; its text; the words that it may be.
Option = namedtuple("Option", "letter name value text words")

ARGUMENT = re.compile(r" +(\S+)  +(.*)")
OPTION = re.compile(r" +(?:-(\w), )?--([\w-]+)(?: <(\w+)>(?:\.\.\.)?)?  +(.*)")
POSSIBLE = re.compile(r" \[possible values: ([^\]]*)\]")


# ---- The help.


def help_of(text):
    """Reads the text of a command's help."""
    summary, *parts = text.split("\n\n")
    usage = parts.pop(0).removeprefix("Usage: ")
    commands, arguments, options = {}, [], []
    while parts and re.match(r"(Commands|Options|Arguments):\n", parts[0]):
        head, *lines = parts.pop(0).split("\n")
        if head == "Commands:":
            commands = dict(it.strip().split(None, 1) for it in lines)
        elif head == "Arguments:":
            arguments = [argument_of(it) for it in lines]
        else:
            options = [option_of(it) for it in lines]
    return Help(summary, usage, commands, arguments, options, parts)


def cut(text):
    """Returns a text without the words that a value may be, and these words."""
    words = POSSIBLE.search(text)
    return POSSIBLE.sub("", text), words[1].split(", ") if words else []


def argument_of(line):
    """Reads the line of an argument."""
    name, text = ARGUMENT.fullmatch(line).groups()
    return Argument(name, *cut(text))


def option_of(line):
    """Reads the line of an option."""
    letter, name, value, text = OPTION.fullmatch(line).groups()
    return Option(letter, name, value, *cut(text))


def read():
    """Returns the version, the help of all, and that of each command."""
    with open(STDIN, encoding="utf-8", newline="") as sheet:
        texts = {line: expected.removeprefix("0\n") for _, kind, words, expected in vectors_of(sheet.read()) if kind == "help" for line in words.split(", ")}
    whole = help_of(texts["etcs --help"])
    names = [it for it in whole.commands if it != "help"]
    version = " ".join(texts["etcs --version"].split()[:2])
    return version, whole, {it: help_of(texts[f"etcs {it} --help"]) for it in names}


def names_of(option):
    return ([f"-{option.letter}"] if option.letter else []) + [f"--{option.name}"]


def takes_files(said):
    """Whether a command has files as its arguments."""
    return any("FILE" in it.name for it in said.arguments)


def argument_words(said):
    """Returns the words that the arguments of a command may be."""
    return [word for it in said.arguments for word in it.words]


# ---- Pages of the manual.


def plain(text):
    """Returns a text in which nothing has a meaning to roff."""
    text = text.replace("\\", "\\e").replace("-", "\\-")
    return re.sub(r"^(?=[.'])", "\\&", text, flags=re.M)


def bold(text):
    return f"\\fB{plain(text)}\\fR"


def words_of(usage):
    """Returns the words of a command line: what is typed as it is in bold, what is replaced by a value in italics."""
    usage = re.sub(r"<(\w+)>", r"\\fI\1\\fR", plain(usage))
    usage = re.sub(r"\[(\w+)\]", r"[\\fI\1\\fR]", usage)
    usage = re.sub(r"\\-\\-\w+", r"\\fB\g<0>\\fR", usage)
    return re.sub(r"^etcs( [a-z]+)?", r"\\fB\g<0>\\fR", usage)


def text_of(said):
    """Returns the text of an argument or an option."""
    return plain(said.text) + (f" [possible values: {', '.join(map(bold, said.words))}]" if said.words else "")


def argument_lines(argument):
    """Yields the lines of an argument."""
    yield from (".TP", words_of(argument.name), text_of(argument))


def option_lines(option):
    """Yields the lines of an option."""
    yield ".TP"
    yield ", ".join(map(bold, names_of(option))) + (f" \\fI{option.value}\\fR" if option.value else "")
    yield text_of(option)


def text_lines(text):
    """Yields the lines of a text after the options: the statuses, an example, or a description."""
    head, _, rest = text.replace("\n", " ").partition(": ")
    if head == "Status":
        yield ".SH EXIT STATUS"
        for it in rest.removesuffix(".").split("; "):
            number, said = it.split(" ", 1)
            yield from (".TP", bold(number), plain(said))
    elif head == "Example":
        yield from (".SH EXAMPLE", ".nf", plain(rest), ".fi")
    else:
        yield from (".PP", *map(plain, text.split("\n")))


def page(name, version, said, others):
    """Returns the page of a name."""
    summary = said.summary[0].lower() + said.summary[1:]
    lines = [f".TH {plain(name.upper())} 1 \"\" \"{version}\"", ".SH NAME", f"{plain(name)} \\- {plain(summary)}"]
    lines += [".SH SYNOPSIS", words_of(said.usage), ".SH DESCRIPTION"]
    late = [it for it in said.texts if re.match("Status: |Example: ", it)]
    early = [line for it in said.texts if it not in late for line in text_lines(it)]
    lines += early[1:] or [f"{plain(said.summary)}."]
    for command, text in said.commands.items():
        lines += [".TP", bold(f"etcs {command}"), plain(text) + "."]
    if said.arguments:
        lines += [".SH ARGUMENTS", *(line for it in said.arguments for line in argument_lines(it))]
    lines.append(".SH OPTIONS")
    for it in said.options:
        lines += option_lines(it)
    for it in late:
        lines += text_lines(it)
    lines += [".SH SEE ALSO", ",\n".join(f".BR {plain(it)} (1)" for it in others)]
    return "\n".join(lines) + "\n"


def pages(version, whole, commands):
    """Yields the path and the text of each page."""
    names = ["etcs", *(f"etcs-{it}" for it in commands)]
    for name, said in zip(names, [whole, *commands.values()]):
        text = page(name, version, said, [it for it in names if it != name])
        yield f"share/man/{name}.1", f'.\\" Written by tools/manual.py from the help of etcs.\n{text}'


# ---- Completions.


def bash(whole, commands):
    """Returns the completion for bash."""
    first = " ".join(whole.commands)
    cases = [f"        ' '*) if [[ $current == -* ]]; then words='{flags(whole)}'; else words='{first}'; fi ;;", f"        'help '*) words='{first}' ;;"]
    values = []
    for name, said in commands.items():
        proposed = flags(said)
        if takes_files(said):
            cases.append(f"        '{name} '*) if [[ $current == -* ]]; then words='{proposed}'; else files=$current; fi ;;")
        elif argument_words(said):
            cases.append(f"        '{name} '*) if [[ $current == -* ]]; then words='{proposed}'; else words='{' '.join(argument_words(said))}'; fi ;;")
        else:
            cases.append(f"        '{name} '*) words='{proposed}' ;;")
        values += [f"        {' | '.join(quoted(f'{name} {it}') for it in names_of(option))}) words='{' '.join(option.words)}' ;;" for option in said.options if option.value]
    return "\n".join([BASH_FRONT, *values, *cases, BASH_END, ""])


def flags(said):
    """Returns the options of a command."""
    return " ".join(name for it in said.options for name in names_of(it))


BASH_FRONT = """\
# Completion of etcs for bash. Written by tools/manual.py from the help of etcs.

_etcs() {
    local current=${COMP_WORDS[COMP_CWORD]} before=${COMP_WORDS[COMP_CWORD - 1]} command= words= files word
    # --kind=short is three words here
    if [[ $current == = ]]; then
        current=
    elif [[ $before == = ]]; then
        before=${COMP_WORDS[COMP_CWORD - 2]}
    fi
    for word in "${COMP_WORDS[@]:1:COMP_CWORD - 1}"; do
        if [[ $word != -* ]]; then
            command=$word
            break
        fi
    done
    case "$command $before" in"""

BASH_END = """\
    esac
    if [[ -v files ]]; then
        compopt -o filenames 2> /dev/null
        mapfile -t COMPREPLY < <(compgen -f -- "$files")
    else
        COMPREPLY=($(compgen -W "$words" -- "$current"))
    fi
}

complete -F _etcs etcs"""


def quoted(text):
    """Returns a text as one word of a shell."""
    return "'" + text.replace("'", "'\\''") + "'"


def zsh(whole, commands):
    """Returns the completion for zsh."""
    described = [f"        {quoted(name.replace(':', chr(92) + ':') + ':' + text)}" for name, text in whole.commands.items()]
    lines = ["#compdef etcs", "# Completion of etcs for zsh. Written by tools/manual.py from the help of etcs.", "", "_etcs() {"]
    lines += ["    local -a commands line", "    local state", "    commands=(", *described, "    )"]
    lines += [f"    _arguments -C {' '.join(map(zsh_option, whole.options))} '1: :->command' '*:: :->words'", "    case $state in"]
    lines += ["    command) _describe command commands ;;", "    words)", "        case $line[1] in"]
    for name, said in commands.items():
        proposed = [*map(zsh_option, said.options), *zsh_arguments(said)]
        lines += [f"        {name})", "            _arguments \\", " \\\n".join(f"                {it}" for it in proposed), "            ;;"]
    lines += ["        help) _describe command commands ;;", "        esac", "        ;;", "    esac", "}", "", '_etcs "$@"', ""]
    return "\n".join(lines)


def zsh_option(option):
    """Returns an option as zsh has it."""
    text = re.sub(r"([\[\]:\\])", r"\\\1", option.text)
    value = f":{option.value}:({' '.join(option.words)})" if option.value else ""
    long = f"--{option.name}" + ("=" if value else "")
    if not option.letter:
        return quoted(f"{long}[{text}]{value}")
    if option.value:
        return f"'(-{option.letter} --{option.name})'{{-{option.letter},{long}}}{quoted(f'[{text}]{value}')}"
    return f"'(- *)'{{-{option.letter},{long}}}{quoted(f'[{text}]{value}')}"


def zsh_arguments(said):
    """Returns the arguments of a command as zsh has them."""
    words = argument_words(said)
    return ["'*:FILE:_files'"] if takes_files(said) else [f"'1:argument:({' '.join(words)})'"] if words else []


def fish(whole, commands):
    """Returns the completion for fish."""
    lines = [f"complete -c etcs -n __etcs_runs -a {name} -d {fish_quoted(text)}" for name, text in whole.commands.items()]
    lines += [fish_option("__etcs_runs", it) for it in whole.options]
    for name, said in commands.items():
        lines += [fish_option(f"'__etcs_runs {name}'", it) for it in said.options]
        if takes_files(said):
            lines.append(f"complete -c etcs -n '__etcs_runs {name}' -F")
        elif argument_words(said):
            lines.append(f"complete -c etcs -n '__etcs_runs {name}' -a '{' '.join(argument_words(said))}'")
    lines.append(f"complete -c etcs -n '__etcs_runs help' -a '{' '.join(whole.commands)}'")
    return FISH_FRONT + "\n".join(lines) + "\n"


FISH_FRONT = """\
# Completion of etcs for fish. Written by tools/manual.py from the help of etcs.

# Whether this is the command, or with no argument whether there is none yet.
function __etcs_runs
    set -l words (commandline -opc)
    test "$words[2]" = "$argv[1]"
end

complete -c etcs -f
"""


def fish_quoted(text):
    return "'" + text.replace("\\", "\\\\").replace("'", "\\'") + "'"


def fish_option(condition, option):
    """Returns an option as fish has it."""
    letter = f" -s {option.letter}" if option.letter else ""
    words = f" -x -a '{' '.join(option.words)}'" if option.words else " -x" if option.value else ""
    return f"complete -c etcs -n {condition}{letter} -l {option.name}{words} -d {fish_quoted(option.text)}"


# ---- The files.


def files():
    """Returns the text of each file."""
    version, whole, commands = read()
    made = dict(pages(version, whole, commands))
    made |= {f"share/completions/{name}": text(whole, commands) for name, text in (("etcs.bash", bash), ("_etcs", zsh), ("etcs.fish", fish))}
    return made


def parted(made):
    """Yields the files that differ, are missing, or are superfluous."""
    for path, text in made.items():
        try:
            with open(f"{TOP}/{path}", encoding="utf-8") as file:
                is_same = file.read() == text
        except FileNotFoundError:
            is_same = False
        if not is_same:
            yield path
    yield from (f"{folder}/{it}" for folder in ("share/man", "share/completions") for it in os.listdir(f"{TOP}/{folder}") if f"{folder}/{it}" not in made)


def main(words):
    if words not in ([], ["--check"]):
        sys.exit(__doc__)
    made = files()
    if not words:
        for path, text in made.items():
            os.makedirs(os.path.dirname(f"{TOP}/{path}"), exist_ok=True)
            with open(f"{TOP}/{path}", "w", encoding="utf-8") as file:
                file.write(text)
        return 0
    differing = sorted(parted(made))
    print("\n".join(f"{it} has parted from the help: run tools/manual.py" for it in differing) or f"{len(made)} files of the manual and completions, no difference")
    return 1 if differing else 0


if __name__ == "__main__":
    sys.exit(main(sys.argv[1:]))
