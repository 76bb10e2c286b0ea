#!/usr/bin/env python3
"""Tests all that can be tested without a proof.

    tests/test.py RT [PART ..]

RT is the path of `rt`. The programs that the parts run are built first, without a proof, if they are missing or a source
changed (tools/unproved.py): in about a minute and a half on 4 cores. Then all parts, or those named, run in parallel:

    vectors        every vector, by `etcs_vectors`, and how many there are of each kind
    commands       the vectors that a command line can answer, by `etcs` (tests/vectors.py)
    stack          the same with 64 KB of stack, or 160 if the program is unproved, since its functions are inlined otherwise
    decoder        whether a decoder over share/etcs.tables.json reads what the vectors accept as `show` does (tests/tables_test.py)
    reasons        the reasons of refused items against share/etcs.tables.json (tests/reasons_test.py)
    nearest        which lengths are named where an L_PACKET is refused (tests/nearest_test.py)
    log            what `log` finds in a made log, and which kinds it and `explain` guess (tests/log_test.py)
    sentences      whether each sentence of `explain` and `log` is in a vector (tests/sentences.py)
    schema         docs/etcs.schema.json against the tables, the vectors and what the program writes (tools/schema.py)
    printed        what `schema`, `tables` and `completions` print, against the files (tools/texts.py)
    documents      the commands and the quoted files of all documents (tools/doc_examples.py)
    script         the script `etcs` (tests/script_test.py)
    worst-cases    whether the most expensive inputs that are known stay below their limits (bench/check_worst_cases)
    streams        streams that fail or have no end (tests/stream_test.py)
    fuzz           random inputs, for 10 seconds (tests/fuzz.py)
    fuzz-selftest  whether these find programs that are wrong (tests/fuzz_test.py)
    tests          the tests of the crates whose names end with `_tests`
    audit          docs/AUDIT.md against the definitions (tools/definitions.py)
    audit-selftest whether that finds a definition that the page hides (tests/definitions_test.py)
    guarantees     docs/GUARANTEES.md and docs/GLOSSARY.md against the docstrings, clauses and comments of the sources, and
                   whether each of these calls and definitions has any (tools/guarantees.py)
    tables         the tables of documents and those for other tools against the sources (tools/format_tables.py)
    page           the style and the script of pages against share/page.css and share/page.js (tools/page.py)
    texts          the texts in the source that these print, against the files (tools/texts.py)
    help           the texts of help against the vectors (tools/help_texts.py)
    manual         the manual and the completions against them (tools/manual.py)
    completions    what bash, zsh and fish propose (tests/completion_test.py)
    mutants        whether each mutant can be applied (tools/mutants.py)
    unused         definitions, lemmas and inner items that nothing uses (tools/unused.py)

If `./etcs build` has built the program and no source is newer, the parts that run `etcs` run the proved program too; the part
`worst-cases` runs that one alone, and only if valgrind is there. A line for each part says whether it passed, which program it
ran, and what it counted; if it failed, what it wrote follows. What needs a tool that isn't installed is skipped. The last line
is `N passed, N failed`, with `, N skipped` if something was.

The status is 0 if all passed, 1 if a part failed or the sources are refused, 2 for a usage error, and 70 if nothing could be
tested.
"""

import os
import re
import resource
import shutil
import subprocess
import sys
import tempfile
import threading
import time
from collections import Counter, namedtuple
from concurrent.futures import ThreadPoolExecutor, as_completed

sys.dont_write_bytecode = True
sys.path.append(os.path.join(os.path.dirname(os.path.dirname(os.path.realpath(__file__))), "tools"))
import unproved
from build import say
from sources import TOP, crates, crates_below
from vectors import as_unproved
from unproved import PROGRAM, REFUSED, UNBUILT, NotBuilt, folder_of, kit_of, locked, room_noted, tests_of, title_of

WRONG = 2  # the status of a usage error
PASSED, FAILED, SKIPPED = "passed", "FAILED", "skipped"
LIMIT = 600  # seconds for a part
LINES = 40  # that are written for a part that failed
BUILD_MEMORY = 2_000_000_000  # that the front end takes
FREE_SPACE = 16_000_000  # that temporary files of the parts take at most
STACKS = {"unproved": 160, "proved": 64}  # in KB
# The longest first, since as many run at a time as there are cores.
PROGRAM_SCRIPTS = {
    "reasons": ["tests/reasons_test.py"],
    "log": ["tests/log_test.py"],
    "fuzz": ["tests/fuzz.py", "--seconds", "10"],
    "fuzz-selftest": ["tests/fuzz_test.py"],
    "commands": ["tests/vectors.py"],
    "worst-cases": ["bench/check_worst_cases"],
    "stack": ["tests/vectors.py", "sh", "-c", 'ulimit -s $0 && exec "$@"'],
    "script": ["tests/script_test.py"],
    "streams": ["tests/stream_test.py"],
    "documents": ["tools/doc_examples.py", "--check"],
    "schema": ["tools/schema.py", "--check"],
    "decoder": ["tests/tables_test.py"],
    "sentences": ["tests/sentences.py"],
    "nearest": ["tests/nearest_test.py"],
    "printed": ["tools/texts.py", "--check"],
}
SCRIPTS = {
    "audit-selftest": ["tests/definitions_test.py"],
    "audit": ["tools/definitions.py", "--page", "--check"],
    "guarantees": ["tools/guarantees.py", "--check"],
    "tables": ["tools/format_tables.py", "--check"],
    "page": ["tools/page.py", "--check"],
    "help": ["tools/help_texts.py", "--check"],
    "texts": ["tools/texts.py", "--check"],
    "manual": ["tools/manual.py", "--check"],
    "completions": ["tests/completion_test.py"],
    "mutants": ["tools/mutants.py", "--check"],
    "unused": ["tools/unused.py"],
}
ASKED = {**PROGRAM_SCRIPTS, **SCRIPTS}
PARTS = [*PROGRAM_SCRIPTS, "vectors", "tests", *SCRIPTS]

# As many parts run at a time as there are cores, so that none is so slow that a call in it times out.
PLACES = threading.Semaphore(len(os.sched_getaffinity(0)))

# Something that is run: what its line says, the target that has to be built before it, and a call that answers whether it
# passed, and what it wrote.
Job = namedtuple("Job", "label target call")


# ---- The parts.


def script(name, *words):
    """Runs a script of this repository."""
    status, said = unproved.run([sys.executable, f"{TOP}/{name}", *words], LIMIT, cwd=TOP)
    return status == 0, said


def shares_of(text, count):
    """Returns vectors in shares. The lines of other shares are empty in each, so that its lines keep their numbers."""
    shares, at = [[] for _ in range(count)], 0
    for line in text.split("\n"):
        at += not line.startswith(" ")
        for number, share in enumerate(shares):
            share.append(line if at % count == number else "")
    return ["\n".join(it) for it in shares]


def counts_of(said):
    """Returns a report of vectors in two: what is wrong, and how many there are of each kind."""
    found = re.search(r"((?:\w+ \d+\n)*)\d+ vectors, \d+ wrong\n*\Z", said)
    if not found:
        return said, {}
    return said[: found.start()], {it.split()[0]: int(it.split()[1]) for it in found[1].splitlines()}


def vectors(program):
    """Runs all vectors, a share on each core, and compares how many there are of each kind with what the gate wants."""
    with open(f"{TOP}/crates/etcs_vectors/stdin", encoding="utf-8", newline="") as file:
        shares = shares_of(as_unproved(file.read()), len(os.sched_getaffinity(0)))
    with open(f"{TOP}/crates/etcs_vectors/stdout", encoding="utf-8") as file:
        wanted = Counter(counts_of(file.read())[1])
    with ThreadPoolExecutor(len(shares)) as pool:
        ran = list(pool.map(lambda it: unproved.run([program], LIMIT, it.encode()), shares))
    reports = [counts_of(said) for _, said in ran]
    found = sum((Counter(counts) for _, counts in reports), Counter())
    faults = [wrong for wrong, _ in reports if wrong]
    faults += [f"a share ended with {status}" for status, _ in ran if status not in (0, 1)]
    faults += [f"{it}: {found[it]} vectors, and crates/etcs_vectors/stdout has {wanted[it]}" for it in (found - wanted) + (wanted - found)]
    return not faults, "\n".join([*faults, f"{sum(found.values())} vectors"])


def crate_tests(rt, target):
    """Runs the tests of a crate, each in a process of its own."""
    runner, program = f"{kit_of(rt)}/bin/rattle-test", f"{folder_of(target)}/{target.names[0]}"
    status, said = unproved.run([runner, "--seconds", "60", program], LIMIT)
    return status == 0, said


def is_proved(program):
    """Returns whether the program is there, whole, and no source of the crates that it rests on is newer, as the script `etcs` asks."""
    if not os.access(program, os.X_OK) or os.path.exists(f"{TOP}/crates/etcs/out/building"):
        return False
    built = os.stat(program).st_mtime
    folders = [f"{TOP}/crates/{crate}/{part}" for crate in crates_below(["etcs"])[0] for part in ("src", "specs", "proofs")]
    paths = (path for folder in folders for at, _, names in os.walk(folder) for path in (at, *(f"{at}/{it}" for it in names)))
    return all(os.stat(it).st_mtime <= built for it in paths)


def words_of(part, how):
    """Returns the words of a part that runs the program, before its path."""
    return [*PROGRAM_SCRIPTS[part], str(STACKS[how])] if part == "stack" else PROGRAM_SCRIPTS[part]


def jobs_of(rt, part):
    """Yields what is to be run for a part."""
    made, proved = folder_of(PROGRAM), f"{TOP}/crates/etcs/out/etcs"
    if part == "vectors":
        yield Job("vectors, unproved program", PROGRAM, lambda: vectors(f"{made}/etcs_vectors"))
    elif part == "tests":
        for target in (tests_of(it) for it in crates() if it.endswith("_tests")):
            yield Job(f"{title_of(target)}, unproved", target, lambda target=target: crate_tests(rt, target))
    elif part in SCRIPTS:
        yield Job(part, None, lambda: script(*SCRIPTS[part]))
    elif part == "worst-cases":
        if is_proved(proved) and shutil.which("valgrind"):
            yield Job(f"{part}, proved program", None, lambda: script(*PROGRAM_SCRIPTS[part], proved))
    else:
        yield Job(f"{part}, unproved program", PROGRAM, lambda: script(*words_of(part, "unproved"), f"{made}/etcs"))
        if is_proved(proved):
            yield Job(f"{part}, proved program", None, lambda: script(*words_of(part, "proved"), proved))


# ---- The run.


class Report:
    """Writes a line for each part, and counts them."""

    def __init__(self):
        self.counts = {PASSED: 0, FAILED: 0, SKIPPED: 0}

    def say(self, how, what):
        self.counts[how] += 1
        print(f"{how}  {what}", flush=True)

    def say_ended(self, label, is_well, said, seconds):
        """Says whether a part passed, and the last line that it wrote; if it failed, the first lines too."""
        *lines, last = said.strip().split("\n")
        for line in [it for it in lines if it.startswith("skipped: ")]:
            self.say(SKIPPED, f"{label}: {line.removeprefix('skipped: ')}")
            lines.remove(line)
        if is_well:
            self.say(PASSED, f"{label}: {last} ({seconds:.0f} s)")
            return
        self.say(FAILED, f"{label} ({seconds:.0f} s):")
        more = [f".. {len(lines) - LINES} lines more"] * (len(lines) > LINES)
        print(*lines[:LINES], *more, last, sep="\n", flush=True)

    def end(self):
        """Writes the last line, and returns the status."""
        skipped = f", {self.counts[SKIPPED]} skipped" * (self.counts[SKIPPED] > 0)
        print(f"{self.counts[PASSED]} passed, {self.counts[FAILED]} failed{skipped}", flush=True)
        return 1 if self.counts[FAILED] else 0


def ended(job, built):
    """Runs a job once its target is built, and returns whether it passed, what it wrote, and its seconds; none if that isn't built."""
    if job.target and built[job.target.names[0]].exception():
        return None
    with PLACES:
        begun = time.monotonic()
        try:
            is_well, said = job.call()
        except subprocess.TimeoutExpired:
            is_well, said = False, f"no end in {LIMIT} s"
        except OSError as error:
            is_well, said = False, unproved.reason_of(error)
        return is_well, said, time.monotonic() - begun


def run_all(rt, jobs, report):
    """Builds what the jobs need and runs them, with as many builds in parallel as there is memory for."""
    targets = {it.target.names[0]: it.target for it in jobs if it.target}
    fits = sys.modules["rtlib"].fits
    builders = ThreadPoolExecutor(max(it for it in range(1, len(targets) + 2) if it == 1 or fits(*[BUILD_MEMORY] * it)))
    workers = ThreadPoolExecutor(len(jobs) + 1)
    try:
        built = {name: builders.submit(unproved.make, rt, target) for name, target in targets.items()}
        builds = {built[name]: target for name, target in targets.items()}
        runs = {workers.submit(ended, job, built): job for job in jobs}
        for run in as_completed([*builds, *runs]):
            if run in builds:
                say_built(run, builds[run], report)
            elif run.result():
                report.say_ended(runs[run].label, *run.result())
            else:
                report.say(SKIPPED, f"{runs[run].label}: not built")
    finally:
        unproved.RUNNING.stop()
        for pool in (builders, workers):
            pool.shutdown(cancel_futures=True)


def say_built(run, target, report):
    """Says that the sources of a target are refused; ends the run if it isn't built for another reason."""
    try:
        run.result()
    except NotBuilt as error:
        if error.status != REFUSED:
            raise
        report.say_ended(f"building {title_of(target)}", False, f"{error.said}\n{error.line}", 0)


def check_space():
    """Stops if there is no room for temporary files."""
    try:
        with tempfile.TemporaryFile() as file:
            file.write(bytes(FREE_SPACE))
    except OSError as error:
        raise NotBuilt(UNBUILT, f"no room for temporary files: {unproved.reason_of(error)}") from error


def test(rt, parts):
    """Tests the parts, and returns the status."""
    check_space()
    unproved.prepare(rt)
    # a test that fails leaves no core file
    resource.setrlimit(resource.RLIMIT_CORE, (0, 0))
    report = Report()
    with locked(PROGRAM, "test", "tests") as lock, room_noted(lock) as room:
        # what the parts leave there when they are ended is removed with it
        os.environ["TMPDIR"] = room
        run_all(rt, [it for part in parts for it in jobs_of(rt, part)], report)
    return report.end()


def main(words):
    if not words or {"-h", "--help"} & {*words}:
        print(__doc__)
        return 0 if words else WRONG
    rt, parts = words[0], words[1:] or PARTS
    if unknown := [it for it in parts if it not in PARTS]:
        say(f"not tested: there is no part {unknown[0]}: the parts are {', '.join(PARTS)}")
        return WRONG
    try:
        if not os.access(rt, os.X_OK):
            raise NotBuilt(UNBUILT, f"there is no rt at {rt}")
        return test(rt, parts)
    except NotBuilt as error:
        error.report("not tested")
    except KeyboardInterrupt:
        say("not tested: interrupted")
    except OSError as error:
        say(f"not tested: {unproved.reason_of(error)}")
    return UNBUILT


if __name__ == "__main__":
    sys.exit(main(sys.argv[1:]))
