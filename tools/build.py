#!/usr/bin/env python3
"""Proves the libraries that a program or a static library rests on, in parallel where possible, and builds it.

    tools/build.py RT CRATE
    tools/build.py RT . VERB [WORD ..]

RT is the path of `rt`, and CRATE the folder of the crate. With a verb it does what `rt VERB ..` does in the folder that
it is called in, as tools/rt does. Progress goes to standard error, and what rt writes about a crate to its
out/build.log. The status is 0 if the crate is built.

A build proves each crate from nothing, as `rt ci` does: over the statements of the libraries below it, without their
proofs, which are more than nine tenths of what there is to load. What is proved is kept as `rt ci` keeps it, so that each of the two
takes over what the other has proved of the same files. Nothing is kept of a part of a crate. That is for those who change
proofs: where `tools/rt check` and `tools/rt lib` have kept their work of all libraries, a build continues from that.

The rest of this is about builds of that kind, and about `tools/rt`. Two runs of `rt` can't run at the same time
here: each locks its crate's folder and those of all libraries below it until it ends, and every crate rests on the
lowest one. `rt all` locks all of them once and works in parallel, but with one job for each crate, and most crates here
rest on one another. So this is one run over the module that `rt` itself is made of: it locks once, as `rt all` does, and
makes for each crate the call that `rt lib` or `rt run` makes. What is proved, and what is kept in out/, is the same. Two
things differ.

Checksums: to see what changed, rt computes the checksums of a crate's files and those of all libraries below it, each time
that it looks at one of them: a thousand times for the upper crates here. In this run each is computed once for each look.

What a build reads: rt rebuilds a library if any file below it changed, and rattle then finds that nothing has to be
checked again. Here a library stays as it is if its own files, and all that its build read of those below it, are as
they were (reads.py says what that is, and why no more is needed). It gets the stamp that rt would give it. The program
and the static library are rebuilt if any file changed, and then rattle looks at all libraries: it refuses one that
read anything other than what is there now.

The libraries that are built in parallel share the cores. Each job of a library loads all libraries below it once more: a
library of 145 seconds took 112 with two jobs, and 109 with four, at 181 and 190 seconds of processor time.
"""

import contextlib
import copy
import hashlib
import os
import signal
import subprocess
import sys
import threading
import time
from concurrent.futures import FIRST_COMPLETED, ThreadPoolExecutor, wait
from importlib.machinery import SourceFileLoader
from importlib.util import module_from_spec, spec_from_loader

import reads

# How many libraries are proved at a time, and the free memory that is wanted for each: there is seldom a third one that waits
# for neither. Where each has kept work, most have nothing to check again, and take little time.
AT_ONCE, MEMORY = 2, 6_000_000_000
AT_ONCE_KEPT, MEMORY_KEPT = 4, 3_000_000_000
# What judges the repository, and so is left to rt itself, unchanged.
JUDGES = ("ci", "verdict", "selftest")
START = time.monotonic()
TOP = os.path.dirname(os.path.dirname(os.path.realpath(__file__)))
LOOK = threading.local()


def say(words):
    print(f"etcs: {words}", file=sys.stderr, flush=True)


def since(begun):
    """Returns in words how long ago that was."""
    seconds = round(time.monotonic() - begun)
    return f"{seconds} s" if seconds < 120 else f"{seconds // 60} min {seconds % 60} s"


def log_of(folder):
    os.makedirs(f"{folder}/out", exist_ok=True)
    return f"{folder}/out/build.log"


def give_up_on(folder):
    """Says that the crate isn't proved, after the last lines of its log."""
    with open(log_of(folder), encoding="utf-8", errors="replace") as log:
        print(*log.readlines()[-20:], sep="", end="", file=sys.stderr)
    say(f"{os.path.basename(folder)} isn't proved: all lines are in {log_of(folder)}")


@contextlib.contextmanager
def one_look():
    """Gives the checksums that are computed within it, or within the look that it is a part of: those of each crate once."""
    if hasattr(LOOK, "sums"):
        yield LOOK.sums
        return
    LOOK.sums = {}
    try:
        yield LOOK.sums
    finally:
        del LOOK.sums


def sum_once(stamp):
    """Returns rt's checksum of a crate such that it takes each crate below once, and not once for each way down to it."""

    def summed(crate):
        with one_look() as sums:
            if crate.folder not in sums:
                sums[crate.folder] = stamp(crate)
            return sums[crate.folder]

    return summed


def sum_alone(stamp):
    """Returns the same of a crate's own files."""

    def summed(crate):
        alone = copy.copy(crate)
        alone.deps = []
        return stamp(alone)

    return summed


def stamp_unchanged(is_built):
    """Returns rt's test whether a library is built, changed so that a library stays, and gets its stamp, if all that it read is as it was."""

    def answered(crate):
        with one_look():
            if is_built(crate):
                return True
            if not all(is_built(it) for it in crate.below()) or not reads.is_as_read(crate):
                return False
            stamp = f"{os.path.dirname(crate.rlib)}/stamp"
            with open(f"{stamp}.new", "w", encoding="utf-8") as it:
                it.write(crate.stamp())
            # another checkout may have the file that was there, too
            os.replace(f"{stamp}.new", stamp)
            return True

    return answered


def build_noted(build_rlib):
    """Returns rt's build of a library, changed so that it notes what it read."""

    def built(crate, flags, anew):
        if not anew and crate.is_built():
            return 0
        status = build_rlib(crate, flags, anew)
        if not status and not anew:
            with contextlib.suppress(ValueError, LookupError, TypeError):
                reads.take_note(crate)
        return status

    return built


def module_of(path):
    """Returns the module that rt is, with those two changes."""
    sys.dont_write_bytecode = True
    loader = SourceFileLoader("rt", os.path.realpath(path))
    rt = module_from_spec(spec_from_loader("rt", loader))
    sys.modules["rt"] = rt
    loader.exec_module(rt)
    crate = rt.rtlib.Crate
    stamp = crate.stamp
    crate.stamp, crate.own = sum_once(stamp), sum_alone(stamp)
    crate.is_built = stamp_unchanged(crate.is_built)
    crate.build_rlib = build_noted(crate.build_rlib)
    return rt


def end_after(running):
    """Says what is still waited for, if anything is."""
    if running:
        say(f"ending once {' and '.join(it.name for it in running.values())} are tried: that work is kept")


def prove(crate, flags):
    """Proves and builds a library if that is needed, and returns rt's status and how long that took, or None if it stays as it is."""
    if crate.is_built():
        return 0, None
    say(f"proving {crate.name}")
    begun = time.monotonic()
    with open(log_of(crate.folder), "w", encoding="utf-8") as crate.out:
        return crate.build_rlib(flags, anew=False), since(begun)


def prove_all(crates, at_once, flags):
    """Proves libraries, each as soon as those below it are proved, and returns whether all went well."""
    # those that most others rest on go first
    left = sorted(crates, key=lambda it: -sum(it in other.below() for other in crates))
    running, unread = {}, 0
    with ThreadPoolExecutor(at_once) as pool:
        while left or running:
            unproved = {*left, *running.values()}
            ready = [it for it in left if not unproved & {*it.below()}]
            for crate in ready[: at_once - len(running)]:
                running[pool.submit(prove, crate, flags)] = crate
                left.remove(crate)
            for run in wait(running, return_when=FIRST_COMPLETED).done:
                crate = running.pop(run)
                status, took = run.result()
                if status:
                    give_up_on(crate.folder)
                    end_after(running)
                    return False
                unread += not took
                if took:
                    done = len(crates) - len(left) - len(running)
                    say(f"proved {crate.name}, {done} of {len(crates)} libraries ({took}, {since(START)} in all)")
    if unread:
        say(f"libraries that stay as they are, since nothing that they read has changed: {unread}")
    return True


def share(rtlib, crates):
    """Returns how many of the crates to prove at a time, and rt's flags for each."""
    is_kept = bool(crates) and all(it.has_kept() for it in crates)
    for at_once, memory in ((AT_ONCE_KEPT, MEMORY_KEPT),) * is_kept + ((AT_ONCE, MEMORY),):
        if rtlib.fits(*[memory] * at_once):
            return at_once, ["--jobs", str(max(1, min(rtlib.cores(), 8) // at_once))]
    return 1, []


@contextlib.contextmanager
def output_to(file):
    """Has what is written to standard output, by this process and by those that it starts, go to the file."""
    sys.stdout.flush()
    was = os.dup(1)
    os.dup2(file.fileno(), 1)
    try:
        yield
    finally:
        os.dup2(was, 1)
        os.close(was)


def build_archive(crate, flags):
    """Builds a static library if a file that it is made of changed, and returns rt's status. rt itself builds it each time."""
    archive, note = f"{crate.folder}/out/lib{crate.name}.a", f"{crate.folder}/out/lib{crate.name}.stamp"
    stamp = crate.stamp()
    with contextlib.suppress(FileNotFoundError), open(note, encoding="ascii") as it:
        if it.read() == stamp and os.path.isfile(archive):
            return 0
        os.remove(note)
    status = crate.build_static(flags)
    if not status and crate.stamp() == stamp:
        with open(note, "w", encoding="ascii") as it:
            it.write(stamp)
    return status


def build_top(crate, flags):
    """Proves and compiles the program or the static library, and returns whether that went well. rt runs a program, for its help."""
    kind = "static library" if crate.is_static else "program"
    say(f"proving and compiling the {kind} {crate.name}")
    begun = time.monotonic()
    with open(log_of(crate.folder), "w", encoding="utf-8") as crate.out, output_to(crate.out):
        status = build_archive(crate, flags) if crate.is_static else crate.run(flags, ["--help"])
    if status:
        give_up_on(crate.folder)
        return False
    say(f"the {kind} is proved and built ({since(begun)}, {since(START)} in all)")
    return True


class Statements:
    """A build over statements: what rt ci does with some crates, but for their tests, edits and runs."""

    def __init__(self, rt, crates):
        self.rt, self.crates, self.kept, self.count, self.lock = rt, crates, rt.Kept(crates), 0, threading.Lock()

    def note_of(self, crate):
        return f"{crate.folder}/out/proved"

    def is_there(self, crate, key):
        """Returns whether the crate is built here, of the same files over the same libraries, and as it was left."""
        with contextlib.suppress(OSError), open(self.note_of(crate), encoding="ascii") as it:
            said = it.read().split()
            if said[:1] == [key] and (made := self.kept.made(crate, False)) and self.kept.is_whole(crate, False, made):
                self.kept.is_built(crate)
                return said[1:] == [self.sum_of(crate)]
        return False

    def sum_of(self, crate):
        """Returns the sum of what the proof made."""
        files = [f"{crate.folder}/out/{it}" for it in self.kept.made(crate, False)]
        return hashlib.sha256(repr([self.rt.rtlib.sum_of(it) for it in files]).encode()).hexdigest()

    def prove(self, crate, jobs):
        """Proves a crate or takes it over, and returns whether it is proved."""
        key, begun = self.kept.key(crate), time.monotonic()
        crate = copy.copy(crate)
        with self.kept.in_turn(crate, False, key), open(log_of(crate.folder), "w", encoding="utf-8") as crate.out:
            is_new = not self.is_there(crate, key) and not self.kept.give(crate, False, key)
            if is_new:
                say(f"proving {crate.name}")
                if crate.ci(["--jobs", str(jobs)], False):
                    return False
            self.kept.is_built(crate)
            if is_new:
                self.kept.keep(crate, False, key)
        with open(self.note_of(crate), "w", encoding="ascii") as it:
            it.write(f"{key} {self.sum_of(crate)}")
        with self.lock:
            self.count += 1
            if is_new:
                say(f"proved {crate.name}, {self.count} of {len(self.crates)} crates ({since(begun)}, {since(START)} in all)")
        return True

    def task(self, crate):
        def call(given, jobs):
            below = all(given[it.name, "proof"] for it in crate.below())
            is_proved = below and self.prove(crate, jobs)
            if below and not is_proved:
                give_up_on(crate.folder)
            return is_proved

        return [(it.name, "proof") for it in crate.below()], crate.count(rb"\n"), self.rt.need(crate), call

    def build(self):
        """Proves all crates, and returns whether that went well."""
        given = self.rt.in_lanes({(it.name, "proof"): self.task(it) for it in self.crates})
        self.kept.shrink()
        return all(given.values())


def crates_over_statements(rt):
    """Returns the repository's crates, lowest first, as `rt ci` proves them: over the statements of the libraries below."""
    rt.Crate.cuts_libraries = True
    rt.rtlib.Crate = rt.Crate
    return sorted(rt.rtlib.crates_below(TOP), key=lambda it: len(it.below()))


def build_over_statements(rt, name):
    """Builds a program or a static library over the statements of the libraries below it, and returns whether that went well."""
    os.chdir(TOP)
    rt.Crate.allowed = rt.handles_of(TOP)
    crate = next(it for it in crates_over_statements(rt) if it.name == name)
    below = sorted(crate.below(), key=lambda it: len(it.below()))
    held = rt.rtlib.lock([*below, crate])
    made = Statements(rt, [*below, *([] if crate.is_static else [crate])])
    is_well = made.build() and (not crate.is_static or archive_over_statements(made, crate))
    for it in held:
        os.close(it)
    return is_well


def archive_over_statements(made, crate):
    """Proves and compiles a static library, unless it is there, and returns whether that went well."""
    archive, note = f"{crate.folder}/out/lib{crate.name}.a", f"{crate.folder}/out/lib{crate.name}.stamp"
    stamp = made.kept.key(crate)
    with contextlib.suppress(OSError), open(note, encoding="ascii") as it:
        if it.read() == stamp and os.path.isfile(archive):
            return True
        os.remove(note)
    say(f"proving and compiling the static library {crate.name}")
    begun = time.monotonic()
    with open(log_of(crate.folder), "w", encoding="utf-8") as crate.out:
        words = [*crate.words(["--jobs", "1"], keeps=False), "--toolchain", f"{made.rt.KIT}/toolchain", "--backend", "llvm"]
        status = crate.prove(["build", *words, "-o", f"out/lib{crate.name}.a"])
    if status:
        give_up_on(crate.folder)
        return False
    with open(note, "w", encoding="ascii") as it:
        it.write(stamp)
    say(f"the static library is proved and built ({since(begun)}, {since(START)} in all)")
    return True


def build(rt, folder):
    """Builds the crate, after the libraries below it, and returns whether all went well."""
    rtlib = rt.rtlib
    # as in rt: what it started ends with it
    rtlib.guarded()
    crate = rtlib.Crate(folder, rtlib.root_above(folder), {})
    rt.read_files(crate)
    if crate.makes_rlib():
        rtlib.stop(f"{crate.name} is neither a program nor a static library")
    below = crate.below()
    # a kit whose `rt ci` keeps nothing has no Kept
    if hasattr(rt, "Kept") and not all(it.has_kept() for it in below):
        return build_over_statements(rt, crate.name)
    if hasattr(rt, "share_work"):
        # as rt does, it begins with what other checkouts on this machine kept
        rt.share_work(is_alone=True)
    crate.held = rtlib.lock([*below, crate])
    for it in [*below, crate]:
        rtlib.stop_on_links(it.folder)
        # messages about a crate before its log is open
        it.out = sys.stderr
    left = [it for it in below if not it.is_built()]
    return prove_all(left, *share(rtlib, left)) and build_top(crate, share(rtlib, [])[1])


def as_rt(path, words):
    """Does what rt does with these words, and returns its status."""
    if words[0] in JUDGES or words[:2] == ("all", "verdict"):
        os.execv(path, [path, *words])
    return module_of(path).main([*words])


def leave_to_rt(path, folder, words):
    """Becomes rt, with nothing changed."""
    os.chdir(folder)
    is_program = os.path.isfile("src/main.rt")
    os.execv(path, [path, *(words or (["run", "--", "--help"] if is_program else ["lib"]))])


def main(path, folder, *words):
    # Ctrl-C doesn't wait for the threads
    signal.signal(signal.SIGINT, signal.SIG_DFL)
    try:
        if words:
            return as_rt(path, words)
        return 0 if build(module_of(path), os.path.realpath(folder)) else 1
    except (ImportError, AttributeError, TypeError) as error:
        say(f"rt's module isn't as expected ({error}), so rt itself continues, one crate after the other")
        leave_to_rt(path, folder, words)
    except OSError as error:
        say(f"{error.filename or 'a file that was to be written'}: {error.strerror}")
        return 1


if __name__ == "__main__":
    if len(sys.argv) < 3:
        sys.exit("use: tools/build.py RT CRATE, or tools/build.py RT . VERB [WORD ..]")
    sys.exit(main(*sys.argv[1:]))
