#!/usr/bin/env python3
"""Tries tools/definitions.py with sources and pages that hide something.

    tests/definitions_test.py

In a folder with the script, the page and the crates, some of them changed, `definitions.py --page --check` has to find each
of the changes below, and nothing if nothing is changed. Some turn a definition and the code that is proved to meet it in
the same way, so that the proofs would still hold and only the page can show it. The status is 0 if that is so.
"""

import os
import shutil
import subprocess
import sys
import tempfile
from concurrent.futures import ThreadPoolExecutor

TOP = os.path.dirname(os.path.dirname(os.path.realpath(__file__)))
PAGE = "docs/AUDIT.md"
BODIES, RADIO = "crates/etcs_radio/specs/Bodies.antt", "crates/etcs_radio/src/body.rt"
TRACK, LOCATED = "crates/etcs_track/src/any_packet.rt", "crates/etcs_track/src/located.rt"
READING, PROGRESS = "crates/etcs_vars/specs/Reading.antt", "crates/etcs_sequence/specs/Progress.antt"
FRAMES, FRAME = "crates/etcs_parts/specs/TextFrames.antt", "crates/etcs_parts/src/text_frame.rt"
USES = "    ghost use Rattle.{}.specs.Hidden.{{{}}};\n\n"
HIDDEN = "abbrev pub hidden : Type 0\nhidden = Unit {0}\n"

# What is changed: an old text of a file and the new one, or all of a new file; and a part of what has to be said.
TRIED = {
    "definitions are on no step": ([(PAGE, "<!-- quoted values: etcs_packets ", "<!-- quoted values: ")], "PacketValues.antt is 0 times in"),
    "definitions are on the page twice": (
        [(PAGE, "<!-- quoted values: etcs_packets ", "<!-- quoted values: etcs_packets etcs_sequence ")],
        "etcs_sequence/specs/Progress.antt is 2 times in",
    ),
    "a definition is before those that it names": (
        [
            (PAGE, "<!-- quoted values: etcs_sequence -->", "<!-- quoted values: etcs_sequence etcs_track/specs/TrackPackets.antt -->"),
            (PAGE, " etcs_packets etcs_track/specs/TrackPackets.antt ", " etcs_packets "),
        ],
        "TrackPackets.antt:19: track_form is before crates/etcs_packets/specs/PacketValues.antt",
    ),
    "the types of a part are on no step": ([(PAGE, "<!-- types values: -->", "<!-- types pairs: -->")], "no types of the part values are"),
    "a ghost member says something new": (
        [
            ("crates/etcs_radio/specs/Hidden.antt", "", HIDDEN),
            (RADIO, "    ghost head = { radio_head };", USES.format("etcs_radio", "hidden") + "    ghost head = { hidden };"),
        ],
        "+- [etcs_radio/specs/Hidden.antt:1]",
    ),
    "a ghost member isn't found": ([(RADIO, "    ghost own = {", "    ghost mine = {")], "Body has no member own"),
    "the packets say something new": (
        [
            ("crates/etcs_track/specs/Hidden.antt", "", HIDDEN),
            (TRACK, "    ghost form = { track_form };", USES.format("etcs_track", "hidden") + "    ghost form = { hidden };"),
        ],
        "+- [etcs_track/specs/Hidden.antt:1]",
    ),
    "what a part of a packet stands for says something new": (
        [
            ("crates/etcs_track/specs/Hidden.antt", "", HIDDEN),
            (LOCATED, "    ghost view = {", USES.format("etcs_track", "hidden") + "    ghost view = { hidden };\n    ghost old = {"),
        ],
        "+- [etcs_track/specs/Hidden.antt:1]",
    ),
    "a message's types aren't given": ([("crates/etcs_train/src/lib.rt", "<TrainHead, TrainBody>", "<TrainHead>")], "rests on B.own of a type"),
    "a call is on no step": ([(PAGE, " etcs_messages::ReaderOf::take ", " ")], "the clauses of etcs_radio::MessageReader::take are"),
    "the text of a definition": ([(READING, "IsOutcome Reads b more = ", "IsOutcome Reads b more = ⊥ × ")], "+IsOutcome Reads b more = ⊥ ×"),
    "the text of a clause": ([("crates/etcs_telegram/src/reader.rt", " IsTelegram 50 seen ", " IsTelegram 51 seen ")], "+    ensures answer { (seen"),
    "the text of a clause of a call of C": (
        [("crates/etcs_c/src/lib.rt", "ensures { OfKind kind (λ k. SaysBits (", "ensures { OfKind 1 (λ k. SaysBits (")],
        "+    ensures { OfKind 1 (",
    ),
    "the view of a struct": (
        [("crates/etcs_telegram/src/header.rt", "n_pig = h.n_pig; n_total = h.n_total", "n_pig = h.n_total; n_total = h.n_pig")],
        "+- [etcs_telegram/src/header.rt:",
    ),
    "M_ACK is turned round, with its code": (
        [
            (BODIES, "(M_ACK, bit h.m_ack)", "(M_ACK, 1 - bit h.m_ack)"),
            (BODIES, "m_ack = slice_index ns 1 == 1;", "m_ack = slice_index ns 1 == 0;"),
            (RADIO, "u64::from(self.m_ack)", "u64::from(!self.m_ack)"),
            (RADIO, "m_ack: numbers[1] == 1", "m_ack: numbers[1] == 0"),
        ],
        "+- [etcs_radio/specs/Bodies.antt:",
    ),
    "memory may run out at any variable": ([(PROGRESS, " = false\n", " = true\n")], "+asks_memory PADDING = true"),
    "two variables of one width are exchanged, with their code": (
        [
            (FRAMES, "flag Q_TEXTDISPLAY ⊗ number D_TEXTDISPLAY", "flag Q_TEXTDISPLAY ⊗ number L_TEXTDISPLAY"),
            (FRAMES, "⊗ number L_TEXTDISPLAY ⊗ number T", "⊗ number D_TEXTDISPLAY ⊗ number T"),
            (FRAME, "d_textdisplay: D_TEXTDISPLAY u16; start: Shown; l_textdisplay: L_TEXTDISPLAY", "d_textdisplay: L_TEXTDISPLAY u16; start: Shown; l_textdisplay: D_TEXTDISPLAY"),
        ],
        "+- [etcs_parts/specs/TextFrames.antt:",
    ),
    "two variables are exchanged where their names come from": (
        [(FRAMES, "{Q_SCALE, Q_TEXTCLASS, Q_TEXTDISPLAY, D_TEXTDISPLAY, L_TEXTDISPLAY,", "{Q_SCALE, Q_TEXTCLASS, Q_TEXTDISPLAY, L_TEXTDISPLAY as D_TEXTDISPLAY, D_TEXTDISPLAY as L_TEXTDISPLAY,")],
        "+- [etcs_parts/specs/TextFrames.antt:",
    ),
    "a comment of a listed definition": ([(FRAMES, "-- the format of all of a text message but its text", "-- the format of a text message")], None),
    "nothing": ([], None),
}


def copy_with(changes, folder):
    """Makes a folder with the script, the page and the crates, each but the changed ones a link."""
    changed = {it[0].split("/")[1] for it in changes}
    for name in ("tools/definitions.py", PAGE):
        os.makedirs(os.path.dirname(f"{folder}/{name}"), exist_ok=True)
        shutil.copy(f"{TOP}/{name}", f"{folder}/{name}")
    os.mkdir(f"{folder}/crates")
    for crate in os.listdir(f"{TOP}/crates"):
        if crate not in changed:
            os.symlink(f"{TOP}/crates/{crate}", f"{folder}/crates/{crate}")
            continue
        for part in ("src", "specs"):
            shutil.copytree(f"{TOP}/crates/{crate}/{part}", f"{folder}/crates/{crate}/{part}")
    for path, old, new in changes:
        text = open(f"{folder}/{path}", encoding="utf-8").read() if old else ""
        if old not in text:
            raise LookupError(f"{path} has no {old!r}")
        with open(f"{folder}/{path}", "w", encoding="utf-8") as file:
            file.write(text.replace(old, new) if old else new)


def fault_of(name):
    """Returns what is wrong with the answer to a change, or nothing."""
    changes, expected = TRIED[name]
    with tempfile.TemporaryDirectory(prefix="definitions-") as folder:
        try:
            copy_with(changes, folder)
        except LookupError as fault:
            return f"{name}: {fault}"
        words = [sys.executable, "-B", f"{folder}/tools/definitions.py", "--page", "--check"]
        ran = subprocess.run(words, capture_output=True, text=True)
    if ran.returncode == (1 if expected else 0) and (expected or "") in ran.stderr:
        return None
    return f"{name}: status {ran.returncode}, and not {expected!r} in:\n{ran.stdout}{ran.stderr}"


def main():
    with ThreadPoolExecutor(2) as pool:
        faults = [it for it in pool.map(fault_of, TRIED) if it]
    print(*faults, f"{len(TRIED)} pages and sources, {len(faults)} answered wrongly", sep="\n")
    return 1 if faults else 0


if __name__ == "__main__":
    sys.exit(main())
