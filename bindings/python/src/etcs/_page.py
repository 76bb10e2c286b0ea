"""Pages for a browser. No call of the library writes them: the program does, if it is found.

The modules that run it are imported only when needed: they would take a third of the time to import this one.
"""

from __future__ import annotations

import os
from typing import Any, Optional

#: how long the program may take, in seconds
_MOST_SECONDS = 20


def program() -> Optional[str]:
    """The path of the program `etcs`: what the variable ETCS_PROGRAM names, or the one on the path."""
    import shutil
    return os.environ.get("ETCS_PROGRAM") or shutil.which("etcs")


def written_page(data: bytes, kind: str) -> Optional[str]:
    """What `etcs explain --to html` writes for the bytes of items; None if there is no program, or it fails."""
    import subprocess
    path = program()
    if path is None:
        return None
    words = [path, "explain", "--kind", kind, "--from", "bin", "--to", "html"]
    try:
        ran = subprocess.run(words, input=data, stdout=subprocess.PIPE, stderr=subprocess.DEVNULL, timeout=_MOST_SECONDS, check=False)
    except (OSError, subprocess.TimeoutExpired):
        return None
    written = ran.stdout.decode("utf-8", "replace")
    return written if ran.returncode in (0, 1) and written.startswith("<!doctype html>") else None


def frame_of(item: Any) -> Optional[str]:
    """The page of an item in a frame of its own, so that its style and its script affect no other: it is sandboxed, so the
    script can't read the notebook. None if there is no such item or no program."""
    import html

    from ._fields import encode
    from ._library import EtcsError
    try:
        written = written_page(encode(item), item.kind)
    except EtcsError:
        return None
    if written is None:
        return None
    return f'<iframe sandbox="allow-scripts" srcdoc="{html.escape(written)}" style="width:100%;height:40em;border:0" title="etcs explain"></iframe>'
