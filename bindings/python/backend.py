"""Makes the wheel, and needs nothing that would have to be installed first: `pip install bindings/python`.

The library is taken from bindings/out, where bindings/build puts it, or from the file that ETCS_LIBRARY names. That of an
installation is made by bindings/install:

    python3 -I backend.py LIBRARY FOLDER

If the library says that it is unproved, version and description of the wheel say so too.
"""
import base64
import hashlib
import io
import os
import re
import sys
import tarfile
import zipfile

HERE = os.path.dirname(os.path.abspath(__file__))
TAG = "py3-none-manylinux2014_x86_64"  # it needs glibc 2.14 or later


MISSING = "etcs: no libetcs.so.1: `./etcs install --unproved DIR` builds it in minutes, unproved, with a wheel in DIR/python; ETCS_LIBRARY=FILE names another"


def _is_unproved(library):
    """Whether the library says so: etcs_version of one that is built without a proof ends with it."""
    with open(library, "rb") as file:
        return b" unproved\0" in file.read()


def _name(library):
    with open(os.path.join(HERE, "pyproject.toml"), encoding="utf-8") as file:
        version = re.search(r'^version = "(.*)"', file.read(), re.M).group(1)
    return f"etcs-{version}{'+unproved' * _is_unproved(library)}"


def _metadata(library):
    with open(os.path.join(HERE, "README.md"), encoding="utf-8") as file:
        text = file.read()
    name, version = _name(library).split("-")
    over = "a proved library"
    if _is_unproved(library):
        over = "an unproved build of its library"
        text = f"**Unproved**: the library in this wheel was built without the proof that is spoken of below.\n\n{text}"
    return f"Metadata-Version: 2.1\nName: {name}\nVersion: {version}\nSummary: Balise telegrams and radio messages of ETCS, over {over}\nRequires-Python: >=3.8\nDescription-Content-Type: text/markdown\n\n{text}"


def _library():
    for path in (os.environ.get("ETCS_LIBRARY"), os.path.join(HERE, "..", "out", "libetcs.so.1"), os.path.join(HERE, "src", "etcs", "libetcs.so.1")):
        if path and os.path.exists(path):
            return path
    sys.exit(MISSING)  # pip shows no traceback of that


def _sources():
    folder = os.path.join(HERE, "src", "etcs")
    return {f"etcs/{name}": os.path.join(folder, name) for name in sorted(os.listdir(folder)) if name.endswith((".py", ".typed"))}


def build_wheel(wheel_directory, config_settings=None, metadata_directory=None):
    return _wheel(wheel_directory, _library())


def _wheel(wheel_directory, library):
    parts = {}
    for name, path in {**_sources(), "etcs/libetcs.so.1": library}.items():
        with open(path, "rb") as file:
            parts[name] = file.read()
    info = f"{_name(library)}.dist-info"
    parts[f"{info}/METADATA"] = _metadata(library).encode()
    parts[f"{info}/WHEEL"] = f"Wheel-Version: 1.0\nGenerator: etcs\nRoot-Is-Purelib: false\nTag: {TAG}\n".encode()
    record = "".join(f"{name},sha256={base64.urlsafe_b64encode(hashlib.sha256(data).digest()).rstrip(b'=').decode()},{len(data)}\n" for name, data in parts.items())
    parts[f"{info}/RECORD"] = f"{record}{info}/RECORD,,\n".encode()
    wheel = f"{_name(library)}-{TAG}.whl"
    with zipfile.ZipFile(os.path.join(wheel_directory, wheel), "w", zipfile.ZIP_DEFLATED) as out:
        for name, data in parts.items():
            out.writestr(zipfile.ZipInfo(name, (1980, 1, 1, 0, 0, 0)), data, zipfile.ZIP_DEFLATED)
    return wheel


def build_sdist(sdist_directory, config_settings=None):
    library = _library()
    name = _name(library)
    with tarfile.open(os.path.join(sdist_directory, f"{name}.tar.gz"), "w:gz") as out:
        for path in ("pyproject.toml", "README.md", "backend.py"):
            out.add(os.path.join(HERE, path), f"{name}/{path}")
        for path, source in {**_sources(), "etcs/libetcs.so.1": library}.items():
            out.add(source, f"{name}/src/{path}")
        data = _metadata(library).encode()
        entry = tarfile.TarInfo(f"{name}/PKG-INFO")
        entry.size = len(data)
        out.addfile(entry, io.BytesIO(data))
    return f"{name}.tar.gz"


def _holds(wheel, library):
    """Whether the library in a wheel is this one."""
    with zipfile.ZipFile(wheel) as parts, open(library, "rb") as file:
        return parts.read("etcs/libetcs.so.1") == file.read()


def main(words):
    if len(words) != 2:
        sys.exit(__doc__)
    library, folder = words
    try:
        wheel = os.path.join(folder, _wheel(folder, library))
        if not _holds(wheel, library):
            sys.exit(f"bindings/install: {wheel} has another library than {library}")
    except OSError as error:
        sys.exit(f"bindings/install: no wheel: {error}")


if __name__ == "__main__":
    main(sys.argv[1:])
