#!/usr/bin/env python3
"""Writes a wheel of the package with libdia in it, and its name on standard output.

    make_wheel.py LIBRARIES [FOLDER]

LIBRARIES is the folder with libdia.so.1 and libdia-breaking.so.1 (`lib` of `make -C c install`). The wheel is for each Python 3.9 or
later, on Linux with glibc 2.17 and this machine's processor (PEP 427, PEP 600). The same files make the same bytes."""

import base64
import hashlib
import pathlib
import platform
import re
import sys
import zipfile

HERE = pathlib.Path(__file__).resolve().parent
(VERSION,) = re.findall(r"^Version: (\S+)$", (HERE.parent.parent / "c/dia.pc.in").read_text(encoding="ascii"), re.M)
TAG = f"py3-none-manylinux_2_17_{platform.machine()}"
OBJECTS = ("libdia.so.1", "libdia-breaking.so.1")
METADATA = f"""Metadata-Version: 2.1
Name: wittalen
Version: {VERSION}
Summary: Dictionaries of Diameter, checks of messages, what breaks between two dictionaries, and connections, proved
Requires-Python: >=3.9
"""
WHEEL = f"""Wheel-Version: 1.0
Generator: make_wheel.py
Root-Is-Purelib: false
Tag: {TAG}
"""


def contents(libraries: pathlib.Path) -> "tuple[str, dict[str, bytes]]":
    """The folder of what describes the wheel, and the files of the wheel, but its record."""
    found = {f"wittalen/{file.name}": file.read_bytes() for file in sorted((HERE / "wittalen").iterdir()) if file.is_file()}
    found.update({f"wittalen/{name}": (libraries / name).read_bytes() for name in OBJECTS})
    about = f"wittalen-{VERSION}.dist-info"
    return about, {**found, f"{about}/METADATA": METADATA.encode(), f"{about}/WHEEL": WHEEL.encode()}


def record_of(files: "dict[str, bytes]", name: str) -> bytes:
    """A line for each file with its digest and size, and one for the record itself."""
    lines = [f"{file},sha256={digest_of(data)},{len(data)}\n" for file, data in files.items()]
    return "".join((*lines, f"{name},,\n")).encode()


def digest_of(data: bytes) -> str:
    return base64.urlsafe_b64encode(hashlib.sha256(data).digest()).rstrip(b"=").decode()


def main() -> None:
    if {"-h", "--help"} & set(sys.argv):
        print(__doc__)
        return
    if not 2 <= len(sys.argv) <= 3:
        sys.exit(__doc__)
    about, files = contents(pathlib.Path(sys.argv[1]))
    files[f"{about}/RECORD"] = record_of(files, f"{about}/RECORD")
    wheel = pathlib.Path(sys.argv[2] if len(sys.argv) == 3 else ".") / f"wittalen-{VERSION}-{TAG}.whl"
    with zipfile.ZipFile(wheel, "w", zipfile.ZIP_DEFLATED) as archive:
        for name, data in files.items():
            entry = zipfile.ZipInfo(name)
            entry.compress_type = zipfile.ZIP_DEFLATED
            entry.external_attr = 0o100644 << 16
            archive.writestr(entry, data)
    print(wheel)


main()
