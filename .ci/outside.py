"""What the scripts share that try libdia in other programs: the tools that are there, the library, counts, and messages."""

import pathlib
import shutil
import struct
import subprocess

from counts import LONGEST, Count

TOP = pathlib.Path(__file__).resolve().parent.parent
C = TOP / "c"
PROVED = TOP / "crates/dia_c/out/libdia_c.a"
MANDATORY, REQUEST, PROXIABLE, ERROR = 0x40, 0x80, 0x40, 0x20


class Counts(Count):
    """How much passed and failed, also of commands that are run."""

    def run(self, title, words, status=0, **more):
        """Runs a command, counts whether its status is right, and gives its standard output."""
        how = {"stdout": subprocess.PIPE, "stderr": subprocess.PIPE, "timeout": 300, **more}
        try:
            done = subprocess.run([str(word) for word in words], **how, check=False)
        except (OSError, subprocess.TimeoutExpired) as error:
            self.report(False, title, error)
            return b""
        said = (done.stdout + (done.stderr or b"")).decode(errors="replace")
        self.report(done.returncode == status, title, f"status {done.returncode}\n{said[-LONGEST:]}")
        return done.stdout


def has(tools, what):
    """Whether the tools are there. What isn't tried without them is reported."""
    missing = [tool for tool in tools if not shutil.which(tool)]
    if missing:
        print(f"skipped: {what}: there is no {', '.join(missing)}")
    return not missing


def has_package(package, what):
    """Whether pkg-config knows a package of files to build with."""
    if not has(("pkg-config",), what):
        return False
    found = subprocess.run(("pkg-config", "--exists", package), check=False).returncode == 0
    if not found:
        print(f"skipped: {what}: there is no package {package}")
    return found


def library(counts, room, proved=PROVED):
    """libdia.a, made in this folder of the proved archive."""
    counts.run("make libdia.a", ("make", "-s", "-C", C, f"PROVED={pathlib.Path(proved).resolve()}", f"OUT={room}", room / "libdia.a"))
    return room / "libdia.a"


def avp(code, data, flags=MANDATORY):
    return struct.pack(">II", code, flags << 24 | 8 + len(data)) + data + bytes(-len(data) % 4)


def number(value):
    return struct.pack(">I", value)


def message(code, application, flags, identifier, *avps):
    """A message with the header of RFC 6733 section 3, and one number as both identifiers."""
    body = b"".join(avps)
    return struct.pack(">IIIII", 1 << 24 | 20 + len(body), flags << 24 | code, application, identifier, identifier) + body


def avps(data, at=20):
    """The AVPs of a message or, from 0, of a group: their codes and their data."""
    while at < len(data):
        length = int.from_bytes(data[at + 5:at + 8], "big")
        head = 12 if data[at + 4] & 0x80 else 8
        yield int.from_bytes(data[at:at + 4], "big"), data[at + head:at + length]
        at += length + -length % 4
