#!/usr/bin/env python3
"""Makes the page, one file that needs no other and no connection.

    web/bundle.py MODULE PAGE

MODULE is diacmd.wasm. In PAGE are the module, the worker and the dictionaries, each compressed; the scripts of web/page, one after
another; the policy by which the browser runs no other script, and opens no connection; and the commit of its sources."""

import base64
import gzip
import hashlib
import html
import json
import pathlib
import re
import subprocess
import sys

HERE = pathlib.Path(__file__).resolve().parent
TOP = HERE.parent
PAGE = HERE / "page"
KEPT = HERE / "wittalen.html"
"""The page in the repository: no source of itself."""

DICTIONARIES = TOP / "dictionaries"
SCRIPTS = (TOP / "integrations/report/report.js", *(PAGE / f"{name}.js" for name in (
    "dom", "program", "places", "pane", "message", "breaks", "check", "others", "connection", "reports", "link", "examples", "main")))
"""In this order: main.js starts the page."""

JOINED = ("nas-4005.txt", "cc-4006.txt", "ietf.txt", "policy-and-charging.txt")
"""Those of the README's dictionaries that the file `together` doesn't have, and a choice has."""


def read(file):
    return file.read_text(encoding="utf-8")


def indented(document, before):
    """The indented lines that follow a line of a document."""
    block = re.search(r"\n\n((?:    .*\n)+)", document[document.index(before):]).group(1)
    return re.sub("^    ", "", block, flags=re.M)


def together():
    """The dictionaries of several files: each with its parts."""
    parts = dict(line.split(": ") for line in read(DICTIONARIES / "together").splitlines())
    for line in re.findall(r"^    \$ cat ([\w .-]+) > ([\w.-]+)$", read(DICTIONARIES / "README.md"), re.M):
        if line[1] in JOINED:
            parts[line[1]] = line[0]
    return {name: words.split() for name, words in parts.items()}


def examples():
    """The texts of the examples: those of README.md and UPGRADING.md, a message, and a connection."""
    readme, upgrading = read(TOP / "README.md"), read(TOP / "docs/UPGRADING.md")
    receiver = indented(readme, "The receiver's dictionary is `b.txt`:")
    return {
        "readme-a.txt": receiver.replace("*3 [", "* ["), "readme-b.txt": receiver, "usage.hex": indented(readme, "This one, `usage.hex`,"),
        "main.txt": indented(upgrading, "For example, `main.txt` is"), "next.txt": indented(upgrading, "and the change is `next.txt`:"),
        "ulr.txt": read(DICTIONARIES / "examples/ulr.txt"), "connection.txt": read(PAGE / "connection.txt"),
    }


def faults():
    """The table of what breaks, with its fixes."""
    text = read(TOP / "docs/FAULTS.md")
    return text[text.index("| Line | What breaks | Fix in B | Fix in A |"):].split("\n\n")[0] + "\n\n"


def data():
    shipped = {file.name: read(file) for file in sorted(DICTIONARIES.glob("*.txt")) if file.name != "differences.txt"}
    return {"files": {**shipped, **examples()}, "together": together(), "faults": faults()}


def packed(content):
    return base64.b64encode(gzip.compress(content, 9, mtime=0)).decode()


def digest(text):
    return "'sha256-" + base64.b64encode(hashlib.sha256(text.encode()).digest()).decode() + "'"


def policy(script, style):
    return ("default-src 'none'; script-src " + digest(script) + " 'wasm-unsafe-eval'; style-src " + digest(style)
            + "; worker-src blob:; img-src data:; base-uri 'none'; form-action 'none'")


def git(*words):
    """What git writes about the sources, or nothing where they are no clone."""
    command = ("git", "-C", TOP, *words, "--", ".", f":!{KEPT.relative_to(TOP)}")
    try:
        return subprocess.run(command, stdout=subprocess.PIPE, stderr=subprocess.DEVNULL, text=True, check=True).stdout.strip()
    except (OSError, subprocess.CalledProcessError):
        return ""


def commit():
    """The commit that last changed the sources, or nothing where they aren't those of a commit."""
    return "" if git("status", "--porcelain") else git("log", "-1", "--format=%H")


def build(module):
    sources = commit()
    return (f"Its sources are those of commit {sources}. " if sources else "") + (
        f"The module has {len(module):,} bytes; its SHA-256 is {hashlib.sha256(module).hexdigest()}.")


def page(module):
    script, style = "".join(map(read, SCRIPTS)), read(PAGE / "style.css")
    contents = {"module": module, "worker": read(PAGE / "worker.js").encode(), "data": json.dumps(data()).encode()}
    values = {
        "POLICY": html.escape(policy(script, style), quote=False), "STYLE": style, "SCRIPT": script,
        "BUILD": build(module),
        "DATA": "\n".join(f'<script type="text/plain" id="{name}">{packed(content)}</script>' for name, content in contents.items()),
    }
    return re.sub("|".join(f"%{name}%" for name in values), lambda found: values[found.group(0).strip("%")], read(PAGE / "index.html"))


def main():
    module, out = map(pathlib.Path, sys.argv[1:])
    out.write_text(page(module.read_bytes()), encoding="utf-8")
    print(f"web/bundle.py: {out}, {out.stat().st_size:,} bytes", file=sys.stderr)


if __name__ == "__main__":
    main()
