"""The folder in which .ci/cases runs the program, and how its cases come out."""

import subprocess

REQUEST = "0100002c80000118000000000000000100000002000001084000000b612e6200000001284000000962000000"
"""A device watchdog request: Origin-Host `a.b`, Origin-Realm `b`."""


class Room:
    """Where the cases run, with their files, and how they came out."""

    def __init__(self, top, program, files):
        # The usage names the program by its file: each build runs under the one name.
        self.program = top / "diacmd"
        self.program.symlink_to(program)
        (top / "folder").mkdir()
        self.files = top / "files"
        self.files.mkdir()
        self.passed, self.failed = 0, 0
        for name, text in files.items():
            self.write(name, text and text + "\n")

    def write(self, name, text):
        (self.files / name).write_text(text)

    def check(self, words, status, out, stdin="", err=None, shell="exec \"$0\" \"$@\"", shown=None):
        """Runs the program with these words through the shell's words, and compares."""
        words = words.split() if isinstance(words, str) else words
        given = (stdin and stdin + "\n").encode()
        ran = subprocess.run(["bash", "-c", shell, self.program, *words], input=given, cwd=self.files, capture_output=True, timeout=120)
        wanted = {"status": status, "standard output": out, "standard error": err or ""}
        if err is None and status in (1, 2):
            # what is explained there, .ci/notes compares
            del wanted["standard error"]
        found = {"status": ran.returncode, "standard output": ran.stdout.decode(), "standard error": ran.stderr.decode()}
        self.report(shown or words, [(name, wanted[name], found[name]) for name in wanted if not is_as(found[name], wanted[name])])

    def answers(self, words, wanted, files, shown):
        """Runs the program over these files, and compares the status and the bytes that it writes."""
        for name, content in files.items():
            (self.files / name).write_bytes(content)
        ran = subprocess.run([self.program, *words], stdin=subprocess.DEVNULL, cwd=self.files, capture_output=True, timeout=120)
        found = f"{ran.returncode} ".encode() + ran.stdout
        is_right = found == (wanted if len(wanted) > 1 else wanted + b" ")
        self.report(shown, [] if is_right else [("status and standard output", wanted[:2000], found + ran.stderr)])

    def report(self, shown, wrong):
        self.passed, self.failed = self.passed + (not wrong), self.failed + bool(wrong)
        for name, wanted, found in wrong:
            print(f"FAILED: diacmd {shown}\n  wanted {name}\n{wanted}\n  found\n{str(found)[:2000]}")


def is_as(found, wanted):
    if isinstance(wanted, int):
        return found == wanted
    if wanted.endswith("..."):
        return found.startswith(wanted[:-3])
    return found == (wanted and wanted + "\n")


def device(name, said):
    return f"device failed\n{name}: {said}"


def missing(name):
    return device(name, "No such file or directory (os error 2)")


def folder(name):
    return device(name, "Is a directory (os error 21)")
