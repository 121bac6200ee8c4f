"""How many tests of a script passed and failed, for its last line `N passed, M failed`."""

MOST_SHOWN = 20
"""How many failures are printed."""
LONGEST = 3000
"""How many characters of a failure are printed."""


class Count:
    def __init__(self):
        self.passed, self.failed = 0, 0

    def report(self, is_right, title, found=""):
        """Counts a test, prints what was found unless it is right, and answers whether it is."""
        self.passed, self.failed = self.passed + bool(is_right), self.failed + (not is_right)
        if not is_right and self.failed <= MOST_SHOWN:
            print(f"FAILED: {title}\n{found}".rstrip("\n")[:LONGEST])
        return bool(is_right)

    def expect(self, title, wanted, found):
        """Counts whether what was found is what was wanted."""
        return self.report(wanted == found, title, f"  wanted {repr(wanted)[:LONGEST // 2]}\n  found  {repr(found)[:LONGEST // 2]}")

    def add(self, other):
        self.passed, self.failed = self.passed + other.passed, self.failed + other.failed

    def end(self):
        """Prints the last line, and answers the exit status of the script."""
        print(f"{self.passed} passed, {self.failed} failed")
        return self.failed != 0
