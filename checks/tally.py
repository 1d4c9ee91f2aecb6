"""Counts what passed and what failed, for the repository's own checks."""


class Tally:
    """The count of one check. Each failure is printed at once, with what was seen."""

    def __init__(self, title):
        self.title, self.passed, self.failed = title, 0, 0

    def count(self, name, good, *seen):
        if good:
            self.passed += 1
            return
        self.failed += 1
        print(": ".join([f"FAILED {name}", *(f"{it!r:.400}" for it in seen)]))

    def end(self):
        """Prints the count and gives the status to end with."""
        print(f"{self.title}: {self.passed} passed, {self.failed} failed")
        return 1 if self.failed else 0
