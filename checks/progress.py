"""How far a long check is: a line a minute, on standard error."""
import sys
import time

EACH = 60


class Progress:
    """So many steps are to be taken; `step` takes one, and says now and then how far it is."""

    def __init__(self, whole, what):
        self.whole, self.what, self.taken = whole, what, 0
        self.begun = self.said = time.monotonic()

    def step(self):
        self.taken += 1
        now = time.monotonic()
        if now - self.said >= EACH:
            self.said = now
            print(f"   {self.taken} of {self.whole} {self.what}, {(now - self.begun) / 60:.0f} minutes", file=sys.stderr, flush=True)
