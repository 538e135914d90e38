"""What a check of contrib/ counts and says."""


class Told:
    """What was as wanted is counted, and what was not is said, in a line."""

    def __init__(self):
        self.passed = self.failed = 0

    def same(self, what, got, wanted):
        if got == wanted:
            self.passed += 1
        else:
            self.failed += 1
            print(f'contrib/{what}: it was {got!r}, and had to be {wanted!r}')
