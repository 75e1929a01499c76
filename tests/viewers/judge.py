"""What was tried, and how what was seen is compared."""


class Failed(Exception):
    """What was seen isn't what had to be."""


class Tried:
    """What was tried, told as it comes."""

    def __init__(self):
        self.passed, self.failed = 0, 0

    def case(self, name, judge):
        try:
            said = judge()
            self.passed += 1
            print(f"ok      {name}" + (f": {said}" if said else ""), flush=True)
        except Failed as failed:
            self.failed += 1
            print(f"FAILED  {name}: {failed}", flush=True)

    def told(self):
        """The last line, and the status."""
        print(f"{self.passed} passed, {self.failed} failed")
        return 1 if self.failed else 0


def equal(found, wanted, what="the picture"):
    """That a picture has these sides and pixels."""
    width, height, data = found
    if (width, height) != wanted[:2]:
        raise Failed(f"{what} has {width} by {height}, not {wanted[0]} by {wanted[1]}")
    if data != wanted[2]:
        at = next(i for i, (a, b) in enumerate(zip(data, wanted[2])) if a != b) // 4
        got, right = (tuple(of[4 * at:4 * at + 4]) for of in (data, wanted[2]))
        raise Failed(f"{what} differs at {at % width},{at // width}: {got}, not {right}")


def same(found, wanted, what):
    if found != wanted:
        raise Failed(f"{what} is {found!r}, not {wanted!r}")


def said_of(browser, address, words):
    """What a page says is wrong, in which these words must be."""
    browser.open(address)
    found = browser.wait("words", lambda: browser.text("#fault").strip() or None)
    if words not in found:
        raise Failed(found)
    return found
