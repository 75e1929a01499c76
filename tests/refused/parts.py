"""Cases of refused memory, and the seconds that each takes."""
import os

SECONDS = os.path.join(os.path.dirname(os.path.abspath(__file__)), "seconds.txt")
# Of a case that seconds.txt doesn't have.
USUAL = 1.0


class Part:
    """A case: its kind, its name, and the function of a control and a folder that gives what came, by kinds, and what is wrong."""

    def __init__(self, kind, name, run):
        self.kind, self.name, self.run = kind, name, run


def read_seconds():
    """The seconds of cases, by name."""
    if not os.path.exists(SECONDS):
        return {}
    with open(SECONDS, encoding="utf-8") as file:
        rows = [line.rstrip("\n").split(" ", 1) for line in file if line[0] != "#"]
    return {name: float(seconds) for seconds, name in rows}


KNOWN = read_seconds()


def seconds_of(part):
    return KNOWN.get(part.name, USUAL)


def write_seconds(took):
    """Puts the seconds of these cases in place of those that were known."""
    KNOWN.update(took)
    with open(SECONDS, "w", encoding="utf-8") as file:
        file.write("# Seconds of each case, by which slices are cut: `refused.py --note` writes them.\n")
        file.writelines(f"{seconds:.1f} {name}\n" for name, seconds in sorted(KNOWN.items()))
