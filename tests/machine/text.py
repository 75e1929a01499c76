"""What a text of lists comes to, by the evaluation of the definitions in Python: writes what `iiif_replay` has to write for it.

    /usr/bin/python3 tests/machine/text.py --go-on < crates/iiif_replay/stdin
    tests/machine/text.py --records LIST NODE RECORD..      # compares records, too, as iiif_replay does

The words of each line are those of docs/theorem/MACHINE.md, Replaying a list. A line that is no setting and no event ends it with status 2; and an
event that isn't allowed with status 3, where it isn't told to go on.
"""
import sys
from urllib.parse import unquote

from lists import answer_text, rows
from machine import Node, Scene, World

NUMBERED = ("enter", "again", "ask_peer", "serve", "reply", "lose", "go_local", "load", "stop")


def name_of(word):
    """The name for which a word stands, percent-decoded."""
    return unquote(word, errors="strict")


def numbers(words):
    return [int(word) for word in words]


def picture_of(words):
    """gray|rgb 8|16 WIDTH HEIGHT, and blank or SAMPLE.."""
    kind, bits, w, h, *samples = words
    channels, count = {"gray": 1, "rgb": 3}[kind], int(w) * int(h) * {"gray": 1, "rgb": 3}[kind]
    all_of = [0] * count if samples == ["blank"] else numbers(samples)
    if len(all_of) != count:
        raise ValueError(count)
    return (int(w), int(h), channels, {"8": 255, "16": 65535}[bits], tuple(all_of))


def keys_of(words):
    """Keys, one behind another: `tile` and 4 words, or `sum` and 11."""
    if not words:
        return []
    if words[0] == "tile":
        return [("tile", name_of(words[1]), *numbers(words[2:5]))] + keys_of(words[5:])
    edge, x, y, w, h, columns, lines, level, bx, by = numbers(words[2:12])
    return [("sum", name_of(words[1]), edge, (x, y, w, h), (columns, lines), level, bx, by)] + keys_of(words[12:])


class NotNow(Exception):
    """An event isn't allowed."""


class Text:
    """The lists of a text, line by line."""

    def __init__(self, goes_on=True):
        self.goes_on = goes_on
        self.begin()

    def begin(self):
        self.pictures, self.nodes, self.world = {}, [], None
        self.edge, self.limits, self.room, self.faults_early = 256, (4096, 4096, False), 65536, False

    def set(self, words):
        """Whether the words describe the world."""
        kind, rest = words[0], words[1:]
        if kind == "edge":
            self.edge, = numbers(rest)
        elif kind == "room":
            self.room, = numbers(rest)
        elif kind == "faults":
            if rest != ["early"]:
                raise ValueError(kind)
            self.faults_early = True
        elif kind == "limits":
            self.limits = (*numbers(rest[:2]), rest[2:] == ["upscale"])
        elif kind == "picture":
            self.pictures.setdefault(name_of(rest[0]), picture_of(rest[1:]))
        elif kind == "node":
            version, limit, room = numbers(rest[1:4])
            if room == 0:
                raise ValueError(kind)
            self.nodes.append(Node(name_of(rest[0]), [name_of(word) for word in rest[4:]], version, limit, room))
        else:
            return False
        return True

    def event(self, words):
        kind, rest = words[0], words[1:]
        if kind == "want":
            return (kind, int(rest[0]), name_of(rest[1]), tuple(rest[2:]))
        if kind == "land":
            return (kind, int(rest[0]), {"kept": True, "dropped": False}[rest[1]])
        if kind == "evict":
            return (kind, int(rest[0]), keys_of(rest[1:]))
        if kind in ("take", "source_fault") + NUMBERED:
            return (kind, *numbers(rest))
        raise ValueError(kind)

    def scene(self):
        return Scene(self.pictures, self.edge, self.limits, self.room, self.faults_early)

    def begun(self):
        if self.world is None:
            self.world = World(self.scene(), self.nodes)
        return self.world

    def ended(self):
        """The answers, a line a request."""
        for n, (_, _, progress) in enumerate(self.world.requests if self.world else []):
            yield "request %d: %s" % (n, answer_text(progress[1]) if progress[0] == "answered" else "none")

    def line(self, number, line):
        """What a line comes to."""
        words = line.split()
        if not words or words[0].startswith("#"):
            return
        if words == ["world"]:
            yield from self.ended()
            self.begin()
        elif words == ["rows"]:
            yield from rows(self.begun())
        elif self.world is not None or not self.set(words):
            done, told = self.begun().told(self.event(words))
            yield "%d %s: %s" % (number, line.strip(), told)
            if not done and not self.goes_on:
                raise NotNow


def steps_of(path):
    """The steps of a record, and that its node was stopped; none, where it has no step."""
    with open(path, "rb") as file:
        lines = file.read().split(b"\n")[:-1]
    steps = [line.partition(b" ")[2] for line in lines if line[:1].isdigit()]
    return steps + [b"stopped"] if steps else []


def compared(wrote, words):
    """The first node whose records are none of what was written, with the reason."""
    runs = {}
    for node, path in zip(words[::2], words[1::2]):
        runs.setdefault(node, []).append(steps_of(path))
    for node, records in runs.items():
        mark = "> %s " % node
        machine = [line[len(mark):].encode() for text in wrote for line in text.split("\n") if line.startswith(mark)]
        if [] in records:
            return "node %s: no step is recorded" % node
        if machine != sum(records, []):
            return "node %s: it has other steps than its record" % node
    return None


def main():
    text = Text("--go-on" in sys.argv)
    records = sys.argv[3:] if sys.argv[1:2] == ["--records"] else []
    all_wrote = []
    for number, line in enumerate(open(sys.argv[2], encoding="utf-8") if records else sys.stdin, 1):
        try:
            for wrote in text.line(number, line):
                print(wrote)
                all_wrote.append(wrote)
        except (ValueError, KeyError, IndexError, TypeError):
            print("line %d" % number, file=sys.stderr)
            return 2
        except NotNow:
            print("line %d: not now" % number, file=sys.stderr)
            return 3
    for wrote in text.ended():
        print(wrote)
    why = compared(all_wrote, records)
    if why:
        print(why, file=sys.stderr)
        return 4
    return 0


if __name__ == "__main__":
    sys.exit(main())
