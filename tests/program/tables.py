"""Cases of tables: the words of a command line, and the output and status that they come to.

A case is its name, and below it a line KEY: VALUE for each of these, of which those of one key are joined:

    words:   the words of the command line, as a shell reads them
    repeat:  COUNT WORD .., where {0} stands for 0, 1 and so on: more words, so many times
    room:    the bytes that standard output takes, five at a time; all, where it is left out
    status:  0, where it is left out
    text:    what standard output has, in quotation marks
    json:    the same as it stands, without quotation marks
    image:   W by H KIND: SAMPLE .., instead, where it is such a TIFF file; 9*0 stands for nine zeros
    digits:  the same, where it is such a file in hexadecimal digits, sixteen bytes a line
    begins:  how standard output begins, instead
    stderr:  what standard error has, nothing where it is left out
    asked:   the first bytes that come to LISTENER, an address that stands among the words; `nothing` where none do
    shows:   words without which the outcome has to be another

With little room standard output has the front of what is told.
"""
import ast
import glob
import os
import re
import shlex
import sys

HERE = os.path.dirname(os.path.abspath(__file__))
sys.path.insert(0, os.path.dirname(HERE))
from hostile.images import file_of  # noqa: E402
from hostile.tiff import Picture, judge  # noqa: E402

KINDS = {"gray": (1, 8), "RGB": (3, 8), "gray of 16 bits": (1, 16), "bits": (1, 1)}
KEYS = ("words", "repeat", "room", "status", "text", "json", "image", "digits", "begins", "stderr", "asked", "shows")


class Shape:
    """Channels and bits a sample of a picture."""

    def __init__(self, channels, bits):
        self.channels, self.bits = channels, bits


def image(text):
    """The file of an image that is told as `2 by 1 gray: 0 255`."""
    sides, samples = text.split(":")
    width, height, kind = re.fullmatch(r"(\d+) by (\d+) (.*)", sides).groups()
    channels, bits = KINDS[kind]
    values = []
    for word in samples.split():
        count, _, value = word.rpartition("*")
        values += [int(value)] * int(count or 1)
    width, height = int(width), int(height)
    if len(values) != width * height * channels:
        raise ValueError(f"{text}: {len(values)} samples")
    places = [values[at:at + channels] for at in range(0, len(values), channels)]
    rows = [places[at:at + width] for at in range(0, len(places), width)]
    return file_of(rows, "bitonal" if bits == 1 else "default", Shape(channels, bits))


def described(data):
    """A file of an image as a table tells it, None where it is none that is answered."""
    found = judge(data)
    if not isinstance(found, Picture) or (found.channels, found.bits) not in KINDS.values():
        return None
    kind = next(kind for kind, it in KINDS.items() if it == (found.channels, found.bits))
    samples = [sample for row in found.rows(0, 0, found.width, found.height) for place in row for sample in place]
    text = f"{found.width} by {found.height} {kind}: {' '.join(map(str, samples))}"
    return text if image(text) == data else None


def digits(data):
    """Bytes as hexadecimal digits, sixteen a line."""
    return b"".join(data[at:at + 16].hex(" ").encode() + b"\n" for at in range(0, len(data), 16))


def quoted(text):
    """The bytes of literals that stand in quotation marks."""
    return b"".join(ast.literal_eval("b" + part) for part in re.findall(r'"(?:[^"\\]|\\.)*"', text))


class Case:
    """A case of a table."""

    def __init__(self, name, keys):
        def told(key, otherwise=""):
            return " ".join(keys.get(key, [otherwise]))

        self.name, self.keys = name, keys
        self.words = shlex.split(told("words"))
        for line in keys.get("repeat", []):
            count, *words = line.split()
            self.words += [word.format(n) for n in range(int(count)) for word in words]
        self.room = int(told("room")) if "room" in keys else None
        self.status = int(told("status", "0"))
        self.begins = quoted(told("begins")) if "begins" in keys else None
        self.out = quoted(told("text"))
        if "json" in keys:
            self.out = "".join(keys["json"]).encode()
        if "image" in keys:
            self.out = image(told("image"))
        if "digits" in keys:
            self.out = digits(image(told("digits")))
        if self.room is not None:
            self.out = self.out[:self.room]
        self.err = quoted(told("stderr"))
        self.asked = (b"" if told("asked") == "nothing" else quoted(told("asked"))) if "asked" in keys else None
        self.shows = shlex.split(told("shows"))

    def options(self):
        """Option that makes a difference here, in a list; an image's word has no name of its own."""
        return [word if word.startswith("-") else "NAME=FILE" for word in self.shows[:1]]

    def without(self):
        """The words without those that it shows."""
        for at in range(len(self.words)):
            if self.words[at:at + len(self.shows)] == self.shows:
                return self.words[:at] + self.words[at + len(self.shows):]
        raise ValueError(f"{self.name}: {self.shows} isn't among its words")


def read(path):
    """The cases of a table."""
    found, name, keys = [], None, {}
    with open(path, encoding="utf-8") as file:
        lines = file.read().splitlines()
    for number, line in enumerate([*lines, "END"], 1):
        if not line or line.startswith("#"):
            continue
        if not line.startswith(" "):
            if name:
                found.append(Case(name, keys))
            name, keys = line, {}
            continue
        key, _, value = line.strip().partition(":")
        if key not in KEYS:
            raise ValueError(f"{path}, line {number}: {key} is no key")
        keys.setdefault(key, []).append(value.strip())
    return found


def cases():
    """The cases of all tables."""
    return [case for path in sorted(glob.glob(f"{HERE}/cases/*.txt")) for case in read(path)]
