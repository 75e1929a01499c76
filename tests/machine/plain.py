"""Whether the answers of replayed lists are those of the plain evaluation: of the whole picture first the region, then the size, the
rotation and the quality, with no tile, no sum, no table and no event.

    /usr/bin/python3 tests/machine/plain.py crates/iiif_replay/stdin crates/iiif_replay/stdout

The first file is the text of the lists, the second what `iiif_replay` wrote for it. An answer that differs is written, and ends it with status 1.
"""
import re
import sys
from urllib.parse import unquote

from lists import picture_text
from machine import crop, in_quality, resolved, scale, turn
from text import Text

WANT = re.compile(r"(\d+) want \d+ (\S+) (\S+ \S+ \S+ \S+): done$")
EVENT = re.compile(r"(\d+) .*: (?:done(?:: [a-z]+(?: \d+)*)?|not now)$")
ANSWER = re.compile(r"request (\d+): (image .*|refused .*|fault .*|none)$")


def answer_of(scene, name, request):
    """The image of a request, or its refusal."""
    picture = scene.pictures[name]
    r = resolved(scene, picture, request)
    if isinstance(r, str):
        return "refused " + r
    rect, size, by, quality = r
    return "image " + picture_text(in_quality(turn(scale(crop(picture, rect), size), by), quality))


def scenes(lines):
    """The scene of each list, by the number of each line of it."""
    found, text, first = {}, Text(), 1
    for number, line in enumerate(lines + ["world"], 1):
        words = line.split()
        if words == ["world"]:
            scene = text.scene()
            found.update((n, scene) for n in range(first, number + 1))
            text.begin()
            first = number + 1
        elif words and not words[0].startswith("#"):
            text.set(words)
    return found


def main():
    with open(sys.argv[1]) as lists, open(sys.argv[2]) as wrote:
        scene_at, lines = scenes(lists.read().splitlines()), wrote.read().splitlines()
    scene, wants, wrong, counts = None, [], 0, {}
    for line in lines:
        event, want, answer = EVENT.match(line), WANT.match(line), ANSWER.match(line)
        if event and scene_at[int(event[1])] is not scene:
            scene, wants = scene_at[int(event[1])], []
        if want:
            wants.append((unquote(want[2]), tuple(want[3].split())))
        elif answer:
            kind = answer[2].split()[0]
            counts[kind] = counts.get(kind, 0) + 1
            if kind in ("image", "refused") and answer[2] != answer_of(scene, *wants[int(answer[1])]):
                print("%s: %s, and not %s" % (wants[int(answer[1])], answer[2], answer_of(scene, *wants[int(answer[1])])))
                wrong += 1
    print(", ".join("%d %s" % (counts[kind], kind) for kind in sorted(counts)) + "; %d wrong" % wrong)
    return 1 if wrong or not counts.get("image") else 0


if __name__ == "__main__":
    sys.exit(main())
