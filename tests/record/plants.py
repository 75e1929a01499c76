#!/usr/bin/env python3
"""Builds wrong bodies of a node, each alone, and has a run of each judged: it has to be refused.

    tests/record/plants.py REPLAY               # all of plants.edits.md: REPLAY is iiif_replay
    tests/record/plants.py REPLAY --slice 2/8   # the one whose place, counted from 0, leaves 2 when divided by 8

Nothing is proved. The status is 0 where each is refused, else 1.
"""
import argparse
import os
import re
import shutil
import subprocess
import sys
import tempfile

HERE = os.path.dirname(os.path.abspath(__file__))
TOP = os.path.dirname(os.path.dirname(HERE))
# Runs in which each is refused, if it is ever; asks of other nodes need three.
RUNS = "three,one"


def plants():
    """Each plant's name, and its file with the pairs of texts."""
    with open(os.path.join(HERE, "plants.edits.md"), encoding="utf-8") as file:
        parts = re.split(r"(?m)^edit (\w+)$", file.read())[1:]
    for name, text in zip(parts[::2], parts[1::2]):
        yield name, re.search(r"file: (.*)", text)[1], re.findall(r"old: (.*)\n +new: (.*)", text)


def is_refused(replay, name, path, pairs):
    with tempfile.TemporaryDirectory(prefix="plant-") as room:
        tree = os.path.join(room, "tree")
        shutil.copytree(TOP, tree, ignore=shutil.ignore_patterns("out", ".git"))
        with open(os.path.join(tree, path), encoding="utf-8") as file:
            text = file.read()
        for old, new in pairs:
            if text.count(old) != 1:
                sys.exit("%s: %r stands %d times in %s" % (name, old, text.count(old), path))
            text = text.replace(old, new)
        with open(os.path.join(tree, path), "w", encoding="utf-8") as file:
            file.write(text)
        serve = os.path.join(room, "serve")
        if subprocess.call([sys.executable, os.path.join(HERE, "build.py"), "iiif_serve", serve, tree]):
            sys.exit("%s: isn't built" % name)
        done = subprocess.run([sys.executable, os.path.join(HERE, "run.py"), serve, replay, "--runs", RUNS, "--refused"], stdout=subprocess.PIPE, check=False)
        print("%s: %s" % (name, done.stdout.decode()), flush=True)
        return done.returncode == 0


def main():
    parser = argparse.ArgumentParser(description="Has runs of wrong bodies judged.")
    parser.add_argument("replay")
    parser.add_argument("--slice", default="0/1")
    arguments = parser.parse_args()
    rest, count = map(int, arguments.slice.split("/"))
    failed = [name for n, (name, path, pairs) in enumerate(plants()) if n % count == rest and not is_refused(arguments.replay, name, path, pairs)]
    print("%d not refused%s" % (len(failed), ": " + ", ".join(failed) if failed else ""))
    return int(bool(failed))


if __name__ == "__main__":
    sys.exit(main())
