"""Slices of a round that is too long for one run: `--slice K/N` of a tool's command line.

A round is a list of cases, each with a name and the seconds that it takes. It is cut into N slices of about equal seconds, the same ones
each time, and slice K runs whole. K counts from 0, so that the number of commits modulo N says which one is due; N is at most 10.
"""
import argparse
import re

MOST = 10


def slice_of(text):
    """K and N of `K/N`, as a type of argparse."""
    found = re.fullmatch(r"(\d{1,2})/(\d{1,2})", text)
    if not found or not int(found[1]) < int(found[2]) <= MOST:
        raise argparse.ArgumentTypeError(f"{text} isn't K/N with 0 <= K < N <= {MOST}")
    return int(found[1]), int(found[2])


def add_slice(parser):
    """Adds `--slice K/N` to a tool's options; all of a round is 0/1."""
    told = f"run slice K, from 0, of N (at most {MOST}); 0/1, a whole round, if left out"
    parser.add_argument("--slice", type=slice_of, default=(0, 1), metavar="K/N", help=told)


def cut(cases, count):
    """So many slices of pairs of a name and its seconds: the longest first, each to the slice that has least by then."""
    slices, sums = [[] for _ in range(count)], [0.0] * count
    for name, seconds in sorted(cases, key=lambda it: (-it[1], it[0])):
        least = sums.index(min(sums))
        slices[least].append(name)
        sums[least] += seconds
    return slices


def chosen(cases, which):
    """The names of slice K of N, in the order of the cases."""
    number, count = which
    mine = set(cut(cases, count)[number])
    return [name for name, _ in cases if name in mine]


def told(which, names):
    """The line that says which slice runs, and how many cases it has."""
    return f"slice {which[0]} of {which[1]}: {len(names)} cases"
