#!/usr/bin/env python3
"""The built program's cases: what it writes on the words of a command line, and what each of its options changes.

    tests/program/program.py --program crates/iiif_serve/out/iiif_serve
    tests/program/program.py --program PROGRAM NAME ..    # the cases whose names have one of these in them
    tests/program/program.py --list

Needs `cc`, which builds pieces.c: where standard output has little room, it takes five bytes a write; reads.c, which counts reads; and
threads.c, which counts threads.

Tables of cases stand in cases/, in the words of tables.py; options.py has those of servers that listen, on 127.0.0.1 alone, control.py
those of servers that are told something meanwhile, and keeping.py those of what is kept for one answer. Each case runs in a room that holds
data/, the symbolic link linked.tif to the sample, and the 300 files numbered/N.tif: the sample, whose first two samples are N. Cases run
side by side. Of one that fails the name, the command, what was wanted and what came are printed; its room then stays, as the command needs
it. A case that `shows` words runs without them, too, and has to come to something else; `every_option_makes_a_difference` fails where an
option of --help or of the manual page has no case that shows it. The last line is
`N passed, M failed`; the status is 1 where one failed, or none ran.
"""
import argparse
import concurrent.futures
import os
import re
import resource
import shlex
import shutil
import signal
import socket
import struct
import subprocess
import sys
import tempfile
import time

import control
import keeping
import options
import tables

HERE = os.path.dirname(os.path.abspath(__file__))
MANUAL = os.path.join(HERE, "..", "..", "packaging", "iiif_serve.1")
EVERY = "every_option_makes_a_difference"
SECONDS = 120
# What standard output takes of a write, where it has little room.
PIECE = 5


class Failed(Exception):
    """A case that came to something else: the command, what was wanted, what came."""


def made_room():
    """A folder with the files that cases name."""
    room = tempfile.mkdtemp(prefix="program-cases-")
    shutil.copytree(f"{HERE}/data", room, dirs_exist_ok=True)
    with open(f"{room}/sample.tif", "rb") as file:
        sample = file.read()
    for name in ("pieces", "reads", "threads"):
        subprocess.run(["cc", "-O2", "-shared", "-fPIC", "-o", f"{room}/{name}.so", f"{HERE}/{name}.c", "-ldl"], check=True)
    os.symlink("sample.tif", f"{room}/linked.tif")
    os.mkdir(f"{room}/numbered")
    for n in range(300):
        with open(f"{room}/numbered/{n}.tif", "wb") as file:
            file.write(sample[:174] + struct.pack("<H", n) + sample[176:])
    return room


def limited(size):
    """Prepares a child before it becomes the program: its files take so many bytes, and a write beyond fails by EFBIG, not by a signal."""
    def set_limit():
        signal.signal(signal.SIGXFSZ, signal.SIG_IGN)
        resource.setrlimit(resource.RLIMIT_FSIZE, (size, size))
    return set_limit


def run(program, words, room):
    """Runs the program: its status, standard output and standard error."""
    done = subprocess.run([program, *words], cwd=room, stdin=subprocess.DEVNULL, capture_output=True, timeout=SECONDS)
    return done.returncode, done.stdout, done.stderr


def run_in_pieces(program, words, room, limit):
    """Runs the program with a standard output that takes so many bytes, a few a write."""
    with tempfile.TemporaryFile() as out, tempfile.TemporaryDirectory() as marks:
        pieces = {"LD_PRELOAD": f"{room}/pieces.so", "PIECES": str(PIECE), "PIECES_MARK": f"{marks}/mark"}
        how = {"cwd": room, "stdin": subprocess.DEVNULL, "stderr": subprocess.PIPE, "timeout": SECONDS, "env": {**os.environ, **pieces}}
        done = subprocess.run([program, *words], stdout=out, preexec_fn=limited(limit), restore_signals=False, **how)
        if not os.path.exists(f"{marks}/mark"):
            raise Failed("    it wasn't written in pieces: the program doesn't call the C library's write")
        out.seek(0)
        return done.returncode, out.read(), done.stderr


def came_to(listener, count):
    """Reads the first bytes that came to a listener: none where nobody connected."""
    listener.settimeout(0)
    try:
        link, _ = listener.accept()
    except BlockingIOError:
        return b""
    with link:
        link.settimeout(5)
        return link.recv(count, socket.MSG_WAITALL)


def outcome_of(program, words, room, case):
    """Runs a case's words: status, both outputs, and the bytes that came to the listener, where these are asked for."""
    with socket.socket() as listener:
        listener.bind(("127.0.0.1", 0))
        listener.listen()
        address = "127.0.0.1:%d" % listener.getsockname()[1]
        words = [word.replace("LISTENER", address) for word in words]
        got = run(program, words, room) if case.room is None else run_in_pieces(program, words, room, case.room)
        return got if case.asked is None else (*got, came_to(listener, max(len(case.asked), 1)))


def told(outcome):
    """An outcome for a reader, long outputs shortened."""
    names = ("status", "stdout", "stderr", "asked")
    return "\n".join(f"        {name} {it if isinstance(it, int) else shortened(it)}" for name, it in zip(names, outcome))


def shortened(data):
    """Bytes for a reader: an image by its samples, where nothing else is in its file."""
    told = tables.described(data) if data.startswith(b"II*\0") else None
    text = f"image {told}" if told else repr(data)[1:]
    return text if len(text) < 1200 else f"{text[:800]} .. {text[-300:]} ({len(data)} bytes)"


def check_table(case, program, room):
    """Runs a case of a table, and the same without what it shows."""
    command = f"cd {room} && {shlex.join([program, *case.words])}"
    if case.room is not None:
        command += f"    # standard output takes {case.room} bytes, {PIECE} at a time"
    got = outcome_of(program, case.words, room, case)
    want = (case.status, case.out, case.err) + (() if case.asked is None else (case.asked,))
    if case.begins is not None:
        want, got = (case.status, case.begins, case.err), (got[0], got[1][:len(case.begins)], got[2])
    if got != want:
        raise Failed(f"    {command}\n    got\n{told(got)}\n    want\n{told(want)}")
    if case.shows and outcome_of(program, case.without(), room, case) == got:
        raise Failed(f"    {command}\n    without {shlex.join(case.shows)} it comes to the same:\n{told(got)}")


def check_options(case, program, room):
    """Runs a case of options.py, which gives the outcomes that came and that were wanted, and the command."""
    got, want, command = case.check(program, room)
    if got != want:
        raise Failed(f"    {shlex.join(command)}\n    got     {got!r}\n    want    {want!r}")


def named(text):
    """Options that a text names."""
    return set(re.findall(r"(?<![\w-])--?[a-zA-Z][\w-]*", text))


def check_every(program, shown):
    """Checks that each option of the help and of the manual page has a case in which it makes a difference."""
    text = subprocess.run([program, "--help"], capture_output=True, text=True, timeout=SECONDS).stdout
    known = {word for head in re.findall(r"^ +((?:-\w, )?--[\w-]+)", text, re.M) for word in named(head)}
    with open(MANUAL, encoding="utf-8") as file:
        page = file.read().replace("\\-", "-").split(".SH OPTIONS")[1].split(".SH FILES")[0]
    heads = re.findall(r"^\.(?:B|BI|BR|IR) (.*)$", page, re.M)
    of_page = {word for head in re.findall(r"^\.TP\n(\..*)$", page, re.M) for word in named(head)}
    of_page |= {"NAME=FILE"} if any("NAME" in head for head in heads) else set()
    lacking = sorted((known | of_page) - shown)
    unknown = sorted(shown - known - of_page)
    if lacking or unknown or len(known) < 20 or len(of_page) < 20:
        told = f"help has {len(known)} options, the manual page {len(of_page)}"
        raise Failed(f"    no case shows {lacking}; cases show {unknown}, which is no option; {told}")


def checked(name, check, *given):
    """Runs a check: its name, whether it passed, how long it took, and the text of its failure."""
    begun = time.monotonic()
    try:
        check(*given)
        return name, True, time.monotonic() - begun, ""
    except Failed as failed:
        return name, False, time.monotonic() - begun, str(failed)
    except Exception as error:
        return name, False, time.monotonic() - begun, f"    {type(error).__name__}: {error}"


def main():
    parser = argparse.ArgumentParser(description=__doc__, formatter_class=argparse.RawDescriptionHelpFormatter)
    parser.add_argument("--program", default=f"{HERE}/../../crates/iiif_serve/out/iiif_serve")
    parser.add_argument("--list", action="store_true", help="print the names of all cases")
    parser.add_argument("--jobs", type=int, default=2 * (os.cpu_count() or 1), help="how many run side by side")
    parser.add_argument("--slowest", action="store_true", help="print what the slowest ten took")
    parser.add_argument("names", nargs="*", metavar="NAME")
    args = parser.parse_args()
    program, listening, plain = os.path.abspath(args.program), [*control.CASES, *keeping.CASES], tables.cases()
    # Those that wait longest begin first.
    every = [(it.name, check_options, it) for it in sorted(listening, key=lambda it: -it.seconds)]
    every += [(it.name, check_table, it) for it in plain]
    shown = {word for it in [*listening, *plain] for word in it.options()}
    names = [name for name, *_ in every] + [EVERY]
    if len(names) != len(set(names)):
        sys.exit("two cases have one name: " + ", ".join(sorted({it for it in names if names.count(it) > 1})))
    chosen = [name for name in names if not args.names or any(it in name for it in args.names)]
    if args.list:
        print("\n".join(chosen))
        return 0
    room, results = made_room(), []
    with concurrent.futures.ThreadPoolExecutor(args.jobs) as pool:
        waits = [pool.submit(checked, name, check, it, program, room) for name, check, it in every if name in chosen]
        waits += [pool.submit(checked, EVERY, check_every, program, shown)] if EVERY in chosen else []
        for wait in concurrent.futures.as_completed(waits):
            name, is_right, took, text = wait.result()
            results.append((took, name, is_right))
            if not is_right:
                print(f"FAILED {name}\n{text}", flush=True)
    for took, name, _ in sorted(results, reverse=True)[:10 if args.slowest else 0]:
        print(f"{took:6.2f} s {name}")
    failed = sum(not is_right for *_, is_right in results)
    if not failed:
        shutil.rmtree(room)
    print(f"{len(results) - failed} passed, {failed} failed")
    return 1 if failed or not results else 0


if __name__ == "__main__":
    sys.exit(main())
