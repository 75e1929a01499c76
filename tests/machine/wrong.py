#!/usr/bin/env python3
"""Whether the machine's laws hold of no wrong definition: plants each of wrong.txt alone, in a copy of the tree in which the machine has none
of its proofs, and has the prover prove there that a law is false, by a worked list.

    python3 tests/machine/wrong.py            # all: a line each; status 1 where a law isn't refuted
    python3 tests/machine/wrong.py NAME ..    # these

So no older proof stands in the way: what refuses a definition is the law. Some twenty seconds each, and first the libraries below the
machine, where `rt ci` didn't leave them. In wrong.txt a definition turns texts of one file, each of which stands there once: `old:` and
`new:`, in which `\\n` ends a line.
"""
import pathlib
import shutil
import subprocess
import sys
import tempfile

HERE = pathlib.Path(__file__).resolve().parent
TOP = HERE.parent.parent
sys.path.insert(0, str(TOP / "tools" / "lib"))
import tree

LAWS = """//! A law that is false.

ghost use {module}.{{{name}}};

/// It is false.
pub fn refuted()
    ensures {{ ¬ {name} }}
{{}}
"""
ANSWER = """use {module}.{{{name}}}
use Rattle.iiif_machine.proofs.Refuted.{{refuted}}
use Rattle.iiif_machine.proofs.laws.refuted.Goals as goal

pub returns : goal.returns
returns c = refuted
"""
NO_LAWS = "//! No laws.\n"


def sections(text):
    """Each section's first line and the lines below it."""
    found = []
    for line in text.split("\n")[1:]:
        if line and not line.startswith(" "):
            found.append((line, []))
        elif found:
            found[-1][1].append(line.removeprefix("    "))
    return found


class Wrong:
    """A wrong definition: what it turns, the law, and the refutation."""

    def __init__(self, head, lines):
        self.name, _, self.what = head.removeprefix("wrong ").partition(": ")
        end = next(i for i, line in enumerate(lines) if line.startswith("law: "))
        words = [line.partition(": ")[::2] for line in lines[:end]]
        self.file = dict(words)["file"]
        turns = iter(text.replace("\\n", "\n") for word, text in words if word in ("old", "new"))
        self.turns = list(zip(turns, turns))
        self.module, self.law = lines[end].removeprefix("law: ").split()
        self.sound = lines[end + 1] == "sound"
        self.proof = "\n".join(lines[end + (2 if self.sound else 1):])


def read():
    """The lines that all share, those of sound worlds, and the wrong definitions."""
    found = sections((HERE / "wrong.txt").read_text())
    shared = {head: "\n".join(lines) for head, lines in found if not head.startswith("wrong ")}
    return shared["all:"], shared["sound:"], [Wrong(head, lines) for head, lines in found if head.startswith("wrong ")]


def opened():
    """The imports and the line by which worked lists compute."""
    text = (TOP / "crates/iiif_machine/proofs/WorkedLists.antt").read_text()
    text = text[:text.index("everything = 0\n")] + "everything = 0\n"
    return "\n".join(line for line in text.split("\n") if "specs.Worked." not in line and ".Common." not in line)


def bare(room, crate):
    """The crate as it stands, without its proofs."""
    folder = pathlib.Path(room, "crates", crate)
    for part in ("src", "specs", "proofs", "must-fail"):
        shutil.rmtree(folder / part, ignore_errors=True)
    for part in ("src", "specs"):
        shutil.copytree(TOP / "crates" / crate / part, folder / part)
    (folder / "src/laws.rt").write_text(NO_LAWS)
    return folder


def planted(room, wrong, shared, sound):
    """Puts the wrong definition and its refutation into the copy; whether what it turns stands there once."""
    if wrong.file.startswith("iiif_tables/"):
        bare(room, "iiif_tables")
    folder = bare(room, "iiif_machine")
    file = pathlib.Path(room, "crates", wrong.file)
    text = file.read_text()
    if any(text.count(old) != 1 for old, new in wrong.turns):
        return False
    for old, new in wrong.turns:
        text = text.replace(old, new)
    file.write_text(text)
    (folder / "src/laws.rt").write_text(LAWS.format(module=wrong.module, name=wrong.law))
    answers = folder / "proofs/laws/refuted"
    answers.mkdir(parents=True)
    (answers / "Answers.antt").write_text(ANSWER.format(module=wrong.module, name=wrong.law))
    (folder / "proofs/Lib.antt").write_text("pub mod Refuted\n")
    lines = "\n".join([opened(), shared, sound if wrong.sound else "", wrong.proof]).split("\n")
    # Imports stand above all else.
    ordered = [line for line in lines if line.startswith("use ")] + [line for line in lines if not line.startswith("use ")]
    (folder / "proofs/Refuted.antt").write_text("\n".join(ordered))
    return True


def refuted(room, wrong, shared, sound):
    """Whether the law is false of that definition; and what was said."""
    if not planted(room, wrong, shared, sound):
        return False, "what it turns doesn't stand there once"
    run = subprocess.run(["rt", "check", "--jobs", "1", "--only", "refuted"], cwd=f"{room}/crates/iiif_machine", stdout=subprocess.PIPE,
                         stderr=subprocess.STDOUT, text=True, errors="replace")
    return run.returncode == 0 and "fn iiif_machine::laws::refuted: proved\n" in run.stdout, run.stdout


def main(words):
    shared, sound, all_wrong = read()
    chosen = [wrong for wrong in all_wrong if not words or wrong.name in words]
    if not chosen or len(words) > len(chosen):
        print(__doc__, file=sys.stderr)
        return 2
    failed = 0
    with tempfile.TemporaryDirectory(prefix="wrong-") as room:
        for name in ("crates.txt", "HANDLES"):
            shutil.copy(TOP / name, room)
        for crate in tree.crates():
            shutil.copytree(TOP / "crates" / crate, f"{room}/crates/{crate}", ignore=shutil.ignore_patterns("out"))
        tree.give_libraries(room, set(tree.below("iiif_machine")) - {"iiif_machine"})
        # Those of the table last: it is proved anew for them.
        for wrong in sorted(chosen, key=lambda it: it.file.startswith("iiif_tables/")):
            well, said = refuted(room, wrong, shared, sound)
            print(f"{wrong.name}: {'refuted: ' + wrong.law if well else 'NOT REFUTED'}: {wrong.what}", flush=True)
            if not well:
                print(said[-3000:])
                failed += 1
    print(f"wrong definitions: {len(chosen)} planted, of {len(chosen) - failed} a law is false, of {failed} none")
    return 1 if failed else 0


if __name__ == "__main__":
    sys.exit(main(sys.argv[1:]))
