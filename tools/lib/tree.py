"""What the tools read of this tree: crates and their sections, functions with their contracts, definitions of specs/."""
import functools
import os
import re
import shutil
import subprocess
import sys
from dataclasses import dataclass, field
from pathlib import Path

TOP = Path(__file__).resolve().parents[2]


def is_test(crate):
    """Whether a crate has worked examples and promises nothing."""
    return crate == "iiif_examples"


@functools.cache
def sections():
    """The crates of each section of crates.txt, in its order: a section begins with a line `# == NAME`."""
    found, here = {}, "Crates"
    for line in (TOP / "crates.txt").read_text().splitlines():
        if line.startswith("# == "):
            here = line[5:].strip()
        elif line and not line.startswith("#"):
            found.setdefault(here, []).append(line.split(":")[0].split()[0])
    return found


@functools.cache
def crates():
    """Each crate and the libraries that its line names, the crates of this tree and others."""
    lines = [line for line in (TOP / "crates.txt").read_text().splitlines() if line and not line.startswith("#")]
    return {line.split(":")[0].split()[0]: line.split(":")[1].split() for line in lines}


@functools.cache
def tracked():
    """The files of the tree: those of the last commit and new ones that git doesn't ignore."""
    names = (
        subprocess.run(["git", "ls-files", "-co", "--exclude-standard", "-z"], cwd=TOP, capture_output=True, check=True)
        .stdout.decode()
        .split("\0")
    )
    return sorted(name for name in names if name and (TOP / name).is_file())


# The edits of a crate that stand beside the gate; rt takes any file of must-fail/ for a bad edit but `*.edit` and `*.md`.
MORE = "more.edits.md"


@dataclass
class Edit:
    name: str
    words: str  # what it turns
    text: str  # its lines `file:`, `old:`, `new:`, as an .edit has them


@functools.cache
def more_edits(crate):
    """The edits of a crate's file MORE: a line `edit NAME: what it turns`, and below it the lines of an .edit, each four columns in."""
    path, found = TOP / "crates" / crate / "must-fail" / MORE, []
    for line in path.read_text().splitlines() if path.exists() else []:
        begun = re.fullmatch(r"edit ([\w-]+): (.+)", line)
        if begun:
            found.append(Edit(begun[1], begun[2], ""))
        elif line.startswith("    ") and found:
            found[-1].text += f"{line[4:]}\n"
    return found


def gate_edits(crate):
    """The edits of a crate that `rt ci` tries."""
    return sorted((TOP / "crates" / crate / "must-fail").glob("*.edit"))


def below(crate):
    """The crate and all of this tree that it stands on."""
    found = [crate]
    for it in found:
        found += [low for low in crates()[it] if low in crates() and low not in found]
    return found


def sentence(lines):
    """The first sentence of a comment's lines: what stands above a line that has nothing, at most."""
    lines = lines[: lines.index("")] if "" in lines else lines
    text = re.sub(r"\s+", " ", " ".join(lines)).strip()
    found = re.match(r"(.*?[.:?!])(?= [A-Z(`]|$)", text)
    return found[1] if found else text


def head(path):
    """The first sentence of a file's own comment (`//!` or `--`)."""
    lines = []
    for line in path.read_text().splitlines():
        if not line.startswith(("//! ", "-- ")):
            break
        lines.append(line[3:].strip())
    return sentence(lines)


@dataclass
class Clause:
    label: str  # "" where it is the only one
    text: str
    words: str  # the comment above it
    parts: dict = field(default_factory=dict)  # the fields of the record that it names, each with its text


@dataclass
class Function:
    crate: str
    path: str  # the name as it is called, such as iiif_ring::Ring::owner
    file: str
    words: str
    public: bool
    clauses: list = field(default_factory=list)

    @property
    def name(self):
        return self.path.rsplit("::", 1)[1]


def without_generics(text):
    """The text without what stands in balanced angle brackets."""
    out, depth, last = [], 0, ""
    for it in text:
        if it == "<":
            depth += 1
        elif it == ">" and last != "-":
            depth -= 1
        elif depth == 0:
            out.append(it)
        last = it
    return "".join(out)


def owner_of(header):
    """The type that an `impl` or a `trait` is of."""
    text = without_generics(re.sub(r"\s+", " ", header).replace("impl", "impl ", 1))
    text = text.split(" where ")[0].split("{")[0]
    if " for " in text:
        text = text.split(" for ", 1)[1]
    text = re.sub(r"^(pub(\([^)]*\))? )?(impl|trait)\b", "", text.strip()).split(":")[0]
    words = re.findall(r"[A-Za-z_]\w*", text)
    return words[0] if words else ""


def modules(crate):
    """The modules that are public, and the names that the crate hands on, each with how it is called: from lib.rt, as deep as it goes."""
    source = TOP / "crates" / crate / "src"
    public, handed = {""}, {}
    lib = source / "lib.rt"
    if not lib.exists():
        return public, handed
    text = lib.read_text()
    public |= set(re.findall(r"^pub mod (\w+);", text, re.M))
    for path, names in re.findall(r"^pub use (?:crate::)?([\w:]+)::\{([^}]*)\};", text, re.M):
        handed |= {name.split(" as ")[0].strip(): f"{crate}::{name.split(' as ')[-1].strip()}" for name in names.split(",") if name.strip()}
    for path, name in re.findall(r"^pub use (?:crate::)?([\w:]+)::(\w+);", text, re.M):
        handed[name] = f"{crate}::{name}"
    return public, handed


FUNCTION = re.compile(r"^(\s*)(pub(?:\([^)]*\))? )?(?:const )?(?:unsafe )?fn (\w+)")
CLAUSE = re.compile(r"^\s*(ensures|requires)\*?\s*(\w*)\s*\{")


def balanced(lines, at, column):
    """What stands from the brace at that place to the one that closes it; and the line where it ends."""
    depth, text = 0, []
    while at < len(lines):
        for n, it in enumerate(lines[at][column:]):
            if it == "{":
                depth += 1
            elif it == "}":
                depth -= 1
                if depth == 0:
                    return "".join(text)[1:].strip(), at, lines[at][column + n + 1 :]
            text.append(it)
        text.append(" ")
        at, column = at + 1, 0
    return "".join(text), at, ""


RECORD = re.compile(r"^(\s*)pub record ([^\s:({]+)")
FIELD = re.compile(r"^\s+pub (\w+) : (.*)")


@functools.cache
def records(crate):
    """The records of specs/ by module and name, each with its fields and their texts."""
    specs, found = TOP / "crates" / crate / "specs", {}
    for file in sorted(specs.rglob("*.antt")) if specs.exists() else []:
        module, deep, fields, last = ".".join(file.relative_to(specs).with_suffix("").parts), None, {}, ""
        for line in file.read_text().splitlines():
            begun, indent = RECORD.match(line), len(line) - len(line.lstrip())
            if begun:
                deep, last = len(begun[1]), ""
                fields = found.setdefault((module, begun[2]), {})
            elif line.strip() and deep is not None and not line.strip().startswith("-- "):
                one = FIELD.match(line)
                if indent <= deep and not line.strip().startswith(":"):
                    deep = None
                elif one:
                    last = one[1]
                    fields[last] = one[2].strip()
                elif last:
                    fields[last] += " " + line.strip()
    return found


def parts_of(text, lines):
    """The fields of the record that a clause is, where it is one, by what the file with these lines takes in."""
    name = re.match(r"[^\W\d]\w*", text)
    for line in lines if name else []:
        taken = re.match(r"\s*ghost use Rattle\.(\w+)\.specs\.([\w.]+)\.\{(.*)\};", line)
        if taken and name[0] in re.split(r",\s*", taken[3]) and (TOP / "crates" / taken[1]).exists():
            return records(taken[1]).get((taken[2], name[0]), {})
    return {}


def functions_in(crate, file, module):
    """The functions of a file, each with its contract."""
    lines = file.read_text().splitlines()
    public_modules, handed = modules(crate)
    found, docs, owner, is_trait, at = [], [], "", False, 0
    while at < len(lines):
        line = lines[at]
        text = line.strip()
        if text.startswith("///"):
            docs.append(text[3:].strip())
        elif re.match(r"(pub(\([^)]*\))? )?(impl|trait)\b", line):
            end = at
            while "{" not in lines[end] and not lines[end].endswith(";"):
                end += 1
            owner = owner_of(" ".join(lines[at : end + 1]))
            is_trait, docs, at = bool(re.match(r"(pub(\([^)]*\))? )?trait\b", line)) and line.startswith("pub"), [], end
            if lines[end].rstrip().endswith("}"):
                owner = ""
        elif line == "}":
            owner, is_trait, docs = "", False, []
        elif FUNCTION.match(line):
            indent, visible, name = FUNCTION.match(line).groups()
            public = visible == "pub " or (is_trait and bool(indent))
            if owner and indent:
                path = f"{handed.get(owner, f'{crate}::{owner}')}::{name}"
            elif name in handed:
                path = handed[name]
            else:
                path = f"{crate}::{module}::{name}" if module else f"{crate}::{name}"
                public = public and (module.split("::")[0] if module else "") in public_modules
            clauses, comment = [], []
            # The signature ends where a line opens the body or the item is closed.
            while at < len(lines):
                here = lines[at]
                match = CLAUSE.match(here)
                if match:
                    said, at, rest = balanced(lines, at, match.end() - 1)
                    if match[1] == "ensures":
                        said = re.sub(r"\s+", " ", said)
                        clauses.append(Clause(match[2], said, sentence(comment), parts_of(said, lines)))
                    comment = []
                    if rest.strip().startswith(";") or "{" in rest:
                        break
                elif here.strip().startswith("//"):
                    comment.append(here.strip()[2:].strip())
                elif here == f"{indent}{{" or here.rstrip().endswith((" {", ";", "{}")) or here.rstrip() == f"{indent}{{}}":
                    break
                at += 1
            found.append(Function(crate, path, str(file.relative_to(TOP)), sentence(docs), public, clauses))
            docs = []
        elif text and not text.startswith(("#[", "//")):
            docs = []
        at += 1
    return found


@functools.cache
def functions(crate):
    source, found = TOP / "crates" / crate / "src", []
    for file in sorted(source.rglob("*.rt")):
        parts = file.relative_to(source).with_suffix("").parts
        module = "::".join(part for part in parts if part not in ("lib", "main", "mod"))
        found += functions_in(crate, file, module)
    return found


@dataclass
class Definition:
    crate: str
    module: str
    name: str
    words: str
    type: str
    file: str


DEFINITION = re.compile(r"^\s*(?:(?:abbrev|unfoldable|irreducible|partial) )?pub (?:record |data |abbrev )?([^\s:({]+)")


@functools.cache
def definitions(crate):
    """The definitions of specs/, each with the comment above it, and the comment at each module's head."""
    specs, found, heads = TOP / "crates" / crate / "specs", [], {}
    for file in sorted(specs.rglob("*.antt")) if specs.exists() else []:
        module = ".".join(file.relative_to(specs).with_suffix("").parts)
        comment, fields = [], False
        lines = file.read_text().splitlines()
        head_lines = []
        for line in lines:
            if not line.startswith("-- "):
                break
            head_lines.append(line[3:])
        heads[module] = re.sub(r"\s+", " ", " ".join(head_lines)).strip()
        for at, line in enumerate(lines):
            match = DEFINITION.match(line)
            if re.match(r"\s*-- ", line) and at >= len(head_lines):
                comment.append(line.strip()[3:])
            elif match and not re.match(r"\s*pub (mod|use)\b|\s*unfoldable pub use\b", line):
                inner = line.startswith(" ") and not re.match(r"\s+(?:(?:abbrev|unfoldable|irreducible) pub|pub (?:record|data)\b)", line)
                if not inner:
                    words = re.sub(r"\s+", " ", " ".join(comment)).strip()
                    kind = line[match.end() :].partition(" : ")[2].strip()
                    found.append(Definition(crate, module, match[1], words, kind, str(file.relative_to(TOP))))
                comment = []
            elif line.strip():
                comment = []
    return found, heads


def give_libraries(room, wanted):
    """Gives the copy of this tree in that folder the libraries that `rt ci` left here, so that `rt` proves none of them there; the names of
    those that it couldn't give, each of which is another than its sources or stands on such a one.

    `rt ci` leaves each library in crates/NAME/out/rlib without the stamp by which `rt` knows it again, so that a changed file is never
    overlooked. Here a library is given where it has its stamp, or is younger than its files, and so are all below it; and where the copy has
    the very same files.
    The files are linked and not copied: nothing writes into one of them.
    """
    sys.path.insert(0, os.path.dirname(os.path.realpath(shutil.which("rt"))))
    import rtlib

    here = os.getcwd()
    try:
        os.chdir(TOP)
        ours = {it.name: it for it in rtlib.crates_below(str(TOP))}
        os.chdir(room)
        given, lacking = set(), []
        for crate in rtlib.crates_below(room):
            if crate.name not in wanted or crate.is_program:
                continue
            if crate.name in ours and all(low.name in given for low in crate.below()) and is_of(crate, ours[crate.name], rtlib):
                take(ours[crate.name], crate)
                given.add(crate.name)
            else:
                lacking.append(crate.name)
        return lacking
    finally:
        os.chdir(here)
        sys.path.pop(0)


def is_of(crate, ours, rtlib):
    """Whether our library of that crate was made from the files that the copy has."""
    if not os.path.isdir(ours.rlib):
        return False
    made = os.path.getmtime(ours.rlib)
    files, copies = ({it.removeprefix(one.folder): it for it in rtlib.files_of(one.folder)} for one in (ours, crate))
    is_made_of_them = ours.is_built() or all(os.path.getmtime(it) <= made for it in files.values())
    return is_made_of_them and files.keys() == copies.keys() and all(
        Path(it).read_bytes() == Path(copies[name]).read_bytes() for name, it in files.items()
    )


def take(ours, crate):
    """Links a library's files into the copy, and writes its stamp."""
    to = f"{crate.folder}/out/rlib"
    shutil.rmtree(to, ignore_errors=True)
    try:
        shutil.copytree(f"{ours.folder}/out/rlib", to, symlinks=True, copy_function=os.link)
    except (OSError, shutil.Error):
        # Another file system.
        shutil.rmtree(to, ignore_errors=True)
        shutil.copytree(f"{ours.folder}/out/rlib", to, symlinks=True)
    stamp = Path(to, "stamp")
    stamp.unlink(missing_ok=True)
    stamp.write_text(crate.stamp())
