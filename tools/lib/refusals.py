"""What a refusal of a must-fail edit says of the contracts, by which `tools/edits` and `tools/wrong_bodies` judge it. It has no command.

An edit counts where all of these hold:
- it is in code, and in no definition or proof;
- it stands in a function that a program of this tree calls;
- what the prover couldn't have is a goal of what a public function of the crate `ensures`, or two values in such a goal that differ.
That it makes the body that it is named for is a person's claim, and stands in docs/theorem/WRONG_BODIES.md.

Which functions are called is read from the code that `rt ci` compiled of each library: crates/NAME/out/rlib/NAME.rlib/toolchain/mir.json.
"""
import functools
import json
import re
from dataclasses import dataclass

import tree
from tree import TOP

PAGE = TOP / "docs" / "theorem" / "WRONG_BODIES.md"
LINE = re.compile(r"(?:rt: )?must-fail (\S+?)\.edit: (.*)")
# What a line says besides a goal, and what it then is.
UNFIT = [
    (r"BAD EDIT", "it could not be applied or read"),
    (r"NOT TRIED", "it was not tried"),
    (r"NOT REFUSED", "it is proved"),
    (r"only by a limit of the prover|ran out of (stack|the (steps|memory))|outgrew the memory limit|stopped at the step limit", "a limit"),
    (r"gave up at one of its limits|gave up", "the search gave up"),
    (r"only because a proof file names|has no field|module \S+ has no\b|not a tuple|can be named from here|is not in scope",
     "a written proof names what is gone"),
    (r"no occurrence of the path's|motive not well typed|`rw`", "a rewriting of a written proof doesn't fit"),
]
# Goals by the ends and beginnings of their names: of a call, of arithmetic, of a loop, of a type.
GOALS = [
    (r"-requires(-\d+)?(-clause-\w+)?$|-requires-", "another call's condition"),
    (r"^(overflow|nonzero|bounds|slice_bounds|offset_bounds)", "safety, and no clause"),
    (r"-(init|preserved|smaller)(-\d+)?(-clause-\w+)?$", "an invariant of a loop"),
    (r"^invariant_of", "an invariant of a type"),
]
# A closed value: a number, a truth value, a constructor with nothing in it. The line may end before the other one, or is of two that were
# computed as a whole.
VALUE = r"(?:\d+|true|false|[A-Z]\w*|\[\]|\(\))"
VALUES = re.compile(rf"differ only where one has `{VALUE}`|expected type `◌≡◌ {{A = [^`{{}}]*}} {VALUE} {VALUE}`")


def goal_of(reason):
    """The name of the goal that a refusal names; none where it names no goal."""
    found = re.search(r"\(`([^`]+)`\)|error: `([^`]+)`:", reason)
    return found[1] or found[2] if found else ""


def unfit(reason):
    """Why a refusal for that reason says nothing of a contract; None where it does."""
    for pattern, told in UNFIT:
        if re.search(pattern, reason):
            return told
    name = goal_of(reason)
    if re.search(r"types (first )?differ|differ only where|expected type", reason) and not VALUES.search(reason):
        return "two types that differ in a written proof"
    if re.match(r"(\w+-)?(returns|ensures)", name) and not re.search(GOALS[0][0], name):
        return None
    return next((told for pattern, told in GOALS if re.search(pattern, name)), "no goal of a contract is named")


def tried(lines):
    """Of each edit that a log of `rt ci` or `rt must-fail` tells of: its crate and name, and what was said."""
    for line in lines:
        match = LINE.match(line)
        if match:
            yield match[1], match[2].removeprefix("refused, as it must be").removeprefix(": ")


# Functions: where each stands, and whether who uses the crate can call it.


@dataclass(frozen=True)
class Function:
    crate: str
    module: str  # of its file
    owner: str  # the type that it is a method of, or the trait where that has its body
    trait: str
    name: str
    first: int  # its lines, with the comment above it
    last: int
    is_public: bool

    @property
    def path(self):
        return "::".join(it for it in (self.module, self.owner, self.name) if it)


@functools.cache
def exported(crate):
    """The public modules of a library, and what its root hands on, as (module, name)."""
    path = TOP / "crates" / crate / "src" / "lib.rt"
    text = path.read_text() if path.exists() else ""
    handed = set()
    for module, names in re.findall(r"^pub use (?:crate::)?(\w+)::(?:\w+::)*\{([^}]*)\};", text, re.M):
        handed |= {(module, name.split(" as ")[0].strip()) for name in names.split(",")}
    handed |= set(re.findall(r"^pub use (?:crate::)?(\w+)::(?:\w+::)*(\w+)(?: as \w+)?;", text, re.M))
    return {"", *re.findall(r"^pub mod (\w+);", text, re.M)}, handed


@functools.cache
def public_names(crate):
    """The types and traits of a crate that stand open to who uses it, and those that don't."""
    modules, handed = exported(crate)
    found = {True: set(), False: set()}
    for module, lines in sources(crate).items():
        for visible, name in re.findall(r"^(pub |pub\([^)]*\) |)(?:struct|enum|union|trait|type) (\w+)", "\n".join(lines), re.M):
            found[visible == "pub " and (module.split("::")[0] in modules or (module, name) in handed)].add(name)
    return found


@functools.cache
def sources(crate):
    """The lines of each module of a crate."""
    source = TOP / "crates" / crate / "src"
    return {module_of(path.relative_to(source)): path.read_text().splitlines() for path in sorted(source.rglob("*.rt"))}


def module_of(path):
    """The module whose file that is, by its path below src/."""
    return "::".join(part for part in path.with_suffix("").parts if part not in ("lib", "main", "mod"))


def impl_of(lines, at):
    """The type and the trait of the `impl` or `trait` that begins in that line, and whether its methods are a trait's own."""
    end = at
    while "{" not in lines[end] and not lines[end].endswith(";"):
        end += 1
    text = re.sub(r"\s+", " ", " ".join(lines[at : end + 1]))
    bare = tree.without_generics(text.replace("impl<", "impl <", 1)).split(" where ")[0].split("{")[0]
    if re.match(r"(pub(\([^)]*\))? )?(unsafe )?trait\b", bare):
        return tree.owner_of(text), "", True
    trait = re.findall(r"\w+", bare.split(" for ")[0])[-1] if " for " in bare else ""
    owner = tree.owner_of(text)
    # A type parameter stands for any type.
    params = re.match(r"impl ?<([^>]*)", text)
    is_param = params and re.search(rf"\b{re.escape(owner)}\b(?=\s*[:,>]|$)", params[1]) and trait
    return ("Any" if is_param else owner), trait, False


def is_open(crate, visible, module, owner, trait, name, of_trait):
    """Whether who uses a crate can call that function."""
    modules, handed = exported(crate)
    names = public_names(crate)
    if of_trait:
        return owner in names[True]
    if trait:
        return owner not in names[False] and trait not in names[False]
    if owner:
        return visible and owner in names[True]
    return visible and (module.split("::")[0] in modules or (module, name) in handed)


@functools.cache
def functions(crate):
    """The functions of a crate, in the order of its files."""
    found = []
    for module, lines in sources(crate).items():
        owner, trait, of_trait, first, at = "", "", False, None, 0
        while at < len(lines):
            line = lines[at]
            begun = tree.FUNCTION.match(line)
            if re.match(r"(pub(\([^)]*\))? )?(unsafe )?(impl|trait)\b", line):
                owner, trait, of_trait = impl_of(lines, at)
            elif line == "}":
                owner, trait, of_trait = "", "", False
            if begun and len(begun[1]) == (4 if owner else 0):
                end = end_of(lines, at, begun[1])
                is_public = is_open(crate, begun[2] == "pub ", module, owner, trait, begun[3], of_trait)
                found.append(Function(crate, module, owner, trait, begun[3], first or at + 1, end + 1, is_public))
                first, at = None, end
            elif re.match(r"\s*(///|#\[)", line):
                first = first or at + 1
            else:
                first = None
            at += 1
    return found


def end_of(lines, at, indent):
    """The last line of the function that begins in that one: the brace that closes it, or the line before the next item."""
    for end in range(at, len(lines)):
        line = lines[end]
        if line in (f"{indent}}}", f"{indent}{{}}") or end == at and line.endswith("}"):
            return end
        if end > at and (line == "}" or line.startswith((f"{indent}///", f"{indent}#[", f"{indent}ghost ")) or is_function(line, indent)):
            return end - 1
    return len(lines) - 1


def is_function(line, indent):
    begun = tree.FUNCTION.match(line)
    return bool(begun) and begun[1] == indent


def function_at(crate, path, line):
    """The function of src/ in whose lines that one is; None where it is in none."""
    if path.parts[0] != "src":
        return None
    module = module_of(path.relative_to("src"))
    return next((it for it in functions(crate) if it.module == module and it.first <= line <= it.last), None)


def function_of_proof(crate, path, goal):
    """The function that a written proof is of; None where it is a lemma's."""
    parts = list(path.relative_to("proofs").parts[:-1])
    if parts and parts[-1].startswith("+"):
        # A cycle of functions has one proof, whose goals begin with their function.
        parts[-1:] = goal.split("-")[0].split("::")
    return next((it for it in functions(crate) if is_path_of(parts, it)), None)


def is_path_of(parts, function):
    """Whether that is how compiled code and written proofs call a function: by its module, or by its type, with the trait that it is of."""
    if parts[-1:] != [function.name]:
        return False
    owner = parts[-2] if len(parts) > 1 else ""
    if not function.owner:
        return "::".join(it for it in parts[:-1] if it != "fn") == function.module
    return owner.startswith(function.owner + function.trait) if function.trait else owner.partition("+")[0] == function.owner


def function_of(crate, reason):
    """The function of whose contract a refusal's goal is; None where it names none."""
    at = re.search(r"(?:^|\s)(?:\./)?((?:src|proofs)/\S+?):(\d+):\d+:", reason)
    if not at:
        return None
    path = tree.Path(at[1])
    if at[1].startswith("src/"):
        return function_at(crate, path, int(at[2]))
    return function_of_proof(crate, path, goal_of(reason))


# What a program calls.


class Calls:
    """The functions that the programs of this tree call, of what `rt ci` compiled."""

    def __init__(self):
        self.code, self.lacking = {}, []
        for crate in tree.crates():
            source = TOP / "crates" / crate
            if tree.is_test(crate) or (source / "src" / "main.rt").exists():
                continue
            path = source / "out" / "rlib" / f"{crate}.rlib" / "toolchain" / "mir.json"
            if path.exists():
                self.code.update({name: body.get("body", []) for name, body in json.loads(path.read_text())})
            else:
                self.lacking.append(crate)
        self.methods = {}
        for name in self.code:
            self.methods.setdefault(name.rpartition("::")[0], []).append(name)
        self.reached = {}
        for crate in tree.crates():
            main = TOP / "crates" / crate / "src" / "main.rt"
            if main.exists() and not tree.is_test(crate):
                for name in self.from_main(main.read_text()):
                    self.reach(name, crate)

    def from_main(self, text):
        """What the root of a program names of libraries of this tree."""
        names = set()
        for path, last in re.findall(r"^use (iiif_\w+(?:::\w+)*)::(\{[^}]*\}|\w+);", text, re.M):
            names |= set(re.findall(r"\w+", last))
        return [name for name in self.code if name.rpartition("::")[2] in names]

    def reach(self, name, program):
        left = [name]
        while left:
            name = left.pop()
            if name not in self.reached:
                self.reached[name] = program
                left += self.named(name)

    def named(self, name):
        """The functions that a function's code names, and the methods of each impl that it hands to a generic one."""
        found, left = [], [self.code[name]]
        while left:
            it = left.pop()
            if isinstance(it, str) and it in self.code:
                found.append(it)
            elif isinstance(it, dict):
                left += it.values()
                found += self.methods.get(it["Impl"][0], []) if "Impl" in it else []
            elif isinstance(it, list):
                left += it
        return found

    def program_of(self, function):
        """The program that calls a function; None where none does."""
        return next((program for name, program in self.reached.items() if is_name_of(name, function)), None)


def is_name_of(name, function):
    """Whether compiled code of that name is of that function, or of a closure in it."""
    crate, *parts = name.removesuffix("+decl").split("::")
    return crate == function.crate and function.name in parts and is_path_of(parts[: parts.index(function.name) + 1], function)


@functools.cache
def calls():
    return Calls()


# Edits.


def turned_part(text):
    """The lines of an edit that turn something, as (file, old, new): without those that leave something out."""
    for part in re.split(r"^(?=Turned:|Left out:)", text, flags=re.M):
        if part.startswith("Turned:") or "\nTurned:" not in f"\n{text}" and not part.startswith("Left out:"):
            yield from pairs_of(part)


def pairs_of(text):
    """The pairs of a text of an edit, each with the file that it is of."""
    path, old = "", ""
    for line in text.splitlines():
        word, _, rest = line.partition(": ")
        if word == "file":
            path = rest.strip()
        elif word == "old":
            old = rest
        elif word == "new" or line == "new:":
            yield path, old, rest


@dataclass
class Edit:
    crate: str
    name: str
    text: str
    is_gates: bool

    @property
    def path(self):
        return f"{self.crate}/{self.name}"


def edits(crate):
    """The edits of a crate: those of the gate, and those beside it."""
    gates = [Edit(crate, path.stem, path.read_text(), True) for path in tree.gate_edits(crate)]
    return gates + [Edit(crate, it.name, it.text, False) for it in tree.more_edits(crate)]


def place_of(crate, path, old):
    """The line in which a text stands; 0 where it isn't there once."""
    file = TOP / "crates" / crate / path
    text = file.read_text() if file.is_file() else ""
    return text[: text.index(old)].count("\n") + 1 if text.count(old) == 1 else 0


@dataclass
class Verdict:
    """What came of an edit."""

    edit: str
    said: str
    is_code: bool
    turned: str
    program: str | None
    goal: str
    of: str  # the function of whose contract the goal is
    is_public: bool
    why: str | None  # why it doesn't count; None where it does

    @property
    def is_failed(self):
        """Whether it is no edit, or is proved."""
        return self.said.startswith(("NOT REFUSED", "BAD EDIT"))

    def __str__(self):
        told = [f"code {'yes' if self.is_code else 'no'}", f"turns {self.turned or 'no function'}"]
        told.append(f"called by {self.program or 'no program'}")
        goal = f"goal {self.goal or 'none'}{f' of {self.of}' if self.of else ''}"
        told += [goal, f"public {'yes' if self.is_public else 'no'}"]
        end = "FAILED, " + self.said[:120] if self.is_failed else "counts" if self.why is None else f"doesn't count, {self.why}"
        return f"{self.edit}: {end} ({'; '.join(told)})"


def judge(edit, said):
    """The verdict over what was said of an edit."""
    pairs = list(turned_part(edit.text))
    is_code = bool(pairs) and all(path.startswith("src/") for path, _, _ in pairs)
    goal, of = goal_of(said), function_of(edit.crate, said)
    places = [(tree.Path(path), place_of(edit.crate, path, old)) for path, old, _ in pairs if path.startswith("src/")]
    inside = [function_at(edit.crate, *place) for place in places]
    # What stands in no function, such as a constant, is of the function whose goal it breaks.
    turned = next((it for it in inside if it), None)
    program = calls().program_of(turned or of) if turned or of else None
    why = unfit(said)
    if why is None and not is_code:
        why = "it turns no code"
    elif why is None and of is None:
        why = "the goal is of no function"
    elif why is None and not of.is_public:
        why = f"the goal is of {of.path}, which is private"
    elif why is None and program is None:
        why = f"no program calls {(turned or of).path}"
    what, is_public = turned.path if turned else outside(pairs), bool(of and of.is_public)
    return Verdict(edit.path, said, is_code, what, program, goal, of.path if of else "", is_public, why)


def outside(pairs):
    """What an edit turns that stands in no function: a constant, or a file."""
    named = re.search(r"\b(?:const|static) (\w+)", pairs[0][1]) if pairs else None
    return named[1] if named else pairs[0][0] if pairs else ""


# The list of wrong bodies.


@dataclass
class Claim:
    """What the page of wrong bodies says of an edit."""

    body: str
    edit: str
    is_gates: bool
    said: str  # "counts", "doesn't count" or "not tried"


@dataclass
class Body:
    name: str
    words: str
    edits: list
    tests: list


def listed(text):
    """The wrong bodies of the page's first part: a heading, words, and a list of edits and tests."""
    found = []
    for part in re.split(r"^### ", text.partition("\n## Tried by hand")[0], flags=re.M)[1:]:
        name, _, rest = part.partition("\n")
        lines = re.sub(r"\n  (?=\S)", " ", rest).splitlines()
        body = Body(name.strip(), " ".join(it for it in lines if it and not it.startswith("- ")), [], [])
        for line in lines:
            edit = re.match(r"- Edit `(iiif_\w+/[\w-]+)`, (in|beside) the gate: (counts|doesn't count|not tried)\b", line)
            test = re.match(r"- (?:Test|Case) `([^`]+)`", line)
            if edit:
                body.edits.append(Claim(body.name, edit[1], edit[2] == "in", edit[3]))
            elif test:
                body.tests.append(test[1])
            elif line.startswith("- ") and not line.startswith("- No edit"):
                body.tests.append(f"unread: {line}")
        found.append(body)
    return found


def claims():
    """What the page says of each edit that it names."""
    return {it.edit: it for body in listed(PAGE.read_text()) for it in body.edits} if PAGE.exists() else {}


def contradicted(verdicts):
    """A line for each of these edits of which the page says another thing than what came of it."""
    said = claims()
    for it in verdicts:
        claim = said.get(it.edit)
        if claim and (claim.said == "counts") != (it.why is None):
            yield f"{it.edit}: docs/theorem/WRONG_BODIES.md says that it {claim.said}, under {claim.body!r}: {it}"
