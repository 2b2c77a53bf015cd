"""The wrong bodies: what an edit changes, what a check says of it, and the record of what was refused."""

import dataclasses
import fcntl
import hashlib
import os
import re
import shutil
import subprocess
from pathlib import Path

ROOT = Path(__file__).resolve().parent.parent
RECORD = ROOT / "crates" / "wrong-bodies.txt"
RECORD_HEAD = """\
# The crates whose edits of wrong-bodies/ and must-fail/ were all refused, as bin/try-edits wrote it: the crate, how many edits,
# how many were refused, and the SHA-256 of the crate's sources, specs, proofs and edits, of the sources and specs of the
# crates below it, and of the toolchain's logic, as `rt version` names it.
"""
SOURCES = ("src", "specs", "proofs")
EDITS = ("must-fail", "wrong-bodies")

HEADER = re.compile(r'( *)(?:pub(?:\([^)]*\))? +)?(?:(?:const|unsafe|default|final|extern "C") +)*(fn|impl|trait|mod)\b(.*)')
PLACE = re.compile(r"(?:note: )?(?:\./)?(\S+?):(\d+):\d+: ")
# As `rt must-fail` has them: a text that could not be read, and a proof file that names what the edit took away.
UNREAD = re.compile(r"is not in scope|has no field|is no name|operand is missing|expected the end|cannot continue")
TAKEN_AWAY = re.compile(r"(\./)?proofs/.*(has no field|is not in scope|has no `|was not admitted)")


# The crates

class Crates:
    """The crates that crates.txt lists, in its order, each with those of them that it depends on."""

    def __init__(self, root):
        self.rows, self.uses = {}, {}
        for line in (root / "crates.txt").read_text(encoding="utf-8").splitlines():
            row = line.partition("#")[0].strip()
            if row:
                head, _, uses = row.partition(":")
                self.rows[head.split()[0]] = row
                self.uses[head.split()[0]] = re.split(r"[\s,]+", uses.strip())

    def below(self, name):
        """Returns all crates below this one, lowest first."""
        found = []
        for use in self.uses[name]:
            if use in self.rows:
                found += [it for it in [*self.below(use), use] if it not in found]
        return found


def files_of(folder):
    return sorted(it for it in folder.rglob("*") if it.is_file())


def edits_in(folder):
    return sorted((it for part in EDITS for it in (folder / part).glob("*.edit")), key=lambda it: it.name)


def version():
    """Returns what `rt version` says: the toolchain's logic, and around it the name of its kit and the like, which may differ from machine to machine."""
    return subprocess.run(["rt", "version"], capture_output=True, text=True, check=True).stdout.strip()


def logic():
    """Returns the toolchain's logic alone, which decides what is proved."""
    said = version()
    found = re.search(r"logic \w+", said)
    return found[0] if found else said


def sum_of_sources(root, crates, name, toolchain):
    """Returns the checksum, to be continued, of all that decides whether the crate is proved."""
    found = hashlib.sha256(f"{toolchain}\n{crates.rows[name]}\n".encode())
    files = [(root / "crates" / name, SOURCES)] + [(root / "crates" / it, SOURCES[:2]) for it in crates.below(name)]
    for folder, parts in files:
        for file in [it for part in parts for it in files_of(folder / part)]:
            found.update(f"{folder.name}/{file.relative_to(folder)}\0{hashlib.sha256(file.read_bytes()).hexdigest()}\n".encode())
    return found


def digest(root, crates, name, toolchain):
    """Returns the checksum of all that decides whether the crate's edits are refused. Which of its folders holds an edit does not."""
    found = sum_of_sources(root, crates, name, toolchain)
    for file in edits_in(root / "crates" / name):
        found.update(f"{file.name}\0{hashlib.sha256(file.read_bytes()).hexdigest()}\n".encode())
    return found.hexdigest()


def recorded():
    """Returns the rows of the record by crate."""
    text = RECORD.read_text(encoding="utf-8") if RECORD.exists() else ""
    return {it.split()[0]: it for it in text.splitlines() if it and not it.startswith("#")}


def record(row, crates):
    """Writes the crate's row into the record. Two runs at a time take turns."""
    at = os.open(RECORD.parent, os.O_RDONLY)
    try:
        fcntl.flock(at, fcntl.LOCK_EX)
        rows = {**recorded(), row.split()[0]: row}
        new = RECORD.with_name(f".{RECORD.name}.{os.getpid()}")
        new.write_text(RECORD_HEAD + "".join(f"{rows[it]}\n" for it in crates.rows if it in rows), encoding="utf-8")
        os.replace(new, RECORD)
    finally:
        os.close(at)


def stale_crates(crates):
    toolchain, rows = logic(), recorded()
    with_edits = [it for it in crates.rows if edits_in(ROOT / "crates" / it)]
    return [it for it in with_edits if rows.get(it, "").split()[-1:] != [digest(ROOT, crates, it, toolchain)]]


# What the gate proved

def proved_file(root, name):
    return root / "crates" / name / "out" / "proved.txt"


def sums_of_sources(root):
    """Returns of each crate the checksum of all that decides whether it is proved."""
    crates, toolchain = Crates(root), logic()
    return {it: sum_of_sources(root, crates, it, toolchain).hexdigest() for it in crates.rows}


def note_proved(root, sums, began, lines):
    """Notes of each crate what a gate proved that passed: the checksum when it began, behind that of a program the SHA-256 of what it built, and the
    names of its functions, which the gate's lines have unless it took the proof from an earlier run. The file is as old as the gate's beginning."""
    names = {}
    for found in (re.match(r"fn ((\w+)::\S+): proved\b", line) for line in lines):
        if found:
            names.setdefault(found[2], set()).add(found[1])
    for name, sum_ in sums.items():
        file, program = proved_file(root, name), root / "crates" / name / "out" / name
        file.parent.mkdir(exist_ok=True)
        head = f"{sum_} {hashlib.sha256(program.read_bytes()).hexdigest()}" if program.is_file() else sum_
        file.write_text("".join(f"{it}\n" for it in [head, *sorted(names.get(name, ()))]), encoding="ascii")
        os.utime(file, (began, began))


def proved_functions(root, crates, name, toolchain):
    """Returns the names of the crate's functions, of which there may be none, if the gate proved it as it is and its library is still there, or None."""
    file, library = proved_file(root, name), root / "crates" / name / "out" / "rlib"
    if not file.exists():
        return None
    head, *names = file.read_text(encoding="ascii").splitlines()
    # (one with a stamp was built by another command, and does not fit those of the gate)
    is_there = (library / f"{name}.rlib" / "format").exists() and not (library / "stamp").exists()
    is_library = (root / "crates" / name / "src" / "lib.rt").exists()
    is_same = head.split()[0] == sum_of_sources(root, crates, name, toolchain).hexdigest()
    return names if is_same and (is_there or not is_library) else None


def check_words(crates, name, root):
    """Returns the words of the prover for a check of the crate, in its folder, over the libraries that the gate made below root. (`rt check` takes no such library.)"""
    kit = Path(shutil.which("rt")).resolve().parent.parent
    uses = crates.uses[name]
    library = lambda it: root / "crates" / it / "out" / "rlib"
    top = "lib" if (root / "crates" / name / "src" / "lib.rt").exists() else "main"
    words = [f"{kit}/bin/rattle", "check", "--crate-name", name, f"src/{top}.rt"]
    given = [("std", kit / "rlibs")] + [(it, library(it) if it in crates.rows else kit / "rlibs") for it in uses if it]
    for it, folder in given:
        words += ["--extern", f"{it}={folder}/{it}.rlib"]
    for folder in [kit / "rlibs", *map(library, crates.below(name))]:
        words += ["-L", f"dependency={folder}"]
    return words + ["--antt-project", f"{kit}/rattle/logic/antt-project.json", "--logic-built", f"{kit}/logic_built", "--links", f"{name}="]


# The edits

@dataclasses.dataclass(eq=False)
class Edit:
    """One edit. `functions` are the names, as a check prints them, of those that it changes: none where it changes
    anything else. `spans` are their lines, by file. An edit that changes more than bodies stands alone, since others
    rest on what it changes."""

    crate: str
    name: str
    pairs: list = dataclasses.field(default_factory=list)
    functions: set = dataclasses.field(default_factory=set)
    spans: list = dataclasses.field(default_factory=list)
    is_alone: bool = False
    bad: str = ""

    def apply(self, texts, folder):
        """Applies the edit to these texts, given by path, and returns why it cannot be applied, if so."""
        for path, old, new in self.pairs:
            text = texts.get(path) or (folder / path).read_text(encoding="utf-8")
            if text.count(old) != 1:
                return f"an 'old:' text is in {path} {text.count(old)} times, and not once"
            texts[path] = text.replace(old, new)
        return "" if self.pairs else "it has no 'old:' and 'new:' pair"


def read_edit(crate, file):
    edit, path, old = Edit(crate, file.name.removesuffix(".edit")), "", None
    for line in file.read_text(encoding="utf-8").split("\n"):
        if line.startswith("file: "):
            path = line.removeprefix("file: ").strip()
        elif line.startswith("old: "):
            old = line.removeprefix("old: ")
        elif line.startswith("new:"):
            if not path or not old:
                edit.bad = "a 'new:' line stands before any 'file:' or 'old:' line"
                break
            edit.pairs.append((path, old, line.removeprefix("new:").removeprefix(" ")))
            old = None
        elif line.strip():
            edit.bad = f"a line begins with none of 'file:', 'old:' and 'new:': {line}"
            break
    return edit


def blocks_of(lines):
    """Returns (kind, rest of its first line, first line, last line) of each fn, impl, trait and mod, by the layout that `rt fmt` gives."""
    found = []
    for at, line in enumerate(lines):
        header = HEADER.fullmatch(line)
        if header and not line.rstrip().endswith(";"):
            closing = header[1] + "}"
            is_one_line = "{" in line and line.rstrip().endswith("}")
            end = at if is_one_line else next((n for n in range(at, len(lines)) if lines[n].startswith(closing)), at)
            found.append((header[2], header[3].strip(), at, end))
    return found


def without_generics(text):
    while re.search(r"<[^<>]*>", text.replace("->", "  ")):
        text = re.sub(r"<[^<>]*>", "", text.replace("->", "  "))
    return text.strip()


def owner_of(kind, rest):
    """Returns how a check spells an impl or a trait: its type, its trait and the trait's own parameter."""
    if kind == "trait":
        return re.match(r"\w+", rest)[0], "", ""
    depth = 0
    for at, sign in enumerate(rest):
        depth += (sign == "<") - (sign == ">")
        if not depth:
            break
    head = re.split(r"\swhere\b|\{", rest[at + 1 :] if rest.startswith("<") else rest)[0]
    of_trait, is_trait, of_type = head.rpartition(" for ")
    word = lambda it: (re.findall(r"\w+", without_generics(it)) or [""])[-1]
    argument = re.search(r"<\s*(\w+)", of_trait)
    return word(of_type), word(of_trait) if is_trait else "", argument[1] if argument else ""


def named(known, crate, path, lines, line):
    """Returns the names of the innermost function around the line, and its first and last line."""
    around = [it for it in blocks_of(lines) if it[2] <= line <= it[3]]
    functions = [it for it in around if it[0] == "fn"]
    if not functions:
        return set(), None
    _, rest, first, last = max(functions, key=lambda it: it[2])
    above = [it for it in around if it[2] < first and it[0] != "fn"]
    modules = [it for it in path.removeprefix("src/").removesuffix(".rt").split("/") if it not in ("lib", "main", "mod")]
    modules += [re.match(r"\w+", it[1])[0] for it in above if it[0] == "mod"]
    start = "::".join([crate, *modules, ""])
    word = re.match(r"\w+", rest)[0]
    within = [(it, it.removeprefix(start).split("::")) for it in known if it.startswith(start)]
    owners = [owner_of(it[0], it[1]) for it in above if it[0] != "mod"]
    if not owners:
        return {name for name, parts in within if parts == [word]}, (first, last)
    of_type, of_trait, argument = owners[-1]
    # (an impl for some types alone is named with these behind the type, as Pair+WblEngine+P)
    fits = lambda it: it.startswith(of_type + of_trait) if of_trait else it.partition("+")[0] == of_type
    names = {name: parts[0] for name, parts in within if len(parts) == 2 and parts[1] == word and fits(parts[0])}
    if not names:
        # (an impl may stand in another file than its type, and a check names its functions by the type's)
        elsewhere = [(it, it.split("::")[-2:]) for it in known if it.startswith(f"{crate}::")]
        names = {name: parts[0] for name, parts in elsewhere if parts[1] == word and fits(parts[0])}
    exact = {name for name, owner in names.items() if owner == of_type + of_trait + argument}
    return exact or {*names}, (first, last)


def body_of(lines, span):
    """Returns where the function's body begins: the line that opens it, and the column after its brace."""
    indent = len(lines[span[0]]) - len(lines[span[0]].lstrip())
    for at in range(span[0], span[1] + 1):
        if lines[at].rstrip() == " " * indent + "{" or at == span[0] and lines[at].rstrip().endswith("{"):
            return at, len(lines[at].rstrip())
    return span[1] + 1, 0


def locate(edit, folder, known):
    """Finds the functions that the edit changes."""
    edit.bad = edit.bad or edit.apply({}, folder)
    for path, old, new in [] if edit.bad else edit.pairs:
        text = (folder / path).read_text(encoding="utf-8")
        lines, at = text.split("\n"), text.find(old)
        same = len(os.path.commonprefix([old, new]))
        tail = len(os.path.commonprefix([old[same:][::-1], new[same:][::-1]]))
        first, last = at + same, at + len(old) - tail
        for place in {first, last}:
            line = text.count("\n", 0, place)
            names, span = named(known, edit.crate, path, lines, line) if path.endswith(".rt") else (set(), None)
            if not names:
                edit.functions, edit.spans, edit.is_alone = set(), [], True
                return
            edit.functions |= names
            edit.spans.append((path, *span))
        edit.is_alone |= (text.count("\n", 0, first), first - text.rfind("\n", 0, first) - 1) < body_of(lines, edit.spans[-1][1:])


# What a check says

@dataclasses.dataclass
class Said:
    """What a check printed: the lines that name an error or an open goal, how it ended, and each function's line."""

    lines: list
    status: int
    seconds: float

    def told(self):
        return [it for it in self.lines if PLACE.match(it) and (": error" in it or "it is not proved" in it)]

    def unproved(self):
        rows = (re.match(r"fn (\S+): (not proved|no proof)\b(.*)", it) for it in self.lines)
        return {it[1]: it[0] for it in rows if it}

    def reached_the_prover(self):
        return any(re.match(r"only=\d+ proved=\d+$|logic=", it) for it in self.lines)

    def unread(self, changed):
        """Returns the first line that says that a text could not be read."""
        for line in self.lines:
            at = re.match(r"(?:\./)?(\S+?):\d+:\d+: error: (?:(`[^`]*`): )?(.*)", line)
            if at and (at[1] in changed or at[1].startswith(("src/", "specs/"))):
                if not at[2] or UNREAD.search(re.sub(r"`[^`]*`", "", at[3])):
                    return line
        return None


def is_of(line, edit):
    """Returns whether a line of a check speaks of a function that the edit changes, or of a closure in it."""
    path, number = PLACE.match(line).groups()
    for file, first, last in edit.spans:
        if path == file and first <= int(number) - 1 <= last:
            return True
    for name in edit.functions:
        *modules, function = name.split("::")[1:]
        own = "/".join(["proofs", *modules])
        # (a function that calls itself has its proof under a plus)
        if path.startswith((f"{own}/{function}/", f"{own}/+{function}/", f"{own}/fn/{function}/")):
            return True
    return False


def is_in(name, edit):
    """Returns whether the function of a check's line is one that the edit changes, or a closure in it."""
    spots = [it.rpartition("::") for it in edit.functions]
    return name in edit.functions or any(name.startswith(f"{above}::fn::{last}::") for above, _, last in spots)


def judged(said, edit, is_alone):
    """Returns ("refused" or "bad", why), or None where this check does not tell."""
    changed = {path for path, _, _ in edit.pairs}
    if said.unread(changed):
        return ("bad", f"a text cannot be read: {said.unread(changed)}") if is_alone else None
    if not said.reached_the_prover():
        return ("bad", f"it did not reach the prover: {' / '.join(said.lines[:3])}") if is_alone else None
    if said.status != 1:
        return None
    own = {name: line for name, line in said.unproved().items() if is_in(name, edit) or not edit.functions}
    told = [it for it in said.told() if not edit.functions or is_of(it, edit)]
    open_goals = [it for it in told if not TAKEN_AWAY.match(it)]
    searched = [it for it in own.values() if "did not prove" in it.partition("; it calls")[0]]
    if own and (open_goals or searched):
        spot = next(iter(own)).partition("::")[2]
        return "refused", f"at {spot}: {(open_goals or searched)[0].removeprefix('note: ')}"
    if is_alone and own:
        return "bad", f"refused, and no goal is left open: {(told or [*own.values()])[0]}"
    return None
