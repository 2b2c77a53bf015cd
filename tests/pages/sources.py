"""What the sources name: the crates with what they depend on, their public names, their constants, and all words of their
code."""

import functools
import re

import common

CRATES = common.ROOT / "crates"

EXPORT = re.compile(r"^pub use (\w+)(?:::\w+)*::(?:\{([^}]*)\}|(\w+));", re.M)
BLOCK = re.compile(r"^(?:pub )?(impl|trait|enum)\b([^{}]*)\{\n(.*?)^\}", re.M | re.S)
CONSTANT = re.compile(r"\bconst (\w+): [^=;]+= ([^;]+);")
FIELD = re.compile(r"(\w+): ([^,{}]+),")
WORD = re.compile(r"[A-Za-z_][\w'-]*")


@functools.cache
def crates():
    """By crate of crates.txt the crates that it depends on, in the order of that file."""
    rows = {}
    for line in (common.ROOT / "crates.txt").read_text(encoding="utf-8").splitlines():
        name, colon, uses = line.partition("#")[0].partition(":")
        if colon:
            rows[name.strip()] = uses.split()
    return rows


def files(crate, folder, suffix):
    return sorted((CRATES / crate / folder).rglob(f"*{suffix}"))


def without_comments(text, mark):
    """The text without what follows the mark. No string of the sources has one."""
    return re.sub(rf"(?m)(^|\s){re.escape(mark)}.*$", "", text)


@functools.cache
def code(crate):
    """The code of a crate, without comments."""
    return "\n".join(without_comments(file.read_text(encoding="utf-8"), "//") for file in files(crate, "src", ".rt"))


@functools.cache
def definitions(crate):
    """The definitions and lemmas of a crate, without comments."""
    texts = files(crate, "specs", ".antt") + files(crate, "proofs", ".antt")
    return "\n".join(without_comments(file.read_text(encoding="utf-8"), "--") for file in texts)


@functools.cache
def words(crate):
    """All words of the code, the definitions and the lemmas of a crate, and the names of its modules."""
    found = set(WORD.findall(definitions(crate))) | set(re.findall(r"\w+", definitions(crate)))
    texts = re.findall(r'"([^"]*)"', code(crate))
    found |= set(re.findall(r"\w+", code(crate))) | {word for text in texts for word in re.findall(r"[\w-]+", text)}
    return found | {file.stem for file in files(crate, "src", ".rt")}


@functools.cache
def calls(crate):
    """As `Type::name` the calls of a crate's types, public or not."""
    found = set(public_names(crate))
    for kind, head, body in BLOCK.findall(code(crate)):
        if kind != "enum":
            found |= {f"{type_of(head)}::{member}" for member in re.findall(r"(?m)^    (?:pub(?:\(\w+\))? )?fn (\w+)", body)}
    return found


def shown(crate):
    """What a page may name as a contract of the crate: its public names, their calls without a type, and the words of
    its definitions."""
    names = public_names(crate)
    return names | {name.rpartition("::")[2] for name in names} | set(WORD.findall(definitions(crate)))


def script_names():
    """The names of the scripts beside the crates."""
    return {file.name for folder in ("bin", "tests") for file in (common.ROOT / folder).rglob("*")}


def text_at(place, folders):
    """The text of the crate or the file of this name, without comments, or None where there is neither."""
    if place in crates():
        return code(place) + definitions(place)
    found = [folder / place for folder in folders if (folder / place).is_file()]
    if not found or found[0].suffix not in (".rt", ".antt"):
        return None
    return without_comments(found[0].read_text(encoding="utf-8"), "//" if found[0].suffix == ".rt" else "--")


def exports(crate):
    """The items that the root of a crate shows to others, without those of another crate that it passes on."""
    source = CRATES / crate / "src"
    if not (source / "lib.rt").exists():
        return set()
    rows = EXPORT.findall((source / "lib.rt").read_text(encoding="utf-8"))
    found = [row for row in rows if row[0] not in crates() or (source / f"{row[0]}.rt").exists()]
    return {name.strip() for _, group, single in found for name in (group or single).split(",") if name.strip()}


def type_of(head):
    """The name of the type, trait or enum that a block's first line is about."""
    head = head.split(" for ")[-1]
    while "<" in head.replace("->", ""):
        shorter = re.sub(r"<[^<>]*>", "", head)
        if shorter == head:
            break
        head = shorter
    return re.search(r"\w+", head)[0]


@functools.cache
def public_names(crate):
    """The public names of a crate: its items, and as `Type::name` the calls of its types and traits and the variants of
    its enums."""
    items = exports(crate)
    found = set(items)
    for kind, head, body in BLOCK.findall(code(crate)):
        name = type_of(head)
        if name not in items or kind == "impl" and re.search(r"\bfor\b", head):
            continue
        pattern = {"impl": r"(?m)^    pub (?:const )?fn (\w+)", "trait": r"(?m)^    fn (\w+)", "enum": r"(?m)^    (\w+)"}
        found |= {f"{name}::{member}" for member in re.findall(pattern[kind], body)}
    return found


@functools.cache
def constants(crate):
    """The texts of a crate's constants by name."""
    return dict(CONSTANT.findall(code(crate)))


def home_of(name, crate, path):
    """The crate whose constant a text of this crate names, behind this path."""
    if path in crates():
        return path
    return crate if name in constants(crate) else next(it for it in crates() if name in constants(it))


def value(crate, name):
    """The number that a constant is, or that a field of one is, as `NAME.field`. A constant of another crate that it
    cites without a path is looked for in all."""
    name, _, field = name.partition(".")
    text = " ".join(re.sub(r"\bas \w+", "", constants(crate)[name]).split())
    if field and re.fullmatch(r"\w+", text):  # (another name of one)
        return value(home_of(text, crate, ""), f"{text}.{field}")
    text = dict(FIELD.findall(text))[field] if field else text

    def number_of(found):
        path, cited = found.groups()
        if cited[0].isdigit():
            return str(int(cited.replace("_", ""), 0))
        return str(value(home_of(cited.partition(".")[0], crate, path), cited))

    terms = re.sub(r"\b(?:(\w+)::)?(\w+(?:\.\w+)?)", number_of, text)
    if not re.fullmatch(r"[\d ()+*/<-]+", terms):
        raise ValueError(f"{crate}: {name} is no number: {text}")
    return eval(terms.replace("/", "//"), {})  # of digits and operators only


def below(crate):
    """The crate and all that it depends on."""
    return [crate, *(it for use in crates()[crate] if use in crates() for it in below(use))]
