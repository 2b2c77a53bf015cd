"""The pages and what is on them: backticked names, paths, sections, shown commands with their output."""

import re
import typing

import common

PAGES = [
    common.ROOT / "README.md",
    *sorted((common.ROOT / "docs").glob("*.md")),
    *sorted((common.ROOT / "crates").glob("*/README.md")),
]

# By the name of a command in bin/ the crate whose program it starts.
STARTERS = {"wbl-server": "server", "wbl-cli": "client", "wbl-sim": "simulator"}

CODE = re.compile(r"`([^`\n]+)`")
INDENTED = re.compile(r"(?m)^    .*\n?")
LINK = re.compile(r"\]\(([^)\s]+)\)(?:, \"([^\"]+)\")?")
PATH = re.compile(r"(?<![\w/.])(?:[\w*.-]+/)+[\w*.-]*|(?<![\w/.*-])[\w*]+\.(?:rt|antt|py|md|txt|edit)\b")
# "`a`, `b` and `c` in FILE", where the file may be in backticks.
CITED = re.compile(r"((?:`[^`\n]+`(?:, | and |, and ))*`[^`\n]+`) in `?([\w/.]+\w)`?")


def name_of(page):
    return str(page.relative_to(common.ROOT))


def text_of(page):
    return page.read_text(encoding="utf-8")


def prose(page):
    """The page without its indented blocks, and with each paragraph's line ends as spaces."""
    joined = re.sub(r"\n(?=[^\n|#*\d-])", " ", INDENTED.sub("\n", text_of(page)))
    return re.sub(r" +", " ", joined)


def codes(page):
    """All that is in backticks outside the indented blocks."""
    return CODE.findall(prose(page))


def paths(page):
    """The files and folders that the page names, in backticks or not, with `*` for the placeholder NAME."""
    text = re.sub(r"\]\([^)]*\)|https?://\S+", " ", prose(page))
    return [found.replace("NAME", "*").rstrip("/.") for found in PATH.findall(text)]


def links(page):
    """The targets of the page's links, and of each the section that is named after it, or an empty text."""
    return LINK.findall(re.sub(r"\s+", " ", text_of(page)))


def sections(page):
    """What may be named as a section of the page: a heading, or what a paragraph begins with in bold."""
    text = text_of(page)
    return set(re.findall(r"(?m)^#+ (.*)$", text)) | {it.strip(".") for it in re.findall(r"(?m)^\*\*([^*]+)\*\*", text)}


def citations(page):
    """Pairs of names in backticks and of the file or the crate in which the page says they are."""
    return [(CODE.findall(names), place) for names, place in CITED.findall(prose(page))]


def rows(page, heading):
    """The rows of the tables below a heading of the page, each as its columns, without heads and rules."""
    below = re.split(rf"(?m)^#+ {re.escape(heading)}$", text_of(page))[1]
    lines = re.split(r"(?m)^#+ ", below)[0].splitlines()
    found = [[cell.strip() for cell in re.split(r"(?<!\\)\|", line)[1:-1]] for line in lines if line.startswith("|")]
    heads = {place - 1 for place, row in enumerate(found) if set("".join(row)) <= set("-: ")}
    return [row for place, row in enumerate(found) if place not in heads and place - 1 not in heads]


class Shown(typing.NamedTuple):
    """A command that a page shows, and the output that it shows below it."""

    line: int
    command: str
    output: str


def blocks(page):
    """The indented blocks of the page, each as the number of its first line and its lines. An empty line ends one."""
    found, inside = [], False
    for number, line in enumerate(text_of(page).split("\n"), 1):
        if not line.startswith("    "):
            inside = False
            continue
        if not inside:
            found.append((number, []))
        inside = True
        found[-1][1].append(line[4:])
    return found


def typed(page):
    """The commands that follow a `$ ` on the page, with their output."""
    shown = []
    for number, lines in blocks(page):
        for place, line in enumerate(lines):
            if line.startswith("$ "):
                shown.append(Shown(number + place, line[2:], ""))
            elif shown and lines[0].startswith("$ "):
                shown[-1] = shown[-1]._replace(output=f"{shown[-1].output}{line}\n")
    return shown
