"""The clauses of refusals (refusal_clauses.txt): each stands in the contract of its call, and each call answers the numbers of its rows and no other. And
the page of refusals, which has each with its number, name and text."""

import functools
import re

import common
import pages
import sources

PAGE = common.ROOT / "docs" / "refusals.md"
CLAUSES = common.ROOT / "tests" / "pages" / "refusal_clauses.txt"

# The calls of which each refusal has its clauses: those that the bytes of clients, frames and images reach.
REACHED = [
    "Parser::feed", "Parser::next", "read_command", "Sequencer::turn", "Sequencer::close_group", "Sequencer::accept_freed", "Committer::turn",
    "WblEngine::reopen", "inspect", "read_entry", "read_super", "Decoder::feed", "Outgoing::on_ack", "Standby::on_frame", "promote", "ExtentHeap::take",
    "ExtentHeap::take_entry", "Entrance::enter", "Lobby::enter", "Outlet::offer", "options",
]
NUMBERS = [*range(1, 20)]

# Words of a cell that name no clause: what is lent cannot change, and an error of one kind has one cause.
SAYING = ("lent", "open", "its only answer")

NAME = re.compile(r"`([^`]+)`")
CALL = re.compile(r"`(\w+)` `(\w+(?:::\w+)?)`")
FUNCTION = re.compile(r"(?m)^( *)(?:pub(?:\(\w+\))? )?fn (\w+)\b")
OWNER = re.compile(r"(?m)^(?:pub )?(?:impl\b(?:<.*?>)? (?:[\w:]+(?:<[^{]*?>)? for )?|trait )(\w+)[^{]*\{\n(.*?)^\}", re.S)
CLAUSE = re.compile(r"(?m)^ *ensures (\w+) \{")
DEFINITION = re.compile(r"(?m)^( *)(?:abbrev pub|pub record|pub data) ([\w'-]+)\b")


def rows():
    """Of each row of both tables of clauses its crate, its call, its numbers, and the cells of its cause and of its state."""
    found, last = [], None
    for line in CLAUSES.read_text(encoding="utf-8").splitlines():
        cells = [cell.strip() for cell in line.strip("|").split("|")] if line.startswith("| ") else []
        if len(cells) == 4 and cells[0] != "Call":
            call = CALL.fullmatch(cells[0])
            last = call.groups() if call else last
            found.append((*last, [int(number) for number in re.findall(r"\d+", cells[1])], cells[2], cells[3]))
    return found


def contract_at(text, at):
    """A function from its name to its body, or to the end of a call of a trait."""
    lines = []
    for line in text[at:].splitlines():
        lines.append(line)
        if line.strip() in ("{", "{}") or line.rstrip().endswith((" {", ";", "{}")) and not line.lstrip().startswith("ensures"):
            break
    return "\n".join(lines)


@functools.cache
def texts_of(crate):
    """The sources of a crate, file by file, without comments."""
    return [sources.without_comments(file.read_text(encoding="utf-8"), "//") for file in sources.files(crate, "src", ".rt")]


@functools.cache
def contracts_of(crate, call):
    """The contracts of a crate's calls of this name."""
    owner, _, name = call.rpartition("::")
    found = []
    for text in (it for it in texts_of(crate) if f"fn {name}" in it):
        places = [body for kind, body in OWNER.findall(text) if kind == owner] if owner else [text]
        for place in places:
            found += [contract_at(place, it.start()) for it in FUNCTION.finditer(place) if it[2] == name and len(it[1]) == 4 * bool(owner)]
    # (an implementation has the clauses of its trait, and perhaps some more)
    return [it for it in found if "ensures" in it] or found


@functools.cache
def definitions_of(crate):
    """By name the text of each definition of a crate."""
    found = {}
    for file in sources.files(crate, "specs", ".antt"):
        text = sources.without_comments(file.read_text(encoding="utf-8"), "--")
        starts = list(DEFINITION.finditer(text))
        for number, start in enumerate(starts):
            later = [it.start() for it in starts[number + 1:] if len(it[1]) <= len(start[1])]
            found[start[2]] = text[start.start():later[0] if later else len(text)]
    return found


@functools.cache
def definitions_below(crate):
    """The same of a crate and of those below it; of several with one name that of the crate itself."""
    found = {}
    for one in [*sorted(set(sources.below(crate)) - {crate}), crate]:
        found |= definitions_of(one)
    return found


@functools.cache
def reached_from(contract, crate):
    """The definitions that a contract of a crate cites, and those that these cite."""
    definitions = definitions_below(crate)
    reached, waiting = set(), [contract]
    while waiting:
        new = {word for word in re.findall(r"[A-Za-z_][\w'-]*", waiting.pop()) if word in definitions} - reached
        reached |= new
        waiting += [definitions[word] for word in new]
    return reached


def numbers_of():
    """By the name of each refusal its number."""
    return {name: int(number) for name, number in re.findall(r"(?m)^refusal_number (\w+) = (\d+)$", sources.definitions("kv_types"))}


def texts_by_name():
    """By the name of each refusal what a program prints of it."""
    return dict(re.findall(r'(?m)^refusal_text (\w+) = codes "([^"]*)"$', sources.definitions("kv_types")))


def clause(contract, name):
    """The text of a clause."""
    return contract.partition(f"ensures {name} {{")[2].partition("ensures ")[0]


class Refusals(common.Cases):
    def setUp(self):
        super().setUp()
        self.rows = rows()

    def test_the_page(self):
        rows = pages.rows(PAGE, "Refusals")
        numbers, texts = numbers_of(), texts_by_name()
        self.assertEqual([row[:2] for row in rows], [[str(numbers[name]), f"{name}, `{texts[name]}`"] for name in sorted(numbers, key=numbers.get)])
        for row in rows:
            with self.case("page", number=row[0]):
                self.assertTrue(len(row) == 5 and all(row), row)

    def test_the_calls_and_the_numbers(self):
        calls = list(dict.fromkeys(call for _, call, *_ in self.rows))
        self.assertEqual(calls[:len(REACHED)], REACHED)
        self.assertEqual(sorted({number for row in self.rows for number in row[2]}), list(NUMBERS))
        self.assertEqual(sorted(numbers_of().values()), list(NUMBERS))

    def test_each_clause_stands_in_the_contract_of_its_call(self):
        for crate, call, numbers, *cells in self.rows:
            with self.case("row", crate=crate, call=call, numbers=numbers):
                contracts = contracts_of(crate, call)
                self.assertEqual(len(contracts), 1)
                names, definitions = CLAUSE.findall(contracts[0]), definitions_below(crate)
                reached = reached_from(contracts[0], crate)
                for cell in cells:
                    for name in NAME.findall(cell):
                        definition, dot, field = name.partition(".")
                        if not dot:
                            self.assertIn(name, names)
                            continue
                        self.assertIn(definition, reached)
                        self.assertRegex(definitions[definition], rf"(?m)^ +pub {field} :")

    def test_each_refusal_has_its_clauses(self):
        for crate, call, numbers, *cells in self.rows:
            for cell in cells if numbers else []:
                with self.case("cell", crate=crate, call=call, numbers=numbers, cell=cell):
                    self.assertTrue(NAME.search(cell) or cell.startswith(SAYING), cell)
                    if "open" in cell:
                        self.assertIn(f"`{call}`", CLAUSES.read_text(encoding="utf-8").partition("# What is open")[2])

    def test_each_call_answers_these_numbers_alone(self):
        """Where a clause of its contract names all that it answers, these are the numbers of its rows."""
        for crate, call in dict.fromkeys(row[:2] for row in self.rows):
            contract = contracts_of(crate, call)[0]
            if "ensures causes {" in contract:
                with self.case("call", crate=crate, call=call):
                    text = clause(contract, "causes")
                    # (and what a definition of refusals names that it cites, as RefusesReopening)
                    text += "".join(definitions_below(crate)[it] for it in reached_from(text, crate) if "refus" in it.lower())
                    wanted = sorted(number for name, number in numbers_of().items() if re.search(rf"\b{name}\b", text))
                    found = sorted(number for row in self.rows if row[:2] == (crate, call) for number in row[2])
                    self.assertEqual(found, wanted)
