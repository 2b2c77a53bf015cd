"""The pages: what README.md, the pages of docs/ and each crate's README name is there, and their limits are the
constants. What their commands print is for test_page_commands."""

import os
import re
import shutil
import sys

import common
import pages
import sources
import worked_cases as worked

sys.path.insert(0, str(common.ROOT / "bin"))
import wrong_bodies  # noqa: E402

README, CRATES = (common.ROOT / name for name in ("README.md", "docs/architecture.md"))
CASES, PROTOCOL = (common.ROOT / "docs" / f"{name}.md" for name in ("worked-cases", "protocol"))


NAME = re.compile(r"([A-Za-z_][\w'-]*)((?:::[A-Za-z_]\w*)*)(?:\([^()]*\)|::<\w+>)?")
TEST = re.compile(r"(test_\w+)\.([A-Z]\w+)(?:\.(test_\w+))?")
NUMBER = re.compile(r"(\d{1,3}(?:,\d{3})+|\d+)(?:\^(\d+))?")

# Names that pages may give though no source has them: calls and definitions that they say come later, which go from here once they are there; and what
# belongs to Redis, to the toolchain or to the system, or stands for a word of the reader.
LATER = ["IsFenced", "raise_round"]
OUTSIDE = {
    "DBSIZE", "FLUSHDB", "QUIT", "HELLO", "Clone", "Copy", "bytes::BufMut", "io::Write", "slab", "indexmap", "clap", "crossbeam_utils", "KEY", "WBLIMG01",
    "dmesg", "smartctl", "MALLOC_MMAP_THRESHOLD_", "MALLOC_TRIM_THRESHOLD_", "GLIBC_TUNABLES",
}

# By crate and constant the pages that state it: README, a page of docs/ or the README of a crate.
LIMITS = [
    ("kv_types", "REQUEST_LIMITS.words", "README protocol"),
    ("kv_types", "REQUEST_LIMITS.word_bytes", "README protocol commands"),
    ("kv_types", "MAX_KEY_BYTES", "README protocol commands replication"),
    ("kv_types", "MAX_VALUE_BYTES", "README protocol commands replication"),
    ("model", "MAX_CHANGE_TEXT_BYTES", "README protocol"),
    ("model", "MAX_PARTS", "promises architecture image replication simulator crates/redis_core"),
    ("model", "MIN_LINES", "README image refusals worked-cases crates/pmem_file crates/server"),
    ("model", "MAX_LINES", "README image refusals crates/pmem_file"),
    ("model", "COUNTER_LIMIT", "README commands promises refusals"),
    ("model", "MAGIC", "image"),
    ("model", "MAX_GAPS", "image"),
    ("model", "STAMP_WINDOW", "image"),
    ("multi_watch", "MAX_QUEUED_REQUESTS", "README protocol"),
    ("machine", "OPEN_CHANGES", "README promises simulator"),
    ("machine", "KEPT_GROUPS", "promises replication simulator"),
    ("pipes", "MAX_SEATS", "README protocol promises refusals simulator crates/lobby crates/pipes"),
    ("pipes", "PIPE_ITEMS", "promises replication simulator crates/pipes"),
    ("journal", "MAGIC", "image"),
    ("journal", "MAX_PART_LINES", "image"),
    ("pmem_file", "LINES_A_WRITE", "crates/pmem_file"),
    ("simulator", "USUAL_LINES", "simulator"),
    ("simulator", "MOST_EVENTS", "simulator"),
]


def numbers_on(page):
    """The numbers that a page states, as 4096, 65,536 or 2^31."""
    return {int(base.replace(",", "")) ** int(power or 1) for base, power in NUMBER.findall(pages.text_of(page))}


def page_of(name):
    """The page that the table of limits names so."""
    return common.ROOT / (f"{name}/README.md" if "/" in name else "README.md" if name == "README" else f"docs/{name}.md")


def scope_of(page):
    """The crates whose words a page may name: all, or the crate of a README and those that it depends on."""
    own = page.parent.name if page.parent.parent == sources.CRATES else None
    return sources.below(own) if own else list(sources.crates())


def folders_of(page):
    """Where a path that the page names may begin: at its own crate, or at any where it is of none."""
    is_of_crate = page.parent.parent == sources.CRATES
    parts = (".", "specs", "proofs", "src") if is_of_crate else (".",)
    crates = [page.parent] if is_of_crate else [sources.CRATES / crate for crate in sources.crates()]
    others = [page.parent, common.ROOT, sources.CRATES, common.ROOT / "tests", *common.ROOMS]
    return [*(crate / part for crate in crates for part in parts), *others]


def bytes_of(cell):
    """The bytes in backticks in a cell, one after another, where `\\r` and `\\n` stand for a line end."""
    return "".join(pages.CODE.findall(cell)).replace("\\r", "\r").replace("\\n", "\n").encode("ascii")


def text_behind(command):
    """What reads the options of a command: the code of the program that it starts, or its own text."""
    crate = pages.STARTERS.get(command.name)
    return sources.code(crate) if crate else command.read_text(encoding="utf-8")


class Names(common.Cases):
    """Each thing that a page names is there."""

    def test_paths(self):
        for page in pages.PAGES:
            for path in sorted(set(pages.paths(page))):
                with self.case("path", page=pages.name_of(page), path=path):
                    self.assertTrue(any(any(folder.glob(path)) for folder in folders_of(page)))

    def test_links(self):
        for page in pages.PAGES:
            for target, section in pages.links(page):
                with self.case("link", page=pages.name_of(page), target=target, section=section):
                    linked = page.parent / target
                    self.assertTrue(linked.is_file())
                    self.assertTrue(not section or section in pages.sections(linked), section)

    def test_words(self):
        tests = {f"test_{row}" for row in [*worked.FIRST_PATH, *worked.FAULTS, *worked.COMMANDS, *worked.TRANSACTIONS]}
        for page in pages.PAGES:
            known = tests.union(sources.script_names(), sources.crates(), *map(sources.words, scope_of(page)))
            for code in sorted(set(pages.codes(page))):
                found = NAME.fullmatch(code)
                if not found or code in LATER or code in OUTSIDE:
                    continue
                with self.case("name", page=pages.name_of(page), name=code):
                    self.assert_named(found[1], found[2], known)

    def assert_named(self, word, rest, known):
        if rest and word in sources.crates():
            word, known = rest.rpartition("::")[2], sources.shown(word)
        elif rest:
            word, known = word + rest, set().union(*map(sources.calls, sources.crates()))
        self.assertTrue(word in known, "no source names it")

    def test_where_names_stand(self):
        for page in pages.PAGES:
            for cited, place in pages.citations(page):
                text = sources.text_at(place, folders_of(page))
                for name in [] if text is None else cited:
                    if name in LATER or name in sources.crates() or not NAME.fullmatch(name):
                        continue
                    with self.case("cited", page=pages.name_of(page), name=name, place=place):
                        self.assertRegex(text, rf"(?<![\w-]){re.escape(name)}(?![\w-])")

    def test_tests(self):
        for page in pages.PAGES:
            for module, tests, test in set(TEST.findall(pages.text_of(page))):
                with self.case("test", page=pages.name_of(page), module=module, tests=tests, test=test):
                    found = getattr(__import__(module), tests)
                    self.assertTrue(not test or callable(getattr(found, test)))

    def test_rows_of_worked_cases(self):
        rows = pages.rows(CASES, "The first path")
        self.assert_cases([row[0] for row in rows], worked.FIRST_PATH)
        for name, given, output in rows:
            with self.case("row", name=name):
                data, wanted = worked.FIRST_PATH[name.replace(" ", "_")]
                self.assertEqual(bytes_of(output), wanted)
                if re.fullmatch(r"`\*[^`]*`", given):
                    self.assertEqual(bytes_of(given), data)

    def test_faults_of_the_protocol(self):
        """Most examples of the page are cases of the table of faults, with the reply of their row."""
        wanted, count = dict(worked.FAULTS.values()), 0
        for _, reply, examples in pages.rows(PROTOCOL, "Faults"):
            for example in pages.CODE.findall(examples):
                data = bytes_of(f"`{example}`")
                if data in wanted:
                    with self.case("fault", example=example):
                        count += 1
                        said = pages.CODE.findall(reply)[0].replace("'x'", f"'{example[-1]}'")
                        self.assertEqual(bytes_of(f"`{said}`"), wanted[data])
        self.assertGreater(count, 6)

    def assert_cases(self, shown, table):
        """The page shows cases of the table, in its order, each once."""
        names = [name.replace(" ", "_") for name in shown]
        self.assertEqual(names, [name for name in table if name in names])
        self.assertGreater(len(names), 2)

    def test_rows_of_commands_and_of_transactions(self):
        for heading, table in [("Commands", worked.COMMANDS), ("Transactions", worked.TRANSACTIONS)]:
            rows = pages.rows(CASES, heading)
            self.assert_cases([row[0] for row in rows], table)
            for name, requests, replies, position in rows:
                with self.case("row", name=name):
                    found = worked.Session(pages.CODE.findall(requests), pages.CODE.findall(replies), int(position))
                    self.assertEqual(found, table[name.replace(" ", "_")])

    def test_commands_that_are_named(self):
        for page in pages.PAGES:
            for code in sorted(set(pages.codes(page))):
                found = re.fullmatch(r"((?:bin|tests)/[\w-]+)((?: .*)?)", code)
                if found:
                    with self.case("command", page=pages.name_of(page), command=code):
                        command = common.ROOT / found[1]
                        self.assertTrue(os.access(command, os.X_OK))
                        for option in re.findall(r"--[\w-]+", found[2]):
                            self.assertIn(option, text_behind(command))

    def test_the_toolchain(self):
        if not shutil.which("rt"):
            print(f"{self.id()}: skipped, since there is no toolchain", flush=True)
            return
        # (the logic decides what is proved; kits of one logic may have other names and patch levels)
        logic = wrong_bodies.logic()
        self.assertIn(logic, pages.codes(README))
        rest = " ".join(wrong_bodies.version().replace(logic, "").split())
        if rest not in pages.prose(README):
            print(f"the toolchain here is {rest}, which README.md does not name, of the logic that README.md names", flush=True)

    def test_names_that_come_later_are_not_there_yet(self):
        for name in LATER:
            with self.case("later", name=name):
                self.assertTrue(any(name in pages.codes(page) for page in pages.PAGES), "no page names it")
                there = [crate for crate in sources.crates() if name in sources.words(crate) | sources.calls(crate)]
                self.assertEqual(there, [], "it is there now: say so on the pages that name it")


class Crates(common.Cases):
    """The tables of crates in docs/architecture.md and README.md."""

    def test_each_crate_has_its_row(self):
        self.assertEqual([row[0] for row in pages.rows(CRATES, "What each crate proves")], list(sources.crates()))

    def test_what_carries_each_crate(self):
        """In the table of README.md, where a crate is followed by its contracts."""
        count = 0
        for cell, _ in pages.rows(README, "Proved, tested, trusted"):
            crate = None
            for name in pages.CODE.findall(cell):
                if name in sources.crates():
                    crate = name
                    continue
                with self.case("carried", crate=crate, name=name):
                    count += 1
                    # (a program shows nothing to others)
                    known = sources.shown(crate) if sources.public_names(crate) else sources.words(crate)
                    self.assertIn(name, known, "the crate has no such contract")
        self.assertGreater(count, 40)

    def test_the_ten_lines(self):
        """They stand so in the source."""
        source = (common.ROOT / "crates" / "example" / "src" / "main.rt").read_text(encoding="utf-8")
        shown = CRATES.read_text(encoding="utf-8").partition("## The crates in ten lines\n")[2].partition("\n## ")[0]
        lines = [line.removeprefix("    ") for line in shown.splitlines() if line.startswith("    ")]
        self.assertGreater(len(lines), 10)
        self.assertIn("\n" + "\n".join(lines) + "\n", source)

    def test_public_names_are_found(self):
        # otherwise the tests of names would check nothing
        for crate in sources.crates():
            with self.case("crate", crate=crate):
                is_library = (sources.CRATES / crate / "src" / "lib.rt").exists()
                self.assertEqual(bool(sources.public_names(crate)), is_library)
        self.assertLessEqual({"Pmem", "Pmem::fence", "SimPmem::new", "persist"}, sources.public_names("pmem"))


class Limits(common.Cases):
    """A page that states a limit states the number that its constant is."""

    def test_limits(self):
        stated = {page: numbers_on(page) for page in pages.PAGES}
        for crate, constant, named in LIMITS:
            for name in named.split():
                with self.case("limit", constant=constant, page=name):
                    self.assertIn(sources.value(crate, constant), stated[page_of(name)])
