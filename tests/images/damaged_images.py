"""Whole images with one rule broken, which are refused with nothing stored, and images that are strange and break none
(docs/image.md, "Reading an arbitrary image"): of each its name, the refusal, and the words that are others than those of BASE."""

import plain_image
import plain_writer
from plain_image import DIRECTORY_LINE, GAPS_WORD, LAYOUT, MAGIC, NEWCOMER, PRIMARY, STANDBY, VERSION_1, WORDS_OF_LINE, extents_begin
from plain_keyspace import Put

LINES = 4_096
ENTRIES, FIRST_LINE, ROOT = LAYOUT.entries(LINES), extents_begin(LINES), LAYOUT.root_word
LIMIT, MOST = 2**62, 2**64 - 1
MAGIC_REFUSED, VERSION_REFUSED, SIZE_REFUSED, DAMAGED = 2, 3, 4, 7
WORD = {name: number for number, name in enumerate(["begin", "end", "position", "line", "lines", "kind", "lengths", "value"])}
FIELD_OF = {name: number for number, name in enumerate(["number", "position", "cp", "cd", "epoch", "count"])} | {"role": LAYOUT.role_word, "floor": LAYOUT.role_word + 1}


def base_writer():
    """Entries 0 to 4 hold a of 1, ended by stamp 4, b, f of h, a of 3, and c of stamp 4102, behind the gap 5 to 4100."""
    writer = plain_writer.Writer(LINES, PRIMARY)
    writer.commit([[Put((b"a",), b"1")], [Put((b"b",), b"2")]])
    writer.commit([[Put((b"h", b"f"), b"1")], [Put((b"a",), b"3")]])
    writer.reopen()
    writer.commit([[Put((b"c",), b"4")]])
    return writer


BASE = base_writer()
CP, CD, GAP = BASE.record.cp, BASE.record.cd, BASE.record.gaps[0]
SLOT, OTHER_SLOT = (LAYOUT.slot_word(LINES, number) for number in (BASE.record.number, BASE.record.number + 1))

V1_RECORD = plain_image.record_words(BASE.record._replace(number=1, gaps=(), layout=VERSION_1))


def entry(number, **values):
    """These words of an entry."""
    return {(DIRECTORY_LINE + number) * WORDS_OF_LINE + WORD[name]: value for name, value in values.items()}


def whole_entry(number, *words):
    return dict(enumerate(words, (DIRECTORY_LINE + number) * WORDS_OF_LINE))


def field(**values):
    """These words of the record."""
    return {SLOT + FIELD_OF[name]: value for name, value in values.items()}


def numbered(number):
    """The record under this number, in its slot."""
    return plain_image.record_in_place(LINES, BASE.record._replace(number=number))


def gaps(*pairs, count=None, rest=()):
    """The record with these gaps, and perhaps another count of them and words behind them."""
    flat = [bound for pair in pairs for bound in pair] + list(rest)
    words = flat + [0] * (2 * LAYOUT.most_gaps - len(flat))
    return field(count=len(pairs) if count is None else count) | dict(enumerate(words, SLOT + GAPS_WORD))


def text(line, data):
    """The bytes at the beginning of a line."""
    words = data.ljust(-(-len(data) // 8) * 8, b"\0")
    return {WORDS_OF_LINE * line + at // 8: int.from_bytes(words[at:at + 8], "little") for at in range(0, len(words), 8)}


SUPERBLOCKS = [
    ("no magic", MAGIC_REFUSED, {0: 0}),
    ("magic of another format", MAGIC_REFUSED, {0: MAGIC + 1}),
    ("magic before all else", MAGIC_REFUSED, {0: 0, 1: 9, 2: 9, 3: 9, ROOT: 9}),
    ("version 0", VERSION_REFUSED, {1: 0}),
    ("version 1", VERSION_REFUSED, {1: 1}),
    ("version 3", VERSION_REFUSED, {1: 3}),
    ("version before size and damage", VERSION_REFUSED, {1: 1, 2: 9, 3: 9}),
    ("a line more", SIZE_REFUSED, {2: LINES + 1}),
    ("a line less", SIZE_REFUSED, {2: LINES - 1}),
    ("size before damage", SIZE_REFUSED, {2: 0, 3: 9, ROOT: 9}),
    ("a line more of the directory", DAMAGED, {3: LINES // 8 + 1}),
    ("a line less of the directory", DAMAGED, {3: LINES // 8 - 1}),
    ("its number of entries", DAMAGED, {3: ENTRIES}),
]
RECORDS = [
    ("root of no record", DAMAGED, {ROOT: 0}),
    ("root of the record after it", DAMAGED, {ROOT: BASE.record.number + 1}),
    ("root of a record that was overwritten", DAMAGED, {ROOT: BASE.record.number - 2}),
    ("both records without a number", DAMAGED, {SLOT: 0, OTHER_SLOT: 0}),
    ("the numbers of the slots exchanged", DAMAGED, {SLOT: BASE.record.number - 1, OTHER_SLOT: BASE.record.number}),
    ("number 0", DAMAGED, numbered(0)),
    ("number at the limit", DAMAGED, numbered(LIMIT)),
    ("position at the limit", DAMAGED, field(position=LIMIT)),
    ("cd too low", DAMAGED, field(cd=CD - 1)),
    ("cd too high", DAMAGED, field(cd=CD + 1)),
    ("cp above cd", DAMAGED, field(cp=CD + 1)),
    ("cd at the limit", DAMAGED, field(cp=LIMIT - 4097, cd=LIMIT)),
    ("cd that wraps", DAMAGED, field(cp=MOST, cd=4096)),
    ("epoch 0", DAMAGED, field(epoch=0)),
    ("epoch at the limit", DAMAGED, field(epoch=LIMIT)),
    ("role 0", DAMAGED, field(role=0)),
    ("role 4", DAMAGED, field(role=4)),
    ("a newcomer at a position", DAMAGED, field(role=NEWCOMER)),
    ("a newcomer with versions", DAMAGED, field(role=NEWCOMER, position=0)),
    ("33 gaps", DAMAGED, gaps(*[(5 + 2 * k, 5 + 2 * k) for k in range(32)], count=33)),
    ("more gaps than fit a word", DAMAGED, gaps(GAP, count=MOST)),
    ("a gap beyond the count", DAMAGED, gaps(GAP, count=0)),
    ("a word beyond the count", DAMAGED, gaps(GAP, rest=[0, 1])),
    ("a gap of zeros", DAMAGED, gaps(GAP, count=2)),
    ("a gap from 0", DAMAGED, gaps((0, 4100))),
    ("a gap that ends before it begins", DAMAGED, gaps((6, 5))),
    ("a gap up to cp", DAMAGED, gaps((5, CP))),
    ("a gap above cp", DAMAGED, gaps((CP + 1, CP + 1))),
    ("gaps that share a stamp", DAMAGED, gaps((5, 10), (10, 4100))),
    ("gaps out of order", DAMAGED, gaps((50, 4100), (5, 49))),
    ("one gap twice", DAMAGED, gaps(GAP, GAP)),
]
ENTRIES_ALONE = [
    ("a begin at cd", DAMAGED, entry(100, begin=CD)),
    ("a begin of ones", DAMAGED, entry(ENTRIES - 1, begin=MOST)),
    ("an end at cd", DAMAGED, entry(1, end=CD)),
    ("an end at cd in a free entry", DAMAGED, entry(100, end=CD)),
    ("an extent in the directory", DAMAGED, entry(1, line=FIRST_LINE - 1)),
    ("an extent in the superblock", DAMAGED, entry(1, line=0)),
    ("an extent behind the last line", DAMAGED, entry(1, line=LINES)),
    ("an extent that passes the last line", DAMAGED, entry(1, line=LINES - 1, lines=2, value=64)),
    ("an extent at a line that wraps", DAMAGED, entry(1, line=MOST)),
    ("an extent of no lines", DAMAGED, entry(1, lines=0)),
    ("a line more than the lengths need", DAMAGED, entry(1, line=600, lines=2)),
    ("a line less than the lengths need", DAMAGED, entry(1, line=600, value=64)),
    ("lines that wrap", DAMAGED, entry(1, lines=MOST)),
    ("kind 0", DAMAGED, entry(1, kind=0)),
    ("kind 3", DAMAGED, entry(1, kind=3)),
    ("a string with a field", DAMAGED, entry(2, kind=1)),
    ("a key too long", DAMAGED, entry(1, line=600, lines=9, lengths=513)),
    ("a key of the longest length word", DAMAGED, entry(1, line=600, lines=1024, lengths=65_535)),
    ("a field too long", DAMAGED, entry(2, line=600, lines=9, lengths=1 + 513 * 65_536)),
    ("a field of all bits", DAMAGED, entry(2, lengths=MOST)),
    ("a value of all bits", DAMAGED, entry(1, value=MOST)),
    ("a position above the record's", DAMAGED, entry(1, position=BASE.record.position + 1)),
    ("an ended version with a kind that there is not", DAMAGED, entry(0, kind=9)),
]
ENTRIES_TOGETHER = [
    ("one extent of two versions", DAMAGED, entry(1, line=FIRST_LINE + 2)),
    ("one extent of a live and an ended version", DAMAGED, entry(1, line=FIRST_LINE)),
    ("extents that share a line", DAMAGED, entry(1, line=600, lines=2, value=64) | entry(2, line=601)),
    ("two live versions of a string", DAMAGED, entry(0, end=0)),
    ("two live versions, one ended in a gap", DAMAGED, entry(0, end=GAP[0])),
    ("two live versions, one ended above cp", DAMAGED, entry(0, end=CP + 1)),
    ("two live versions of a field", DAMAGED, whole_entry(9, 1, 0, 1, 600, 1, 2, 65_537, 1) | text(600, b"hf9")),
    ("a live string beside a live field", DAMAGED, text(FIRST_LINE + 1, b"h2")),
    ("a live string beside the empty field", DAMAGED, whole_entry(9, 1, 0, 1, 600, 1, 2, 1, 1) | text(600, b"b9")),
]
GARBAGE = [MOST, MOST, MOST, 9, MOST, MOST]
STRANGE = [
    ("as it was written", {}),
    ("words 4, 6 and 7 of the superblock", {4: 1, 6: 2, 7: MOST}),
    ("lines 1 to 7", dict(enumerate([MOST] * 56, WORDS_OF_LINE))),
    ("a record where version 1 has it", dict(enumerate(V1_RECORD, VERSION_1.slot_word(LINES, 1))) | {VERSION_1.root_word: 1}),
    ("the other slot", dict(enumerate([MOST] * 72, OTHER_SLOT))),
    ("the other slot without a record", dict(enumerate([0] * 72, OTHER_SLOT))),
    ("a higher record without the root", {OTHER_SLOT: BASE.record.number + 1}),
    ("lines of no version", dict(enumerate([MOST] * 80, 600 * WORDS_OF_LINE))),
    ("bytes behind those of a version", {(FIRST_LINE + 1) * WORDS_OF_LINE + 1: MOST}),
    ("a free entry of garbage", whole_entry(100, 0, CD - 1, *GARBAGE)),
    ("an entry in the gap, of garbage", whole_entry(100, GAP[0], GAP[1], *GARBAGE)),
    ("an entry above cp, of garbage", whole_entry(ENTRIES - 1, CD - 1, CP, *GARBAGE)),
    ("an end below its begin", entry(4, end=1)),
    ("an end that is its begin", entry(1, end=2)),
    ("an end in the gap", entry(1, end=GAP[1])),
    ("an end above cp", entry(1, end=CD - 1)),
    ("position 0", entry(1, position=0)),
    ("gaps that adjoin", gaps((5, 10), (11, 4100))),
    ("a gap of one stamp", gaps((4100, 4100))),
    ("a gap to below cp", gaps((5, CP - 1))),
    ("no gap", gaps()),
    ("32 gaps", gaps(*[(5 + 2 * k, 5 + 2 * k) for k in range(32)])),
    ("32 gaps with stamps in the oldest", gaps(*[(2 + 2 * k, 2 + 2 * k) for k in range(32)])),
    ("a gap over all that was committed", gaps((1, CP - 1))),
    ("a standby", field(role=STANDBY)),
    ("another position and epoch", field(position=LIMIT - 1, epoch=LIMIT - 1)),
    ("any floor", field(floor=MOST)),
    ("the extent of a version that does not count", whole_entry(9, GAP[0], 0, 1, FIRST_LINE, 1, 1, 1, 1)),
    ("a version of a live record that does not count", whole_entry(9, GAP[0], 0, 1, 600, 1, 1, 1, 1) | text(600, b"b9")),
    ("a string beside fields that ended", entry(2, end=4) | text(FIRST_LINE + 1, b"h2")),
    ("the last line", entry(1, line=LINES - 1) | text(LINES - 1, b"b2")),
    ("the empty key with the empty value", entry(1, lengths=0, value=0)),
    ("a field without key, name and value", entry(2, lengths=0, value=0)),
    ("the longest key and field", entry(2, line=600, lines=17, lengths=512 + 512 * 65_536) | text(600, 1025 * b"k")),
    ("a full line", entry(1, line=600, value=63) | text(600, 64 * b"v")),
]

