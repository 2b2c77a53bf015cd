"""A file with a journal behind the lines of its image, as the crate journal has it: its records, what an opening makes of it, and what a device asks of the
file. A device's calls are given as they come, each a write, as place and words, or a sync, which is None; so whoever makes them may stop at any."""

import array
import os
import struct

from plain_image import LEAST_LINES, MOST_LINES

WORDS_OF_LINE, LINE_BYTES = 8, 64
MAGIC = 0x31304E524A4C4257
MOST_PART_LINES = 524_288
# Where the superblock has the number of lines of the image.
LINES_WORD = 2


def sealed(lines):
    """The words of a record of these lines, each a number and eight words."""
    body = [number for number, _ in lines] + [word for _, words in lines for word in words]
    return [1 + body.count(0), len(lines), *body]


def first_record(words, most, first=0):
    """The lines of the record at the beginning, or from `first` on, each below `most`, and how many words it has; or None where none passes."""
    if len(words) - first < 2 or not words[first + 1] or 9 * words[first + 1] > len(words) - first - 2:
        return None
    size = 2 + 9 * words[first + 1]
    body, count = words[first + 2:first + size], words[first + 1]
    if words[first] != 1 + body.count(0) or any(number >= most for number in body[:count]):
        return None
    return [(number, body[at:at + WORDS_OF_LINE]) for number, at in zip(body, range(count, 9 * count, WORDS_OF_LINE))], size


def records_in(words, most):
    """The records, up to the first that does not pass, and how many words they have."""
    records, used = [], 0
    while found := first_record(words, most, used):
        records.append(found[0])
        used += found[1]
    return records, used


class Shape:
    def __init__(self, lines, part):
        self.lines, self.part = lines, part
        self.head_at, self.words_of_part = WORDS_OF_LINE * lines, WORDS_OF_LINE * part

    @staticmethod
    def of_image(lines):
        """That of a new file with an image of so many lines."""
        return Shape(lines, min(lines // 4, MOST_PART_LINES))

    @property
    def lines_of_file(self):
        return self.lines + 1 + 2 * self.part

    def part_at(self, generation):
        return self.head_at + WORDS_OF_LINE + generation % 2 * self.words_of_part

    def head(self, generation):
        return [MAGIC, generation, self.lines, self.part, 0, 0, 0, 0]

    def generation_in(self, words):
        return words.get(self.head_at + 1, 0)

    def part_in(self, words):
        at = self.part_at(self.generation_in(words))
        return [words.get(place, 0) for place in range(at, at + self.words_of_part)]


def words_of(data, first, count):
    return struct.unpack_from(f"<{count}Q", data, 8 * first)


def shape_in(data):
    """The shape of a file with a journal and its generation, of all of its bytes; or None where it has none."""
    lines = len(data) // LINE_BYTES
    if len(data) % LINE_BYTES or lines <= LEAST_LINES:
        return None
    (image,) = words_of(data, LINES_WORD, 1)
    if not LEAST_LINES <= image <= MOST_LINES or image >= lines:
        return None
    head = list(words_of(data, WORDS_OF_LINE * image, WORDS_OF_LINE))
    told, first = Shape(image, head[3]), Shape.of_image(image)
    if head == told.head(head[1]) and told.lines_of_file == lines:
        return told, head[1]
    # (what a crash leaves of the first one that is written)
    is_left = all(word in (0, whole) for word, whole in zip(head, first.head(1)))
    return (first, 0) if is_left and first.lines_of_file == lines else None


def image_in(data):
    """The bytes of the image that an opening makes of the bytes of a file, with a journal or without."""
    found = shape_in(data)
    if found is None:
        return data
    shape, generation = found
    image = bytearray(data[:LINE_BYTES * shape.lines])
    part = array.array("Q", data[8 * shape.part_at(generation):8 * (shape.part_at(generation) + shape.words_of_part)]).tolist()
    for lines in records_in(part, shape.lines)[0]:
        for number, words in lines:
            struct.pack_into("<8Q", image, LINE_BYTES * number, *words)
    return bytes(image)


def file_of(data):
    """The bytes of a file with a new journal, of those of its image."""
    shape = Shape.of_image(len(data) // LINE_BYTES)
    return data + bytes(LINE_BYTES * (shape.lines_of_file - shape.lines))


def read_file(path):
    """The bytes of the image in a file, also beside a node that runs: read again where the journal began anew meanwhile."""
    with open(path, "rb") as file:
        while True:
            first = _head_in(file)
            file.seek(0)
            data = file.read()
            if _head_in(file) == first:
                return image_in(data)


def _head_in(file):
    """The line behind those of the image, where there is one."""
    lines = int.from_bytes(os.pread(file.fileno(), 8, 8 * LINES_WORD), "little")
    return os.pread(file.fileno(), LINE_BYTES, LINE_BYTES * lines) if lines <= MOST_LINES else b""


def put(image, lines):
    for number, words in lines:
        for place, word in enumerate(words, WORDS_OF_LINE * number):
            if word:
                image[place] = word
            else:
                image.pop(place, None)


def opened(words, shape, records_in=records_in):
    """The image that an opening makes of the words of a file. Words that are zero are not kept."""
    image = {place: word for place, word in words.items() if place < shape.head_at}
    for lines in records_in(shape.part_in(words), shape.lines)[0]:
        put(image, lines)
    return image


class Device:
    """A device over a file with a journal whose part in use is empty."""

    def __init__(self, shape, image, generation):
        self.shape, self.image, self.generation = shape, dict(image), generation
        self.used, self.waiting, self.recorded = 0, [], set()

    def fence(self, lines):
        """Orders these lines behind all before them."""
        put(self.image, lines)
        record = sealed(lines)
        if not self.has_room(record):
            yield from self.sync()
            yield from self.checkpoint()
        if self.has_room(record):
            self.waiting += record
            self.recorded.update(number for number, _ in lines)
            return
        yield from self.lines_in_place(number for number, _ in lines)
        yield None
        # (whoever reads meanwhile has to see another generation before a later record)
        yield from self.begin_next()

    def sync(self):
        """Makes durable all that was ordered."""
        if self.waiting:
            yield self.shape.part_at(self.generation) + self.used, self.waiting
            yield None
            self.used += len(self.waiting)
            self.waiting = []

    def checkpoint(self):
        yield from self.lines_in_place(self.recorded)
        yield None
        old, used = self.shape.part_at(self.generation), self.used
        yield from self.begin_next()
        yield old, used * [0]

    def begin_next(self):
        self.generation += 1
        self.used, self.recorded = 0, set()
        yield self.shape.head_at, self.shape.head(self.generation)
        yield None

    def lines_in_place(self, numbers):
        for number in sorted(numbers):
            at = WORDS_OF_LINE * number
            yield at, [self.image.get(place, 0) for place in range(at, at + WORDS_OF_LINE)]

    def has_room(self, record):
        return self.used + len(self.waiting) + len(record) <= self.shape.words_of_part


class Opening:
    """A device over a file that is there, and the calls that bring it into being."""

    def __init__(self, shape, cached, device=Device):
        self.shape = shape
        self.device = device(shape, opened(cached, shape), shape.generation_in(cached))
        self.recorded = {number for lines in records_in(shape.part_in(cached), shape.lines)[0] for number, _ in lines}
        self.words = [cached.get(place, 0) for place in range(shape.part_at(2))]
        self.words += [cached.get(place, 0) for place in range(len(self.words), shape.part_at(1) + shape.words_of_part)]

    def calls(self):
        """All is written back as it was read, and synced; the recorded lines are put in place; the other part gets zeros, and the next generation begins."""
        yield from self.write_back()
        device, shape, zeros = self.device, self.shape, self.shape.words_of_part * [0]
        yield from device.lines_in_place(self.recorded)
        yield None
        old = shape.part_at(device.generation)
        yield shape.part_at(device.generation + 1), zeros
        yield None
        yield from device.begin_next()
        yield old, zeros

    def write_back(self):
        for at in range(0, len(self.words), WORDS_OF_LINE):
            yield at, self.words[at:at + WORDS_OF_LINE]
        yield None
