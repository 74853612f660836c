"""The calls of the proved library, and the only module that knows them: loaded into this process by ctypes, or, on a
machine that cannot load it, made by a worker process. Both give the same answers.

A judge is asked about rules once, and then about any number of records, in queues or one by one; records are read by
the library too.
"""
import ctypes
import os
import struct
import subprocess
from collections import namedtuple

from tools import building, sheets
from tools.fault import CannotJudge

# As include/amphorust.h has them.
ROWS_MAX, SCHEMAS_MAX, CLAUSES_MAX, ENTRIES_MAX, TEXT_MAX = 1024, 1024, 4096, 4096, 65_535
ROOM_MAX = ROWS_MAX * SCHEMAS_MAX
QUEUE_MAX = 512         # records
JSON_MAX = 65_536       # bytes of a JSON text
WORDS_MAX = 6 * ROWS_MAX + 4            # of a record
CELL_HELD, CELL_FAILED, CELL_MARKED = 1, 2, 4

# word: 'valid' (of rules and of a text that is read: in order), 'invalid' or 'refused', then with number and place; cells
# only of the invalid that were judged in whole.
Answer = namedtuple('Answer', 'word number place cells', defaults=(None, None, None))


def answer_in(number, cells):
    """The answer that a number stands for; cells gives them."""
    low, high = number % 256, number // 256
    if low > 10:
        return Answer('refused', low - 10, high)
    if low > 1:
        raise no_answer(number)
    return Answer('invalid', cells=cells()) if low == 1 else Answer('valid')


def no_answer(number):
    return CannotJudge('gives an answer that is none: %d' % number, file=building.named(building.LIBRARY))


def answers_in(number, numbers, records):
    """The answers of a queue, without cells: those of its last record alone are left. number is the call's own."""
    if number != 256 * len(records):
        raise no_answer(number)         # all are listed as they lie, so that no queue is refused
    return [answer_in(one, lambda: None) for one in numbers()]


def queued(records):
    """The records' words, texts and listing, as a queue has them."""
    listing, words, text = [], 0, 0
    for record in records:
        count = len(record.words) // 4
        listing += [words, count, text, len(record.text)]
        words, text = words + count, text + len(record.text)
    return sheets.Sheet(b''.join(record.words for record in records), b''.join(record.text for record in records)), listing


def is_cut_short(path):
    """Whether a library lacks bytes that its header says it has: who loads such a one is ended by the system."""
    with open(path, 'rb') as file:
        head = file.read(64)
        size = file.seek(0, os.SEEK_END)
    if head[:4] != b'\x7fELF' or len(head) < 64:
        return False                    # the loader says what it is
    start, = struct.unpack_from('<Q', head, 0x28)
    entry, count = struct.unpack_from('<HH', head, 0x3A)
    return size < start + entry * count         # the table of sections stands behind all else


def opened():
    """The judge that this machine can have."""
    return Loaded() if building.LOADS else Worker()


class Loaded:
    """The library in this process."""

    def __init__(self):
        try:
            if is_cut_short(building.LIBRARY):
                raise OSError('it is cut short')
            self.library = ctypes.CDLL(building.LIBRARY)
        except OSError as fault:
            raise CannotJudge('cannot be loaded: %s' % fault, file=building.named(building.LIBRARY))
        sheet = [ctypes.c_void_p, ctypes.c_size_t] * 2
        self.call('amphorust_read', sheet[:2] * 3)
        self.call('amphorust_check', sheet)
        self.call('amphorust_judge', sheet * 3)
        self.call('amphorust_verdict', sheet * 2 + sheet[:2])
        self.call('amphorust_judge_queue', sheet * 4)
        self.words, self.text = (ctypes.c_uint32 * WORDS_MAX)(), (ctypes.c_uint8 * TEXT_MAX)()
        self.cells, self.list = (ctypes.c_uint8 * ROOM_MAX)(), (ctypes.c_uint32 * ROOM_MAX)()
        self.schemas, self.rules = 0, ()

    def call(self, name, arguments):
        try:
            function = getattr(self.library, name)
        except AttributeError:
            raise CannotJudge('has no %s: build it again, by ./amphorust build' % name,
                              file=building.named(building.LIBRARY))
        function.argtypes, function.restype = arguments, ctypes.c_uint64

    def read(self, texts):
        """Of each JSON text its record sheet, or the answer that refuses it."""
        return [self.read_one(text) for text in texts]

    def read_one(self, text):
        number = self.library.amphorust_read(text, len(text), self.words, WORDS_MAX, self.text, TEXT_MAX)
        answer = answer_in(number, None)
        if answer.word == 'refused':
            return answer
        words = ctypes.string_at(self.words, sheets.record_size(number // 256))
        return sheets.Sheet(words, ctypes.string_at(self.text, sheets.text_size(words)))

    def check(self, rules):
        """The answer on rules, by which records are judged from now on."""
        self.schemas, self.rules = sheets.schemas(rules), lent(rules)
        return answer_in(self.library.amphorust_check(*self.rules), None)

    def judge(self, record):
        """The answer on a record."""
        number = self.library.amphorust_judge(*lent(record), *self.rules, self.cells, ROOM_MAX, self.list, ROOM_MAX)
        return answer_in(number, lambda: bytes(memoryview(self.cells)[:sheets.rows(record) * self.schemas]))

    def judge_queue(self, records):
        """The answers on up to QUEUE_MAX records, without the cells."""
        (sheet, listing), answers = queued(records), (ctypes.c_uint64 * len(records))()
        number = self.library.amphorust_judge_queue(
            *lent(sheet), (ctypes.c_uint32 * len(listing))(*listing), len(listing), *self.rules, self.cells, ROOM_MAX,
            self.list, ROOM_MAX, answers, len(records))
        return answers_in(number, lambda: answers, records)

    def verdicts(self, records):
        """The same, but no more is judged than each verdict needs."""
        return [answer_in(self.library.amphorust_verdict(*lent(record), *self.rules, self.cells, ROOM_MAX), lambda: None)
                for record in records]


def lent(sheet):
    """A sheet as a call takes it, its words where words may stand."""
    count = len(sheet.words) // 4
    return (ctypes.c_uint32 * count).from_buffer_copy(sheet.words), count, sheet.text, len(sheet.text)


class Worker:
    """The library in a process of its own: tools/worker.c says what is written and read."""

    RULES, RECORD, VERDICT, QUEUE, TEXTS = 1, 2, 3, 4, 5

    def __init__(self):
        try:
            self.process = subprocess.Popen(building.worker_call(), stdin=subprocess.PIPE, stdout=subprocess.PIPE,
                                            stderr=subprocess.DEVNULL)
        except OSError as fault:
            raise CannotJudge('does not run: %s' % fault.strerror.lower(), file=building.named(building.WORKER))
        self.schemas = 0

    def read(self, texts):
        self.write(request(self.TEXTS, sheets.Sheet(sheets.to_bytes(map(len, texts)), b''.join(texts))))
        return [self.read_one() for _ in texts]

    def read_one(self):
        number, = self.numbers(1)
        answer = answer_in(number, None)
        if answer.word == 'refused':
            return answer
        words = self.read_bytes(sheets.record_size(number // 256))
        return sheets.Sheet(words, self.read_bytes(sheets.text_size(words)))

    def check(self, rules):
        self.schemas = sheets.schemas(rules)
        return answer_in(self.asked(self.RULES, rules), None)

    def judge(self, record):
        number = self.asked(self.RECORD, record)
        return answer_in(number, lambda: self.read_bytes(sheets.rows(record) * self.schemas))

    def judge_queue(self, records):
        number = self.asked(self.QUEUE, *queued(records))
        return answers_in(number, lambda: self.numbers(len(records)), records)

    def verdicts(self, records):
        """All are asked before the first answer is read: those of a queue fit the pipe."""
        self.write(b''.join(request(self.VERDICT, record) for record in records))
        return [answer_in(number, lambda: None) for number in self.numbers(len(records))]

    def asked(self, what, sheet, listing=()):
        self.write(request(what, sheet, listing))
        return self.numbers(1)[0]

    def write(self, data):
        try:
            self.process.stdin.write(data)
            self.process.stdin.flush()
        except OSError:
            raise self.gone()

    def numbers(self, count):
        return struct.unpack('<%dQ' % count, self.read_bytes(8 * count))

    def read_bytes(self, count):
        data = self.process.stdout.read(count)
        if len(data) < count:
            raise self.gone()
        return data

    def gone(self):
        self.process.stdout.close()
        return CannotJudge('ended with %d and without an answer: build it again, by ./amphorust build'
                           % self.process.wait(), file=building.named(building.WORKER))


def request(what, sheet, listing=()):
    """What the worker reads."""
    head = [what, len(sheet.words) // 4, len(sheet.text), len(listing) // 4, *listing]
    return sheets.to_bytes(head) + sheet.words + sheet.text
