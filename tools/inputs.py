"""The records that files, lines of files and folders hold, and schema documents; '-' is standard input."""
import os
import select
import sys
from collections import namedtuple
from contextlib import contextmanager

from tools.fault import CannotJudge
from tools.library import JSON_MAX
from tools.reading import BYTES_MAX, read_json, read_some, without_mark

LINES = ('.jsonl', '.ndjson')       # names of files that hold a record on each line
NAMES = ('.json',) + LINES          # names of files that a folder is searched for
PIECE = 1 << 16                     # bytes that are read at once
MOST = JSON_MAX + 4                 # bytes of a file that is one record, with a mark and one too many

# data: the JSON text of a record, as far as JSON_MAX + 1 bytes, or a CannotJudge; line: its line's number, in a file of
# lines.
Source = namedtuple('Source', 'file data line', defaults=(None,))
WAIT = None                         # in place of a source: the next one may be long in coming


def read_document(file):
    """The JSON value in a file."""
    with opened(file) as data:
        return read_json(read_some(data))


def record_in(file):
    """The source that a file is as a whole."""
    try:
        with opened(file) as data:
            return source_of(file, data.read(MOST))
    except CannotJudge as fault:
        return Source(file, fault)


def source_of(file, data, line=None):
    return Source(file, without_mark(data)[:JSON_MAX + 1], line)


def sources(files, by_lines, but):
    """The sources in the files and folders, and WAIT; of folders without the files that are schemas."""
    but = {os.path.realpath(file) for file in but}
    for file in files:
        if file != '-' and os.path.isdir(file):
            yield from in_folder(file, by_lines, but)
        else:
            yield from in_file(file, by_lines)


def in_folder(folder, by_lines, but):
    faults, found = [], []
    for at, folders, names in os.walk(folder, onerror=faults.append):
        folders.sort()
        found += [os.path.join(at, name) for name in sorted(names) if name.endswith(NAMES)]
    found = [file for file in found if os.path.realpath(file) not in but]
    for fault in faults:
        yield Source(fault.filename, CannotJudge(words_of(fault)))
    for file in found:
        yield from in_file(file, by_lines)
    if not found and not faults:
        yield Source(folder, CannotJudge('a folder without a file named %s' % ', '.join(NAMES)))


def in_file(file, by_lines):
    """One source, or one for each line that is not blank."""
    if not os.path.isfile(file):
        yield WAIT
    if not by_lines and not file.endswith(LINES):
        yield record_in(file)
        return
    try:
        with opened(file) as data:
            yield from lines_in(file, data)
    except CannotJudge as fault:
        yield Source(file, fault)


def lines_in(file, data):
    number, rest = 0, b''
    for piece in pieces_in(data):
        if piece is WAIT:
            yield WAIT
            continue
        *lines, rest = (rest + piece).split(b'\n')
        for line in lines + [rest] * (len(rest) > BYTES_MAX or not piece):
            number += 1
            if line.strip():
                yield source_of(file, line.rstrip(b'\r'), number)
        if len(rest) > BYTES_MAX:
            return                  # where such a line ends nobody knows


def pieces_in(data):
    """What is read, up to an empty piece at the end; WAIT before a piece that is not there yet."""
    piece = WAIT
    while piece != b'':
        if not select.select([data], [], [], 0)[0]:
            yield WAIT
            select.select([data], [], [])
        piece = os.read(data.fileno(), PIECE)
        yield piece


@contextmanager
def opened(file):
    """The file, open for reading; what goes wrong with it is said in words."""
    try:
        if file != '-':
            with open(file, 'rb') as data:
                yield data
        elif sys.stdin is None:
            raise CannotJudge('standard input is closed')
        else:
            yield sys.stdin.buffer
    except OSError as fault:
        raise CannotJudge(words_of(fault))


def words_of(fault):
    return (fault.strerror or str(fault)).lower()
