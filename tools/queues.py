"""Records in queues, as the library reads and judges them: many at once, and no more than are at hand."""
from collections import namedtuple

from tools import inputs, library, refusals
from tools.fault import CannotJudge

SIZE_MAX = 1 << 20      # bytes of JSON: the text that brings a queue to it is its last

# sheet: the record, or None; fault: why there is none, or None.
Queued = namedtuple('Queued', 'source sheet fault')


def queues_in(sources):
    """The sources in their order, in lists that are not too long; where the next one may be long in coming, a list ends
    before it."""
    queue, size = [], 0
    for source in sources:
        if source is not inputs.WAIT:
            queue.append(source)
            size += 0 if isinstance(source.data, CannotJudge) else len(source.data)
        if source is inputs.WAIT or len(queue) == library.QUEUE_MAX or size >= SIZE_MAX:
            yield queue
            queue, size = [], 0
    yield queue


def read(judge, sources):
    """The records of the sources."""
    texts = [source.data for source in sources if not isinstance(source.data, CannotJudge)]
    readings = iter(judge.read(texts) if texts else [])
    return [unread(source, source.data) if isinstance(source.data, CannotJudge) else read_one(source, next(readings))
            for source in sources]


def read_one(source, reading):
    """What came of a text: a sheet, or the answer that refuses it."""
    if isinstance(reading, library.Answer):
        return unread(source, refusals.text_fault(reading, source.data, source.line is not None))
    return Queued(source, reading, None)


def unread(source, fault):
    return Queued(source, None, fault)


def answered(judge, sources, quiet):
    """(what came of a source, the judge's answer) of each; None for one that has a fault, as all have if the library
    gives nothing. The answers have no cells; quiet: nothing but verdicts is asked."""
    try:
        queue = read(judge, sources)
        sheets = [one.sheet for one in queue if one.sheet is not None]
        asked = judge.verdicts if quiet else judge.judge_queue
        answers = iter(asked(sheets) if sheets else [])
        return [(one, None if one.sheet is None else next(answers)) for one in queue]
    except CannotJudge as fault:
        return [(unread(source, source.data if isinstance(source.data, CannotJudge) else fault), None)
                for source in sources]
