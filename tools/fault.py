"""Why there is no verdict, and JSON pointers, by which every place is told."""


class CannotJudge(Exception):
    """In words, with the place in the file ('' for the whole of it); file is set where it is not the one being read.
    faults are all that is wrong, if it is more than this."""

    def __init__(self, words, place='', file=None):
        super().__init__(words)
        self.words, self.place, self.file = words, place, file
        self.faults = [self]


def refuse_if_any(faults):
    """Raises the first of the faults, with all of them, each told once."""
    if faults:
        faults[0].faults = list({(fault.file, fault.place, fault.words): fault for fault in faults}.values())
        raise faults[0]


class Document(str):
    """The first token of a place in a further schema document: its file, with the value in it. It equals no member's
    name."""

    def __new__(cls, file, value):
        token = super().__new__(cls, file)
        token.value = value
        return token

    def __eq__(self, other):
        return self is other

    __hash__ = object.__hash__


def file_of(tokens):
    """The further document that a place is in; None for the first."""
    return str(tokens[0]) if tokens and isinstance(tokens[0], Document) else None


def pointer(tokens):
    """The JSON pointer of the tokens. A document is no step in it, nor is a number, by which places are told apart
    that the user's file does not have."""
    return ''.join('/' + token.replace('~', '~0').replace('/', '~1') for token in tokens
                   if isinstance(token, str) and not isinstance(token, Document))


def fragment(tokens):
    """A place in a schema as the command prints it."""
    return (file_of(tokens) or '') + '#' + pointer(tokens)


def fault_at(words, tokens):
    """A fault of a schema document, told by the file that it is in."""
    return CannotJudge(words, '#' + pointer(tokens), file_of(tokens))
