"""Lines, words, names and numbers."""

import re

NAME_BYTES = frozenset(range(33, 127)) - frozenset(b"(),=#")
FILE_LIMIT = 16777216


class Refused(Exception):
    """A run that ends with one line more and this status."""

    def __init__(self, line, status=1):
        super().__init__(line)
        self.line = line.encode() + b"\n"
        self.status = status


def lines_of(text):
    """A text that ends with a line feed has no further line after it."""
    lines = text.split(b"\n")
    return lines[:-1] if lines[-1] == b"" else lines


def words_of(line):
    return [word for word in re.split(rb"[ \t\r]+", line) if word]


def is_name(word, most):
    return 1 <= len(word) <= most and all(byte in NAME_BYTES for byte in word)


def number_in(word, digits, least, most):
    """The value of up to so many digits, in this range; else none."""
    if not re.fullmatch(rb"[0-9]{1,%d}" % digits, word):
        return None
    value = int(word)
    return value if least <= value <= most else None


def plain_number_in(word, least, most):
    """The same of any digits with no zero before another one."""
    if not re.fullmatch(rb"0|[1-9][0-9]*", word):
        return None
    value = int(word) if len(word) <= 30 else most + 1
    return value if least <= value <= most else None
