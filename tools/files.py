"""Files of the front door: read whole, told apart as survey file or plain text, and written."""
import sys
from collections import namedtuple

from plain_text import MAX_BYTES, is_text, read_all
from survey_text import Fault, write_site

# where a table came from, its survey file, and what plain text tells beside it: names, places and the reach
Given = namedtuple("Given", "path data names places reach", defaults=({}, {}, None))


def read(path):
    """The bytes of a file, or of standard input; no table has as many as are read at most."""
    try:
        if path != "-":
            with open(path, "rb") as file:
                data = file.read(MAX_BYTES + 1)
        elif sys.stdin is None:
            raise Fault("standard input is closed")
        else:
            data = sys.stdin.buffer.read(MAX_BYTES + 1)
    except OSError as error:
        raise Fault(f"{path}: cannot be read: {error.strerror}") from None
    if len(data) > MAX_BYTES:
        raise Fault(f"{path}: this is no table of a site: it has more than {MAX_BYTES:,} bytes")
    return data


def within(path, reader, data):
    """What the reader makes of the bytes; its faults name the path."""
    try:
        return reader(data)
    except Fault as fault:
        raise Fault(f"{path}: {fault}", fault.number) from None


def read_given(path, one_way=False):
    data = read(path)
    if not is_text(data):
        return Given(path, data)
    text = within(path, lambda data: read_all(data, one_way), data)
    return Given(path, write_site(text.site), text.names, text.places, text.reach)


def write(path, data):
    if path == "-":
        if sys.stdout is None:
            raise Fault("standard output is closed")
        sys.stdout.buffer.write(data)
        sys.stdout.flush()
        return
    try:
        with open(path, "wb") as file:
            file.write(data)
    except OSError as error:
        raise Fault(f"{path}: cannot be written: {error.strerror}") from None
