"""Places as tuples of names, which are bytes and compare as places do, and what of a report lies in
a part of a storage root."""
import os
from urllib.parse import unquote_to_bytes


def place_of(text):
    """The place that a report line names."""
    return () if text == "." else tuple(map(unquote_to_bytes, text.split("/")))


def text_of(place):
    """A place as report lines write it."""
    return "/".join(map(escaped, place)) or "."


def escaped(name):
    return "".join(chr(byte) if 0x20 <= byte < 0x7F and byte != 0x25 else "%%%02X" % byte
                   for byte in name)


def separators_text(separators):
    return "".join(text_of(place) + "\n" for place in separators)


def read_separators(text):
    return [place_of(line) for line in text.splitlines()]


def lines_of(report):
    """The lines of a report, each with its place."""
    return [(place_of(line.split("\t")[1]), line) for line in report.splitlines(True)]


def parts_of(separators):
    """The ends of the parts, in their order: the first place, and that after the last; or None."""
    return list(zip([None, *separators], [*separators, None]))


def lies_in(place, start, below):
    return (start is None or start <= place) and (below is None or place < below)


def begins(start, place):
    return place[:len(start)] == start


def path_of(root, place):
    return os.path.join(os.fsencode(root), *place)
