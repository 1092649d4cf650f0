"""What rules 19.1 to 19.9 say of a text, over Python's csv module as the reader and writer of records.

Where that module differs from the rules, even with strict=True, a line here makes up for it:
- It ends records at a bare CR, or refuses one, as the lines are cut that it is given. Here they are cut at LF alone, and
  a CR that is left outside quotes once the record's end is gone is not taken (`_untaken`).
- It takes quotes inside a field that does not start with one (`_untaken`).
- An empty record has no field there, and one empty field here (`records`); it writes one empty field as "" (`_record`).
- Before Python 3.11 it refuses NUL; here it is given another character in its place (`_NUL`).
- A field over 131,072 characters is an error there; here it is over 64 bytes, so nothing has to be done.
With strict=True it refuses text after a closing quote and a quote that is open at the end, as the rules do.
"""
import csv
import io
import re

TO_DRILL, TO_CSV = "to-drill", "to-csv"
RECORD, SHORT = 13, 8

_NUL = "\u0100"
_QUOTED_FIELD = re.compile(r'(?:(?<=,)|\A)"(?:[^"]|"")*"(?=,|\Z)')
_RECORD_END = re.compile(r"\r?\n\Z")
_NO_LINE = re.compile("[\t\r\n]")


def _taken(fields):
    """19.5 but for quotes."""
    return len(fields) <= 16 and all(len(field) <= 64 and not _NO_LINE.search(field) for field in fields)


def _untaken(record):
    """Whether a quote or a CR stands outside the quoted fields of a record that the module has read."""
    outside = _QUOTED_FIELD.sub("", _RECORD_END.sub("", record))
    return '"' in outside or "\r" in outside


def records(text):
    """The fields of each record, up to the first that is not taken, which is None."""
    read = []

    def lines():
        for line in io.StringIO(text, newline="\n"):
            read.append(line)
            yield line

    reader = csv.reader(lines(), strict=True)
    while True:
        read.clear()
        try:
            fields = next(reader, None)
        except csv.Error:
            yield None
            return
        if fields is None:
            return
        if _untaken("".join(read)) or not _taken(fields):
            yield None
            return
        yield fields or [""]


def lines(text):
    """The same of each line."""
    ended = text.split("\n")
    if not ended[-1]:
        ended.pop()
    for line in ended:
        fields = line.split("\t")
        if not _taken(fields):
            yield None
            return
        yield fields


def _record(fields):
    if fields == [""]:
        return "\r\n"
    out = io.StringIO(newline="")
    csv.writer(out, lineterminator="\r\n").writerow(fields)
    return out.getvalue()


def _line(fields):
    return "\t".join(fields) + "\n"


def convert(direction, text):
    """What stands before the first record or line that is not taken, converted, and the number of that one, or 0."""
    read, write = (records, _line) if direction == TO_DRILL else (lines, _record)
    written = []
    refused = 0
    for fields in read(text.decode("latin-1").replace("\0", _NUL)):
        if fields is None:
            refused = len(written) + 1
            break
        written.append(write(fields))
    return "".join(written).replace(_NUL, "\0").encode("latin-1"), refused


def answer(converted, capacity):
    """The number that a call answers, and what it writes (19.8)."""
    written, refused = converted
    if refused:
        return RECORD | refused << 8, b""
    if len(written) > capacity:
        return SHORT, b""
    return len(written) << 8, written
