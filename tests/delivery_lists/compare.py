"""compare.py LIBRARY COUNT SEED: the two conversions of a shared library beside the oracle, on short texts and random ones.

All short texts and COUNT random ones go in both directions, with just enough room, a byte less, 7 bytes more and none; answer,
text, written bytes and all lent bytes and guards beside them are compared. Ends with status 1 at the first difference.
"""
import collections
import ctypes
import itertools
import sys

import oracle
from texts import Texts

GUARD = 64
ROOM = 1 << 16
# A byte that no text has.
UNWRITTEN = b"\xa5" * ROOM
# Read with one of them a text would be another.
BESIDE = b'"' * GUARD
# The bytes that mean something, and one that does not; all texts of up to so many of them are compared.
MEANINGFUL = b',"\r\n\ta'
SHORT_TEXT = 6


class Lent:
    """Bytes at a fixed address, to be lent from GUARD on."""

    def __init__(self):
        self.bytes = bytearray(ROOM)
        self.start = ctypes.addressof(ctypes.c_char.from_buffer(self.bytes)) + GUARD

    def address(self, count):
        return self.start if count else None


def load(library):
    functions = ctypes.CDLL(library)
    calls = {oracle.TO_DRILL: functions.pack_csv_to_drill, oracle.TO_CSV: functions.pack_drill_to_csv}
    for call in calls.values():
        call.argtypes = (ctypes.c_void_p, ctypes.c_size_t, ctypes.c_void_p, ctypes.c_size_t)
        call.restype = ctypes.c_uint64
    return calls


def difference(call, text, out, given, capacity, expected):
    """What a call does that is not expected, or None. The text is lent already."""
    number, written = expected
    end = GUARD + capacity + GUARD
    out.bytes[:end] = UNWRITTEN[:end]
    got = call(text.address(len(given)), len(given), out.address(capacity), capacity)
    if got != number:
        return f"answers {got & 255} with {got >> 8}, not {number & 255} with {number >> 8}"
    if out.bytes[:end] != UNWRITTEN[:GUARD] + written + UNWRITTEN[: end - GUARD - len(written)]:
        return f"writes {bytes(out.bytes[:end])}, not {written} alone"
    if text.bytes[: GUARD + len(given) + GUARD] != BESIDE + given + BESIDE:
        return "changes the text"
    return None


def compare(calls, given, text, out, counts):
    text.bytes[: GUARD + len(given) + GUARD] = BESIDE + given + BESIDE
    for direction, call in calls.items():
        converted = oracle.convert(direction, given)
        length = len(converted[0])
        for capacity in {length, max(length - 1, 0), length + 7, 0}:
            expected = oracle.answer(converted, capacity)
            counts[direction, expected[0] & 255] += 1
            found = difference(call, text, out, given, capacity, expected)
            if found:
                sys.exit(f"{direction} of {given} with room for {capacity} bytes: {found}")


def short_texts():
    for length in range(SHORT_TEXT + 1):
        for text in itertools.product(MEANINGFUL, repeat=length):
            yield bytes(text)


def main():
    library, count, seed = sys.argv[1], int(sys.argv[2]), int(sys.argv[3])
    calls = load(library)
    texts, counts = Texts(seed), collections.Counter()
    text, out = Lent(), Lent()
    random_texts = (texts.text() for _ in range(count))
    for given in itertools.chain(short_texts(), random_texts):
        compare(calls, given, text, out, counts)
    for direction in calls:
        taken, record, short = (counts[direction, refusal] for refusal in (0, oracle.RECORD, oracle.SHORT))
        print(f"{direction}: {taken} calls taken, {record} refused by a record, {short} by too little room")
        if not min(taken, record, short):
            sys.exit("an answer that no text has")


main()
