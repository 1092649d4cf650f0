"""Inputs of 100 MB: the program keeps a constant part of them in memory."""
import hashlib
import re
import subprocess
import threading
import time

import oracle
from texts import Texts

BYTES = 100_000_000
# The most memory that a run may have used.
MEMORY_KB = 8192
# The most that may be read of an input whose first record is not taken.
READ_AHEAD = 1_000_000


def _feed(child, block, times):
    """Writes the block so often; how much of it was taken before the program ended."""
    fed = 0
    try:
        for _ in range(times):
            fed += child.stdin.write(block)
    except BrokenPipeError:
        pass
    return fed


def _started(program, direction):
    return subprocess.Popen(
        (program, direction), stdin=subprocess.PIPE, stdout=subprocess.PIPE, stderr=subprocess.PIPE, bufsize=0
    )


def _peak_kb(child):
    """The most memory that a running program has used. What a parent is told after its end counts the parent's own."""
    with open(f"/proc/{child.pid}/status", encoding="ascii") as status:
        return int(re.search(r"VmHWM:\s*(\d+) kB", status.read()).group(1))


def _block(direction):
    """About a megabyte of records or lines that are all taken, and what they are turned to."""
    texts = Texts(5)
    make = texts.record if direction == oracle.TO_DRILL else texts.line
    # Ten thousand records that have about a hundred bytes each.
    made = (make() for _ in range(15_000))
    text = b"".join(one for one in made if not oracle.convert(direction, one)[1])
    return text, oracle.convert(direction, text)[0]


def test_length(program, direction, expect):
    """The output of a long input, by its hash, and the memory once all of it is converted and the input still open."""
    block, converted = _block(direction)
    times = BYTES // len(block) + 1
    wanted, got = hashlib.sha256(), hashlib.sha256()
    for _ in range(times):
        wanted.update(converted)
    child = _started(program, direction)
    start = time.monotonic()
    feeder = threading.Thread(target=_feed, args=(child, block, times))
    feeder.start()
    left = times * len(converted)
    while left > 0:
        piece = child.stdout.read(min(left, 1 << 20))
        if not piece:
            break
        got.update(piece)
        left -= len(piece)
    seconds = time.monotonic() - start
    peak = _peak_kb(child)
    feeder.join()
    child.stdin.close()
    expect(left == 0 and child.stdout.read() == b"" and child.stderr.read() == b"", direction, "the length of a long output")
    expect(got.digest() == wanted.digest(), direction, "a long output")
    expect(peak <= MEMORY_KB, direction, f"{peak} kB of memory")
    child.wait()
    print(f"{direction}: {times * len(block) / 1e6:.0f} MB at {times * len(block) / 1e6 / seconds:.0f} MB/s, {peak} kB of memory")


def test_unended(program, direction, refusal, expect):
    """A first record or line without end, an open quote where there are quotes, is refused before much of it is read."""
    child = _started(program, direction)
    head = b'"' if direction == oracle.TO_DRILL else b"a"
    body = b"a\n" if direction == oracle.TO_DRILL else b"aa"
    fed = _feed(child, head, 1) + _feed(child, body * 5000, BYTES // 10_000)
    expect(fed < READ_AHEAD, direction, "reads", fed, "bytes of a record without end")
    expect(child.communicate() == (refusal, refusal), direction, "a record without end")
