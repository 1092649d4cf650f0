"""programs.py PROGRAM DRILL COUNT SEED: the program delivery_lists from outside (19.10 to 19.12).

COUNT random texts as a whole and cut anywhere, beside the oracle; refusals, usage, failed reads and writes, captures run by the
drill, and inputs of 100 MB. Ends with status 1 where something is not as expected.
"""
import os
import pathlib
import subprocess
import sys
import tempfile

import large
import oracle
from texts import Texts

SECONDS = 120
HERE = pathlib.Path(__file__).parent
EXAMPLES = HERE.parent.parent / "examples"
USAGE = b"usage: delivery_lists to-drill | to-csv\n"
REFUSAL = (
    "13 RECORD: {} {} is not taken: a broken quote or a tab or CR or LF in a field "
    "or a field over 64 bytes or more than 16 fields\n"
)
# The longest that are taken.
LARGEST = {
    oracle.TO_DRILL: b",".join([b'"' + b'""' * 64 + b'"'] * 16) + b"\r\n",
    oracle.TO_CSV: b"\t".join([b'"' * 64] * 16) + b"\n",
}

failures = []


def expect(held, *what):
    if not held:
        failures.append(what)
        print("not as expected:", *what)


def run(program, *arguments, text=b""):
    """Both outputs. The program has no status of its own."""
    done = subprocess.run((program, *arguments), input=text, capture_output=True, timeout=SECONDS, check=True)
    return done.stdout, done.stderr


def run_cut(program, direction, pieces):
    """The same with one read for each piece: a pipe of packets keeps them apart."""
    reading, writing = os.pipe2(os.O_DIRECT | os.O_CLOEXEC)
    with tempfile.TemporaryFile() as out, tempfile.TemporaryFile() as error:
        child = subprocess.Popen((program, direction), stdin=reading, stdout=out, stderr=error)
        os.close(reading)
        try:
            for piece in pieces:
                os.write(writing, piece)
        except BrokenPipeError:
            pass  # It stops reading at a refusal.
        os.close(writing)
        child.wait(SECONDS)
        out.seek(0)
        error.seek(0)
        return out.read(), error.read()


def refusal_line(direction, number):
    return REFUSAL.format("record" if direction == oracle.TO_DRILL else "line", number).encode()


def outputs_of(direction, text):
    """What the program has to write for a text, to both outputs."""
    written, refused = oracle.convert(direction, text)
    said = refusal_line(direction, refused) if refused else b""
    return written + said, said


def cut(random, text):
    """Pieces of one to a few bytes, or of up to 4,096, none of them empty."""
    longest = random.choice((1, 2, 7, 100, 4096))
    at = 0
    while at < len(text):
        size = random.randint(1, longest)
        yield text[at : at + size]
        at += size


def test_texts(program, count, seed):
    texts = Texts(seed)
    for number in range(count):
        # At times a long one, so that records lie across reads.
        text = b"".join(texts.text() for _ in range(40)) if number % 10 == 0 else texts.text()
        for direction in (oracle.TO_DRILL, oracle.TO_CSV):
            expected = outputs_of(direction, text)
            expect(run(program, direction, text=text) == expected, direction, text)
            expect(run_cut(program, direction, cut(texts.random, text)) == expected, direction, "in pieces", text)


def test_taken(program, seed):
    """Records and lines that are all taken, some 300 kB, in pieces: what is kept from read to read is right."""
    texts = Texts(seed)
    for direction, make in ((oracle.TO_DRILL, texts.record), (oracle.TO_CSV, texts.line)):
        made = (make() for _ in range(4000))
        text = LARGEST[direction] + b"".join(one for one in made if not oracle.convert(direction, one)[1])
        expected = outputs_of(direction, text)
        expect(len(text) > 100_000 and expected[1] == b"", direction, "a text of many records")
        for _ in range(5):
            expect(run_cut(program, direction, cut(texts.random, text)) == expected, direction, "many in pieces")
        expect(run(program, direction, text=text) == expected, direction, "many as a whole")


def test_refusal_line(program, drill):
    """The line of a refusal on standard output is taken by none of the programs that could read it."""
    for direction in (oracle.TO_DRILL, oracle.TO_CSV):
        line = refusal_line(direction, 7)
        text = b"a\nb\nc\nd\ne\nf\n" + b"x" * 65 + b"\ng\n"
        out, said = run(program, direction, text=text)
        expect(out == outputs_of(direction, text)[0] and out.endswith(line) and said == line, direction, "refusal")
        expect(run(drill, text=line) == (b"bad\t1\n", b""), "the drill takes", line)
        for other in (oracle.TO_DRILL, oracle.TO_CSV):
            expect(run(program, other, text=line) == (refusal_line(other, 1),) * 2, other, "takes", line)
    # Six records, and one that is not taken.
    records = (EXAMPLES / "quiet_week.in").read_bytes().replace(b"\t", b",") + b'"'
    lines = run(program, oracle.TO_DRILL, text=records)[0]
    expect(run(drill, text=lines) == (b"bad\t7\n", b""), "the drill does not see where a list was refused")


def test_usage(program):
    others = ("", "to-csv ", "to_csv", "--help", "to-drill-x", "to-dril", "x" * 5000)
    for arguments in ((), *((other,) for other in others), ("to-csv", "to-csv")):
        expect(run(program, *arguments, text=b"a\n") == (b"", USAGE), "usage", *arguments)


def test_failures(program):
    """Reads and writes that fail are said on standard error, and end the program."""
    text = b"a,b\r\n" * 100_000
    for redirection, word in (
        (">/dev/full", b"write"),
        (">&-", b"write"),
        ("<&-", b"read"),
        ("</", b"read"),
        ("<&- >&-", b"read"),
    ):
        for direction in (oracle.TO_DRILL, oracle.TO_CSV):
            command = ("sh", "-c", f'exec "$0" "$1" {redirection}', program, direction)
            given = text if direction == oracle.TO_DRILL else text.replace(b",", b"\t").replace(b"\r", b"")
            done = subprocess.run(command, input=given, capture_output=True, timeout=SECONDS, check=False)
            expect(done.stdout == b"" and word in done.stderr, direction, redirection, done.stderr)
            expect(done.stderr.count(b"\n") == 1, direction, redirection, "is said once")


def test_captures(program, drill):
    """Examples as records and back are the same, and run as the same session; so does the one that an office could keep."""
    captures = [(run(program, oracle.TO_CSV, text=example.read_bytes())[0], example) for example in EXAMPLES.glob("*.in")]
    expect(len(captures) >= 3, "examples")
    captures.append(((HERE / "late_pack.csv").read_bytes(), EXAMPLES / "late_pack.in"))
    for records, example in captures:
        lines, said = run(program, oracle.TO_DRILL, text=records)
        expect(b"," in records and said == b"" and lines == example.read_bytes(), example, "there and back")
        expect(run(drill, text=lines)[0] == example.with_suffix(".out").read_bytes(), example, "run by the drill")


def main():
    program, drill, count, seed = sys.argv[1], sys.argv[2], int(sys.argv[3]), int(sys.argv[4])
    test_usage(program)
    test_texts(program, count, seed)
    test_taken(program, seed)
    test_refusal_line(program, drill)
    test_failures(program)
    test_captures(program, drill)
    for direction in (oracle.TO_DRILL, oracle.TO_CSV):
        large.test_length(program, direction, expect)
        large.test_unended(program, direction, refusal_line(direction, 1), expect)
    sys.exit(1 if failures else 0)


main()
