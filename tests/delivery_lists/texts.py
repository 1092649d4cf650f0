"""Random texts: records, lines, and bytes that mean something to either, whole and damaged."""
import random

_PIECES = (b",", b'"', b"\r", b"\n", b"\r\n", b"\t", b" ", b"a", b"bc", b'""', b'","', b'"\r\n"', b"\0", b"\xff", b"a" * 63)
_DAMAGE = (b",", b'"', b"\r", b"\n", b"\t", b"a", b'"\n', b"\r\r", b"")
# Mostly short fields and few of them; at times near the limits.
_LENGTHS = (0, 0, 1, 1, 2, 3, 5, 8, 20, 63, 64, 64, 65)
_FIELDS = (1, 1, 2, 2, 3, 4, 6, 15, 16, 17)
_BYTES = b'abcd 12,"\0\x80\xff;'


class Texts:
    """A row of texts, the same for the same seed."""

    def __init__(self, seed):
        self.random = random.Random(seed)

    def field(self):
        return bytes(self.random.choices(_BYTES, k=self.random.choice(_LENGTHS)))

    def fields(self):
        count = self.random.choice(_FIELDS)
        # Where there are many they are short.
        return [self.field() if count < 8 or self.random.random() < 0.2 else b"x" for _ in range(count)]

    def record(self):
        shown = []
        for field in self.fields():
            if b"," in field or b'"' in field or self.random.random() < 0.3:
                field = b'"' + field.replace(b'"', b'""') + b'"'
            shown.append(field)
        return b",".join(shown) + self.random.choice((b"\r\n", b"\r\n", b"\n"))

    def line(self):
        return b"\t".join(self.fields()) + b"\n"

    def damaged(self, text):
        at = self.random.randrange(len(text) + 1)
        return text[:at] + self.random.choice(_DAMAGE) + text[at + self.random.randrange(3) :]

    def text(self):
        kind = self.random.randrange(8)
        if kind < 2:
            return b"".join(self.random.choices(_PIECES, k=self.random.randrange(12)))
        make = self.record if kind < 5 else self.line
        text = b"".join(make() for _ in range(self.random.randrange(6)))
        if self.random.random() < 0.3:
            text = text.rstrip(b"\r\n")
        return self.damaged(text) if self.random.random() < 0.4 else text
