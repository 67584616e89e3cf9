"""A text as the program counts it, in bytes, and as editors do, in lines and UTF-16 units."""
import bisect
import re

# The protocol's ends of lines; the program knows the line feed alone.
END = re.compile("\r\n|\r|\n")


def units(piece):
    """How many UTF-16 units a piece of a text has."""
    return len(piece) + sum(letter > "\uffff" for letter in piece)


class Paper:
    """A text with both kinds of places. An offset counts bytes from 0."""

    def __init__(self, text):
        # A half of a pair of surrogates has no bytes in UTF-8; a question mark has one unit as well.
        self.text = re.sub("[\ud800-\udfff]", "?", text)
        self.bytes = self.text.encode("utf-8")
        self.starts = [0] + [found.end() for found in END.finditer(self.text)]

    def latin(self):
        """The text as the tools on refusals take it, one character a byte."""
        return self.bytes.decode("latin-1")

    def offset_of_place(self, line, column):
        """The offset of a place of the program; the end where there is none."""
        start = 0
        for _ in range(line - 1):
            start = self.bytes.find(b"\n", start) + 1
            if not start:
                return len(self.bytes)
        return min(start + column - 1, len(self.bytes))

    def position(self, offset):
        """The position of an offset; one between the two bytes of an end of a line is at the end of the line."""
        index = len(self.bytes[:offset].decode("utf-8", errors="ignore"))
        if self.text[max(index - 1, 0) : index + 1] == "\r\n":
            index -= 1
        line = bisect.bisect_right(self.starts, index) - 1
        return {"line": line, "character": units(self.text[self.starts[line] : index])}

    def index(self, position):
        """The number of the character at a position; one behind the end of a line is at its end."""
        line, left = position["line"], position["character"]
        if line >= len(self.starts):
            return len(self.text)
        index = self.starts[line]
        found = END.search(self.text, index)
        end = found.start() if found else len(self.text)
        while left > 0 and index < end:
            left -= units(self.text[index])
            index += left >= 0
        return index

    def offset(self, position):
        """The offset of a position."""
        return len(self.text[: self.index(position)].encode("utf-8"))

    def edited(self, span, new):
        """The text with another piece in place of a range."""
        return self.text[: self.index(span["start"])] + new + self.text[self.index(span["end"]) :]

    def span(self, start, end):
        """The range of two offsets."""
        return {"start": self.position(start), "end": self.position(end)}
