"""Places of a text, as people see them.

A place is a line and a column, which count line feeds and bytes from 1. Run by itself this shows a place of a text:

    python3 tools/places.py LINE COLUMN <TEXT
"""
import argparse
import sys
import unicodedata

TAB = 4
CUT = "…"
# What stands for a byte or a character that isn't to reach a terminal.
UNSHOWN = "\N{REPLACEMENT CHARACTER}"
# Controls, formats (those that turn the direction of writing among them), surrogates, private and unassigned ones, and ends of lines.
HIDDEN_KINDS = {"Cc", "Cf", "Cs", "Co", "Cn", "Zl", "Zp"}
COMBINING_KINDS = {"Mn", "Me"}
NARROWEST = 8
# How many bytes of a line on each side of a place are looked at.
NEAR = 4096

UTF8_MARK = b"\xef\xbb\xbf"
UTF16_MARKS = (b"\xff\xfe", b"\xfe\xff")


def lines_of(text):
    """The lines of a text without their ends. Where it ends with a line feed, the last line is empty."""
    return [line.removesuffix(b"\r") for line in text.split(b"\n")]


def characters(line):
    """Each character of a line with the number of its bytes. A byte that isn't UTF-8 counts as a character."""
    for character in line.decode("utf-8", errors="surrogateescape"):
        yield character, len(character.encode("utf-8", errors="surrogateescape"))


def shown(character, column):
    """What stands on the screen for a character at a column of it, counted from 0."""
    if character == "\t":
        return " " * (TAB - column % TAB)
    return UNSHOWN if unicodedata.category(character) in HIDDEN_KINDS else character


def width(text):
    """How many columns of a screen a text takes."""
    return sum(map(character_width, text))


def character_width(character):
    if unicodedata.category(character) in COMBINING_KINDS:
        return 0
    return 2 if unicodedata.east_asian_width(character) in "WF" else 1


def laid_out(line, column):
    """A line near a column as pieces of a screen, a piece for each character, and the number of the piece at the column, which is how many they
    are where the line ends before."""
    pieces, used, at, byte = [], 0, None, max(0, column - 1 - NEAR)
    while byte and line[byte : byte + 1] and line[byte] & 0xC0 == 0x80:
        byte += 1
    for character, size in characters(line[byte : column + NEAR]):
        if at is None and byte + size > column - 1:
            at = len(pieces)
        pieces.append(shown(character, used))
        used += width(pieces[-1])
        byte += size
    return pieces, len(pieces) if at is None else at


def window(pieces, at, room):
    """The pieces around one of them that fit into a room, as a text, and how many columns stand in front of that piece."""
    widths = [width(piece) for piece in pieces]
    first, last = 0, len(pieces)
    if sum(widths) >= room:
        # One column is left for each cut, and one for a caret behind the end.
        first, last, used = at, at, 0
        while True:
            before = widths[first - 1] if first else None
            after = widths[last] if last < len(pieces) else None
            if before is not None and (after is None or at - first <= 2 * (last - at)) and used + before <= room - 3:
                first, used = first - 1, used + before
            elif after is not None and used + after <= room - 3:
                last, used = last + 1, used + after
            else:
                break
    left, right = CUT if first else "", CUT if last < len(pieces) else ""
    return left + "".join(pieces[first:last]) + right, width(left) + sum(widths[first:at])


class Place:
    """A place of a text: the line that is shown for it, and what is said of it where it is no character of that line."""

    def __init__(self, text, line, column):
        lines = lines_of(text)
        self.is_after = line > len(lines) or (line == len(lines) and column > len(lines[-1]))
        self.number, self.column, self.remark = line, column, ""
        if self.is_after:
            filled = [number for number, line_bytes in enumerate(lines, 1) if line_bytes.strip()]
            self.number = filled[-1] if filled else 0
            self.remark = "at the end of the text" if filled else "the text is blank" if text else "the text is empty"
        self.line = lines[self.number - 1] if self.number else b""
        if self.is_after:
            self.column = len(self.line.rstrip()) + 1
        elif column > len(self.line):
            self.remark = "at the end of the line"

    def text(self):
        """The line as a text, for what reads it by program."""
        return self.line.decode("utf-8", errors="replace")

    def screen(self, columns):
        """The line with its number, and below it a caret, on a screen of so many columns."""
        if not self.number:
            return [self.remark]
        margin = f"{self.number} | "
        pieces, at = laid_out(self.line, self.column)
        line, before = window(pieces, at, max(NARROWEST, columns - len(margin)))
        return [(margin + line).rstrip(), self.caret(len(margin) + before, columns)]

    def caret(self, at, columns):
        """The line with the caret at a column, and the remark on that side of it where there is room."""
        if self.remark and at + 2 + len(self.remark) > columns and at > len(self.remark):
            return f"{self.remark} ^".rjust(at + 1)
        return f"{' ' * at}^ {self.remark}".rstrip()


def mark_of(text):
    """What is said of a byte order mark at the beginning of a text; nothing where there is none."""
    if text.startswith(UTF8_MARK):
        return "The text begins with a byte order mark (the bytes EF BB BF), which begins no program: save the file as UTF-8 without it."
    if text.startswith(UTF16_MARKS):
        return "The text begins with a byte order mark of UTF-16: save the file as UTF-8 without a mark."
    return ""


def main():
    options = argparse.ArgumentParser(description=__doc__, formatter_class=argparse.RawDescriptionHelpFormatter)
    options.add_argument("line", type=int)
    options.add_argument("column", type=int)
    options.add_argument("--columns", type=int, default=80, help="how wide the screen is")
    options = options.parse_args()
    print("\n".join(Place(sys.stdin.buffer.read(), options.line, options.column).screen(options.columns)))


if __name__ == "__main__":
    main()
