"""What the tools write, and how it looks on a terminal."""
import os
import sys
import textwrap

NARROWEST, USUAL = 20, 80


def keep_closed():
    """Where a standard stream is closed, keeps a file from taking its number, so that reading or writing there goes on to fail."""
    for descriptor in (0, 1, 2):
        try:
            os.fstat(descriptor)
        except OSError:
            os.open(os.devnull, os.O_WRONLY if descriptor == 0 else os.O_RDONLY)


def write_all(descriptor, data):
    """Writes all bytes, or raises OSError."""
    left = memoryview(data)
    while left:
        left = left[os.write(descriptor, left):]


def tell(lines):
    """Writes lines for people on standard error; where that can't be done nobody reads them."""
    text = "".join(f"{line}\n" for line in lines)
    encoding = sys.stderr.encoding if sys.stderr else "utf-8"
    try:
        write_all(2, text.encode(encoding, errors="replace"))
    except OSError:
        pass


def columns_of(descriptor):
    """How wide the terminal is that a descriptor writes to, or as wide as terminals usually are where it doesn't say."""
    try:
        return max(NARROWEST, os.get_terminal_size(descriptor).columns or USUAL)
    except OSError:
        return USUAL


def has_colours(descriptor):
    """Whether colours are wanted: on a terminal, but for one that has none and for people who want none."""
    return os.isatty(descriptor) and not os.environ.get("NO_COLOR") and os.environ.get("TERM", "dumb") != "dumb"


def bold(text, is_coloured):
    return f"\x1b[1m{text}\x1b[m" if is_coloured else text


def wrapped(text, columns, after="", **indents):
    """A paragraph as lines of a screen, and after it a text that stays on one line."""
    lines = textwrap.wrap(text, columns, break_long_words=False, break_on_hyphens=False, **indents)
    if len(lines[-1]) + len(after) > columns:
        return [*lines, after.lstrip()]
    return [*lines[:-1], lines[-1] + after]


class Paper:
    """What a report is laid out for: so many columns, with colours or without."""

    def __init__(self, columns, is_coloured=False):
        self.columns, self.is_coloured = columns, is_coloured

    def bold(self, text):
        return bold(text, self.is_coloured)

    def wrapped(self, text, indent="", further=None):
        """A paragraph as lines; none where there is nothing to say."""
        return wrapped(text, self.columns, initial_indent=indent, subsequent_indent=indent if further is None else further) if text else []


def printable(text):
    """A text of the system's without what is no text, or would be a command to a terminal."""
    text = text.encode("utf-8", errors="surrogateescape").decode("utf-8", errors="replace")
    return "".join(character if character.isprintable() else "?" for character in text)
