"""A text with its tokens and places, and how parts of it are shown on a terminal.

A text is kept as a string of one character a byte (Latin-1), since the program counts its columns in bytes.
"""

import bisect
import re
from typing import NamedTuple

from asking import MAX_TEXT, read_text
from places import Place
from screen import printable

TOKEN = re.compile(
    r"""
      (?P<blank> [ \t\r\n\f]+ | //[^\n]* | /\*.*?\*/ )
    | (?P<name> [A-Za-z_$][A-Za-z0-9_$]* )
    | (?P<number> 0[xXbB][0-9a-fA-F_]+[lL]? | [0-9][0-9_]*(?:\.[0-9]+)?(?:[eE][+-]?[0-9]+)?[lLfFdD]? )
    | (?P<string> "(?:\\.|[^"\\\n])*" )
    | (?P<char> '(?:\\.|[^'\\\n])+' )
    | (?P<mark> && | \|\| | [=!<>]= | . )
    """,
    re.VERBOSE | re.DOTALL,
)
KEYWORDS = frozenset(
    "class extends region atomic in reads writes pure int boolean void final if else while return print cobegin cobegin_nd"
    " foreach foreach_nd foreach_parts new this true false null Root".split()
)
SHOWN_AT_MOST = 160


class Token(NamedTuple):
    """A token of the language, or of Java, by its kind: name, number, string, char or mark."""

    kind: str
    text: str
    start: int
    end: int


def tokens_of(text):
    """All tokens of a text; whatever fits no rule is a mark of one character."""
    found = []
    for match in TOKEN.finditer(text):
        if match.lastgroup != "blank":
            found.append(Token(match.lastgroup, match.group(), match.start(), match.end()))
    return found


class Source:
    """A text that knows the places of its offsets."""

    def __init__(self, name, text):
        self.name = name
        self.text = text
        self.starts = [0] + [match.end() for match in re.finditer("\n", text)]
        self.tokens = tokens_of(text)
        self.ends = ends_of(self.tokens)

    def place(self, offset):
        """The line and the column of an offset, both from 1."""
        line = bisect.bisect_right(self.starts, offset)
        return line, offset - self.starts[line - 1] + 1

    def offset(self, line, column):
        """The offset of a place; the end of the text where there is none."""
        if line > len(self.starts):
            return len(self.text)
        return min(self.starts[line - 1] + column - 1, len(self.text))

    def line(self, number):
        """A line without its end."""
        if number > len(self.starts):
            return ""
        end = self.text.find("\n", self.starts[number - 1])
        return self.text[self.starts[number - 1] : end if end >= 0 else len(self.text)].rstrip("\r")

    def token_at(self, offset):
        """The number of the token that holds an offset or is the first behind it; the number of tokens at the end."""
        return bisect.bisect_right([token.end for token in self.tokens], offset)


def read(path):
    """The text of a file, or of standard input where the path is `-`; of both as much as the program would take."""
    if path == "-":
        return Source("-", read_text("check").decode("latin-1"))
    with open(path, "rb") as file:
        return Source(path, file.read(MAX_TEXT + 1).decode("latin-1"))


def utf8(text):
    """A piece of a text as UTF-8 reads it."""
    return text.encode("latin-1", "replace").decode("utf-8", "replace")


def clean(text):
    """A text as UTF-8 reads it, without what a terminal obeys."""
    return printable(re.sub(r"[\t\f]|[\r\n]+[ \t]*", " ", utf8(text)))


def shown(piece):
    """A piece of a text in one line that a terminal takes for no command."""
    decoded = clean(re.sub(r"\s+", " ", piece).strip())
    return decoded if len(decoded) <= SHOWN_AT_MOST else decoded[: SHOWN_AT_MOST - 4] + " ..."


def marked(source, line, column, columns):
    """The line of a place and a line with a caret below it, on a screen of so many columns."""
    return Place(source.text.encode("latin-1"), line, column).screen(columns)


def statement_around(source, at):
    """The span of the statement or declaration that holds an offset, as far as tokens tell."""
    tokens = source.tokens
    if not tokens:
        return 0, 0
    ends = source.ends
    here = min(source.token_at(at), len(tokens) - 1)
    first = here
    while first > 0 and not ends[first - 1]:
        first -= 1
    last = here
    while last < len(tokens) - 1 and not ends[last]:
        last += 1
    if tokens[last].text in ("{", "}") and last > first:
        last -= 1
    return tokens[first].start, tokens[last].end


def ends_of(tokens):
    """For each token whether a statement ends with it: a brace, or a semicolon that isn't in the head of a loop."""
    found, depth = [], 0
    for number, token in enumerate(tokens):
        if token.text == "(" and (depth or (number and tokens[number - 1].text in ("for", "foreach", "foreach_nd"))):
            depth += 1
        elif token.text == ")" and depth:
            depth -= 1
        elif token.text in ("{", "}"):
            depth = 0
        found.append(token.text in ("{", "}") or (token.text == ";" and not depth))
    return found


def without_comments(text):
    """The text with blanks in place of its comments."""
    made = list(text)
    for match in TOKEN.finditer(text):
        if match.lastgroup == "blank":
            made[match.start() : match.end()] = [letter if letter.isspace() else " " for letter in match.group()]
    return "".join(made)


def fresh_region(source, name):
    """A region name that the text doesn't have yet."""
    made = name[:1].upper() + name[1:]
    names = {token.text for token in source.tokens}
    while made in names:
        made += "Region"
    return made
