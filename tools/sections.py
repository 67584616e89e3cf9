"""What the documents say of each name that the program may answer: docs/REFUSALS.md and docs/TRAPS.md.

A document has a section for each name. Its first sentence says what the name means; where a program follows that is refused or traps, the
paragraph after it says how it is mended.
"""
import difflib
import pathlib
import re

TOP = pathlib.Path(__file__).resolve().parent.parent
DOCUMENTS = ("docs/REFUSALS.md", "docs/TRAPS.md")

CODE = re.compile(r"(`[^`]*`)")
LINK = re.compile(r"\[([^\]]*)\]\([^)]*\)")
EMPHASIS = re.compile(r"(\*{1,2})(\S(?:[^*]*\S)?)\1")
SENTENCE = re.compile(r"(.*?\.)(?: (?=[A-Z`])|$)", re.S)


def plain(text):
    """A text without the marks of markdown, but for those of code."""
    # A link's words may be code, so links go first.
    pieces = CODE.split(LINK.sub(r"\1", text))
    return "".join(piece if piece.startswith("`") else EMPHASIS.sub(r"\2", piece) for piece in pieces)


class Section:
    """The lines of a section, without its heading."""

    def __init__(self, name, lines):
        self.name, self.lines = name, lines

    def paragraphs(self):
        """Each paragraph as one line, and each fence as its lines; the first of a fence begins with three backticks."""
        paragraph, fence = [], []
        for line in [*self.lines, ""]:
            if fence:
                fence.append(line)
                if line == "```":
                    yield fence
                    fence = []
            elif line.startswith("```"):
                fence = [line]
            elif line:
                paragraph.append(line)
            elif paragraph:
                yield [" ".join(paragraph)]
                paragraph = []

    def sentence(self):
        """What the name means, in its first sentence."""
        first = plain(next(self.paragraphs())[0])
        return SENTENCE.match(first).group(1)

    def mend(self):
        """The paragraph after the first program that isn't accepted; None where none follows."""
        paragraphs = list(self.paragraphs())
        for before, after in zip(paragraphs, paragraphs[1:]):
            if before[0].startswith("```") and "accepted" not in before[0]:
                return None if after[0].startswith("```") else re.sub(":$", ".", plain(after[0]))
        return None


def load(top=TOP):
    """The section of each name, and the documents that are missing."""
    sections, missing = {}, []
    for document in DOCUMENTS:
        try:
            text = (top / document).read_text(encoding="utf-8")
        except OSError:
            missing.append(document)
            continue
        name, lines = None, []
        for line in [*text.split("\n"), "## "]:
            if not line.startswith("## "):
                lines.append(line)
                continue
            if name:
                sections[name] = Section(name, lines)
            name, lines = line.removeprefix("## "), []
    return sections, missing


def found(sections, word):
    """The section that a word names, whatever letters of it are capital, and with or without `-`, `_` and blanks."""
    joined = re.sub(r"[-_\s]", "", word.lower())
    return next((section for name, section in sections.items() if name.replace("-", "") == joined), None)


def nearest(sections, word):
    """The name that is most like a word, if one is."""
    return next(iter(difflib.get_close_matches(word.lower(), list(sections), n=1)), None)
