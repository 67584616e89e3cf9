"""What is found of a refusal, and how it is written: for people, or as one JSON object."""

import json

import screen

from .leaving import applied
from .nodes import NoTree
from .source import clean, marked, shown, utf8
from .tree import parse

EARLY = ("too-long", "syntax", "number", "nest")
OF_A_BODY = ("summary", "return")
NO_TOKENS = tuple("'\"@$^~`\\&")
OF_ONE_NAME = ("unknown", "duplicate", "type", "region-args", "local-region", "main", "cycle", "constraint", "partial-write")
WIDEST = 110
BRIEF_WIDTH, BRIEF_LINES, BRIEF_TEXT = 150, 8, 12
EDITS_AT_MOST = 6


class Report:
    """Statements, sentences, a mend and what was tried."""

    def __init__(self, source, answer, asker):
        self.source = source
        self.answer = answer
        self.asker = asker
        self.statements = []
        self.says = []
        self.mend = None
        self.tried = []
        self.brief = False
        self.method = None

    def name(self, start, end, role, access=None):
        """Names a statement, with the access in it where there is one."""
        entry = self.piece(start, end)
        entry["role"] = clean(role)
        if access is not None:
            entry["access"] = self.piece(access.start, access.end)
        if entry not in self.statements:
            self.statements.append(entry)

    def piece(self, start, end):
        line, column = self.source.place(start)
        return {"line": line, "column": column, "text": shown(self.source.text[start:end])}

    def say(self, text):
        text = clean(text)
        if text and text not in self.says:
            self.says.append(text)

    def attempt(self, change, edits):
        """Tries edits; what came out is kept."""
        text, offset = applied(self.source.text, edits, self.answer.offset)
        answer = self.in_order(self.asker.check(text), edits)
        self.tried.append({"change": clean(change), "answer": str(answer), "edits": [self.edit(edit) for edit in edits]})
        return answer, offset

    def in_order(self, answer, edits):
        """An answer with the offset of the end of its method where it is placed at the name of the method and found after all that the body has."""
        if answer.name not in OF_A_BODY or self.answer.name in OF_A_BODY:
            return answer
        self.method = self.method or method_around(self.source.text, self.answer.offset)
        name_at, end = (applied(self.source.text, edits, offset)[1] for offset in self.method)
        return answer._replace(offset=end) if answer.offset == name_at else answer

    def mends(self, text, edits, quiet=False):
        """Tries edits as a mend, which they are where the text is accepted or the fault isn't there any more."""
        answer, offset = self.attempt(text, edits)
        if not self.is_gone(answer, offset) or (answer.name not in EARLY and is_put_in(answer.offset, edits)):
            if quiet:
                self.tried.pop()
            return False
        self.mend = {"text": clean(text), **self.covering(edits), "answer": str(answer), "edits": [self.edit(edit) for edit in sorted(edits)]}
        return True

    def best_of(self, text, ways):
        """Tries several ways of one mend: the first with which the text is accepted, or else the first that helps."""
        return self.best([(text, edits) for edits in ways])

    def best(self, mends):
        """Tries several mends, with a word on each, in the same way."""
        kept = None
        for text, edits in mends:
            if not self.mends(text, edits, quiet=True):
                continue
            if self.mend["answer"] == "accepted":
                return True
            kept = kept or self.mend
            self.tried.pop()
        self.mend = kept
        return kept is not None

    def is_gone(self, answer, offset):
        """Whether an answer to a changed text doesn't say the fault again, nor one that is found earlier."""
        if answer.accepted:
            return True
        if self.answer.name in EARLY:
            return answer.name not in EARLY or answer.offset > offset or (self.is_of_tokens() and answer.offset != offset)
        if answer.name in EARLY or (answer.name == self.answer.name and answer.offset == offset):
            return False
        return answer.offset >= offset or self.answer.name in OF_ONE_NAME

    def is_of_tokens(self):
        """Whether the fault is one of tokens: these are looked for before faults of the grammar, wherever they stand."""
        here = self.source.text[self.answer.offset : self.answer.offset + 1]
        return self.answer.name == "number" or here in NO_TOKENS or here > "~"

    def edit(self, edit):
        line, column = self.source.place(edit.start)
        text = self.source.text
        return {"line": line, "column": column, "old": utf8(text[edit.start : edit.end]), "new": utf8(edit.new)}

    def covering(self, edits):
        """One edit that does what several do."""
        start, end = min(edit.start for edit in edits), max(edit.end for edit in edits)
        moved = [edit._replace(start=edit.start - start, end=edit.end - start) for edit in edits]
        old = self.source.text[start:end]
        made, last = [], 0
        for edit in sorted(moved):
            made += [old[last : edit.start], edit.new]
            last = edit.end
        line, column = self.source.place(start)
        return {"line": line, "column": column, "old": utf8(old), "new": utf8("".join(made) + old[last:])}

    def as_json(self):
        answer = self.answer
        refused = None if answer.accepted else {"name": answer.name, "line": answer.line, "column": answer.column}
        return json.dumps(
            {"file": screen.printable(self.source.name), "refused": refused, "statements": self.statements, "says": self.says,
             "mend": self.mend, "tried": self.tried},
            ensure_ascii=True,
        )  # fmt: skip

    def as_text(self, general, paper):
        """The report for people; the general sentences come where there is nothing better."""
        answer, name = self.answer, screen.printable(self.source.name)
        if answer.accepted:
            return f"{name}: accepted\n"
        is_bare = not self.says and self.mend is None
        meaning, mend = general(answer.name) if is_bare else ("", "")
        lines = [paper.bold(f"{name}:{answer.line}:{answer.column}: refused: {answer.name}")]
        lines += ["  " + line for line in marked(self.source, answer.line, answer.column, paper.columns - 2)]
        lines += paper.wrapped(meaning)
        lines += self.statement_lines(paper)
        for text in self.says:
            lines += paper.wrapped(text)
        lines += self.mend_lines(paper)
        lines += paper.wrapped(mend)
        confirmed = [entry for entry in self.tried if self.mend is None or entry["change"] != self.mend["text"]]
        if confirmed:
            lines.append("Tried:")
            told = dict.fromkeys(f"{shown(entry['change'])}: {entry['answer']}" for entry in confirmed)
            lines += [line for text in told for line in paper.wrapped(text, "  ", "    ")]
        return "".join(f"{line}\n" for line in lines)

    def statement_lines(self, paper):
        """Each statement once, with what it does."""
        lines, last, roles = [], None, set()
        for entry in self.statements:
            here = (entry["line"], entry["column"], entry["text"])
            if here != last:
                lines.append(f"  {paper.bold(place_of(entry))}  {entry['text']}")
                roles = set()
            if entry["role"] not in roles:
                lines += paper.wrapped(entry["role"], "      ")
            last = here
            roles.add(entry["role"])
        return lines

    def mend_lines(self, paper):
        """The mend with what it replaces."""
        if self.mend is None:
            return []
        lines = paper.wrapped(f"Mend: {self.mend['text']}", "", "  ")
        lines[0] = lines[0].replace("Mend:", paper.bold("Mend:"), 1)
        for edit in self.mend["edits"][:EDITS_AT_MOST]:
            lines += paper.wrapped(f"{place_of(edit)}  {change_of(edit)}", "  ", "        ")
        if len(self.mend["edits"]) > EDITS_AT_MOST:
            lines.append("  ..")
        answer = self.mend["answer"]
        lines.append("  With it the text is accepted." if answer == "accepted" else f"  With it the next fault is, in the changed text: {answer}")
        return lines

    def as_brief(self, paper):
        """The statements, the first sentence and the mend in a few lines, for a terminal that shows the line of the refusal already."""
        lines = [self.brief_line(entry, paper) for entry in self.statements[:2] if entry["text"] and entry["role"] != "here"]
        says = [line for text in self.says[:1] for line in paper.wrapped(text, "  ", "      ")]
        mend = [line.strip() for line in self.mend_lines(screen.Paper(BRIEF_WIDTH))[:3]]
        mend = [line for text in mend for line in paper.wrapped(text, "  ", "      ")]
        if mend and len(lines + says + mend) > BRIEF_LINES:
            says = []
        return "".join(f"{line}\n" for line in (lines + says + mend)[:BRIEF_LINES])

    def brief_line(self, entry, paper):
        """A statement and what it does. Its text is left out where it is all of the line that is shown already, and cut to what there is room for."""
        begin, end, text = f"  {place_of(entry)}  ", f"  ({entry['role']})", entry["text"]
        if entry["line"] == self.answer.line and text == shown(self.source.line(entry["line"])):
            return f"{begin}{entry['role']}"
        room = max(BRIEF_TEXT, paper.columns - len(begin + end))
        return begin + (text if len(text) <= room else text[: room - 4] + " ...") + end


def method_around(text, offset):
    """The offsets of the name and of the end of the method that holds an offset."""
    try:
        classes = parse(text).classes
    except NoTree:
        return offset, offset
    methods = [member for node in classes for member in node.members if member.kind == "method" and member.start <= offset < member.end]
    return (methods[0].name_at, methods[0].end) if methods else (offset, offset)


def place_of(entry):
    return f"{entry['line']}:{entry['column']}"


def change_of(edit):
    """An edit in words."""
    old, new = (shown(edit[key].encode("utf-8").decode("latin-1")) for key in ("old", "new"))
    if old and new:
        return f"`{new}` in place of `{old}`"
    return f"`{new}` put in" if new else f"`{old}` left out"


def is_put_in(offset, edits):
    """Whether an offset of a changed text lies in what an edit put in."""
    moved = 0
    for edit in sorted(edits):
        size = max(len(edit.new), edit.end - edit.start)
        if edit.new and edit.start + moved <= offset < edit.start + moved + size:
            return True
        moved += size - (edit.end - edit.start)
    return False
