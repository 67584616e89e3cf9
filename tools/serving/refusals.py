"""What an editor is told of a refusal: the place, what it means, and why where that is found quickly."""
import json

import sections
from reasons.asking import Asker, NoAnswer, Spent
from reasons.explain import explain
from reasons.source import Source

QUESTIONS = 60
ERROR = 1
HERE = "here"


class Refusal:
    """A refusal of a text, at a range of its bytes."""

    def __init__(self, paper, uri, report):
        self.paper, self.uri, self.report = paper, uri, report
        refused = report["refused"]
        self.name = refused["name"]
        self.start, self.end = self.bounds(paper.offset_of_place(refused["line"], refused["column"]))
        self.section = sections.load()[0].get(self.name)

    def bounds(self, offset):
        """The token at an offset; where there is none, the character, and at the end of the text the last one."""
        source = Source("", self.paper.latin())
        number = source.token_at(offset)
        if number < len(source.tokens) and source.tokens[number].start <= offset:
            return source.tokens[number].start, self.whole(source.tokens[number].end)
        if offset >= len(self.paper.bytes) and source.tokens:
            return source.tokens[-1].end - 1, source.tokens[-1].end
        return offset, self.whole(offset + 1)

    def whole(self, end):
        """The end of the character in which an offset lies; the offset itself where it lies between two."""
        while end < len(self.paper.bytes) and self.paper.bytes[end] & 0xC0 == 0x80:
            end += 1
        return end

    def holds(self, offset):
        return self.start <= offset <= self.end

    def diagnostic(self):
        """The refusal as the protocol has it."""
        related = [self.related(entry) for entry in self.report["statements"] if entry["role"] != HERE]
        return {
            "range": self.paper.span(self.start, self.end), "severity": ERROR, "code": self.name, "source": "dpj",
            "message": "\n".join(self.lines()), "relatedInformation": related,
        }  # fmt: skip

    def related(self, entry):
        start, end = self.bounds(self.paper.offset_of_place(entry["line"], entry["column"]))
        return {"location": {"uri": self.uri, "range": self.paper.span(start, end)}, "message": f"{entry['text']}: {entry['role']}"}

    def lines(self):
        """What it means, and why."""
        yield f"{self.name}: {self.section.sentence()}" if self.section else self.name
        yield from self.report["says"][:1]
        mend = self.report["mend"]
        if mend:
            ending = "with it the text is accepted" if mend["answer"] == "accepted" else f"the next fault is then {mend['answer']}"
            yield f"Mend: {mend['text']} ({ending})"

    def edits(self):
        """The mend as the protocol has edits."""
        for edit in self.report["mend"]["edits"]:
            start = self.paper.offset_of_place(edit["line"], edit["column"])
            yield {"range": self.paper.span(start, start + len(edit["old"].encode("utf-8"))), "newText": edit["new"]}

    def markdown(self):
        """What the document says of it."""
        if not self.section:
            return f"**{self.name}**"
        mend = self.section.mend()
        return f"**{self.name}**: {self.section.sentence()}" + (f"\n\n{mend}" if mend else "")


def refusal(program, paper, uri, seconds):
    """The refusal of a text, with the reasons that are found in so many seconds; None where it is accepted."""
    source, asker = Source("", paper.latin()), Asker(program, QUESTIONS, seconds)
    try:
        answer = asker.check(source.text)
    except Spent:
        raise NoAnswer(f"{program} check takes too long") from None
    if answer.accepted:
        return None
    report = {"refused": {"name": answer.name, "line": answer.line, "column": answer.column}, "statements": [], "says": [], "mend": None}
    try:
        report = json.loads(explain(source, asker, brief=True).as_json())
    except Exception:  # noqa: BLE001
        # Whatever is wrong with the reasons, the refusal stands.
        pass
    return Refusal(paper, uri, report)
