"""Changes of a text, and leaving out what isn't needed for a refusal."""

from typing import NamedTuple

from .world import default_of

LEAVES = ("local", "assign", "effect", "print", "return")


class Edit(NamedTuple):
    """A span of a text and what stands there instead."""

    start: int
    end: int
    new: str


def padded(text, edit):
    """What an edit puts, with blanks and the line ends of what it replaces, so that places behind it stay."""
    old = text[edit.start : edit.end]
    if len(edit.new) >= len(old):
        return edit.new
    return edit.new + "".join(letter if letter == "\n" else " " for letter in old[len(edit.new) :])


def applied(text, edits, offset=0):
    """A text with edits, the outer one of two that hold one another, and where an offset has come to."""
    made, last, moved = [], 0, offset
    for edit in sorted(edits, key=lambda edit: (edit.start, -edit.end)):
        if edit.start < last:
            continue
        new = padded(text, edit)
        made += [text[last : edit.start], new]
        last = edit.end
        if edit.end <= offset:
            moved += len(new) - (edit.end - edit.start)
    return "".join(made) + text[last:], moved


def blank(node):
    """Nothing in place of a statement."""
    return Edit(node.start, node.end, "")


def instead(node, new):
    """Something in place of a node."""
    return Edit(node.start, node.end, new)


def headers_of(node):
    """The expressions of a statement that aren't a leaf, each with one that does nothing."""
    if node.kind in ("if", "while"):
        return [(node.condition, "true")]
    if node.kind == "foreach" and not node.part:
        return [(node.first, "0"), (node.count, "0")]
    if node.kind == "foreach":
        return [(node.count, "0")]
    return []


def bodies_of(node):
    """The statements that are parts of a statement and stand in no block."""
    if node.kind == "if":
        return [part for part in (node.then, node.other) if part]
    return [node.body] if node.kind in ("while", "foreach") else []


def blocks_of(node):
    """The statements of the block that a statement is or has."""
    if node.kind == "block":
        return node.statements
    return node.block.statements if node.kind in ("cobegin", "atomic") else []


def is_around(node, other):
    return node.start <= other.start and other.end <= node.end


def quiet(node):
    """Edits by which a statement does nothing but what its parts do; a returned value stays."""
    if node.kind in ("assign", "effect", "print"):
        return [instead(node, "{}")]
    if node.kind == "local" and node.value.kind not in ("int", "boolean", "null", "name"):
        plain = node.type.base in ("int", "boolean") and not node.type.suffixes
        return [instead(node.value, default_of((node.type.base,)) if plain else "null")]
    return [instead(expression, nothing) for expression, nothing in headers_of(node) if expression.kind not in ("name", "int", "boolean")]


class Leaving:
    """A text from which more and more is left out while its refusal stays the same."""

    def __init__(self, asker, text, answer):
        self.asker = asker
        self.text = text
        self.answer = answer
        self.edits = []

    def with_edits(self, more):
        """The text with what was left out, and with more edits in place of the ones that they hold."""
        inside = [edit for edit in self.edits if not any(new.start <= edit.start and edit.end <= new.end for new in more)]
        return applied(self.text, inside + list(more), self.answer.offset)

    def holds(self, more):
        """Whether the refusal is the same at the same place with more edits."""
        text, offset = self.with_edits(more)
        found = self.asker.check(text)
        return found.name == self.answer.name and found.offset == offset

    def keep(self, more):
        """Makes edits where the refusal stays."""
        if not self.holds(more):
            return False
        self.edits += more
        return True

    def leave_out(self, edits):
        """As many of some edits as the refusal bears, first many at once."""
        size = len(edits)
        while size:
            rest = []
            for first in range(0, len(edits), size):
                chunk = edits[first : first + size]
                if not self.keep(chunk):
                    rest += chunk
            edits = rest
            size = min(size // 2, len(edits))

    def lives(self, node):
        """Whether a node isn't left out."""
        return not any(edit.start <= node.start and node.end <= edit.end and edit.end > edit.start for edit in self.edits)

    def reduce(self, node, spared=None):
        """Leaves out statements and expressions of a statement; the spared one and what is around it stays as it is."""
        if spared is not None and not is_around(node, spared):
            spared = None
        if node is spared:
            return
        if node.kind in LEAVES:
            self.reduce_leaf(node)
            return
        listed = [kid for kid in blocks_of(node) if not (spared and is_around(kid, spared))]
        self.leave_out([blank(kid) for kid in reversed(listed)])
        for expression, nothing in headers_of(node):
            if self.text[expression.start : expression.end] != nothing:
                self.keep([instead(expression, nothing)])
        for kid in bodies_of(node):
            if not (spared and is_around(kid, spared)):
                self.keep([instead(kid, "{}")])
        for kid in blocks_of(node) + bodies_of(node):
            if self.lives(kid):
                self.reduce(kid, spared)

    def reduce_leaf(self, node):
        """Puts a value that does nothing in place of that of a statement."""
        value = node.parts.get("value")
        if value is None or node.kind in ("effect", "print") or value.kind in ("int", "boolean", "null", "name"):
            return
        nothings = ("0", "false", "null")
        if node.kind == "local":
            plain = node.type.base in ("int", "boolean") and not node.type.suffixes
            nothings = (default_of((node.type.base,)),) if plain else ("null",)
        for nothing in nothings:
            if self.keep([instead(value, nothing)]):
                return

    def leaves(self, node):
        """The statements of a node that aren't left out and have no statements in them, or have headers."""
        found = []
        for kid in blocks_of(node) + bodies_of(node):
            if self.lives(kid):
                found += self.leaves(kid)
        if node.kind in LEAVES or headers_of(node):
            found.append(node)
        return found
