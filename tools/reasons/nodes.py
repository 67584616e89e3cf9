"""The nodes of a text's tree, and a cursor over its tokens."""

from .source import KEYWORDS, tokens_of


class NoTree(Exception):
    """The text isn't one of the grammar, or not as far as this parser knows it."""


class Node:
    """A part of a text from `start` to `end`, of a kind, with parts by name."""

    def __init__(self, kind, start, end=0, **parts):
        self.kind = kind
        self.start = start
        self.end = end
        self.parts = parts

    def __getattr__(self, name):
        try:
            return self.__dict__["parts"][name]
        except KeyError:
            raise AttributeError(name) from None

    def kids(self):
        """The nodes directly below, in the order of the text."""
        found = []
        for part in self.parts.values():
            for kid in part if isinstance(part, list) else [part]:
                if isinstance(kid, Node):
                    found.append(kid)
        return sorted(found, key=lambda kid: (kid.start, kid.end))

    def walk(self):
        """This node and all below it."""
        yield self
        for kid in self.kids():
            yield from kid.walk()


class Cursor:
    """A place among the tokens of a text."""

    def __init__(self, text):
        self.tokens = tokens_of(text)
        self.at = 0

    def peek(self, ahead=0):
        number = self.at + ahead
        return self.tokens[number].text if number < len(self.tokens) else ""

    def kind(self, ahead=0):
        number = self.at + ahead
        if number >= len(self.tokens):
            return ""
        token = self.tokens[number]
        return "keyword" if token.text in KEYWORDS else token.kind

    def here(self):
        return self.tokens[self.at].start if self.at < len(self.tokens) else self.last()

    def last(self):
        return self.tokens[self.at - 1].end if self.at else 0

    def take(self, text=None):
        """The next token, which has to be this one where a text is given."""
        if self.at >= len(self.tokens) or text not in (None, self.peek()):
            raise NoTree(self.at)
        self.at += 1
        return self.tokens[self.at - 1]

    def took(self, text):
        if self.peek() != text:
            return False
        self.at += 1
        return True

    def name(self):
        if self.kind() != "name":
            raise NoTree(self.at)
        return self.take()

    def closed(self, node):
        node.end = self.last()
        return node

    def listed(self, one):
        found = [one()]
        while self.took(","):
            found.append(one())
        return found
