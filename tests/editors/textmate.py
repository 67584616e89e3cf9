"""A small reader of TextMate grammars: which scopes each character of a text has.

It knows `match`, `begin` and `end`, captures, `patterns` and `include`, and tries patterns in their order at the first place where one fits; an
`end` goes before what is inside. The patterns are taken as Python's, so a grammar that is tried with it keeps to what both dialects know.
"""
import functools
import re


@functools.lru_cache(maxsize=None)
def compiled(pattern):
    return re.compile(pattern)


class Grammar:
    """A grammar; `lines` gives its scopes."""

    def __init__(self, root):
        self.root = root

    def flat(self, patterns):
        """Patterns with those that they include."""
        for pattern in patterns:
            if "include" in pattern:
                name = pattern["include"].removeprefix("#")
                yield from self.flat(self.root["patterns"] if name == "$self" else [self.root["repository"][name]])
            elif "match" in pattern or "begin" in pattern:
                yield pattern
            else:
                yield from self.flat(pattern["patterns"])

    def scopes(self, text):
        """For each character the scopes that it has, the outermost first."""
        stack, made = [], []
        for line in text.splitlines(keepends=True):
            found = [[] for _ in line]
            stack = self.line(line, stack, found)
            made += found
        return made

    def line(self, line, stack, found):
        """Puts the scopes of a line, and gives the open patterns at its end."""
        # The line feed belongs to the line, and `$` fits before it.
        at = 0
        while at <= len(line.rstrip("\n")):
            inner = self.flat(stack[-1].get("patterns", ())) if stack else self.flat(self.root["patterns"])
            best = compiled(stack[-1]["end"]).search(line, at) if stack else None
            pattern = None
            for one in inner:
                fit = compiled(one.get("match", one.get("begin"))).search(line, at)
                if fit and (best is None or fit.start() < best.start()):
                    best, pattern = fit, one
            if best is None:
                put(found, at, len(line), [one.get("name") for one in stack])
                return stack
            names = [one.get("name") for one in stack]
            put(found, at, best.start(), names)
            stack = self.fit(best, pattern, stack, found)
            # A pattern that begins or ends on nothing goes on at the same place.
            at = best.end() if best.end() > at or pattern is None or "begin" in pattern else at + 1
        return stack

    def fit(self, best, pattern, stack, found):
        """Puts the scopes of a pattern that fits, or of the end of the open one, and gives the open patterns behind it."""
        of = pattern or stack[-1]
        is_match = pattern is not None and "match" in pattern
        names = [one.get("name") for one in (stack if pattern else stack[:-1])] + [of.get("name")]
        put(found, best.start(), best.end(), names)
        captures = of.get("captures") if is_match else of.get("beginCaptures" if pattern else "endCaptures")
        for number, capture in (captures or {}).items():
            start, end = best.span(int(number))
            if start < 0:
                continue
            put(found, start, end, [*names, capture.get("name")])
            for one in self.flat(capture.get("patterns", ())):
                for fit in compiled(one["match"]).finditer(best.string, start, end):
                    if not any(found[fit.start()][len([name for name in names if name]) :]):
                        put(found, fit.start(), fit.end(), [*names, one["name"]])
        if is_match:
            return stack
        return [*stack, pattern] if pattern else stack[:-1]


def put(found, start, end, names):
    for at in range(start, min(end, len(found))):
        found[at] = [name for name in names if name]
