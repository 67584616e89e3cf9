"""Going on behind a fault: changes by which a text loses one fault and, as far as can be, gains none."""

import re
from typing import NamedTuple

from .branches import method_at
from .leaving import Edit, applied, headers_of, instead, quiet
from .nodes import NoTree
from .report import EARLY
from .rewrites import closing
from .source import statement_around
from .tree import parse
from .world import World, default_of

MENDED = ("syntax", "number", "unknown", "duplicate", "type", "return", "main", "region-args", "constraint", "partial-write")


DECLARED = re.compile(r"(?P<base>(?!return\b|new\b|else\b)[A-Za-z_]\w*)\s*(?P<brackets>(?:\[\s*\])*)\s+(?P<name>[A-Za-z_]\w*)\s*=(?!=)")


ACTING = ("local", "assign", "effect", "print", "if", "while", "foreach")
WITH_BLOCK = re.compile(r"(?:switch|try|catch|finally|synchronized|interface|enum|record|do)\b")
TAIL = re.compile(r"\s*(?:catch\s*\([^()]*\)|finally|else)\s*\{")
HEAD = re.compile(r"(?P<result>[A-Za-z_]\w*(?:\s*\[\s*\])*)\s+\w+\s*\([^()]*\)[^;{}()]*\{")


class Change(NamedTuple):
    """What a change does, and where."""

    what: str
    at: int


class Step:
    """One change of the text, and where an offset of the changed text was before."""

    def __init__(self, edits, what):
        self.edits = sorted(edits, key=lambda edit: (edit.start, -edit.end))
        self.what = what

    def back(self, text, offset):
        """The offset in the text before the change; in what was put in, the place where that begins."""
        shift, last = 0, 0
        for edit in self.edits:
            if edit.start < last:
                continue
            _, moved = applied(text, [edit], edit.end)
            size = moved - edit.start
            start = edit.start + shift
            if offset < start:
                break
            if offset < start + size:
                return min(edit.start + (offset - start), max(edit.start, edit.end - 1))
            shift += size - (edit.end - edit.start)
            last = edit.end
        return offset - shift


def is_past(report, answer, offset):
    """Whether an answer to a changed text shows that the fault is no more there."""
    if answer.accepted:
        return True
    if report.answer.name in EARLY:
        return report.is_gone(answer, offset)
    return answer.name not in EARLY and (answer.name, answer.offset) != (report.answer.name, offset)


def next_step(report):
    """The first change after which the fault is gone, or None."""
    for edits, what in changes(report):
        text, offset = applied(report.source.text, edits, report.answer.offset)
        if text != report.source.text and is_past(report, report.asker.check(text), offset):
            return Step(edits, what)
    return None


def changes(report):
    """Changes to be tried: the mend, then ever more left out."""
    source = report.source
    mend = report.mend
    if mend is not None and report.answer.name in MENDED:
        start = source.offset(mend["line"], mend["column"])
        old, new = (mend[key].encode("utf-8").decode("latin-1") for key in ("old", "new"))
        yield [Edit(start, start + len(old), new)], Change("the mend at", start)
    if report.answer.name in EARLY:
        yield from by_tokens(report)
        return
    try:
        world = World(parse(source.text))
    except NoTree:
        return
    yield from by_tree(report, world)


def declaration_of(source, declared):
    """A declaration of the same local without its value; of an int where its class isn't known."""
    base, brackets, name = declared["base"], declared["brackets"] or "", declared["name"]
    known = base in ("int", "boolean") or re.search(rf"\bclass\s+{base}\b", source.text)
    if brackets and known:
        return f"{base}{brackets} {name} = null;"
    return f"{base} {name} = {default_of((base,))};" if known else f"int {name} = 0;"


def by_tokens(report):
    """Statements and members of a text whose grammar is faulty, by their brackets."""
    source, at = report.source, report.answer.offset
    start, end = statement_around(source, min(at, max(0, len(source.text) - 1)))
    what = Change("leaving out the statement at", start)
    declared = DECLARED.match(source.text[start:end])
    if declared:
        yield [Edit(start, end, declaration_of(source, declared))], Change("leaving out the value at", start)
    block = with_its_block(source, start, end)
    if block and WITH_BLOCK.match(source.text, start):
        yield [Edit(start, block, left_out(source, start, block))], what
    yield [Edit(start, end, "")], what
    yield [Edit(start, end, "{}")], what
    if block:
        yield [Edit(start, block, "")], what
        yield [Edit(start, block, "{}")], what
    yield from whole_members(source, at)


def with_its_block(source, start, end):
    """A statement by its brackets with the block that follows, and with `catch`, `finally` or `else` and theirs; None without a block."""
    opened = source.text.find("{", end - 1)
    closed = closing(source.text, opened) if opened >= 0 and not source.text[end:opened].strip() else None
    while closed:
        tail = TAIL.match(source.text, closed)
        if not tail:
            break
        closed = closing(source.text, tail.end() - 1)
    return closed


def left_out(source, start, end):
    """Nothing for a statement; where it returns and is the last one, a return of a default."""
    if not re.search(r"\breturn\b", source.text[start:end]) or not source.text[end:].lstrip().startswith("}"):
        return ""
    heads = [match for match in HEAD.finditer(source.text, 0, start)]
    result = heads[-1]["result"] if heads else "int"
    return {"int": "return 0;", "boolean": "return false;", "void": ""}.get(result, "return null;")


def whole_members(source, at):
    """The body of the member that holds a place, or the member."""
    depth, first, opened = 0, None, None
    for token in source.tokens:
        if depth == 1 and first is None and token.text != "}":
            first, opened = token, None
        if token.text == "{":
            opened = token if depth == 1 else opened
            depth += 1
        elif token.text == "}":
            depth -= 1
        ends = first is not None and depth == 1 and token.text in ("}", ";")
        if ends and first.start <= at < token.end:
            if opened is not None:
                result = {"int": "return 0;", "boolean": "return false;", "void": ""}.get(first.text, "return null;")
                yield [Edit(opened.start, token.end, f"{{ {result} }}")], Change("leaving out the body at", first.start)
                yield [Edit(opened.start, token.end, "{ }")], Change("leaving out the body at", first.start)
            yield [Edit(first.start, token.end, "")], Change("leaving out the member at", first.start)
        if ends:
            first = None


def by_tree(report, world):
    """Constructs put in sequence, statements that do nothing, bodies that return a default, members left out."""
    source, at = report.source, report.answer.offset
    class_node, method = method_at(world, at)
    if method is not None:
        yield from in_sequence(source, method, at)
        for node in method.body.walk():
            if node.kind == "atomic" and node.start == at:
                yield [Edit(at, node.block.start, "")], Change("leaving out the word atomic at", at)
        if method.body.start < at:
            yield from quiet_statements(source, method, at)
        yield body_left_out(source, world, class_node, method)
        yield [Edit(method.start, method.end, "")], Change("leaving out the member at", method.start)
    for node in world.program.classes:
        for member in node.members:
            if member.start <= at < member.end:
                yield [Edit(member.start, member.end, "")], Change("leaving out the member at", member.start)
        if node.parent and node.parent_at == at:
            start = source.text.rindex("extends", 0, at)
            yield [Edit(start, node.opened, "")], Change("leaving out what is extended at", at)
        if node.start <= at < node.opened:
            yield [Edit(node.start, node.end, "")], Change("leaving out the class at", node.start)


def in_sequence(source, method, at):
    """A construct whose branches come one after another."""
    for node in method.body.walk():
        if node.start != at or node.kind not in ("cobegin", "foreach"):
            continue
        what = Change("putting in sequence the branches at", at)
        if node.kind == "cobegin":
            yield [Edit(node.start, node.start + len(node.keyword), "")], what
        elif not node.part:
            edits = [Edit(node.start, node.body.start, f"{{ final int {node.name} = 0; "), Edit(node.end, node.end, " }")]
            yield edits, what
        yield [instead(node, "{}")], Change(f"leaving out the {node.keyword} at", at)


def quiet_statements(source, method, at):
    """The innermost statement that holds a place, without what it does."""
    held = [node for node in method.body.walk() if node.kind in ACTING and node.start <= at < node.end]
    if not held:
        return
    node = held[-1]
    what = Change("leaving out what is done at", node.start)
    if headers_of(node):
        yield [instead(expression, nothing) for expression, nothing in headers_of(node)], what
    elif node.kind != "local":
        yield [instead(node, "{}")], what
    elif node.type.start <= at < node.type.end:
        yield [instead(node, f"int {node.name} = 0;")], what
    else:
        plain = node.type.base in ("int", "boolean") and not node.type.suffixes
        yield quiet(node) or [instead(node.value, default_of((node.type.base,)) if plain else "null")], what


def body_left_out(source, world, class_node, method):
    """A body that returns a default."""
    value = default_of(world.type(method.result, class_node.name, set())) if method.result else None
    made = f"{{ return {value}; }}" if value else "{ }"
    return [instead(method.body, made)], Change("leaving out the body at", method.start)
