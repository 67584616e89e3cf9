"""Rewrites of Java's forms, for the table of habits: each gives the edits of a match, or None where it knows none."""

import re

from .leaving import Edit
from .source import tokens_of

CLOSING = {"(": ")", "[": "]", "{": "}"}
STEP = re.compile(
    r"^(?:(?P<target>.+?)\s*(?P<after>\+\+|--)|(?P<before>\+\+|--)\s*(?P<other>.+)|(?P<left>.+?)\s*(?P<sign>[-+*/%])=\s*(?P<value>.+))$",
    re.DOTALL,
)


def closing(text, opened):
    """The offset behind the bracket that closes the one at an offset."""
    waiting = []
    for token in tokens_of(text[opened:]):
        if token.text in CLOSING:
            waiting.append(CLOSING[token.text])
        elif waiting and token.text == waiting[-1]:
            waiting.pop()
            if not waiting:
                return opened + token.end
    return None


def split_at(text, mark):
    """A piece of a text, cut at a mark that stands in no brackets."""
    parts, depth, last = [], 0, 0
    lists = [match.span() for match in re.finditer(r"(?<=\w)<[\w.:,\s\[\]*?]*>", text)]
    for token in tokens_of(text):
        depth += (token.text in ("(", "[", "{")) - (token.text in (")", "]", "}"))
        if token.text == mark and depth <= 0 and not any(start < token.start < end for start, end in lists):
            parts.append(text[last : token.start].strip())
            last = token.end
    return parts + [text[last:].strip()]


def operand(text):
    """An operand of a product, in parentheses where it has operators."""
    text = text.strip()
    return text if re.fullmatch(r"[\w.]+(\([^()]*\)|\[[^\[\]]*\])?", text) else f"({text})"


def step(text):
    """`x++`, `x += e` and their like as an assignment; anything else as it is."""
    match = STEP.match(text.strip())
    if not match:
        return text.strip()
    if match["sign"]:
        value = match["value"].strip()
        plain = match["sign"] == "+" and not re.search(r"[<>=&|?]", value)
        return f"{match['left']} = {match['left']} {match['sign']} {value if plain else operand(value)}"
    target = (match["target"] or match["other"]).strip()
    return f"{target} = {target} {(match['after'] or match['before'])[0]} 1"


def whole_step(match, _):
    """A statement that is a step alone."""
    return [Edit(match.start(), match.end(), step(match["step"]) + ";")]


def step_in_expression(match, source):
    """A step inside an expression: as a statement before or behind it, where that statement is simple; in a condition before it and in a loop
    at the end of the body too."""
    text = source.text
    end = text.find(";", match.end())
    start = max(text.rfind(mark, 0, match.start()) for mark in ";{}") + 1
    start += len(text[start:]) - len(text[start:].lstrip())
    head = re.match(r"(if|while|for|return|else|foreach)\b", text[start:])
    if head and head[1] in ("if", "while"):
        return step_in_condition(match, source, start)
    if end < 0 or re.search(r"[{}]", text[match.end() : end]) or (head and head[1] != "return"):
        return None
    name, alone = match["name"], step(match["step"])
    is_behind = match["step"].startswith(name)
    if is_behind and head:
        taken = next(new for new in ("taken", "before", "given", "valueBefore") if not re.search(rf"\b{new}\b", text))
        return [Edit(start, start, f"int {taken} = {name}; {alone}; "), Edit(match.start("step"), match.end("step"), taken)]
    if is_behind:
        return [Edit(match.start("step"), match.end("step"), name), Edit(end + 1, end + 1, f" {alone};")]
    return [Edit(start, start, f"{alone}; "), Edit(match.start("step"), match.end("step"), name)]


def step_in_condition(match, source, start):
    """A step in the condition of an `if` or a `while`: before the statement, and in a loop at the end of its body."""
    text, name, alone = source.text, match["name"], step(match["step"])
    opened = text.index("(", start)
    closed = closing(text, opened)
    body = body_after(text, closed) if closed else None
    if not body or match.end("step") > closed or re.search(r"&&|\|\|", text[opened : match.start("step")]):
        return None
    # What a step behind its name gives is the value before it.
    back = "-" if "+" in match["step"] else "+"
    value = f"({name} {back} 1)" if match["step"].startswith(name) else name
    edits = [Edit(start, start, f"{alone}; "), Edit(match.start("step"), match.end("step"), value)]
    if not text.startswith("while", start):
        return edits
    if text[body[0]] == "{":
        return [*edits, Edit(body[1] - 1, body[1] - 1, f" {alone}; ")]
    return [*edits, Edit(body[0], body[0], "{ "), Edit(body[1], body[1], f" {alone}; }}")]


def body_after(text, offset):
    """The span of a statement, as far as brackets tell: a block, or up to its semicolon."""
    start = offset + len(text[offset:]) - len(text[offset:].lstrip())
    if text[start : start + 1] == "{":
        end = closing(text, start)
        return (start, end) if end else None
    depth = 0
    for token in tokens_of(text[start:]):
        depth += (token.text in CLOSING) - (token.text in CLOSING.values())
        if depth == 0 and token.text in (";", "}"):
            return start, start + token.end
    return None


def inner(text):
    """The statements of a body, without its braces."""
    return text.strip()[1:-1].strip() if text.strip().startswith("{") else text.strip()


def head_and_body(match, source):
    """What stands in the parentheses of a statement, and the span of its body."""
    opened = source.text.index("(", match.start())
    closed = closing(source.text, opened)
    body = body_after(source.text, closed) if closed else None
    return (source.text[opened + 1 : closed - 1], closed, body) if body else None


def counting_loop(match, source):
    """`for (init; condition; update)` as a while loop in a block of its own."""
    found = head_and_body(match, source)
    if not found:
        return None
    head, _, (start, end) = found
    parts = split_at(head, ";")
    if len(parts) != 3:
        return None
    first = loop_start(parts[0])
    updates = " ".join(f"{step(part)};" for part in split_at(parts[2], ",") if part)
    text = source.text
    if text[start] == "{":
        last = end - 1
        gap = "" if text[last - 1].isspace() else " "
        tail = Edit(last, last + 1, f"{gap}{updates} }} }}")
        return [Edit(match.start(), start + 1, f"{{ {first}while ({parts[1] or 'true'}) {{"), tail]
    return [Edit(match.start(), start, f"{{ {first}while ({parts[1] or 'true'}) {{ "), Edit(end, end, f" {updates} }} }}")]


def loop_start(text):
    """What stands before the first semicolon of a `for`, as statements."""
    names = split_at(text, ",")
    declared = re.match(r"[A-Za-z_]\w*(?:\[\])*\s+(?=\w+\s*=)", names[0])
    lead = declared.group() if declared else ""
    return "".join(f"{lead if number else ''}{step(name)}; " for number, name in enumerate(names) if name)


def each_loop(match, source):
    """`for (T x : a)` as a while loop over the indices."""
    found = head_and_body(match, source)
    if not found or ":" not in found[0]:
        return None
    head, _, (start, end) = found
    declared, of = (part.strip() for part in head.split(":", 1))
    index = next(name for name in ("k", "at", "number", "place") if not re.search(rf"\b{name}\b", source.text))
    text = source.text
    lead = f"{{ int {index} = 0; while ({index} < {of}.length) {{ {declared} = {of}[{index}];"
    tail = f" {index} = {index} + 1; }} }}"
    if text[start] == "{":
        return [Edit(match.start(), start + 1, lead), Edit(end - 1, end, tail)]
    return [Edit(match.start(), start, lead + " "), Edit(end, end, tail)]


def parallel_loop(match, source):
    """`foreach (int i = a; i < b; i++)` with a start and a count."""
    found = head_and_body(match, source)
    parts = split_at(found[0], ";") if found else []
    first = re.match(r"(?:int\s+)?(\w+)\s*=\s*(.+)", parts[0], re.S) if len(parts) == 3 else None
    until = re.match(r"(\w+)\s*(<=?)\s*(.+)", parts[1], re.S) if first else None
    if not until or until[1] != first[1]:
        return None
    start, end = first[2].strip(), until[3].strip()
    count = end if start == "0" else f"{operand(end)} - {operand(start)}"
    count = count if until[2] == "<" else f"{count} + 1"
    keyword = "foreach_nd" if match.group().startswith("foreach_nd") else "foreach"
    return [Edit(match.start(), found[1], f"{keyword} (int {first[1]} in {start}, {count})")]


def do_while(match, source):
    """`do S while (c);` as S and a while loop with S once more."""
    body = body_after(source.text, match.end())
    if not body:
        return None
    tail = re.compile(r"\s*while\s*\(").match(source.text, body[1])
    closed = closing(source.text, tail.end() - 1) if tail else None
    if not closed:
        return None
    condition, text = source.text[tail.end() : closed - 1], source.text[body[0] : body[1]]
    end = closed + 1 if source.text[closed : closed + 1] == ";" else closed
    return [Edit(match.start(), end, f"{text} while ({condition}) {text}")]


def value_of(its_type):
    """A value for a declared type."""
    return {"int": "0", "boolean": "false"}.get(its_type.strip(), "null")


def declarators(match, source):
    """`T a = 1, b;` as declarations of their own, of locals with a value; a region behind the last field is that of all without one."""
    its_type, is_field = match["type"], depth_at(source.text, match.start()) < 2
    parts = split_at(match["names"], ",")
    if len(parts) < 2 or not all(re.match(r"[A-Za-z_]\w*\s*(?:=|$|in\b)", part) for part in parts):
        return []
    last = re.search(r"\s+in\s+[^=]*", parts[-1])
    made = []
    for part in parts:
        name, _, value = (piece.strip() for piece in part.partition("="))
        if is_field:
            place = "" if re.search(r"\sin\s", name) or not last else last.group().rstrip()
            made.append(f"{its_type} {name}{place};")
        else:
            made.append(f"{its_type} {name} = {value or value_of(its_type.removeprefix('final ').strip())};")
    return [Edit(match.start(), match.end(), " ".join(made))]


def depth_at(text, offset):
    """How many braces are open at an offset."""
    depth = 0
    for token in tokens_of(text[:offset]):
        depth += (token.text == "{") - (token.text == "}")
    return depth


def no_value(match, source):
    """`T a;` with a value; no edits where it declares a field."""
    if depth_at(source.text, match.start()) < 2:
        return []
    its_type = match["type"]
    return [Edit(match.start(), match.end(), f"{its_type} {match['name']} = {value_of(its_type.removeprefix('final ').strip())};")]


def array_values(match, source):
    """`T[] a = { .. };` as a created array whose elements are assigned."""
    opened = source.text.index("{", match.start("opened"))
    closed = closing(source.text, opened)
    end = source.text.find(";", closed) + 1 if closed else 0
    if not end or source.text[closed : end - 1].strip():
        return None
    values = [value for value in split_at(source.text[opened + 1 : closed - 1], ",") if value]
    name = match["name"]
    made = [f"{match['type']} {name} = new {match['base']}[{len(values)}]{match['rest'] or ''};"]
    made += [f"{name}[{number}] = {value};" for number, value in enumerate(values)]
    return [Edit(match.start(), end, " ".join(made))]


def character(match, _):
    """A character as its number."""
    escapes = {"n": "\n", "t": "\t", "r": "\r", "0": "\0", "b": "\b", "f": "\f"}
    text = match.group()[1:-1].encode("latin-1").decode("utf-8", "replace")
    letter = escapes.get(text[1:], text[1:]) if text.startswith("\\") and len(text) > 1 else text
    return [Edit(match.start(), match.end(), str(ord(letter)))] if len(letter) == 1 else None


def plain_number(match, _):
    """A number in another base, with underscores or with a suffix, as a decimal one."""
    try:
        value = int(re.sub(r"[lL_]", "", match.group()), 0)
    except ValueError:
        value = int(re.sub(r"[lL_]", "", match.group()).lstrip("0") or "0")
    return [Edit(match.start(), match.end(), str(value))] if value <= 2147483647 else None


def text_and_values(match, source):
    """A printed sum of texts and values as a print for each."""
    opened = source.text.index("(", match.start())
    closed = closing(source.text, opened)
    if not closed:
        return None
    parts = [part for piece in split_at(source.text[opened + 1 : closed - 1], "+") for part in split_at(piece, ",") if part]
    end = closed + 1 if source.text[closed : closed + 1] == ";" else closed
    made = " ".join(f"print({part});" for part in parts)
    alone = re.search(r"(?:\)|else)\s*$", source.text[: match.start()])
    return [Edit(match.start(), end, f"{{ {made} }}" if alone and len(parts) > 1 else made)]


def shifted(match, _):
    """A shift by a number as a product or a quotient."""
    by = int(match["by"])
    if by > 30:
        return None
    sign = "*" if match["sign"] == "<<" else "/"
    return [Edit(match.start("sign"), match.end("by"), f"{sign} {2**by}")]


def masked(match, _):
    """`& m` with m one below a power of two as a remainder."""
    mask = int(match["mask"], 0)
    if mask & (mask + 1):
        return None
    return [Edit(match.start("sign"), match.end("mask"), f"% {mask + 1}")]


def close_literal(match, source):
    """A quotation mark before what ends a print, or at the end of the line."""
    token = source.tokens[min(source.token_at(match.start()), len(source.tokens) - 1)]
    if token.start != match.start() or token.kind != "mark":
        return []
    line = match.group().rstrip("\r\n")
    tail = re.search(r"\s*\)\s*;[^\"]*$", line)
    place = match.start() + (tail.start() if tail else len(line))
    return [Edit(place, place, '"')]


def unless_declared(match, source):
    """No edits where the text declares a class of the name itself; otherwise no mend is known."""
    name = re.match(r"\w+", match.group()).group()
    return [] if re.search(rf"\bclass\s+{name}\b", source.text) else None


def constant_method(match, source):
    """A constant as a method without effects; no edits for a local."""
    if depth_at(source.text, match.start()) != 1:
        return []
    return [Edit(match.start(), match.end(), f"{match['type']} {match['name']}() pure {{ return {match['value'].strip()}; }}")]


def body_of_none(match, source):
    """A method without a body as one that returns a default; no edits where no method is declared."""
    if depth_at(source.text, match.start()) != 1:
        return []
    made = "{ }" if match["result"] == "void" else f"{{ return {value_of(match['result'])}; }}"
    return [Edit(match.end("head"), match.end(), f" {made}")]


def created_local(match, source):
    """`C x(e);` with `new`; no edits where a member is declared."""
    if depth_at(source.text, match.start()) < 2:
        return []
    its_type, name = match["type"], match["name"]
    return [Edit(match.start(), match.end(), f"{its_type} {name} = new {its_type}({match['actuals']});")]


def empty_statement(match, source):
    """A `;` alone; no edits where it ends a statement, which a `)` before it may also do."""
    text = source.text[: match.start()].rstrip()
    if text.endswith(")"):
        start = max(text.rfind(mark) for mark in ";{}") + 1
        statement = re.sub(r"^\s*(?:else\s+)?", "", text[start:])
        if statement.count("(") != statement.count(")") or not re.match(r"(?:if|while|for|foreach|foreach_nd|foreach_parts)\b", statement):
            return []
    return [Edit(match.start(), match.end(), "")]


def from_zero(match, source):
    """A loop over all indices of an array, or up to a number."""
    of = match["of"]
    is_array = re.search(rf"\]\s*(?:<[^<>;{{}}]*>)?\s*(?:#\w+)?\s+{re.escape(of.rpartition('.')[2])}\b", source.text)
    return [Edit(match.start("of"), match.end(), f"0, {of}.length" if is_array else f"0, {of}")]
