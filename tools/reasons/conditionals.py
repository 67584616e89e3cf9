"""Rewrites of `c ? a : b`, for the table of habits."""

import re

from .leaving import Edit
from .rewrites import CLOSING, closing, split_at, value_of
from .source import tokens_of

LEAD = re.compile(
    r"(?:(?P<back>return)\b|(?P<type>(?:int|boolean|[A-Za-z_]\w*(?:<[^=;]*>)?)(?:\[\])*)\s+(?P<name>\w+)\s*=|(?P<target>[^=?<>!]+?)=(?!=))"
)


def conditional(match, source):
    """`c ? a : b` of a declaration, an assignment or a return as an if."""
    start = match.end() - len(match.group().lstrip())
    text = source.text[start : match.end() - 1]
    lead = LEAD.match(text)
    question = text.find("?")
    parts = split_at(text[question + 1 :], ":")
    if not lead or len(parts) != 2:
        return None
    condition, (yes, no) = text[lead.end() : question].strip(), parts
    condition = condition[1:-1] if condition.startswith("(") and closing(condition, 0) == len(condition) else condition
    if lead["back"]:
        made = f"if ({condition}) return {yes}; else return {no};"
    elif lead["type"]:
        name = lead["name"]
        made = f"{lead['type']} {name} = {value_of(lead['type'])}; if ({condition}) {name} = {yes}; else {name} = {no};"
    else:
        target = lead["target"].strip()
        made = f"if ({condition}) {target} = {yes}; else {target} = {no};"
    return [Edit(start, match.end(), made)]


def conditional_inside(match, source):
    """`c ? a : b` as an actual or an index, by a local in front of its statement."""
    text, at = source.text, match.start()
    start = max(text.rfind(mark, 0, at) for mark in ";{}") + 1
    start += len(text[start:]) - len(text[start:].lstrip())
    first, last = bounds_of(text, start, at)
    parts = split_at(text[at + 1 : last], ":") if last else []
    if len(parts) != 2 or re.match(r"(?:if|while|for|foreach|else)\b", text[start:]):
        return None
    name = next(name for name in ("chosen", "either", "choice", "chosenValue") if not re.search(rf"\b{name}\b", text))
    before = f"int {name} = 0; if ({text[first:at].strip()}) {name} = {parts[0]}; else {name} = {parts[1]}; "
    return [Edit(start, start, before), Edit(first, last, name)]


def bounds_of(text, start, at):
    """Where an expression inside of brackets begins and ends: at these or at commas; 0 for an end that isn't there."""
    waiting, first = [start], start
    for token in tokens_of(text[start:at]):
        if token.text in CLOSING:
            waiting.append(start + token.end)
        elif token.text in CLOSING.values() and len(waiting) > 1:
            waiting.pop()
        elif token.text == ",":
            waiting[-1] = start + token.end
        first = waiting[-1]
    depth = 0
    for token in tokens_of(text[at:]):
        if depth == 0 and token.text in (*CLOSING.values(), ",", ";"):
            return first, at + token.start
        depth += (token.text in CLOSING) - (token.text in CLOSING.values())
    return first, 0
