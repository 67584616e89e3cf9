"""Slips of the grammar: a token too much, too little or misspelt, and a brace that isn't closed."""

import re

from .asking import Spent
from .leaving import Edit
from .names import distance
from .source import KEYWORDS, statement_around

INSERTED = (";", ")", "}", "]", "=", ",", ">", "(", "{", "int")
REPLACING = (";", ")", "}", "]", "=", ",", ">", ":", ".")
DROPPED = (";", ")", "]", ",", "}", ">")
BEFORE_A_BLOCK = ("cobegin", "cobegin_nd", "atomic")
BEFORE_A_BODY = (")", "pure")
TRIALS_AT_MOST = 60
LIKELY = 2.5
OPENINGS_AT_MOST = 12
NO_LINE_END = tuple("{};,=+-*/%<>(|&.:[") + ("&&", "||", "==", "!=", "<=", ">=")
ONLY_ALONE = 6
IFS_AT_MOST = 3
PAIRS = {"(": ")", "[": "]"}
BRACKETS_AT_MOST = 16
LINE_AT_MOST = 200


def slip_mend(report, has_habit):
    """Tries small changes at the place and before it; keeps the one after which the text is right the farthest."""
    if has_habit:
        return None
    best = None
    at = report.answer.offset
    lines_here = report.source.place(at)[0]
    # Where several statements lack something, what is taken for one goes on over lines.
    enough = max(2, min(statement_around(report.source, at)[1], line_end(report.source, at)) - at, past_the_next(report.source, at) - at)
    try:
        for text, edits, rank, *about in candidates(report)[:TRIALS_AT_MOST]:
            answer, offset = report.attempt(text, edits)
            report.tried.pop()
            if not report.is_gone(answer, offset):
                continue
            reach = float("inf") if answer.accepted or answer.name not in ("syntax", "number", "nest") else answer.offset - offset
            if reach < (float("inf") if rank >= ONLY_ALONE else enough):
                continue
            if best is None or (answer.accepted, reach, -rank) > best[0]:
                best = ((answer.accepted, reach, -rank), text, edits, about)
            if answer.accepted or (rank < LIKELY and answer.line >= lines_here + 2):
                break
    except Spent:
        if best is None:
            raise
    if best and report.mends(best[1], best[2]) and best[3]:
        return best[3][0]
    return None


def line_end(source, at):
    """The end of the last token in the line of a place."""
    line = source.place(at)[0]
    last = [token.end for token in source.tokens[source.token_at(at) :][:LINE_AT_MOST] if source.place(token.start)[0] == line]
    return last[-1] if last else at


def past_the_next(source, at):
    """The end of the token after the one at a place: a change that only moves the fault there is no mend."""
    number = min(source.token_at(at) + 1, len(source.tokens) - 1)
    return source.tokens[number].end if source.tokens else at


def candidates(report):
    """Changes with a word on each and a rank, the likely ones first."""
    source, at = report.source, report.answer.offset
    number = source.token_at(at)
    tokens = source.tokens
    found = []
    found += missing_braces(source, number)
    found += missing_openings(source, number)
    found += misspelt(source, number)
    found += several_in_an_if(source, number)
    found += unbalanced(source, number)
    found += calls_without_object(source, number)
    found += one_token(source, number)
    found += statement_in_braces(source, number)
    found += missing_parentheses(source, number)
    found += extra_braces(source, number)
    return sorted(found, key=lambda item: item[2])


def one_token(source, number):
    """A token put in, left out or replaced; ranks from ONLY_ALONE on count only where no other fault of the grammar is left."""
    tokens, found = source.tokens, []
    end = tokens[number - 1].end if number else 0
    for rank, token in enumerate(INSERTED):
        place = end if token in (";", ")", "]", ",") or number == len(tokens) else tokens[number].start
        gap = " " if token[0].isalnum() else ""
        found.append((f"A `{token}` is missing.", [Edit(place, place, token + gap)], 3 + rank / 20 + (ONLY_ALONE if token in ("(", "{") else 0)))
    if number and tokens[number - 1].kind == "name":
        place = tokens[number - 1].start
        found.append((f"Declare `{tokens[number - 1].text}` with its type.", [Edit(place, place, "int ")], 3.9))
    if number == len(tokens):
        return found
    here = tokens[number]
    is_double = number > 0 and tokens[number - 1].text == here.text
    found.append((f"The `{here.text}` is too much.", [Edit(here.start, here.end, "")], 4 if is_double or here.text in DROPPED else 4 + ONLY_ALONE))
    return found + [(f"A `{token}` may be meant.", [Edit(here.start, here.end, token)], 5) for token in REPLACING]


def statement_in_braces(source, number):
    """A statement where a block has to stand."""
    before = source.tokens[number - 1].text if 0 < number < len(source.tokens) else ""
    if before not in BEFORE_A_BLOCK + BEFORE_A_BODY:
        return []
    start, end = source.tokens[number].start, statement_around(source, source.tokens[number].start)[1]
    return [("Put the statement in braces.", [Edit(start, start, "{ "), Edit(end, end, " }")], 2 if before in BEFORE_A_BLOCK else ONLY_ALONE)]


def unbalanced(source, number):
    """A bracket that isn't closed, or isn't opened, in the statement: at each place where it may have been meant."""
    tokens = source.tokens
    first = next((place + 1 for place in range(min(number, len(tokens)) - 1, -1, -1) if source.ends[place]), 0)
    waiting = []
    for place in range(first, min(number, len(tokens))):
        if tokens[place].text in PAIRS:
            waiting.append(place)
        elif tokens[place].text in PAIRS.values() and waiting:
            waiting.pop()
    here = tokens[number].text if number < len(tokens) else ""
    found = []
    if waiting and here != PAIRS[tokens[waiting[-1]].text]:
        closer = PAIRS[tokens[waiting[-1]].text]
        for rank, place in enumerate(range(number - 1, waiting[-1], -1)):
            found.append((f"A `{closer}` is missing.", [Edit(tokens[place].end, tokens[place].end, closer)], 3.1 + rank / 100))
    if not waiting and here in PAIRS.values():
        opener = next(opener for opener, closer in PAIRS.items() if closer == here)
        for rank, place in enumerate(range(number, first, -1)):
            found.append((f"A `{opener}` is missing.", [Edit(tokens[place].start, tokens[place].start, opener)], ONLY_ALONE + rank / 100))
    return found[:BRACKETS_AT_MOST]


def several_in_an_if(source, number):
    """An `else` behind several statements of an `if`: these in braces, for each of the last few `if`s."""
    tokens = source.tokens
    if number >= len(tokens) or tokens[number].text != "else":
        return []
    found, heads = [], [place for place in range(max(0, number - 80), number) if tokens[place].text == "if"]
    for rank, head in enumerate(reversed(heads[-IFS_AT_MOST:])):
        depth, opened = 0, None
        for place in range(head + 1, number):
            depth += (tokens[place].text == "(") - (tokens[place].text == ")")
            if depth == 0:
                opened = tokens[place].end
                break
        if opened is not None:
            edits = [Edit(opened, opened, " {"), Edit(tokens[number].start, tokens[number].start, "} ")]
            found.append(("Put the statements of the `if` in braces.", edits, 0.5 + rank / 10, tokens[head].start))
    return found


def misspelt(source, number):
    """Names near the place that are nearly keywords."""
    found = []
    for token in source.tokens[max(0, number - 4) : number + 1]:
        if token.kind != "name" or token.text in KEYWORDS:
            continue
        for keyword in sorted(KEYWORDS):
            away = distance(token.text.lower(), keyword)
            if away <= 2 and away * 2 < len(keyword):
                text = f"`{keyword}` may be meant."
                found.append((text, [Edit(token.start, token.end, keyword)], 1 + away / 10))
    return found


def calls_without_object(source, number):
    """`f(..)` for `this.f(..)`."""
    tokens = source.tokens
    if not 0 < number < len(tokens) or tokens[number].text != "(":
        return []
    name = tokens[number - 1]
    if name.kind != "name" or name.text in KEYWORDS or (number > 1 and tokens[number - 2].text == "."):
        return []
    declared = re.search(rf"\b{re.escape(name.text)}\s*\([^()]*\)\s*(?:pure\b|reads\b|writes\b|\{{)", source.text)
    text = f"A method is called on its object: `this.{name.text}(..)`."
    return [(text, [Edit(name.start, name.start, "this.")], 0.5 if declared else 2.5)]


def indent_of(source, offset):
    """The blanks at the beginning of the line of an offset."""
    line = source.line(source.place(offset)[0])
    return len(line) - len(line.lstrip())


def open_braces(source, number):
    """The tokens `{` that are open before a token."""
    waiting = []
    for token in source.tokens[:number]:
        if token.text == "{":
            waiting.append(token)
        elif token.text == "}" and waiting:
            waiting.pop()
    return waiting


def missing_braces(source, number):
    """Braces that indentation says are missing, before the place."""
    found, waiting, last_line = [], [], 0
    for token in source.tokens[: number + 1]:
        line = source.place(token.start)[0]
        if line != last_line and token.text != "}":
            while waiting and source.place(waiting[-1].start)[0] < line and indent_of(source, token.start) <= indent_of(source, waiting[-1].start):
                found.append(brace_before(source, token, waiting.pop()))
        last_line = line
        if token.text == "{":
            waiting.append(token)
        elif token.text == "}" and waiting:
            opened = waiting.pop()
            if waiting and starts_line(source, token) and indent_of(source, token.start) < indent_of(source, opened.start):
                found.append(brace_before(source, token, opened))
    if number >= len(source.tokens) and source.tokens:
        end = source.tokens[-1].end
        count = len(open_braces(source, number))
        if count:
            opened = open_braces(source, number)[-1]
            found.append((f"Close what is open: {count} `}}` at the end.", [Edit(end, end, "\n" + "}" * count)], 1.9, opened.start))
    return found


def missing_openings(source, number):
    """Braces that indentation says are missing at the end of a line: the next one is deeper."""
    found, tokens = [], source.tokens[: number + 1]
    for token, after in zip(tokens, tokens[1:]):
        line = source.place(token.start)[0]
        if token.text in NO_LINE_END or source.place(after.start)[0] == line or indent_of(source, after.start) <= indent_of(source, token.start):
            continue
        text = f"A `{{` is missing, by the look of the line after line {line}."
        found.append((text, [Edit(token.end, token.end, " {")], 0.3 + (number - len(found)) / 100000, token.start))
    return found[-OPENINGS_AT_MOST:]


def starts_line(source, token):
    return not source.text[source.starts[source.place(token.start)[0] - 1] : token.start].strip()


def brace_before(source, token, opened):
    """A brace in a line of its own before the line of a token."""
    line = source.place(token.start)[0]
    place = source.tokens[source.token_at(source.starts[line - 1]) - 1].end
    at = "{}:{}".format(*source.place(opened.start))
    edit = Edit(place, place, "\n" + " " * indent_of(source, opened.start) + "}")
    return f"Close the `{{` of {at}, by the look of the lines before line {line}.", [edit], 0.2, opened.start


def missing_parentheses(source, number):
    """A condition that isn't in parentheses."""
    tokens = source.tokens
    if not 0 < number < len(tokens) or tokens[number - 1].text not in ("if", "while"):
        return []
    found = []
    for other in range(number + 1, min(number + 14, len(tokens))):
        edits = [Edit(tokens[number].start, tokens[number].start, "("), Edit(tokens[other].start, tokens[other].start, ") ")]
        found.append(("Put the condition in parentheses.", edits, 1 + other / 1000))
    return found


def extra_braces(source, number):
    """A brace that closes too much: the first that stands deeper than what it closes, or else any of the last ones."""
    found, waiting = [], []
    for token in source.tokens[: number + 1]:
        if token.text == "{":
            waiting.append(token)
        elif token.text == "}" and waiting:
            opened = waiting.pop()
            if starts_line(source, token) and indent_of(source, token.start) > indent_of(source, opened.start):
                found.append(("This `}` is too much, by its place in the line.", [Edit(token.start, token.end, "")], 0.4))
                break
    for token in source.tokens[max(0, number - 60) : number + 1]:
        if token.text == "}":
            found.append(("This `}` is too much.", [Edit(token.start, token.end, "")], 4.5 - token.start / (10 * len(source.text))))
    return found
