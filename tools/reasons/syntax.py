"""Why a text isn't one of the grammar: what stands there, what may, and the habit or the slip behind it."""

from .asking import Spent
from .habits import HABITS
from .leaving import Edit
from .slips import slip_mend
from .source import statement_around, utf8, without_comments

WINDOW = 1000
SAY_ENOUGH = ("library",)
UNKNOWN = "\N{REPLACEMENT CHARACTER}"
OF_LETTERS = ("byte-order-mark", "open-comment", "open-literal", "escape", "blank", "quotes", "dash", "not-ascii")
STATEMENT = ("if", "while", "return", "print", "cobegin", "foreach", "int", "{", "final", "boolean")
EXPRESSION = ("true", "1", "this", "new", "(", "-", "!", "x", "null")
OPERATORS = ("%", "*", "/", "+", "-", "<", "==", "&&", "||")
OTHERS = ("x", '"t"', "class", "extends", "region", "in", "reads", "writes", "pure", "void", "int", "atomic", "else", "Root", "new")
OTHERS += ("[", "]", "(", ")", "{", "}", "<", ">", ".", ",", ";", ":", "=", "#", "|", "*", "1")
GROUPS = (("a statement", STATEMENT), ("an expression", EXPRESSION), ("an operator", OPERATORS))


def explain(report):
    """Fills in a report on `syntax` or `number`."""
    source, at = report.source, report.answer.offset
    if at < len(source.text) and not begins_utf8(source.text[at : at + 4]):
        report.say(f"The byte {ord(source.text[at]):02X} begins no character of UTF-8: save the file as UTF-8.")
        return
    plain = without_comments(source.text)
    try:
        habit = find_habit(report, plain, at)
    except Spent:
        likely = next(matches(plain, at), None)
        report.say(likely[0].says if likely else "")
        raise
    opened = None
    if report.mend is None:
        opened = slip_mend(report, habit is not None and habit.name != "nested-class")
    if opened is not None:
        missing = "missing" if report.mend["edits"][0]["new"].strip() == "{" else "not closed"
        report.name(*statement_around(source, opened), f"its `{{` is {missing}")
        if source.text.startswith("else", at):
            report.name(*statement_around(source, at), "belongs to no `if` as it stands")
    else:
        name_statement(report, at, habit)
    if habit is None or habit.name not in OF_LETTERS:
        say_what_stands(report)


def begins_utf8(piece):
    """Whether a piece of a text begins with a character of UTF-8."""
    return any(UNKNOWN not in utf8(piece[:size]) for size in range(1, len(piece) + 1))


def matches(plain, at):
    """The habits whose pattern holds a place, with their matches, in the order of the table."""
    low, high = max(0, at - WINDOW), min(len(plain), at + WINDOW)
    for habit in HABITS:
        for match in habit.pattern.finditer(plain, low, high):
            if match.start() <= at <= match.end():
                yield habit, match
                break
            if match.start() > at:
                break


def edits_of(habit, match, source):
    """The edits of a habit's mend."""
    if habit.mend is None:
        return None
    if callable(habit.mend):
        return habit.mend(match, source)
    return [Edit(match.start(), match.end(), match.expand(habit.mend))]


def find_habit(report, plain, at):
    """The first habit whose mend helps, or else the first one without a mend; what it says is said."""
    silent = None
    for habit, match in matches(plain, at):
        edits = edits_of(habit, match, report.source)
        if edits == []:
            continue
        if edits is None:
            silent = silent or (habit, match)
            if habit.mend is None or habit.name in SAY_ENOUGH:
                break
            continue
        if report.mends(mend_text(edits, report.source), edits, quiet=True):
            report.say(habit.says)
            return habit
    if silent:
        report.say(silent[0].says)
    return silent[0] if silent else None


def mend_text(edits, source):
    """What a mend of a habit does, in a word."""
    if all(not edit.new.strip() for edit in edits):
        return "Leave it out."
    return "Write instead:" if any(source.text[edit.start : edit.end] for edit in edits) else "Put in what is missing:"


def name_statement(report, at, habit):
    """Names the statement that a person has to change: that of the mend, or of the place."""
    source = report.source
    where = at
    if report.mend is not None:
        where = source.offset(report.mend["line"], report.mend["column"])
        if not report.mend["old"].strip() and where > 0 and source.text[where - 1 : where] not in (";", "{", "}", " ", "\n"):
            where -= 1
    elif at >= len(source.text):
        where = source.tokens[-1].start if source.tokens else 0
    start, end = statement_around(source, where)
    if report.mend is not None and not report.mend["old"].strip() and report.mend["new"].strip() in (";", ")", "]", "}", ",") and where < at < end:
        end = where + 1
    role = "here" if start <= at < end or habit else "here, though it's noticed only at what follows"
    report.name(start, end, role)


def expected_tokens(report):
    """The tokens with which the text may go on at the place, each asked; of a group of tokens only the first one is."""
    prefix = report.source.text[: report.answer.offset] + " "

    def fits(sample):
        answer = report.asker.check(prefix + sample)
        return answer.accepted or answer.offset > len(prefix) or answer.name not in ("syntax", "number", "nest")

    found = []
    for _, samples in GROUPS:
        if samples[0] not in found and fits(samples[0]):
            found += samples
    return found + [sample for sample in OTHERS if sample not in found and fits(sample)]


def say_what_stands(report):
    """What stands at the place, and what may."""
    source, at = report.source, report.answer.offset
    number = source.token_at(at)
    stands = f"`{source.tokens[number].text}`" if number < len(source.tokens) else "the end of the text"
    before = f" after `{source.tokens[number - 1].text}`" if 0 < number <= len(source.tokens) else ""
    inside = number < len(source.tokens) and source.tokens[number].start < at
    if report.brief or inside:
        if not report.says:
            report.say(f"There stands {stands}{before}.")
        return
    found = expected_tokens(report)
    report.say(f"There stands {stands}{before}" + (f"; there may stand {listed(found)}." if found else "."))


def listed(samples):
    """Tokens in few words."""
    words, left = [], list(samples)
    for name, group in GROUPS:
        if set(group) <= set(left) and not (name == "an expression" and "a statement" in words):
            words.append(name)
        if set(group) <= set(samples):
            left = [sample for sample in left if sample not in group]
    names = {"x": "a name", "1": "a number", '"t"': "a text"}
    if "a statement" in words:
        left = [sample for sample in left if sample not in ("x", "region", "atomic", "<")]
    if "an operator" in words:
        left = [sample for sample in left if sample not in ("[", ".", "<", ">")]
    words += [names.get(sample, f"`{sample}`") for sample in left]
    return words[0] if len(words) == 1 else ", ".join(words[:-1]) + " or " + words[-1]
