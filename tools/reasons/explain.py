"""From a refusal to its report."""

import importlib

from .asking import Spent
from .leaving import Edit
from .nodes import NoTree
from .report import Report
from .source import statement_around
from .tree import parse
from .world import World

BY_NAME = {
    "syntax": ("syntax", "explain"),
    "nest": ("syntax", "explain"),
    "interferes": ("branches", "explain"),
    "interferes-nd": ("branches", "explain"),
    "summary": ("covers", "explain_summary"),
    "override-effect": ("covers", "explain_override"),
    "unknown": ("names", "explain_unknown"),
    "duplicate": ("duplicates", "explain_duplicate"),
    "type": ("kinds", "explain"),
    "assign": ("assigning", "explain_assign"),
    "return": ("assigning", "explain_return"),
    "main": ("others", "explain_main"),
    "region-args": ("arguments", "explain_region_args"),
    "partial-write": ("others", "explain_partial_write"),
    "atomic-body": ("others", "explain_atomic_body"),
    "local-region": ("others", "explain_local_region"),
    "override": ("others", "explain_override"),
    "cycle": ("others", "explain_cycle"),
    "constraint": ("arguments", "explain_constraint"),
}
LEAST = "2147483648"


def explain(source, asker, brief=False):
    """The report on a text."""
    report = Report(source, asker.check(source.text), asker)
    report.brief = brief
    if report.answer.accepted:
        return report
    try:
        by_name(report)
    except Spent:
        if not brief:
            report.say("The questions or the time that were granted are used up; there may be more to say.")
    except NoTree:
        pass
    if not report.statements:
        report.name(*statement_around(source, report.answer.offset), "here")
    return report


def by_name(report):
    """Fills in a report by the name of the refusal; a module is loaded when it is asked for, since the table of habits takes its time."""
    name = report.answer.name
    if name == "number":
        number(report)
    elif name in BY_NAME:
        module, form = BY_NAME[name]
        explain_it = getattr(importlib.import_module(f"{__package__}.{module}"), form)
        explain_it(*((report,) if module == "syntax" else (report, World(parse(report.source.text)))))


def number(report):
    """A literal that is too great or begins with 0."""
    source = report.source
    token = source.tokens[source.token_at(report.answer.offset)]
    start, end = statement_around(source, token.start)
    report.name(start, end, f"`{token.text}` is no int literal")
    before = source.text[: token.start].rstrip()
    if token.text == LEAST and before.endswith("-"):
        alone = before[:-1].rstrip().endswith(("return", "=", "(", ","))
        new = "-2147483647 - 1" if alone else "(-2147483647 - 1)"
        report.mends("The least int is written as a difference.", [Edit(len(before) - 1, token.end, new)])
    elif token.text.startswith("0") and token.text.isdigit():
        report.say("A literal has no leading 0, and there are no octal numbers.")
        eight = int(token.text, 8) if set(token.text) <= set("01234567") else int(token.text)
        report.mends("Write it in decimal, as Java reads it.", [Edit(token.start, token.end, str(eight))])
    else:
        report.say("An int has 32 bits: its greatest value is 2147483647.")
