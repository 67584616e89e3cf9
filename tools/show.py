"""Shows what the program answers: its line of the text with a caret and what it means, a line for editors, or a JSON object.

The launcher ./dpj calls this with the program and the words for it; the text is read from standard input.

Forms: `screen` leaves standard output to the program, and explains a refusal, a trap or a limit on standard error. After a refusal comes the first
of its reason, where tools/why.py finds that within a second. `editor` writes a refusal or
a trap as FILE:LINE:COLUMN: refused: NAME or FILE:LINE:COLUMN: trap: NAME in place of its line. `json` writes one object in place of the report:

    command, file    the words; `-` is standard input
    status           what dpj ends with
    verdict          accepted, refused, result, trap, limit, listing, effects, trace, events, cost, demo, usage, read-fault, write-fault,
                     out-of-memory, no-program or killed
    name             of a refusal or trap; of a limit `steps`, `cells` or both, where that is known
    line, column     its place, in line feeds and bytes from 1
    text             the line of that place
    sentence, mend   what it means and how it is mended, where docs/REFUSALS.md or docs/TRAPS.md say so
    reason           of a refusal, the object of tools/why.py --json; null where that takes longer than a second
    output           what the run printed, or the report where that is more than a verdict
    result           what main returned
    proved           whether the program that answered is the proved one; null where none was asked
"""
import argparse
import json
import os
import pathlib
import shlex
import signal
import subprocess
import sys

import limits
import sections
from asking import KILLED, ask, read_text, takes_signals
from places import Place, mark_of
from screen import bold, columns_of, has_colours, keep_closed, printable, tell, wrapped, write_all
from verdicts import Verdict, counted

READ_FAULT, WRITE_FAULT = 5, 6

WHY = pathlib.Path(__file__).resolve().parent / "why.py"
# How long a reason may take, and the commands whose refusals are of a text of the language.
REASON_SECONDS = 1
REASONED = ("check", "run", "elide", "list", "effects", "trace", "events", "cost")


class Showing:
    """An answer of the program, to be shown in one of the forms."""

    def __init__(self, options, text, answer):
        self.options, self.text, self.answer = options, text, answer
        self.command = options.words[0]
        self.verdict = self.verdict_of(answer)
        self.place = self.place_of(self.verdict)
        known, self.missing = sections.load()
        self.section = known.get("limit" if self.verdict.kind == "limit" else self.verdict.name or self.verdict.kind)

    def verdict_of(self, answer):
        """The verdict of an answer. A trace doesn't say which trap it ends with, but its replay does."""
        verdict = Verdict(self.command, answer)
        if self.command == "trace" and verdict.kind == "trap" and self.options.form != "editor":
            again = ask(self.options.program, ["replay"], answer.report, limits.SECONDS)
            if again and again.status == answer.status:
                verdict = Verdict("replay", again)
                verdict.output = answer.report
        return verdict

    def place_of(self, verdict):
        """The place that is shown of a verdict; none where it has none, or stands for the whole text."""
        if verdict.line is None or verdict.name == "too-long":
            return None
        return Place(counted(self.command, verdict, self.text), verdict.line, verdict.column)

    def explanation(self):
        """The name in the verdict, of a limit which it was, and what it means; None for what isn't known."""
        verdict = self.verdict
        if verdict.kind == "limit":
            return limits.explained(self.options, self.text)
        return verdict.name, self.mark() or (self.section.sentence() if self.section else None)

    def mark(self):
        """What is said of a byte order mark that is refused; nothing where it isn't that."""
        verdict = self.verdict
        is_first = (verdict.name, verdict.line, verdict.column) == ("syntax", 1, 1)
        return mark_of(counted(self.command, verdict, self.text)) if is_first else ""

    def screen(self):
        """The lines for people."""
        kind, is_coloured, columns = self.verdict.kind, has_colours(2), columns_of(2) - 1
        if kind == "killed":
            return [f"dpj: the program was ended by signal {self.answer.status - KILLED}"]
        if kind == "trap" and not self.place:
            return ["dpj: the run trapped; a replay of this trace says where"]
        if kind not in ("refused", "trap", "limit"):
            return []
        lines = self.place.screen(columns) if self.place else []
        if len(lines) > 1:
            lines[-1] = lines[-1].replace("^", bold("^", is_coloured))
        name = "limit" if kind == "limit" else self.verdict.name
        _, sentence = self.explanation()
        if sentence is None:
            return [*lines, f"dpj: {name} isn't explained, since {sections.TOP} has no {' and no '.join(self.missing)}"]
        first, *more = wrapped(f"{name}: {sentence}", columns, after=f" ({self.options.called} explain {name})")
        return [*lines, bold(name, is_coloured) + first.removeprefix(name), *more]

    def reason(self, form):
        """What tools/why.py writes of the refusal in one of its forms; nothing where it finds nothing, or not in time."""
        if self.verdict.kind != "refused" or not self.place or self.command not in REASONED:
            return b""
        words = ["-BEsS", WHY, self.options.program, "-", form]
        # It is asked to end, and not killed, since it ends what it has started.
        told = ask(sys.executable, words, self.text, REASON_SECONDS, errors=subprocess.DEVNULL, end=signal.SIGTERM)
        return told.report if told and told.status == self.answer.status else b""

    def first_reason(self):
        """The first of the reason in lines for people, and how more is asked for; none where all is said."""
        if self.mark():
            return []
        columns = columns_of(2) - 1
        os.environ["COLUMNS"] = str(columns)
        lines = self.reason("--brief").decode("utf-8", errors="replace").splitlines()
        if not lines:
            return []
        file = "" if self.options.name == "-" else f" {shlex.quote(printable(self.options.name))}"
        more = f"({self.options.called} why{file})"
        if len(lines[-1]) + 1 + len(more) <= columns:
            return [*lines[:-1], f"{lines[-1]} {more}"]
        return [*lines, f"  {more}"]

    def reason_object(self):
        """The reason for what reads it by program."""
        told = self.reason("--json")
        return {**json.loads(told), "file": printable(self.options.name)} if told else None

    def editor(self):
        """The report with its verdict as editors read it."""
        verdict = self.verdict
        if verdict.kind not in ("refused", "trap") or verdict.line is None:
            return self.answer.report
        line = f"{self.options.name}:{verdict.line}:{verdict.column}: {verdict.kind}: {verdict.name}\n"
        return verdict.output + os.fsencode(line)

    def json(self):
        """The answer as an object."""
        verdict = self.verdict
        name, sentence = self.explanation()
        return answer_object(
            self.options, self.answer.status, verdict.kind, name=name, line=verdict.line, column=verdict.column,
            text=self.place.text() if self.place else None, sentence=sentence, mend=self.section.mend() if self.section else None,
            reason=self.reason_object(),
            output=verdict.output.decode("utf-8", errors="replace"), result=verdict.result, proved=self.options.proved == "yes")


FIELDS = ("command", "file", "status", "verdict", "name", "line", "column", "text", "sentence", "mend", "reason", "output", "result", "proved")


def answer_object(options, status, kind, **known):
    """The bytes of an object with all fields, null where nothing is known."""
    command = next(iter(options.words), None) or None
    fields = {"command": command and printable(command), "file": printable(options.name), "status": status, "verdict": kind, **known}
    return (json.dumps({field: fields.get(field) for field in FIELDS}) + "\n").encode("ascii")


def written(data, status):
    """Writes a report, and gives the status that this leads to."""
    try:
        write_all(1, data)
    except OSError:
        return WRITE_FAULT
    return status


def unasked(options):
    """Says why the program isn't asked, and gives the status."""
    if options.form != "json":
        tell([f"dpj: {options.sentence}"])
        return options.status
    return written(answer_object(options, options.status, options.verdict, sentence=printable(options.sentence)), options.status)


def answered(options):
    """Asks the program, shows what it answers, and gives the status."""
    try:
        text = b"" if options.words[0] == "demo" else read_text(options.words[0])
    except OSError as error:
        options.status, options.verdict = READ_FAULT, "read-fault"
        options.sentence = f"{'standard input' if options.name == '-' else options.name} cannot be read: {error.strerror}"
        return unasked(options)
    showing = Showing(options, text, ask(options.program, options.words, text))
    reports = {"json": showing.json, "editor": showing.editor, "screen": lambda: showing.answer.report}
    status = written(reports[options.form](), showing.answer.status)
    if options.form == "screen" and status == showing.answer.status:
        tell(showing.screen())
        tell(showing.first_reason())
    return status


def parsed():
    options = argparse.ArgumentParser(description=__doc__, formatter_class=argparse.RawDescriptionHelpFormatter)
    options.add_argument("--form", choices=("screen", "editor", "json"), default="screen")
    options.add_argument("--called", default="dpj", help="how the launcher was called")
    options.add_argument("--name", default="-", help="the file that standard input is")
    options.add_argument("--keys", default="", help="the launcher's table of keys")
    options.add_argument("--program", help="the program")
    options.add_argument("--proved", choices=("yes", "no"), default="no", help="whether it is the proved one")
    options.add_argument("--verdict", help="the verdict, where the program is not to be asked")
    options.add_argument("--status", type=int, help="and the status")
    options.add_argument("--sentence", help="and the reason")
    options.add_argument("words", nargs="*", help="the words for the program")
    return options.parse_args()


def main():
    takes_signals()
    keep_closed()
    options = parsed()
    return unasked(options) if options.verdict else answered(options)


if __name__ == "__main__":
    sys.exit(main())
