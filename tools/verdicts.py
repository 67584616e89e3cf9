"""What an answer of the program says, taken from its status and its report."""
import re

REFUSED = re.compile(rb"refused (\d+):(\d+) ([a-z-]+)\n")
TRAPPED = re.compile(rb"trap ([a-z]+) (\d+):(\d+)\n")
RESULT = re.compile(rb"result (-?\d+)\n")
# What `cost` writes behind the report of its run.
FIGURES = re.compile(rb"steps \d+\ncells \d+\nevents \d+\ntasks \d+\nrounds \d+\n\Z")

OF_STATUS = {1: "usage", 2: "refused", 3: "trap", 4: "limit", 5: "read-fault", 6: "write-fault", 7: "out-of-memory"}
OF_COMMAND = {"check": "accepted", "list": "listing", "effects": "effects", "trace": "trace", "events": "events", "cost": "cost", "demo": "demo"}


class Verdict:
    """`kind` is the verdict, `name` that of its refusal or trap, `line` and `column` its place, `result` what main returned, and `output` what
    stands beside all that in the report."""

    def __init__(self, command, answer):
        report, status = answer
        self.name = self.line = self.column = self.result = None
        self.output = b""
        self.kind = OF_STATUS.get(status, "killed") if status else OF_COMMAND.get(command, "result")
        figures = FIGURES.search(report) if command == "cost" else None
        report = report[: figures.start()] if figures else report
        # What a run prints ends with a line feed.
        last = report[report.rfind(b"\n", 0, -1) + 1 :]
        refused, trapped, result = REFUSED.fullmatch(report), TRAPPED.fullmatch(last), RESULT.fullmatch(last)
        if self.kind == "refused" and refused:
            self.line, self.column, self.name = int(refused[1]), int(refused[2]), refused[3].decode()
        elif self.kind == "trap" and trapped and command != "trace":
            self.line, self.column, self.name = int(trapped[2]), int(trapped[3]), trapped[1].decode()
            self.output = report.removesuffix(last)
        elif self.kind == "result" and result:
            self.result = int(result[1])
            self.output = report.removesuffix(last)
        elif self.kind in ("cost", "events") and result:
            self.result = int(result[1])
            self.output = report.removesuffix(last)
        elif command == "events":
            self.output = report.removesuffix(last)
        elif command in ("list", "effects", "trace", "demo"):
            self.output = report
        if figures:
            self.output += figures[0]


def counted(command, verdict, text):
    """The text in which the place of a verdict counts: all of it, or of a trace the program that it holds."""
    if command != "replay" or verdict.name in ("trace", "schedule", "too-long"):
        return text
    return text.partition(b"\nprogram\n")[2]


def limits_of_trace(text):
    """The limits that a trace holds, by key; none where it doesn't say."""
    found = re.match(rb"dpj-trace 1\narg -?\d+ steps (\d+) cells (\d+)\n", text)
    return {"steps": int(found[1]), "cells": int(found[2])} if found else {}
