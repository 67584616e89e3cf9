#!/usr/bin/env python3
"""Tries tools/why.py and tools/faults.py.

usage: tests/why/run.py PROGRAM [NAME..]

PROGRAM is the path of the program dpj. For each text of table.txt, and each example that it names, `why` has to name the statements that
are written there; each change that it tells has to be answered by PROGRAM as it says; and each mend has to end the fault. `faults` has to
find what many.txt says. With NAMEs only these texts are tried. Writes a line for each failure, and then `why: N passed, N failed`.
tests/run calls this.
"""

import json
import re
import subprocess
import sys
from concurrent.futures import ProcessPoolExecutor
from pathlib import Path

HERE = Path(__file__).resolve().parent
TOP = HERE.parent.parent
EXAMPLES = TOP / "examples" / "check"
SPARE = 3
CRLF = " with crlf"
sys.path.insert(0, str(TOP / "tools"))

from faults import Faults  # noqa: E402
from reasons.asking import Asker  # noqa: E402
from reasons.explain import explain  # noqa: E402
from reasons.report import BRIEF_LINES, BRIEF_WIDTH  # noqa: E402
from reasons.source import Source  # noqa: E402
from screen import Paper  # noqa: E402


def check(program, text):
    """What the program answers to a text of bytes."""
    return subprocess.run([program, "check"], input=text, capture_output=True, timeout=60, check=False).stdout.decode().strip()


def table(file):
    """Triples of a name, the words of its line, and the bytes of its text."""
    cases = []
    for part in re.split(r"^(?=== |example )", (HERE / file).read_text(encoding="utf-8"), flags=re.M)[1:]:
        head, _, body = part.partition("\n")
        word, name, *rest = head.split(" ", 2)
        words = rest[0] if rest else ""
        text = (EXAMPLES / f"{name}.dpj").read_bytes() if word == "example" else body.rstrip("\n").encode() + b"\n"
        if words.endswith(CRLF):
            words, text = words.removesuffix(CRLF), text.replace(b"\n", b"\r\n")
        cases.append((name, words, text))
    return cases


def wanted(words):
    """The places, mends and sayings that a line of the table asks for."""
    at, *others = [part.strip() for part in words.split(" ; ")]
    places = [tuple(int(number) for number in place.split(":")) for place in at.removeprefix("at ").split()]
    return places, [part for part in others if part]


def named(report):
    """The places of the statements, and of accesses in them."""
    found = set()
    for entry in report["statements"]:
        for piece in (entry, entry.get("access")):
            if piece:
                found |= {(piece["line"],), (piece["line"], piece["column"])}
    return found


def table_faults(report, words, text):
    """What a report doesn't say that the table asks for."""
    places, others = wanted(words)
    found = [f"{':'.join(map(str, place))} isn't named" for place in places if place not in named(report)]
    if len({(entry["line"], entry["column"]) for entry in report["statements"]}) > len(places) + SPARE:
        found.append("too many statements are named")
    mend = report["mend"] or {"text": ""}
    mended = edited(text, [report["mend"]]) or b"" if report["mend"] else b""
    said = " ".join(report["says"] + [entry["role"] + " " + entry["text"] for entry in report["statements"]] + [mend["text"]])
    for part in others:
        kind, _, what = part.partition(" ")
        if what not in (mended.decode("utf-8", "replace") if kind == "mend" else said):
            found.append(f"no {kind} `{what}`")
    return found


def edited(text, edits):
    """A text with edits, each of which has to find its old text at its place."""
    lines = text.split(b"\n")
    starts = [0]
    for line in lines:
        starts.append(starts[-1] + len(line) + 1)
    spans = []
    for edit in edits:
        start = starts[edit["line"] - 1] + edit["column"] - 1
        old = edit["old"].encode()
        if text[start : start + len(old)] != old:
            return None
        spans.append((start, start + len(old), edit["new"].encode()))
    made, last = b"", 0
    for start, end, new in sorted(spans, key=lambda span: (span[0], -span[1])):
        if start < last:
            continue
        made += text[last:start] + new
        last = end
    return made + text[last:]


def told_of(answer):
    """The name and the line of an answer; a column moves with what is put in front of it."""
    words = answer.split()
    return (words[-1], words[1].split(":")[0]) if len(words) == 3 else (answer, "")


def tried_faults(program, text, report):
    """Which of the changes that are told come out otherwise."""
    changes = [(entry["change"], entry["edits"], entry["answer"]) for entry in report["tried"]]
    if report["mend"]:
        changes.append((report["mend"]["text"], [report["mend"]], report["mend"]["answer"]))
    found = []
    for change, edits, answer in changes:
        made = edited(text, edits)
        if made is None:
            found.append(f"`{change}` doesn't find what it replaces")
        elif told_of(check(program, made)) != told_of(answer):
            found.append(f"`{change}` is told as {answer}, and is {check(program, made)}")
    if report["mend"] and told_of(report["mend"]["answer"]) != ("accepted", ""):
        refused = report["refused"]
        if report["mend"]["answer"] == f"refused {refused['line']}:{refused['column']} {refused['name']}":
            found.append("the mend doesn't end the fault")
    return found


def why_faults(program, case):
    """The failures of one text."""
    name, words, text = case
    made = explain(Source("-", text.decode("latin-1")), Asker(program, 400, 60))
    report = json.loads(made.as_json())
    refused = report["refused"]
    found = []
    if check(program, text) != f"refused {refused['line']}:{refused['column']} {refused['name']}":
        found.append("the refusal is another one")
    found += table_faults(report, words, text) + tried_faults(program, text, report)
    if len(made.as_brief(Paper(BRIEF_WIDTH)).splitlines()) > BRIEF_LINES:
        found.append("what is told in brief is too long")
    return [f"{name}: {fault}" for fault in found]


def many_faults(program, case):
    """The failures of one text with several faults."""
    name, words, text = case
    asked = [part.strip() for part in words.removeprefix("at").split(",") if part.strip()]
    faults = Faults(Source("-", text.decode("latin-1")), Asker(program, 200, 60))
    faults.search()
    found = [f"{fault['line']}:{fault['column']} {fault['name']}" for fault in json.loads(faults.as_json())["faults"]]
    failures = [] if found == asked else [f"found are {', '.join(found)}"]
    if not faults.complete:
        failures.append("the text isn't accepted without its faults")
    return [f"{name}: {fault}" for fault in failures]


def called(tool, words, text=b"", **more):
    """A call of a tool, with its status and what it wrote."""
    command = [sys.executable, TOP / "tools" / tool, *words]
    return subprocess.run(command, input=text, capture_output=True, timeout=60, check=False, **more)


def call_faults(program, _):
    """The failures of calls as the launcher makes them: statuses, and no byte that a terminal obeys."""
    accepted, refused = b"class Main { int main(int n) { return n; } }\n", b"class Main { int main(int n) { \x1b[31m\xc2\x9b return n\x07; } }\n"
    failures = []
    for tool in ("why.py", "faults.py"):
        for words, text, status in (
            ([program, "-"], accepted, 0),
            ([program, "-"], refused, 2),
            ([program, "-", "--json"], refused, 2),
            ([program, "/no/such/file"], b"", 5),
            ([program], b"", 1),
            (["/no/such/program", "-"], accepted, 126),
        ):
            done = called(tool, words, text)
            if done.returncode != status:
                failures.append(f"{tool} {' '.join(words[1:])}: status {done.returncode} in place of {status}")
            shown = done.stdout.decode("utf-8", "replace").replace("\n", "")
            if any(not letter.isprintable() for letter in shown):
                failures.append(f"{tool} {' '.join(words[1:])}: writes what a terminal obeys")
    return failures


def tried(item):
    """The failures of a piece of work."""
    search, program, case = item
    return search(program, case)


def main(words):
    """Runs all; gives the status."""
    if not words or words[0] in ("-h", "--help"):
        print(__doc__.strip())
        return 0 if words else 1
    program, names = words[0], words[1:]
    work = [(why_faults, program, case) for case in table("table.txt")] + [(many_faults, program, case) for case in table("many.txt")]
    work.append((call_faults, program, ("calls", "", b"")))
    work = [item for item in work if not names or item[2][0] in names]
    with ProcessPoolExecutor(4) as pool:
        results = list(pool.map(tried, work))
    for result in results:
        for fault in result:
            print(fault)
    failed = sum(1 for result in results if result)
    print(f"why: {len(results) - failed} passed, {failed} failed")
    return 1 if failed else 0


if __name__ == "__main__":
    sys.exit(main(sys.argv[1:]))
