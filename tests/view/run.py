#!/usr/bin/env python3
"""Tries `dpj events` and tools/view.py.

    tests/view/run.py PROGRAM

PROGRAM is the path of the program dpj. For each example and a few texts besides, and for a few seeds, the events are made again on a heap
(replaying.py): each read and each length has to be what was written, and what was printed and how the run ended what `run` writes with the same
seed; folded to their tasks they have to be the schedule that `trace` writes. The page has to hold these events and the text, and the pages in
examples/ have to be those that are written now. Other calls are on scripts in place of the program. In a browser the pages are tried by
tests/slow/pages.py. Writes a line for each failure, and then `N passed, N failed`.
"""
import concurrent.futures
import json
import os
import pathlib
import re
import subprocess
import sys
import tempfile

from replaying import Wrong, replayed

TOP = pathlib.Path(__file__).resolve().parent.parent.parent
TOOL = TOP / "tools" / "view.py"
SECONDS = 120
SEEDS = (1, 2, 3)

# As the launcher calls it.
PYTHON = (sys.executable, "-BEsS")

DATA = re.compile(r'<script type="application/json" id="data">(.*?)</script>', re.S)

# An argument for which each kernel is short.
KERNEL = 5

# Texts that come to what no example does.
TEXTS = {
    "trap": "class Main { int[] a in Root; int main(int n) { this.a = new int[2]; print(7); this.a[n] = 1; return this.a.length; } }",
    "branches trap": "class Main { int x; int main(int n) { cobegin { print(1); { print(2); print(3 / this.x); print(4); } print(5); } return 0; } }",
    "negative": "class Main { int main(int n) { int[] a = new int[n]; return a[0 - 1]; } }",
    "values": "class Node { Node next; boolean set; } class Main { int main(int n) { Node[] all = new Node[2]; boolean[] b = new boolean[1]; "
    "all[0] = new Node(); all[0].next = all[0]; all[0].set = b[0] || all[1] == null; b[0] = all[0].next.set; print(b[0]); return all.length; } }",
    "quoted": 'class Main { int main(int n) { print("<script>\\"&amp;</script>"); print(""); print("at 3:4"); print(" - at 1:1"); return n; } }',
    "line ends": 'class Main { int main(int n) { print("a\\nb 1 at 2:3\\n\\n"); print("\\n3"); print("\\\\n\\\\"); return n; } }',
    "nested": "class Main { atomic region C; int x in C; void add() writes atomic C { atomic { this.x = this.x + 1; } } int main(int n) "
    "{ foreach_nd (int i in 0, n) { atomic { this.add(); this.add(); } } return this.x; } }",
    "block with branches": "class Main { atomic region C; region A, B; int x in C; int a in A; int b in B; int main(int n) { foreach_nd (int i in 0, 2) "
    "{ atomic { this.x = this.x + 1; } } atomic { cobegin { this.a = 1; this.b = 2; } } return this.a + this.b + this.x; } }",
}  # fmt: skip
REFUSED = "class Main {\n  int main(int n) { return m; }\n}\n"
LONG = "class Main { int x; int main(int n) { while (0 == 0) { this.x = this.x + 1; } return 0; } }\n"

# A text that is one of events, and changes after which it is none.
EVENTS = """dpj-events 1
arg 0 steps 10 cells 10
events 9
1 0 new int[2]#1 at 1:1
2 0 write int[]#1[0] = 5 at 1:2
3 0 fork 1 at 1:3
4 0 begin 1 at 1:3
5 1 read int[]#1[0] = 5 at 1:4
6 1 look int[]#1 = 2 at 1:5
7 1 end
8 0 join at 1:3
9 0 end 5
result 5
"""
CHANGES = [
    ("= 5 at 1:4", "= 4 at 1:4"), ("= 5 at 1:4", "= true at 1:4"), ("[0] = 5 at 1:4", "[1] = 5 at 1:4"), ("[0] = 5 at 1:4", "[2] = 0 at 1:4"),
    ("[0] = 5 at 1:4", "[0] out at 1:4"), ("[0] = 5 at 1:2", "[2] = 5 at 1:2"), ("= 2 at 1:5", "= 3 at 1:5"), ("= 2 at 1:5", "at 1:5"), ("#1 at 1:1", "#2 at 1:1"),
    ("fork 1", "fork 2"), ("begin 1", "begin 2"), ("5 1 read", "5 2 read"), ("5 1 read", "6 1 read"), ("7 1 end\n8 0 join at 1:3", "7 0 join at 1:3\n8 1 end"),
    ("result 5", "result 6"), ("result 5", "limit"), ("events 9", "events 8"), ("look int[]#1", "look Main#1"), ("7 1 end", "7 1 end at 1:1"), (" at 1:1", ""),
]  # fmt: skip


class Tally:
    """Counts what is so and what isn't."""

    def __init__(self):
        self.passed = self.failed = 0

    def sees(self, what, got, wanted):
        if got == wanted:
            self.passed += 1
            return
        self.failed += 1
        print(f"view: {what}\n  wanted {wanted!r:.600}\n  got    {got!r:.600}")


def asked(program, words, text):
    done = subprocess.run([program, *words], input=text, capture_output=True, timeout=SECONDS, check=False)
    return done.stdout.decode(errors="replace"), done.returncode


def called(program, *words, text=b"", folder=None):
    """A call of the tool: standard output, standard error and the status."""
    done = subprocess.run([*PYTHON, TOOL, program, *words], input=text, capture_output=True, timeout=SECONDS, check=False, cwd=folder)
    return done.stdout.decode(), done.stderr.decode(), done.returncode


def subjects():
    """Texts by their names, with the settings of their runs."""
    for path in sorted((TOP / "examples").rglob("*.dpj")):
        refused = path.parent.name == "check" and not path.with_suffix(".ran").exists()
        if not refused:
            yield path.stem, path.read_bytes(), [f"arg={KERNEL if path.parent.name == 'kernels' else 10}"]
    for name, text in TEXTS.items():
        yield name, text.encode(), ["arg=3"]
    yield "limit", LONG.encode(), ["steps=2000"]


def stretches_of(trace):
    """The schedule of a trace."""
    return [tuple(map(int, line.split())) for line in trace.partition("\nprogram\n")[0].split("\n")[3:]]


def try_run(program, name, text, settings, seed):
    """One run: what of it was asked, got and wanted."""
    words = [f"seed={seed}", *settings]
    events, status = asked(program, ["events", *words], text)
    try:
        seen = replayed(events)
    except Wrong as wrong:
        return [(f"{name}, seed {seed}", str(wrong), None)]
    output, wanted_status = asked(program, ["run", *words], text)
    schedule = stretches_of(asked(program, ["trace", *words], text)[0])
    stretches = seen.stretches
    if output == "limit\n" and sum(count for _, count in schedule) == len(seen.events) + 1:
        # The last number is of the event that would go over the limit.
        task, count = schedule.pop()
        schedule += [(task, count - 1)] if count > 1 else []
    page, _, page_status = called(program, "-", *words, text=text)
    data = json.loads(DATA.search(page)[1]) if DATA.search(page) else {}
    return [
        (f"{name}, seed {seed}: what is written", seen.output, output),
        (f"{name}, seed {seed}: statuses", [status, page_status], [wanted_status] * 2),
        (f"{name}, seed {seed}: the schedule", stretches, schedule),
        (f"{name}, seed {seed}: the events in the page", data.get("events"), events),
        (f"{name}, seed {seed}: the text in the page", data.get("source"), text.decode(errors="replace")),
        (f"{name}, seed {seed}: the page asks for nothing", re.findall(r'(?:src|href)="(?!data:)|https?://|@import', DATA.sub("", page)), []),
    ]


def try_changes(tally):
    """What is no run is seen to be none."""
    tally.sees("a text of events", replayed(EVENTS).output, "result 5\n")
    for old, new in CHANGES:
        try:
            replayed(EVENTS.replace(old, new, 1))
            tally.sees(f"with {new} in place of {old}", "accepted", "wrong")
        except Wrong:
            tally.passed += 1


def try_runs(tally, program):
    with concurrent.futures.ThreadPoolExecutor(os.cpu_count()) as pool:
        jobs = [pool.submit(try_run, program, *subject, seed) for subject in subjects() for seed in SEEDS]
        for job in jobs:
            for sight in job.result():
                tally.sees(*sight)


def try_examples(tally, program, room):
    """The pages in examples/ are those that are written now."""
    pages = sorted((TOP / "examples").glob("view-*.html"))
    tally.sees("there are pages", len(pages) >= 3, True)
    for page in pages:
        text, = (TOP / "examples").rglob(f"{page.stem.removeprefix('view-')}.dpj")
        settings = json.loads(DATA.search(page.read_text(encoding="utf-8"))[1])["settings"]
        status = called(program, text, *settings, f"--output={room / page.name}")[2]
        words = f"./dpj view {text.relative_to(TOP)} {' '.join(settings)} --output={page.relative_to(TOP)}"
        tally.sees(f"{page.name}, written anew by {words}", (status, (room / page.name).read_bytes() == page.read_bytes()), (0, True))


def try_files(tally, program, room):
    """Where the page goes."""
    text = TEXTS["values"].encode()
    source, page = room / "a.dpj", room / "a.html"
    source.write_bytes(text)
    out, errors, status = called(program, "a.dpj", "seed=1", folder=room)
    tally.sees("the line on the page", bool(re.fullmatch(r"a\.html: \d+ events of 1 task, result 2\n", out)), True)
    tally.sees("nothing else", (errors, status, page.exists()), ("", 0, True))
    page.write_text(page.read_text() + "older")
    tally.sees("an older page", (called(program, "a.dpj", "seed=1", folder=room)[2], page.read_text().endswith("older")), (0, False))
    page.write_text("mine")
    out, errors, status = called(program, "a.dpj", folder=room)
    tally.sees("another file", (out, "is no page of view" in errors, status, page.read_text()), ("", True, 6, "mine"))
    out = called(program, "a.dpj", f"--output={room}/b.html", folder=room)[0]
    tally.sees("a name", (out.partition(":")[0], (room / "b.html").exists()), (f"{room}/b.html", True))
    tally.sees("standard output", called(program, "a.dpj", "--output=-", folder=room)[0].startswith("<!doctype html>\n"), True)
    tally.sees("no folder", called(program, "a.dpj", "--output=no/b.html", folder=room)[2], 6)
    tally.sees("a folder", called(program, "a.dpj", f"--output={room}", folder=room)[2], 6)
    tally.sees("nothing is left", sorted(path.name for path in room.glob("*")), ["a.dpj", "a.html", "b.html"])


def try_calls(tally, program, room):
    """Texts that are refused, words that are no call, and programs that give no answer."""
    out, errors, status = called(program, "-", text=REFUSED.encode())
    tally.sees("a refusal", (out, "2 |   int main(int n) { return m; }" in errors, status), ("refused 2:28 unknown\n", True, 2))
    for words, wanted in (
        ([], 1), (["-", "-"], 1), (["-", "mode=steps"], 1), (["-", "arg=x"], 1), (["-", "arg=1", "arg=2"], 1), (["-", "--json"], 1),
        (["-", "--output="], 1), (["/no/such"], 5), (["/", "--output=-"], 5), (["--help"], 0),
    ):  # fmt: skip
        tally.sees(f"the status of {words}", called(program, *words, text=TEXTS["values"].encode(), folder=room)[2], wanted)
    tally.sees("no program", called("/no/such", "-")[2], 126)
    for name, lines, wanted, said in (
        ("silent", "", 126, "gave no answer"), ("starved", "exit 7", 7, "memory ran out"), ("dies", "kill -s SEGV $$", 126, "gave no answer"),
        ("writes", "exec cat /dev/zero", 4, "too long for a page"), ("older", "exit 1", 1, "doesn't take these settings"),
        ("sleeps", "sleep 1.5; exit 7", 7, "the run is being made"),
    ):  # fmt: skip
        script = room / name
        script.write_text(f"#!/bin/sh\n{lines}\n")
        script.chmod(0o755)
        out, errors, status = called(script, "-")
        tally.sees(name, (out, status, said in errors), ("", wanted, True))


def main(words):
    """Runs all; gives the status."""
    if len(words) != 1 or words[0] in ("-h", "--help"):
        print(__doc__.strip())
        return 0 if words else 1
    program, tally = pathlib.Path(words[0]).resolve(), Tally()
    try_changes(tally)
    try_runs(tally, program)
    for one in (try_examples, try_files, try_calls):
        with tempfile.TemporaryDirectory() as room:
            one(tally, program, pathlib.Path(room).resolve())
    print(f"{tally.passed} passed, {tally.failed} failed")
    return 1 if tally.failed else 0


if __name__ == "__main__":
    sys.exit(main(sys.argv[1:]))
