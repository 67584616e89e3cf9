#!/usr/bin/env python3
"""Opens the pages of `dpj view` in a browser.

    tests/slow/pages.py [PROGRAM]

The page of each example is opened in Chromium without a window (the command chromium, of Debian's package of that name), and a script
(tests/view/in_page.js) goes through it by keys: as many lanes have to be seen as there are tasks, a mark for each event, the line of each event lit,
and at the end the output of `run` with the same seed. What is said of the order of events, of conflicts, and the order with blocks gathered have to be as
tests/view/replaying.py finds them by clocks of its own. It tells how long the page of a run of about 5000 events takes. PROGRAM is out/dpj where
none is named. Where there is no chromium, a line says so, and the status is 0. The status is 1 where something is otherwise.
"""
import json
import pathlib
import re
import shutil
import subprocess
import sys
import tempfile

TOP = pathlib.Path(__file__).resolve().parent.parent.parent
sys.path.insert(0, str(TOP / "tests" / "view"))

import replaying  # noqa: E402
from run import Tally, asked, called, subjects  # noqa: E402

SECONDS = 180
SEED = "seed=1"
FLAGS = "--headless --no-sandbox --disable-gpu --no-first-run --window-size=2400,900 --virtual-time-budget=1000 --dump-dom".split()
HEARD = "<script>const heard = []; addEventListener('error', (fault) => heard.push(fault.message));</script>"
SEEN = re.compile(r'<script type="application/json" id="seen">(.*?)</script>', re.S)

# A longer run, for the time that its page takes.
LONG = b"class Main { int x; int main(int n) { int k = 0; while (k < n) { this.x = this.x + k; k = k + 1; } return this.x; } }\n"


def looked_at(page, room):
    """What the script has seen in a page."""
    script = (TOP / "tests" / "view" / "in_page.js").read_text(encoding="utf-8")
    path = room / "page.html"
    path.write_text(page.replace("<head>", f"<head>{HEARD}", 1).replace("</body>", f"<script>\n{script}</script></body>", 1), encoding="utf-8")
    words = ["chromium", *FLAGS, f"--user-data-dir={room / 'profile'}", path.as_uri()]
    try:
        done = subprocess.run(words, capture_output=True, timeout=SECONDS, check=False)
    except subprocess.TimeoutExpired:
        return {"heard": [f"the page took more than {SECONDS} seconds"]}
    found = SEEN.search(done.stdout.decode())
    return json.loads(found[1]) if found else {"heard": ["the script didn't come to its end"]}


def orders(seen):
    """Of some events how many come before them, after them, and in no order with them, by clocks."""
    clocks, current, branches = [], {0: {}}, {0: []}
    for task, kind, what, _ in seen.events:
        clock = current[task]
        if kind == "join":
            for branch in branches[task]:
                for other, count in current[branch].items():
                    clock[other] = max(clock.get(other, 0), count)
        clock[task] = clock.get(task, 0) + 1
        if kind in ("fork", "fork_nd"):
            branches[task] = []
        if kind == "begin":
            branches[task].append(int(what))
            current[int(what)], branches[int(what)] = dict(clock), []
        clocks.append((task, clock[task], dict(clock)))
    count = len(clocks)
    for index in [min(count - 1, count * part // 5) for part in range(6)]:
        own, at, clock = clocks[index]
        before = sum(it[1] <= clock.get(it[0], 0) for it in clocks) - 1
        after = sum(it[2].get(own, 0) >= at for it in clocks) - 1
        yield [index, before, after, count - before - after - 1]


def gathered(seen):
    """The numbers of the events with those of each block together at its entry, all else in its order."""
    inside, entries, placed, last = {0: None}, {}, [], {}
    for number, (task, kind, what, _) in enumerate(seen.events, 1):
        block = inside[task]
        if kind == "enter":
            entries[task] = entries.get(task, 0) + 1
            block = inside[task] = block or (number, task)
        if block in last:
            placed.insert(placed.index(last[block]) + 1, number)
        else:
            placed.append(number)
        if block:
            last[block] = number
        if kind == "exit":
            entries[task] -= 1
        if block and block[1] == task and (kind == "end" or (kind == "exit" and not entries[task])):
            inside[task] = None
        if kind == "begin":
            inside[int(what)] = inside[task]
    return placed


def cells_of(seen, order):
    """What the cells hold in the end, in an order; None where a read in it wouldn't find what it found."""
    cells = {}
    for number in order:
        _, kind, what, _ = seen.events[number - 1]
        cell, _, value = what.partition(" = ")
        if kind == "read" and value and cells.get(cell, value) != value:
            return None
        if kind == "write" and not value.endswith(" out"):
            cells[cell] = value
    return cells


def try_page(tally, program, room, name, text, settings):
    events = asked(program, ["events", SEED, *settings], text)[0]
    seen = replaying.replayed(events)
    output = asked(program, ["run", SEED, *settings], text)[0]
    found = looked_at(called(program, "-", SEED, *settings, text=text)[0], room)
    tally.sees(f"{name}: no error", found["heard"], [])
    if found["heard"]:
        return
    count = len(seen.events)
    places = [place[0] if place else 0 for *_, place in seen.events]
    printed = output.removesuffix("\n").split("\n")
    order = gathered(seen)
    stride = 20 if count > 800 else 1
    if output == "limit\n":
        printed = found["printed"][:-1] + printed
    for what, got, wanted in (
        ("lanes", found["through"]["lanes"], seen.tasks), ("marks", found["through"]["marks"], count),
        ("lines", found["through"]["lines"], [[made, places[made - 1]] for made, _ in found["through"]["lines"]]),
        ("steps", [made for made, _ in found["through"]["lines"]], [min(made, count) for made in range(stride, count + stride, stride)]),
        ("the beginning", found["through"]["first"], [f"0 of {count}", 0]), ("the output", "\n".join(found["printed"]), "\n".join(printed)),
        ("the slider", found["slid"], [[f"{made} of {count}", places[made - 1] if made else 0] for made in (count * part // 4 for part in range(5))]),
        ("cells", found["cells"], cells_of(seen, range(1, count + 1))), ("orders", found["chosen"], list(orders(seen))),
        ("conflicts", found["clashes"], sorted(seen.clashes)), ("the gathered order", found["gathered"], order),
        ("the gathered run", cells_of(seen, order), cells_of(seen, range(1, count + 1))),
        ("the gathered output", found["printed_gathered"], found["printed"]), ("rows", sum(found["rows"]), count),
        ("a click", found["clicked"], [1, None]),
    ):  # fmt: skip
        tally.sees(f"{name}: {what}", got, wanted)
    if found["unfolded"]:
        before, size, opened, closed = found["unfolded"]
        tally.sees(f"{name}: a stretch is opened and closed", (opened, closed), (before + size - 1, before))
    return count, found["loaded"]


def main(words):
    """Runs all; gives the status."""
    if len(words) > 1 or words[:1] in (["-h"], ["--help"]):
        print(__doc__.strip())
        return 1 if len(words) > 1 else 0
    if not shutil.which("chromium"):
        print("tests/slow/pages.py: skipped: there is no chromium, so no page was opened")
        return 0
    program, tally = pathlib.Path(words[0] if words else TOP / "out" / "dpj").resolve(), Tally()
    with tempfile.TemporaryDirectory() as room:
        room = pathlib.Path(room)
        for subject in subjects():
            try_page(tally, program, room, *subject)
        took = try_page(tally, program, room, "long", LONG, ["arg=2500"])
        if took:
            print(f"a page of {took[0]} events was there after {took[1]:.0f} ms")
    print(f"{tally.passed} passed, {tally.failed} failed")
    return 1 if tally.failed else 0


if __name__ == "__main__":
    sys.exit(main(sys.argv[1:]))
