#!/usr/bin/env python3
"""Tries tools/outcomes.py.

    tests/outcomes/run.py PROGRAM

PROGRAM is the path of the program dpj. What its runs may come out as is written here by hand; how often they do, and by which seed, is asked of
PROGRAM run by run. Other calls are on scripts in place of the program, which sleep, write much or die. Writes a line for each failure, and then
`N passed, N failed`.
"""
import collections
import json
import os
import pathlib
import signal
import subprocess
import sys
import tempfile
import time
from concurrent.futures import ThreadPoolExecutor

TOP = pathlib.Path(__file__).resolve().parent.parent.parent
TOOL = TOP / "tools" / "outcomes.py"
sys.path.insert(0, str(TOP / "tools"))

from side_by_side import processors  # noqa: E402

SECONDS = 60

# As the launcher calls it.
PYTHON = (sys.executable, "-BEsS")

# `(0 + 1) * 2` or `0 * 2 + 1`.
ORDER = """class Main {
  atomic region C;
  int x in C;
  int main(int n) {
    cobegin_nd { atomic { this.x = this.x + 1; } atomic { this.x = this.x * 2; } }
    return this.x;
  }
}
"""
# Both read before one writes, and one is lost, or both come one after another.
LOST = """class Main {
  atomic region C;
  int x in C;
  int main(int n) {
    foreach_nd (int i in 0, 2) { int t = 0; atomic { t = this.x; } atomic { this.x = t + 1; } }
    return this.x;
  }
}
"""
TRAPS = """class Main {
  atomic region C;
  int x in C;
  int main(int n) {
    cobegin_nd { atomic { this.x = 5; } atomic { this.x = 10 / this.x; } }
    return this.x;
  }
}
"""
PLAIN = "class Main { int main(int n) { cobegin { print(1); print(2); } return n / 2; } }\n"
REFUSED = "class Main {\n  int x;\n  int main(int n) {\n    cobegin { this.x = 1; this.x = 2; }\n    return 0;\n  }\n}\n"

# By the script's name: what it does after it was asked whether the text is accepted. `$seed` is the seed.
SCRIPTS = {
    "sleeps": '[ "$seed" -gt 3 ] && exec sleep 50; echo result "$seed"',
    "writes": '[ "$seed" -eq 2 ] && exec cat /dev/zero; echo result 0',
    "starves": '[ "$seed" -lt 4 ] && exit 7; echo result 0',
    "dies": '[ "$seed" -eq 5 ] && kill -s SEGV $$; echo result 0',
    "differs": 'for i in $(seq 100); do if [ "$i" = 40 ]; then echo "odd $((seed % 2))"; else echo "line $i"; fi; done; echo result 0',
    "wide": 'printf "%0300d%d\\n" 0 "$((seed % 2))"; echo result 0',
    "escapes": 'printf "\\033[31mred\\302\\233\\n"; echo result 0',
    "many": 'echo result "$seed"',
}


class Tally:
    """Counts what is so and what isn't."""

    def __init__(self):
        self.passed = self.failed = 0

    def sees(self, what, got, wanted):
        if got == wanted:
            self.passed += 1
            return
        self.failed += 1
        print(f"outcomes: {what}\n  wanted {wanted!r}\n  got    {got!r}")


def called(program, *words, text="", bounds=None):
    """A call of the tool, with bounds of its own where some are given."""
    command = [*PYTHON, TOOL]
    if bounds:
        change = f"import sys, outcomes; outcomes.BOUNDS = outcomes.Bounds(*{bounds}); sys.exit(outcomes.main(sys.argv[1:]))"
        command = [*PYTHON, "-c", f"import sys; sys.path.insert(0, {str(TOOL.parent)!r}); {change}"]
    done = subprocess.run([*command, program, *words], input=text.encode(), capture_output=True, timeout=SECONDS, check=False)
    return done.stdout.decode(), done.stderr.decode(), done.returncode


def asked(program, words, text):
    done = subprocess.run([program, *words], input=text.encode(), capture_output=True, timeout=SECONDS, check=False)
    return done.returncode, done.stdout.decode()


def counted(program, text, seeds, *settings):
    """The outcomes with their counts and least seeds, asked of the program itself."""
    with ThreadPoolExecutor(4) as pool:
        answers = list(pool.map(lambda seed: asked(program, ["run", f"seed={seed}", *settings], text), range(1, seeds + 1)))
    counts = collections.Counter(answers)
    return sorted((-count, answers.index(answer) + 1, *answer) for answer, count in counts.items())


def try_results(tally, program):
    """What comes out of runs of the program itself."""
    for name, text, results in (("order", ORDER, {1, 2}), ("lost", LOST, {1, 2}), ("plain", PLAIN, {4})):
        out, _, status = called(program, "-", "20", "arg=9", "--json", text=text)
        found = json.loads(out)
        tally.sees(f"{name}: the status", status, 0)
        tally.sees(f"{name}: the results", {int(row["output"].split()[-1]) for row in found["outcomes"]}, results)
        rows = [(-row["count"], row["seed"], row["status"], row["output"]) for row in found["outcomes"]]
        tally.sees(f"{name}: counts and seeds", rows, counted(program, text, 20, "arg=9"))
        tally.sees(f"{name}: nd", found["nd"], name != "plain")
    found = json.loads(called(program, "-", "20", "--json", text=TRAPS)[0])
    tally.sees("a trap is an outcome", sorted((row["status"], row["output"].split()[0]) for row in found["outcomes"]), [(0, "result"), (3, "trap")])
    out = called(program, "-", "20", text=PLAIN)[0]
    tally.sees("what is promised without nd", ["-: 1 outcome in 20 runs", "one outcome is what is promised" in " ".join(out.split())], [out.split(",")[0], True])
    tally.sees("how to see one again", "To see one again: ./dpj trace seed=1 arg=3 <TEXT" in called(program, "-", "arg=3", "2", text=PLAIN)[0], True)


def try_refusal(tally, program):
    out, errors, status = called(program, "-", text=REFUSED)
    tally.sees("a refusal", (out, status), ("refused 4:5 interferes\n", 2))
    tally.sees("it is shown", ["4 |     cobegin {" in errors, "No run is made" in errors], [True, True])
    found = json.loads(called(program, "-", "--json", text=REFUSED)[0])
    tally.sees("it stands in the object", (found["refused"], found["runs"]), ({"name": "interferes", "line": 4, "column": 5}, 0))


def try_calls(tally, program):
    """Words that are no call, and files that can't be read."""
    for words, status in (
        ([], 1), (["-", "0"], 1), (["-", "10001"], 1), (["-", "1", "2"], 1), (["-", "workers=2"], 1), (["-", "arg=x"], 1),
        (["-", "arg=1", "arg=2"], 1), (["/no/such"], 5), (["/"], 5), (["--help"], 0),
    ):  # fmt: skip
        tally.sees(f"the status of {words}", called(program, *words, text=PLAIN)[2], status)
    tally.sees("no program", called("/no/such", "-", text=PLAIN)[2], 126)
    tally.sees("a program that says nothing", called("/bin/true", "-", text=PLAIN)[2], 126)


def without(script, bounds):
    """The runs of a script that had no outcome, and those that had."""
    found = json.loads(called(script, "-", "6", "--json", bounds=bounds)[0])
    return [tuple(row.values()) for row in found["without"]], sum(row["count"] for row in found["outcomes"])


def try_bounds(tally, scripts):
    """Runs that end without an outcome, and outcomes that are long."""
    bounds = (30, 2 << 30, 1 << 20)
    tally.sees("a run that takes long", without(scripts["sleeps"], (3, *bounds[1:])), ([("time", 3, 4)], 3))
    tally.sees("a run that writes much", without(scripts["writes"], bounds), ([("output", 1, 2)], 5))
    tally.sees("a run that has too little memory", without(scripts["starves"], bounds), ([("memory", 3, 1)], 3))
    tally.sees("a run that dies", without(scripts["dies"], bounds), ([("signal", 1, 5)], 5))
    out = called(scripts["differs"], "-", "4")[0]
    tally.sees("the line that differs", [out.count("40 | odd 0"), out.count("40 | odd 1"), out.count(" line 70")], [1, 1, 0])
    found = json.loads(called(scripts["differs"], "-", "4", "--json")[0])
    tally.sees("the object has all lines", [row["output"].count("\n") for row in found["outcomes"]], [101, 101])
    lines = called(scripts["wide"], "-", "4")[0].splitlines()
    tally.sees("the end of a wide line", sorted(line[-2:] for line in lines if "000" in line), ["00", "01"])
    tally.sees("no line is wider than the screen", max(map(len, lines)) <= 80, True)
    out = called(scripts["escapes"], "-", "2")[0]
    tally.sees("nothing that a terminal obeys", all(letter.isprintable() for letter in out.replace("\n", "")), True)
    out = called(scripts["many"], "-", "50")[0]
    tally.sees("many outcomes", ["30 outcomes more" in out, out.count("    result")], [True, 20])


def sleepers(script):
    """How many runs of a script sleep."""
    count = 0
    for folder in pathlib.Path("/proc").glob("[0-9]*"):
        try:
            count += os.readlink(folder / "cwd") == str(script.parent) and (folder / "cmdline").read_bytes().startswith(b"sleep\0")
        except OSError:
            continue
    return count


def comes_to(count, script):
    """Whether as many runs of a script come to sleep, in a while."""
    until = time.monotonic() + SECONDS
    while sleepers(script) != count and time.monotonic() < until:
        time.sleep(0.02)
    return sleepers(script) == count


def try_signals(tally, script):
    """An interrupt shows what was found; no signal leaves a run behind."""
    for number, wanted in ((signal.SIGINT, 130), (signal.SIGTERM, -signal.SIGTERM), (signal.SIGKILL, -signal.SIGKILL)):
        started = subprocess.Popen([*PYTHON, TOOL, script, "-", "9"], cwd=script.parent, stdin=subprocess.DEVNULL, stdout=subprocess.PIPE)
        # Once they all sleep, the first three have ended.
        tally.sees("as many runs side by side as there are processors", comes_to(min(6, processors()), script), True)
        started.send_signal(number)
        out = started.communicate(timeout=SECONDS)[0].decode()
        tally.sees(f"the status after {number.name}", started.returncode, wanted)
        if number == signal.SIGINT:
            tally.sees("what was found so far", [f"result {seed}" in out for seed in (1, 2, 3)], [True] * 3)
            tally.sees("it was interrupted", "interrupted, so 6 seeds had no run" in out, True)
        tally.sees(f"no run is left after {number.name}", comes_to(0, script), True)


def main(words):
    """Runs all; gives the status."""
    if len(words) != 1 or words[0] in ("-h", "--help"):
        print(__doc__.strip())
        return 0 if words else 1
    program, tally = pathlib.Path(words[0]).resolve(), Tally()
    with tempfile.TemporaryDirectory() as room:
        scripts = {}
        for name, lines in SCRIPTS.items():
            scripts[name] = pathlib.Path(room).resolve() / name
            scripts[name].write_text(f"#!/bin/sh\n[ \"$1\" = check ] && echo accepted && exit 0\nseed=${{2#seed=}}\n{lines}\n")
            scripts[name].chmod(0o755)
        for one in (try_results, try_refusal, try_calls):
            one(tally, program)
        try_bounds(tally, scripts)
        try_signals(tally, scripts["sleeps"])
    print(f"{tally.passed} passed, {tally.failed} failed")
    return 1 if tally.failed else 0


if __name__ == "__main__":
    sys.exit(main(sys.argv[1:]))
