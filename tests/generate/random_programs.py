"""Random programs: each has to come out as Python evaluates it, however it is run.

    python3 tests/generate/random_programs.py [--programs N] [--seed N] [--show] [PROGRAM]

Each number from the seed on makes one program (tests/generate/random_trees.py), which tests/oracle/elision.py evaluates: its output, its status and its
cost. Each is elided, and run by 1, 4 and 64 workers and by rounds; then elided and run in one of these ways under limits about its
cost; each answer has to be the one from Python. One program of each six has nd constructs; it is also traced, and its trace replayed
twice, which has to give one answer, and the status of the trace. So is one of each five others. Where an atomic block does more than to
add, the answer of a run isn't known, and only the elision is compared with Python's. A program that is refused is thrown away and
counted, and so is one that takes too long. PROGRAM is out/dpj where none is named. The status is 1 where an answer differs, or where
more than one program in twenty is thrown away.
"""
import argparse
import collections
import concurrent.futures
import dataclasses
import os
import pathlib
import random
import subprocess
import sys

sys.path.insert(0, str(pathlib.Path(__file__).resolve().parents[1]))

from generate import random_trees  # noqa: E402
from oracle import elision  # noqa: E402

# The deepest nesting of calls takes so many frames of Python.
sys.setrecursionlimit(30000)

PROGRAM = pathlib.Path(__file__).resolve().parents[2] / "out" / "dpj"
FEW, SEED = 120, 1
# A machine that is full of other work may keep a run waiting for minutes.
SECONDS = 600
WIDE = (5000000, 1048576)

RUNS = ("run workers=1", "run workers=4", "run workers=64", "run mode=rounds")
REFUSED = 2


@dataclasses.dataclass
class Program:
    """A program, the way it was made, and what it writes."""

    number: int
    kind: str
    source: str
    argument: int
    outcome: elision.Outcome


def trees(number):
    """The program of a number, with no outcome where it takes too long; its maker, and its class Main."""
    chance = random.Random(number)
    kind = chance.choice(("adding", "free")) if number % 6 == 0 else "plain"
    argument = chance.choice((0, 1, 2, 3, 7, -1, 2147483647, -2147483648))
    maker = random_trees.Maker(chance, kind != "plain", kind == "adding")
    main, source = maker.program()
    try:
        outcome = elision.elision(main, argument)
    except elision.TooLong:
        outcome = None
    return Program(number, kind, source, argument, outcome), maker, main


def made(number):
    return trees(number)[0]


def narrow(program):
    """Limits of steps and cells about what the program costs."""
    chance = random.Random(program.number)
    steps, cells = program.outcome.steps, program.outcome.cells
    few = (chance.randint(1, steps), WIDE[1]), (WIDE[0], chance.randint(1, cells))
    return chance.choice(((steps, cells), (max(steps - 1, 1), cells), (steps, max(cells - 1, 1)), *few))


class Asker:
    """Asks dpj about one program, and keeps what differs."""

    def __init__(self, dpj, program):
        self.dpj, self.program, self.differences = dpj, program, []

    def answer(self, words, source=None):
        """The bytes that dpj writes, and its status."""
        given = self.program.source.encode() if source is None else source
        try:
            done = subprocess.run([self.dpj, *words], input=given, capture_output=True, timeout=SECONDS)
            return done.stdout, done.returncode
        except subprocess.TimeoutExpired:
            return f"(no answer in {SECONDS} s)".encode(), None

    def words(self, way, limits=WIDE):
        return [*way.split(), f"arg={self.program.argument}", f"steps={limits[0]}", f"cells={limits[1]}"]

    def is_refused(self):
        return self.answer(["check"])[1] == REFUSED

    def want(self, way, got, wanted):
        if got != wanted:
            self.differences.append(f"{way}: wanted {wanted}, got {got}")

    def compare(self, ways, limits):
        for way in ways:
            words = self.words(way, limits)
            self.want(" ".join(words), self.answer(words), self.program.outcome.within(*limits))

    def compare_trace(self):
        trace, status = self.answer(self.words("trace"))
        replayed, again = (self.answer(["replay"], trace) for _ in range(2))
        self.want("replay, a second time", again, replayed)
        self.want("replay, its status", replayed[1], status)
        if self.program.kind != "free":
            self.want("replay", replayed, self.program.outcome.within(*WIDE))


def tried(dpj, number):
    """What became of the program of a number (`too long`, `refused`, or its kind), it, and what differs."""
    program = made(number)
    if program.outcome is None:
        return "too long", program, []
    asker = Asker(dpj, program)
    asker.compare(("elide",), WIDE)
    if asker.differences and asker.is_refused():
        return "refused", program, []
    if program.kind != "free":
        asker.compare(RUNS, WIDE)
    some_run = () if program.kind == "free" else (random.Random(number).choice(RUNS),)
    asker.compare(("elide", *some_run), narrow(program))
    if program.kind != "plain" or number % 5 == 0:
        asker.compare_trace()
    return program.kind, program, asker.differences


def report(program, differences):
    print(f"program {program.number} ({program.kind}) on {program.argument} differs:")
    for line in differences:
        print(f"  {line}")
    print(program.source)


def campaign(dpj, programs=FEW, seed=SEED, shows=False):
    """Tries so many programs, tells what was seen, and gives how many passed and how many failed."""
    counts, endings, differ = collections.Counter(), collections.Counter(), 0
    with concurrent.futures.ThreadPoolExecutor(os.cpu_count()) as pool:
        for became, program, differences in pool.map(lambda number: tried(dpj, number), range(seed, seed + programs)):
            counts[became] += 1
            if became not in ("refused", "too long"):
                endings[program.outcome.output.decode().split("\n")[-2].split(" ")[0]] += 1
            elif shows:
                print(f"program {program.number} is {became}:\n{program.source}")
            if differences:
                differ += 1
                report(program, differences)
    compared = counts["plain"] + counts["adding"] + counts["free"]
    print(
        f"random programs from seed {seed}: {programs} made, {counts['refused']} refused, {counts['too long']} too long, {compared} compared "
        f"({counts['plain']} without nd, {counts['adding']} that add in atomic blocks, {counts['free']} other nd; "
        f"{endings['result']} with a result, {endings['trap']} with a trap), {differ} differ"
    )
    is_thin = 20 * compared < 19 * programs
    if is_thin:
        print("random programs: more than one in twenty was thrown away")
    return compared - differ, differ + is_thin


def main():
    options = argparse.ArgumentParser()
    options.add_argument("--programs", type=int, default=FEW)
    options.add_argument("--seed", type=int, default=SEED)
    options.add_argument("--show", action="store_true")
    options.add_argument("program", nargs="?", default=PROGRAM)
    options = options.parse_args()
    _, failed = campaign(options.program, options.programs, options.seed, options.show)
    return 1 if failed else 0


if __name__ == "__main__":
    sys.exit(main())
