"""What `cost` says that a run has cost are the least limits within which the run comes out as it does.

    python3 tests/oracle/costs.py [--all] [PROGRAM]

The programs are those of the cases, the examples, the documents and the traces that have no nd constructs and come to an end or a trap, each with every
argument that it is given there. How it comes out is what `elide` writes within limits that leave room. `cost` has to write that too, with steps S and
cells C. With `steps=S cells=C` it has to come out the same, and with either of them one less to be over a limit, by `cost` itself, `elide` and `run`; and
a trace of it has the events and the tasks that `cost` says. So with the text of the demo, which is made here: `demo` has to tell the bytes of that text
and the steps that `cost` tells of it, and keeps to the same limits. With --all this is asked of all programs by each way to run, and of every demo; else
of short ones by one way to run, which takes turns, and of a few demos. PROGRAM is out/dpj where none is named. tests/run calls this. The status is 1
where an answer differs, or where there is nothing to try.
"""
import argparse
import collections
import concurrent.futures
import os
import pathlib
import re
import sys

sys.path.insert(0, str(pathlib.Path(__file__).resolve().parents[1]))

import inferred  # noqa: E402
from generate.random_programs import PROGRAM, REFUSED  # noqa: E402
from oracle import schedules  # noqa: E402

# The greatest limits, and those that a short program keeps to.
GREATEST, SHORT = (20000000, 16777216), (100000, 100000)
WAYS = ("elide", "run workers=1", "run workers=4", "run workers=64", "run mode=rounds")
WORKERS = 4
DEMOS, ALL_DEMOS = (1, 2, 8, 9, 10, 11), range(1, 201)
DONE_OR_TRAPPED, LIMITED = (0, 3), 4
ND = {"cobegin_nd", "foreach_nd"}

TRACE = re.compile(rb"dpj-trace 1\narg (-?\d+) .*?\nprogram\n(.*)", re.S)
COST = re.compile(rb"(.*?)steps (\d+)\ncells (\d+)\nevents (\d+)\ntasks (\d+)\nrounds (\d+)\n", re.S)
DEMO = re.compile(rb"classes (\d+)\nbytes (\d+)\n(result -?\d+\n)steps (\d+)\n")


def demo_text(classes):
    """The text of the demo with so many classes."""
    numbers = range(classes)
    declared = (
        f"class C{k} {{ region A; int run(int m) writes A:* {{ int[]<A:[i]>#i a = new int[m]<A:[i]>#i; foreach (int i in 0, m) {{ a[i] = i + {k}; }} "
        "int j = 0; int s = 0; while (j < m) { s = s + a[j]; j = j + 1; } return s; } }\n" for k in numbers)
    made = (f"C{k} c{k} = new C{k}(); int s{k} = 0;\n" for k in numbers)
    run = (f"s{k} = c{k}.run(100);\n" for k in numbers)
    added = (f"t = t + s{k};\n" for k in numbers)
    lines = *declared, "class Main { int main(int n) {\n", *made, "cobegin {\n", *run, "}\n", "int t = 0;\n", *added, "return t;\n", "} }\n"
    return "".join(lines).encode()


def program_of(case):
    """The text that a case is about, and the setting of its argument; no text where it is known to be refused."""
    if case["words"][:1] == ["replay"]:
        found = TRACE.fullmatch(case["source"])
        return (found.group(2), f"arg={int(found.group(1))}") if found else (b"", "")
    if case["status"] == REFUSED:
        return b"", ""
    given = (re.fullmatch(r"arg=(-?\d+)", word) for word in case["words"])
    return case["source"], next((f"arg={int(found.group(1))}" for found in given if found), "arg=0")


def programs(cases):
    """Each program with an argument, behind the name of the first case that it is of."""
    named = {}
    for case in cases:
        source, setting = program_of(case)
        if source:
            named.setdefault((source, setting), case["name"])
    return [(name, *program) for program, name in named.items()]


def has_nd(source):
    return b"_nd" in source and any(token in ND for token, _, _ in inferred.tokens_of(source.decode("latin-1")))


def words(way, setting, limits):
    return [*way.split(), setting, f"steps={limits[0]}", f"cells={limits[1]}"]


def one_less(limits):
    """These limits with either of them one less; a limit is 1 at least."""
    steps, cells = limits
    return [less for less in ((steps - 1, cells), (steps, cells - 1)) if min(less) > 0]


def about(way, setting, limits, answer):
    """Questions with their answers, within these limits and over them."""
    yield words(way, setting, limits), answer
    for less in one_less(limits):
        yield words(way, setting, less), (b"limit\n", LIMITED)


class Tried:
    """What the program answers about one text, how often it was asked and was over a limit, and what differs."""

    def __init__(self, dpj, name):
        self.dpj, self.name, self.counts, self.differs = dpj, name, collections.Counter(), None

    def ask(self, words, source):
        answer = schedules.ask(self.dpj, words, source)
        self.counts.update(answers=1, limits=answer[1] == LIMITED)
        return answer

    def compare(self, words, wanted, got):
        if got != wanted and self.differs is None:
            self.differs = f"{self.name}: {' '.join(words)}: wanted {wanted}, got {got}"

    def all_answered(self, questions, source):
        for asked, wanted in questions:
            self.compare(asked, wanted, self.ask(asked, source))

    def cost(self, source, setting, outcome, limits):
        """The figures that `cost` writes behind the outcome within these limits: steps, cells, events and tasks; none where it doesn't write them."""
        asked = words("cost", setting, limits)
        answer = self.ask(asked, source)
        found = COST.fullmatch(answer[0])
        self.compare(asked, (outcome, True), ((found.group(1), answer[1]) if found else answer, bool(found)))
        return tuple(map(int, found.groups()[1:5])) if found else None

    def own_limits(self, source, setting, outcome, figures):
        """Asks `cost` within the limits that it wrote, and over them, where the limits are what it writes."""
        limits = figures[:2]
        asked = words("cost", setting, limits)
        self.compare(asked, figures, self.cost(source, setting, outcome, limits))
        for less in one_less(limits):
            over = self.cost(source, setting, (b"limit\n", LIMITED), less)
            self.compare(words("cost", setting, less), less, over and over[:2])

    def traced(self, source, setting, status, figures):
        """Counts the events and the tasks of a trace within the limits."""
        asked = words(f"trace workers={WORKERS}", setting, figures[:2])
        trace, got = self.ask(asked, source)
        schedule = schedules.schedule_of(trace) if got == status else []
        self.compare(asked, (status, *figures[2:]), (got, len(schedule), max(schedule, default=-1) + 1))


def text_tried(dpj, name, source, setting, ways, room):
    """Asks about a text, and says why it is left out, which is nothing where it isn't."""
    tried = Tried(dpj, name)
    if has_nd(source):
        return tried, "with nd constructs"
    outcome = tried.ask(words("elide", setting, room), source)
    if outcome[1] not in DONE_OR_TRAPPED:
        return tried, "over the limits" if outcome[1] == LIMITED else "not run"
    figures = tried.cost(source, setting, outcome, GREATEST)
    if figures:
        tried.own_limits(source, setting, outcome, figures)
        tried.all_answered((pair for way in ways for pair in about(way, setting, figures[:2], outcome)), source)
        tried.traced(source, setting, outcome[1], figures)
        tried.counts.update({"traps": outcome[1] != 0, "least limits": 2 - len(one_less(figures[:2]))})
    return tried, ""


def demo_tried(dpj, classes):
    """Asks `demo` for so many classes, and `cost` about its text."""
    source, asked = demo_text(classes), ["demo", f"n={classes}"]
    tried, left_out = text_tried(dpj, f"the text of {' '.join(asked)}", source, "arg=0", WAYS[:1], GREATEST)
    answer = tried.ask(asked, b"")
    found = DEMO.fullmatch(answer[0])
    if not found or left_out:
        tried.compare(asked, "classes, bytes, result and steps of a text that is run", (left_out, answer))
        return tried, ""
    told, size, result, steps = found.groups()
    figures = tried.cost(source, "arg=0", (result, 0), GREATEST)
    tried.compare(asked, (classes, len(source), figures and figures[0]), (int(told), int(size), int(steps)))
    if figures:
        tried.all_answered(about(*asked, figures[:2], answer), b"")
    return tried, ""


def jobs(dpj, cases, is_all):
    """What is to be tried, each by a call."""
    room = GREATEST if is_all else SHORT
    for number, (name, source, setting) in enumerate(programs(cases)):
        ways = WAYS if is_all else (WAYS[number % len(WAYS)],)
        yield text_tried, dpj, name, source, setting, ways, room
    for classes in ALL_DEMOS if is_all else DEMOS:
        yield demo_tried, dpj, classes


def campaign(dpj, cases, is_all=False):
    """Tries the programs of these cases and the demos, tells what was seen, and gives how many passed and how many failed."""
    counts, outside, differ = collections.Counter(), collections.Counter(), 0
    with concurrent.futures.ThreadPoolExecutor(os.cpu_count()) as pool:
        made = [(job[0] is demo_tried, pool.submit(*job)) for job in jobs(dpj, cases, is_all)]
        for is_demo, (tried, left_out) in ((is_demo, future.result()) for is_demo, future in made):
            if left_out:
                outside[left_out] += 1
                continue
            counts.update({"demos" if is_demo else "texts": 1}, **tried.counts)
            differ += tried.differs is not None
            if tried.differs:
                print(f"failed cost: {tried.differs}"[:600])
    print(
        f"costs of {counts['texts']} programs and of {counts['demos']} demos: {counts['traps']} trap; {counts['answers']} answers, {counts['limits']} of "
        f"them over a limit, and {counts['least limits']} limits were 1; left out: {', '.join(f'{many} {why}' for why, many in outside.items()) or 'none'}; "
        f"{differ} differ"
    )
    nothing = [what for what in ("texts", "demos", "limits") if not counts[what]]
    for what in nothing:
        print(f"failed cost: there are no {what} to try")
    return counts["texts"] + counts["demos"] - differ, differ + len(nothing)


def main():
    import cases

    options = argparse.ArgumentParser(description=__doc__, formatter_class=argparse.RawDescriptionHelpFormatter)
    options.add_argument("--all", action="store_true")
    options.add_argument("program", nargs="?", default=PROGRAM)
    options = options.parse_args()
    passed, failed = campaign(options.program, cases.load([], False), options.all)
    print(f"{passed} passed, {failed} failed")
    return 1 if failed else 0


if __name__ == "__main__":
    sys.exit(main())
