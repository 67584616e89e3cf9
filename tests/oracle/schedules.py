"""Random schedules: each is replayed, and has to come out as Python says.

    python3 tests/oracle/schedules.py [--all] [--plain N] [--nd N] [--schedules N] [--seed N] [PROGRAM]

tests/oracle/tasks.py runs programs of tests/generate/random_trees.py event by event, any ready task next, and so makes schedules by itself,
which are written as traces. `replay` has to give the outcome of that very run, which without nd constructs is that of the elision
(tests/oracle/elision.py), also in its cost; and with them the run comes out the same once each block's events are gathered at its
entry. For each tenth schedule there is another one: under a limit that the run may go over; cut off, or with
a number of a task that isn't ready, which has to be refused at its line. Then each program is traced with 1, 2, 4 and 64 workers: every event of the
trace has to be one that its task may make, and its replay has to be as tests/oracle/tasks.py says. With --all there are 1000 schedules of 40
programs without nd constructs and of 10 with them. PROGRAM is out/dpj where none is named. The status is 1 where an answer differs.
"""
import argparse
import collections
import concurrent.futures
import dataclasses
import itertools
import os
import pathlib
import random
import subprocess
import sys

sys.path.insert(0, str(pathlib.Path(__file__).resolve().parents[1]))

from generate import random_orders, random_programs  # noqa: E402
from generate.random_programs import PROGRAM, SECONDS, WIDE  # noqa: E402
from oracle import elision, tasks  # noqa: E402

sys.setrecursionlimit(30000)

PLAIN, WITH_ND, SCHEDULES, SEED = 8, 4, 12, 1
ALL_PLAIN, ALL_WITH_ND, ALL_SCHEDULES = 40, 10, 1000

# A program is short, and has at least so many schedules to choose from: at so many events another task might have gone on.
MOST_STEPS, FEWEST_CHOICES = 400, 20
WORKERS = (1, 2, 4, 64)


@dataclasses.dataclass
class Subject:
    """A program whose schedules are made."""

    written: random_programs.Program
    program: tasks.Program

    def run(self, limits=WIDE):
        return tasks.Run(self.program, self.written.argument, limits)

    def follow(self, schedule):
        """The run that a schedule makes, up to the first event that isn't its task's to make."""
        run = self.run()
        for number in schedule:
            if run.is_ready(number) is False:
                break
            run.step(number)
        return run

    def trace(self, schedule, limits=WIDE):
        return trace_text(self.written.source, self.written.argument, schedule, limits)


def trace_text(source, argument, schedule, limits):
    """The bytes of a trace."""
    lines = [f"{number} {events}" for number, events in rows(schedule)]
    head = ["dpj-trace 1", f"arg {argument} steps {limits[0]} cells {limits[1]}", f"events {len(schedule)}"]
    return "".join(f"{line}\n" for line in [*head, *lines, "program"]).encode() + source.encode()


def rows(schedule):
    """Each number with how often it stands there in a row."""
    return [(number, len(list(same))) for number, same in itertools.groupby(schedule)]


def schedule_of(trace):
    """The numbers of a trace."""
    lines = trace.split(b"\nprogram\n")[0].decode().split("\n")[3:]
    return [int(number) for number, events in map(str.split, lines) for _ in range(int(events))]


def wander(run, chance):
    """Makes events of ready tasks by chance until the run is over, and counts those for which there was a choice."""
    stays, rule, choices, number = chance.choice((0, 0.5, 0.9, 0.99)), chance.choice((chance.choice, min, max)), 0, 0
    while run.outcome is None:
        ready = run.ready()
        choices += len(ready) > 1
        if number not in ready or chance.random() >= stays:
            number = rule(ready) if chance.random() < 0.8 else chance.choice(ready)
        run.step(number)
    return choices


def of_any_kind(number):
    """The program of a number."""
    written, maker, main = random_programs.trees(number)
    return Subject(written, tasks.Program(main, [maker.tools, *maker.classes], maker.atomic_regions))


def of_orders(number):
    """The program of a number whose outcome hangs on the order of its blocks."""
    maker = random_orders.Orders(random.Random(number))
    main, source = maker.program()
    written = random_programs.Program(number, "free", source, 0, elision.elision(main, 0))
    return Subject(written, tasks.Program(main, [], maker.atomic_regions))


def is_worth(subject):
    """Whether a program is short, and has many schedules."""
    outcome = subject.written.outcome
    is_short = outcome is not None and outcome.steps <= MOST_STEPS
    return is_short and wander(subject.run(), random.Random(subject.written.number)) >= FEWEST_CHOICES


def subjects(plain, with_nd, seed):
    """The first such programs from the seed on, so many without nd constructs and with them. Half of these are of orders."""
    makers = (of_any_kind, "plain", plain), (of_any_kind, "nd", with_nd // 2), (of_orders, "nd", with_nd - with_nd // 2)
    for maker, kind, many in makers:
        found = (maker(number) for number in itertools.count(seed))
        fit = (subject for subject in found if (subject.written.kind == "plain") == (kind == "plain") and is_worth(subject))
        yield from itertools.islice(fit, many)


def refused(lines):
    return f"refused {lines}:1 schedule\n".encode(), random_programs.REFUSED


def cut(subject, schedule, chance):
    """A trace that ends too soon. It is refused at its line `program`."""
    schedule = schedule[: chance.randrange(len(schedule))]
    return subject.trace(schedule), refused(4 + len(rows(schedule)))


def broken(subject, schedule, chance):
    """A trace with a number of a task that isn't ready, or none where each may be. It is refused at the line of that number."""
    at = chance.randint(0, len(schedule))
    run = subject.follow(schedule[:at])
    waiting = [number for number in run.tasks if run.is_ready(number) is False]
    others = [number for number in range(run.begun + 2) if number not in run.tasks]
    number = chance.choice(waiting if waiting and chance.random() < 0.8 else others)
    begun = [*schedule[:at], number]
    return subject.trace([*begun, *schedule[at + 1 :]]), refused(3 + len(rows(begun)))


def limited(subject, _schedule, chance):
    """A trace of a run under a limit about its cost."""
    outcome = subject.written.outcome
    steps, cells = chance.choice(((outcome.steps, outcome.cells), (chance.randint(1, outcome.steps), WIDE[1]), (WIDE[0], chance.randint(1, outcome.cells))))
    run = subject.run((steps, cells))
    wander(run, chance)
    return subject.trace(run.schedule, (steps, cells)), (run.outcome.output, run.outcome.status)


def schedules(subject, number, chance):
    """Traces with what a replay of each answers: of a random schedule, and sometimes of one like it."""
    run = subject.run()
    wander(run, chance)
    yield subject.trace(run.schedule), (run.outcome.output, run.outcome.status)
    if subject.written.kind != "free" and run.outcome != subject.written.outcome:
        yield subject.trace(run.schedule), f"(the elision, which is {subject.written.outcome}, and not {run.outcome})"
    if subject.written.kind != "plain":
        yield subject.trace(tasks.gather(subject.run(), run.schedule)), (run.outcome.output, run.outcome.status)
    if number % 10 == 0:
        yield chance.choice((cut, broken, broken, limited))(subject, run.schedule, chance)


def ask(dpj, words, source):
    """The bytes that dpj writes, and its status."""
    try:
        done = subprocess.run([dpj, *words], input=source, capture_output=True, timeout=SECONDS)
        return done.stdout, done.returncode
    except subprocess.TimeoutExpired:
        return f"(no answer in {SECONDS} s)".encode(), None


def traced(dpj, subject, workers):
    """A trace by so many workers, and what its replay answers."""
    written = subject.written
    words = ["trace", f"workers={workers}", f"arg={written.argument}", f"steps={WIDE[0]}", f"cells={WIDE[1]}"]
    trace, status = ask(dpj, words, written.source.encode())
    schedule = schedule_of(trace)
    run = subject.follow(schedule)
    is_whole = run.outcome and run.outcome.status == status and run.schedule == schedule
    if not is_whole or trace != subject.trace(schedule):
        return trace, f"(another trace: event {len(run.schedule)} isn't the task's to make, or it isn't whole)"
    return trace, (run.outcome.output, run.outcome.status)


def tried(dpj, subject, many):
    """How many traces were replayed, how many outcomes their runs have, and the first that differs."""
    chance, outcomes, replays, differs = random.Random(subject.written.number), set(), 0, None
    made = (pair for number in range(many) for pair in schedules(subject, number, chance))
    for trace, wanted in itertools.chain(made, (traced(dpj, subject, workers) for workers in WORKERS)):
        got = ask(dpj, ["replay"], trace)
        replays += 1
        outcomes.add(got if got[1] in (0, 3) else None)
        if got != wanted and differs is None:
            differs = f"wanted {wanted}, got {got} of this trace:\n{trace.decode()}"
    return subject, replays, len(outcomes - {None}), differs


def campaign(dpj, plain=PLAIN, with_nd=WITH_ND, many=SCHEDULES, seed=SEED):
    """Tries so many schedules of each program, tells what was seen, and gives how many programs passed and how many failed."""
    counts, failed = collections.Counter(), 0
    with concurrent.futures.ThreadPoolExecutor(os.cpu_count()) as pool:
        for subject, replays, outcomes, differs in pool.map(lambda subject: tried(dpj, subject, many), subjects(plain, with_nd, seed)):
            kind = "plain" if subject.written.kind == "plain" else "nd"
            counts.update({kind: 1, "replays": replays, f"{kind} outcomes": outcomes})
            failed += differs is not None
            if differs:
                print(f"program {subject.written.number} ({subject.written.kind}): {differs}")
    print(
        f"random schedules from seed {seed}: {many} each of {counts['plain']} programs without nd, which come out in {counts['plain outcomes']} ways, "
        f"and of {counts['nd']} with nd, in {counts['nd outcomes']}; {counts['replays']} replays; {failed} programs differ"
    )
    return counts["plain"] + counts["nd"] - failed, failed


def main():
    options = argparse.ArgumentParser(description=__doc__, formatter_class=argparse.RawDescriptionHelpFormatter)
    options.add_argument("--all", action="store_true")
    options.add_argument("--plain", type=int)
    options.add_argument("--nd", type=int)
    options.add_argument("--schedules", type=int)
    options.add_argument("--seed", type=int, default=SEED)
    options.add_argument("program", nargs="?", default=PROGRAM)
    options = options.parse_args()
    plain, with_nd, many = (ALL_PLAIN, ALL_WITH_ND, ALL_SCHEDULES) if options.all else (PLAIN, WITH_ND, SCHEDULES)
    given = (wanted if wanted is not None else usual for wanted, usual in ((options.plain, plain), (options.nd, with_nd), (options.schedules, many)))
    _, failed = campaign(options.program, *given, options.seed)
    return 1 if failed else 0


if __name__ == "__main__":
    sys.exit(main())
