"""Runs by a seed, and what runs are made of: the order that a seed draws and the figures of `cost` are as Python says.

    python3 tests/oracle/seeds.py [--plain N] [--nd N] [--seeds N] [--seed N] [PROGRAM]

tests/oracle/tasks.py runs the programs of tests/oracle/schedules.py event by event. Here the next task is chosen as docs/LANGUAGE.md says of `seed`, and
`trace seed=S` has to write that very schedule, and `run seed=S` how that run comes out. Another run is made in rounds, and
`cost` has to tell its report, its steps, cells, events and tasks, and how many rounds it took, also under a limit that it may go over.
A program of which tests/oracle/tasks.py doesn't always know which tasks are ready is left out. PROGRAM is out/dpj where none is named. The
status is 1 where an answer differs, or where the programs with nd constructs come out in one way each.
"""
import argparse
import concurrent.futures
import os
import pathlib
import random
import sys

sys.path.insert(0, str(pathlib.Path(__file__).resolve().parents[1]))

from generate.random_programs import PROGRAM, WIDE  # noqa: E402
from oracle import schedules  # noqa: E402

PLAIN, WITH_ND, SEEDS, SEED = 6, 6, 12, 1
WORD = 2**64


class Unknown(Exception):
    """Whether a task is ready isn't known."""


def ready(run):
    """The tasks that are ready, in ascending order."""
    known = {number: run.is_ready(number) for number in run.tasks}
    if None in known.values():
        raise Unknown
    return sorted(number for number, is_ready in known.items() if is_ready)


def seeded(run, seed):
    """Makes the events of a run in the order that a seed draws."""
    state = seed
    while run.outcome is None:
        tasks = ready(run)
        state = (6364136223846793005 * state + 1442695040888963407) % WORD
        bound = (state // 2**32) % (tasks[-1] + 1)
        below = [task for task in tasks if task < bound]
        run.step(below[-1] if below else tasks[-1])
    return run


def in_rounds(run):
    """Makes the events of a run in rounds, and counts these."""
    rounds = 0
    while run.outcome is None:
        for task in ready(run):
            if run.outcome is None and task in ready(run):
                run.step(task)
        rounds += 1
    return rounds


def told(run):
    """What a call on a run has to write, and its status."""
    return run.outcome.output, run.outcome.status


def figures(run, rounds):
    """What `cost` has to write of a run, and its status."""
    tasks = max(run.schedule, default=-1) + 1
    lines = ("steps", run.outcome.steps), ("cells", run.outcome.cells), ("events", len(run.schedule)), ("tasks", tasks), ("rounds", rounds)
    return run.outcome.output + "".join(f"{name} {number}\n" for name, number in lines).encode(), run.outcome.status


def limits_about(subject, chance):
    """Limits within which a run may stay or not."""
    outcome = subject.written.outcome
    return chance.choice((WIDE, (outcome.steps, outcome.cells), (chance.randint(1, outcome.steps), WIDE[1]), (WIDE[0], chance.randint(1, outcome.cells))))


def words(command, subject, limits, *others):
    return [command, f"arg={subject.written.argument}", f"steps={limits[0]}", f"cells={limits[1]}", *others]


def questions(subject, seeds):
    """Words with what they have to be answered by, and whether the answer is the outcome of a whole run by a seed."""
    chance = random.Random(subject.written.number)
    for seed in [0, 2**32 - 1, *(chance.randrange(2**32) for _ in range(seeds))]:
        run = seeded(subject.run(), seed)
        yield words("run", subject, WIDE, f"seed={seed}"), told(run), True
        yield words("trace", subject, WIDE, f"seed={seed}"), (subject.trace(run.schedule), run.outcome.status), False
        limits = limits_about(subject, chance)
        yield words("run", subject, limits, f"seed={seed}"), told(seeded(subject.run(limits), seed)), False
        run = subject.run(limits)
        rounds = in_rounds(run)
        yield words("cost", subject, limits), figures(run, rounds), False


def tried(dpj, subject, seeds):
    """How many answers were seen, how many outcomes seeds had, and the first answer that differs."""
    try:
        asked = list(questions(subject, seeds))
    except Unknown:
        return subject, 0, 0, None
    outcomes, differs = set(), None
    for call, wanted, is_outcome in asked:
        got = schedules.ask(dpj, call, subject.written.source.encode())
        if is_outcome:
            outcomes.add(got)
        if got != wanted and differs is None:
            differs = f"{' '.join(call)}: wanted {wanted}, got {got} of this program:\n{subject.written.source}"
    return subject, len(asked), len(outcomes), differs


def campaign(dpj, plain=PLAIN, with_nd=WITH_ND, seeds=SEEDS, seed=SEED):
    """Tries so many seeds of each program, tells what was seen, and gives how many programs passed and how many failed."""
    passed = failed = answers = left_out = 0
    ways = []
    with concurrent.futures.ThreadPoolExecutor(os.cpu_count()) as pool:
        for subject, many, outcomes, differs in pool.map(lambda it: tried(dpj, it, seeds), schedules.subjects(plain, with_nd, seed)):
            left_out += many == 0
            answers += many
            passed += many > 0 and differs is None
            failed += differs is not None
            if subject.written.kind != "plain" and many:
                ways.append(outcomes)
            if differs:
                print(f"program {subject.written.number} ({subject.written.kind}): {differs}")
    print(
        f"seeds and costs of {passed + failed} programs, {left_out} left out: {answers} answers; {len(ways)} programs with nd constructs come out "
        f"in {sum(ways)} ways; {failed} programs differ"
    )
    if ways and max(ways) == 1:
        print("no program with nd constructs comes out in more than one way")
        failed += 1
    return passed, failed


def main():
    options = argparse.ArgumentParser()
    options.add_argument("--plain", type=int, default=PLAIN)
    options.add_argument("--nd", type=int, default=WITH_ND)
    options.add_argument("--seeds", type=int, default=SEEDS)
    options.add_argument("--seed", type=int, default=SEED)
    options.add_argument("program", nargs="?", default=PROGRAM)
    options = options.parse_args()
    passed, failed = campaign(options.program, options.plain, options.nd, options.seeds, options.seed)
    return 1 if failed or not passed else 0


if __name__ == "__main__":
    sys.exit(main())
