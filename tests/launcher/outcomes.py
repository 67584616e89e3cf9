"""`./dpj outcomes` hands its tool the text, the number of seeds and the settings.

    python3 tests/launcher/outcomes.py

What the tool finds is tried in tests/outcomes.
"""
import json
import os
import signal
import sys

from signals import Run, SLOW, waited
from support.desk import Desk, Tally, program

ORDER = b"class Main { atomic region C; int x in C;\n  int main(int n) { cobegin_nd { atomic { this.x = n; } atomic { this.x = 2 * n; } } return this.x; } }\n"
REFUSED = b"class Main {\n  int main(int n) { return m; }\n}\n"
ECHO = '[ "$1" = check ] && echo accepted && exit 0\necho "$*"\n'
# A program that accepts, and notes the runs that it makes until it goes on for long.
ACCEPTING = '[ "$1" = check ] && echo accepted && exit 0\n' + SLOW


def found(desk, *words, text=ORDER):
    """The object that a call writes."""
    return json.loads(desk.run("outcomes", *words, "--json", text=text).out)


def handed(tally):
    """What the runs get, by a program that writes its words."""
    desk = Desk(ECHO)
    (desk.path / "a.dpj").write_bytes(ORDER)
    (desk.path / "7").write_bytes(ORDER)
    for words, wanted in (
        ("a.dpj 2 arg=5", ("a.dpj", 2, "run seed=1 arg=5\n")), ("2 a.dpj", ("a.dpj", 2, "run seed=1\n")), ("3", ("-", 3, "run seed=1\n")),
        ("steps=9 - cells=8 1", ("-", 1, "run seed=1 steps=9 cells=8\n")), ("./7 1", ("./7", 1, "run seed=1\n")),
    ):  # fmt: skip
        said = found(desk, *words.split())
        tally.equal(words, (said["file"], said["seeds"], said["outcomes"][0]["output"]), wanted)
    tally.equal("without a number", found(desk, "a.dpj")["seeds"], 100)


def answered(tally):
    """What the program of this checkout comes to."""
    desk = Desk(program())
    said = found(desk, "20", "arg=3")
    tally.equal("both orders", {row["output"] for row in said["outcomes"]}, {"result 3\n", "result 6\n"})
    seen = desk.run("outcomes", text=REFUSED)
    tally.equal("a refusal", (seen.out, "2 |   int main(int n) { return m; }" in seen.screen, seen.status), ("refused 2:28 unknown\n", True, 2))
    seen = desk.run("outcomes", "a.dpj", env=desk.without_python())
    tally.equal("no file", (seen.out, seen.status), ("", 5))
    seen = desk.run("outcomes", text=ORDER, env=desk.without_python())
    tally.equal("no Python", (seen.out, seen.screen, seen.status), ("", "dpj: outcomes needs python3, which is not on the PATH\n", 127))


def ended(tally):
    """An interrupt is answered with what was found, and ends all runs; other signals end the tool."""
    desk = Desk(ACCEPTING)
    (desk.path / "a.dpj").write_bytes(ORDER)
    for number, status in ((signal.SIGINT, 130), (signal.SIGTERM, -signal.SIGTERM), (signal.SIGHUP, -signal.SIGHUP), (signal.SIGKILL, -signal.SIGKILL)):
        run = Run(desk, "outcomes", "a.dpj")
        run.running.send_signal(number)
        is_over = waited(lambda run=run: run.running.poll() is not None and not any(map(alive, run.started)), 20)
        tally.equal(f"{number.name}", (is_over, run.running.poll()), (True, status))
        run.ended()


def alive(process):
    try:
        os.kill(process, 0)
    except OSError:
        return False
    return True


def main():
    tally = Tally("outcomes")
    handed(tally)
    answered(tally)
    ended(tally)
    return tally.close()


if __name__ == "__main__":
    sys.exit(main())
