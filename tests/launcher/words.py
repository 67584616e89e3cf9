"""The launcher judges the words before any work, and says what could stand there.

    python3 tests/launcher/words.py

What is to be said is written here by hand. Besides, made lists of words are a job for the launcher exactly where they are one for the program.
"""
import random
import re
import sys

from support.desk import Desk, Tally, program

USAGE = "usage: dpj COMMAND [NAME=VALUE]...\n"
COMMANDS = "check, why, run, elide, effects, list, trace, events, replay, cost, outcomes, view, demo, explain, help, version"
WITH_ARG, WITH_WORKERS, WITH_SEED = "run, elide, trace, events, cost, outcomes, view", "run, trace, events, view, demo", "run, trace, events, view"
OPTIONS = "--all, --output, --json, --editor, --help, --version"

LISTS = 80

# A program that writes its words and the text, and a list of words for which it isn't to be called.
ECHO = 'for word; do echo "[$word]"; done\ncat\n'

# Words, and what is said of them.
WRONG = [
    ("chekc x", f"`chekc` is no command; did you mean `check`?; the commands are {COMMANDS}"),
    ("runn", f"`runn` is no command; did you mean `run`?; the commands are {COMMANDS}"),
    ("frobnicate", f"`frobnicate` is no command; the commands are {COMMANDS}"),
    ("a.dpj", "`a.dpj` is a file and no command; a command comes first, as in ./dpj check a.dpj"),
    ("-V", f"`-V`: no such option; the options are {OPTIONS}, and a file's name may begin with ./"),
    ("check --jsn", f"`--jsn`: no such option; did you mean `--json`?; the options are {OPTIONS}, and a file's name may begin with ./"),
    ("run workers=65", "`workers=65`: workers takes 1 to 64"),
    ("run workers=0", "`workers=0`: workers takes 1 to 64"),
    ("run a.dpj steps=20000001", "`steps=20000001`: steps takes 1 to 20000000"),
    ("run steps=1e6", "`steps=1e6`: steps takes 1 to 20000000, in digits and without a leading 0"),
    ("run cells=", "`cells=`: cells takes 1 to 16777216, in digits and without a leading 0"),
    ("run arg=007", "`arg=007`: arg takes -2147483648 to 2147483647, in digits and without a leading 0"),
    ("run arg=-0", "`arg=-0`: arg takes -2147483648 to 2147483647, in digits and without a leading 0"),
    ("run arg=2147483648", "`arg=2147483648`: arg takes -2147483648 to 2147483647"),
    ("run arg=99999999999999999999999", "`arg=99999999999999999999999`: arg takes -2147483648 to 2147483647"),
    ("run mode=step", "`mode=step`: mode takes steps or rounds"),
    ("run Arg=5", "`Arg=5`: no setting is named `Arg`; did you mean `arg`?; the settings of run are workers, steps, cells, arg, mode, seed"),
    ("demo arg=5", f"`arg=5`: demo has no arg, but {WITH_ARG}; the settings of demo are workers, steps, cells, n"),
    ("check arg=5", f"`arg=5`: check has no arg, but {WITH_ARG}; check has no settings"),
    ("elide workers=1", f"`workers=1`: elide has no workers, but {WITH_WORKERS}; the settings of elide are steps, cells, arg"),
    ("run seed=4294967296", "`seed=4294967296`: seed takes 0 to 4294967295"),
    ("trace seed=-1", "`seed=-1`: seed takes 0 to 4294967295"),
    ("elide seed=1", f"`seed=1`: elide has no seed, but {WITH_SEED}; the settings of elide are steps, cells, arg"),
    ("run seed=1 workers=2", "`workers=2`: seed goes with neither workers nor mode"),
    ("run mode=steps arg=3 seed=1", "`seed=1`: seed goes with neither workers nor mode"),
    ("trace workers=2 seed=1", "`seed=1`: seed goes with neither workers nor mode"),
    ("cost workers=2", f"`workers=2`: cost has no workers, but {WITH_WORKERS}; the settings of cost are steps, cells, arg"),
    ("run steps=5 steps=5", "`steps=5`: steps is set already"),
    ("check a.dpj b.dpj", "`b.dpj`: a second file; `a.dpj` is read already"),
    ("check - a.dpj", "`a.dpj`: a second file; `-` is read already"),
    ("demo a.dpj", "`a.dpj`: demo reads nothing; the settings of demo are workers, steps, cells, n"),
    ("help chekc", f"`chekc` is no command; did you mean `check`?; the commands are {COMMANDS}"),
    ("why arg=5", f"`arg=5`: why has no arg, but {WITH_ARG}; why has no settings"),
    ("why --editor a.dpj", "`--editor`: why has no --editor, but --json"),
    ("outcomes a.dpj 0", "`0`: there are 1 to 10000 seeds; a file with this name is ./0"),
    ("outcomes a.dpj 10001", "`10001`: there are 1 to 10000 seeds; a file with this name is ./10001"),
    ("outcomes 99999999999999999999999", "`99999999999999999999999`: there are 1 to 10000 seeds; a file with this name is ./99999999999999999999999"),
    ("outcomes a.dpj 5 6", "`6`: a second number; 5 seeds are wanted already"),
    ("outcomes a.dpj 05", "`05`: a second file; `a.dpj` is read already"),
    ("outcomes a.dpj seed=1", f"`seed=1`: outcomes has no seed, but {WITH_SEED}; the settings of outcomes are steps, cells, arg"),
    ("outcomes a.dpj arg=x", "`arg=x`: arg takes -2147483648 to 2147483647, in digits and without a leading 0"),
    ("outcomes --editor a.dpj", "`--editor`: outcomes has no --editor, but --json"),
    ("run --all a.dpj", "`--all`: run has no --all, but check"),
    ("--all why", "`--all`: why has no --all, but check"),
    ("view mode=steps a.dpj", "`mode=steps`: view has no mode, but run; the settings of view are workers, steps, cells, arg, seed"),
    ("view seed=1 workers=2", "`workers=2`: seed goes with neither workers nor mode"),
    ("view --editor a.dpj", "`--editor`: view has no --editor, but --output=NAME"),
    ("run --output=a.html a.dpj", "`--output=a.html`: run has no --output, but view"),
    ("view --output a.dpj", "`--output`: a name follows, as in --output=run.html"),
    ("view --output= a.dpj", "`--output=`: a name follows, as in --output=run.html"),
    ("view --output=a --output=b", "`--output=b`: a second name; the page goes to a already"),
    ("view --outptu=a", f"`--outptu=a`: no such option; did you mean `--output`?; the options are {OPTIONS}, and a file's name may begin with ./"),
    ("whi", f"`whi` is no command; did you mean `why`?; the commands are {COMMANDS}"),
    ("check --al", f"`--al`: no such option; did you mean `--all`?; the options are {OPTIONS}, and a file's name may begin with ./"),
    # The first of several faults is told.
    ("run --all frob=1", "`frob=1`: no setting is named `frob`; the settings of run are workers, steps, cells, arg, mode, seed"),
    ("run mode=x workers=0", "`mode=x`: mode takes steps or rounds"),
]

# Words, and those that the program gets, with the text that it reads.
RIGHT = [
    ("run a.dpj arg=5", "[run]\n[arg=5]\nthe text\n"),
    ("run arg=5 a.dpj workers=64", "[run]\n[arg=5]\n[workers=64]\nthe text\n"),
    ("run arg=-2147483648 steps=20000000 cells=16777216 mode=rounds -", "[run]\n[arg=-2147483648]\n[steps=20000000]\n[cells=16777216]\n[mode=rounds]\ninput\n"),
    ("run seed=4294967295 a.dpj arg=5", "[run]\n[seed=4294967295]\n[arg=5]\nthe text\n"),
    ("events arg=-3", "[events]\n[arg=-3]\ninput\n"),
    ("trace seed=0 steps=9", "[trace]\n[seed=0]\n[steps=9]\ninput\n"),
    ("cost arg=5 cells=9 a.dpj", "[cost]\n[arg=5]\n[cells=9]\nthe text\n"),
    ("check", "[check]\ninput\n"),
    ("check ./b=c.dpj", "[check]\nanother\n"),
    ("demo n=200", "[demo]\n[n=200]\ninput\n"),
]

# A file that can't be read, and why.
UNREAD = [("check nothing.dpj", "nothing.dpj cannot be read: there is no such file"), ("run arg=1 tools", "tools cannot be read: it is a folder")]


def judged(tally):
    """The tables above, with a program that would tell that it was called."""
    desk = Desk(ECHO)
    (desk.path / "a.dpj").write_text("the text\n")
    (desk.path / "b=c.dpj").write_text("another\n")
    wanted = {words: (USAGE, f"dpj: {said}\n", 1) for words, said in WRONG}
    wanted.update({words: ("", f"dpj: {said}\n", 5) for words, said in UNREAD})
    wanted.update({words: (written, "", 0) for words, written in RIGHT})
    tally.all_equal(lambda words: desk.run(*words.split(), text=b"input\n"), wanted)
    seen = desk.run()
    tally.equal("no words", (seen.out, seen.screen.split("\n")[0], seen.status), (USAGE, "usage: dpj COMMAND [FILE] [NAME=VALUE]... [--json | --editor]", 1))
    tally.equal("an empty word", desk.run("check", ""), (USAGE, "dpj: an empty word names no file\n", 1))
    tally.equal("a word with controls", desk.run("a\x1b[31m\nb"), (USAGE, f"dpj: `a?[31m?b` is no command; the commands are {COMMANDS}\n", 1))
    tally.equal("words where nothing can be written", desk.run("sh", "-c", "./dpj chekc >/dev/full 2>&1", launcher="env").status, 6)


def helped(tally):
    """Help, of all and of a command, in each way to ask for it. It needs no program."""
    desk = Desk(None)
    seen = desk.run("help")
    tally.equal("help", (seen.out.split("\n")[0], seen.screen, seen.status), ("usage: dpj COMMAND [FILE] [NAME=VALUE]... [--json | --editor]", "", 0))
    tally.equal("help fits a screen", (len(seen.out.splitlines()) <= 24, max(map(len, seen.out.splitlines())) <= 80), (True, True))
    tally.equal("what help says of effects", [line for line in seen.out.splitlines() if "effects" in line],
                ["  effects   checks it: of each written summary, what the bodies need of it"])
    of_elide = desk.run("help", "elide")
    tally.equal("help elide", of_elide.out, (
        "usage: dpj elide [FILE] [NAME=VALUE]... [--json | --editor]\n\n  elide   checks it, runs branch by branch\n\n"
        "  steps=1..20000000            the most steps that a run may cost; 5000000 without it\n"
        "  cells=1..16777216            the most cells that a run may cost; 1048576 without it\n"
        "  arg=-2147483648..2147483647  the argument of `main`; 0 without it\n"))
    tally.equal("help why", desk.run("help", "why").out, "usage: dpj why [FILE] [--json]\n\n  why   says why a program is refused, and what mends it\n")
    tally.equal("help outcomes", desk.run("help", "outcomes").out.splitlines()[:5], [
        "usage: dpj outcomes [FILE] [N] [NAME=VALUE]... [--json]", "", "  outcomes   runs it with seed=1 to seed=N, and counts what comes out", "",
        "  N=1..10000                   how many runs, a number by itself; 100 without it"])
    tally.equal("help view", desk.run("help", "view").out.splitlines()[:5], [
        "usage: dpj view [FILE] [NAME=VALUE]... [--output=NAME]", "", "  view   writes a page that shows a run", "",
        "  --output=NAME                where the page goes, - for standard output; without it beside FILE"])
    tally.equal("help check", desk.run("help", "check").out, (
        "usage: dpj check [FILE] [--all] [--json | --editor]\n\n  check   checks a program: `accepted`, or its first fault\n\n"
        "  --all   every fault, each with the change after which it was found\n"))
    wanted = dict.fromkeys(("--help", "-h", "help help"), seen)
    wanted.update(dict.fromkeys(("elide --help", "elide -h", "elide arg=5 --help", "--help elide"), of_elide))
    tally.all_equal(lambda words: desk.run(*words.split()), wanted)

    def of_command(command):
        seen = desk.run(command, "--help")
        return seen.out.split()[:3], re.findall("faster|sooner|speed", seen.out, re.I), seen.screen, seen.status

    tally.all_equal(of_command, {command: (["usage:", "dpj", command], [], "", 0) for command in COMMANDS.split(", ")[:-3]})


KEYS = {
    "check": (), "list": (), "effects": (), "replay": (), "run": ("workers", "steps", "cells", "arg", "mode", "seed"), "elide": ("steps", "cells", "arg"),
    "trace": ("workers", "steps", "cells", "arg", "seed"), "events": ("workers", "steps", "cells", "arg", "seed"), "cost": ("steps", "cells", "arg"),
    "demo": ("workers", "steps", "cells", "n")}
# Values of each key, those that it takes first.
VALUES = {
    "workers": (["1", "2", "64"], ["0", "65", "01", "+1", "1x"]), "steps": (["1", "20000000"], ["0", "20000001", "", "-1"]),
    "cells": (["1", "16777216"], ["0", "16777217", "1e3"]), "n": (["1", "200"], ["0", "201"]), "mode": (["steps", "rounds"], ["step", "", "Rounds"]),
    "seed": (["0", "4294967295"], ["4294967296", "-1", "01", ""]),
    "arg": (["0", "-1", "-2147483648", "2147483647"], ["2147483648", "-2147483649", "-0", "00", "-", "--1", "1-", "-01"]),
    "m": (["1"], ["x"]), "Arg": (["1"], ["x"]), "": (["1"], [""])}


def made(random_source):
    """A list of words, most of which are right."""
    command = random_source.choice(list(KEYS))
    words = [command]
    for _ in range(random_source.choice((0, 1, 2, 2, 3))):
        key = random_source.choice(KEYS[command] * 4 + tuple(VALUES))
        right, wrong = VALUES[key]
        words.append(f"{key}={random_source.choice(right * 4 + wrong)}")
    return words


def compared(tally):
    """Made lists of words, of which the launcher says usage exactly where the program does."""
    desk, asked, random_source = Desk("exit 0\n"), program(), random.Random(5)
    lists = [" ".join(made(random_source)) for _ in range(LISTS)]
    wanted = {}
    for words in lists:
        said = desk.run(*words.split(" "), launcher=asked)
        wanted[words] = (USAGE, 1) if said.status == 1 else ("", 0)
    tally.all_equal(lambda words: desk.run(*words.split(" "))[::2], wanted)
    jobs = sum(status == 0 for _, status in wanted.values())
    tally.equal("lists that are a job, and others, are made", (jobs > LISTS // 8, len(wanted) - jobs > LISTS // 8), (True, True))


def main():
    tally = Tally("words")
    judged(tally)
    helped(tally)
    compared(tally)
    return tally.close()


if __name__ == "__main__":
    sys.exit(main())
