"""What is written for editors and for programs, what `explain` writes, and statuses where something fails.

    python3 tests/launcher/forms.py
"""
import json
import os
import re
import subprocess
import sys

from support.desk import TOP, Desk, Tally, plain, program

# A text whose argument decides what it does, by its fourth line.
TEXT = b"""class Main {
\tint main(int n) {
\t\tprint("h\xc3\xa9"); print(n);
\t\t/* \xe6\xbc\xa2 */ return 6 / n;
\t}
}
"""
REFUSED = TEXT.replace(b"6 / n", b"m")
NOTHING = dict.fromkeys(("name", "line", "column", "text", "sentence", "mend", "reason", "output", "result", "proved"))

# Words, the text or the file's name, and the object; what isn't said here is null.
OBJECTS = {
    "accepted": ("check --json a.dpj", {"verdict": "accepted", "file": "a.dpj", "output": "", "proved": True}),
    "refused": ("--json check r.dpj", {
        "verdict": "refused", "file": "r.dpj", "status": 2, "name": "unknown", "line": 4, "column": 20, "text": "\t\t/* \u6f22 */ return m;", "output": "",
        "sentence": "A name isn't declared: a class, a region name, a region parameter, a field, a method, a local or an index variable; or a "
                    "constructor hasn't the name of its class.",
        "mend": "A field is written with its object. In a region path only the first name may be a region parameter or a local region. A region "
                "name of a class that isn't a superclass is written with its class, `C.r`.", "proved": True}),
    "a result": ("run arg=3 --json a.dpj", {"verdict": "result", "file": "a.dpj", "output": "h\u00e9\n3\n", "result": 2, "proved": True}),
    "a negative result": ("elide a.dpj arg=-3 --json", {"verdict": "result", "file": "a.dpj", "output": "h\u00e9\n-3\n", "result": -2, "proved": True}),
    "a trap": ("run a.dpj --json", {
        "verdict": "trap", "file": "a.dpj", "status": 3, "name": "divide", "line": 4, "column": 22, "text": "\t\t/* \u6f22 */ return 6 / n;",
        "sentence": "The right operand of `/` or `%` is 0.", "output": "h\u00e9\n0\n", "proved": True,
        "mend": "Ask before the division. What an `arg` of 0 does is worth a thought, since a run without `arg` has it."}),
    "a listing": ("effects --json a.dpj", {"verdict": "effects", "file": "a.dpj", "output": "Main.main pure\n", "proved": True}),
    "a wrong word": ("run arg=x --json a.dpj", {
        "verdict": "usage", "file": "a.dpj", "status": 1,
        "sentence": "`arg=x`: arg takes -2147483648 to 2147483647, in digits and without a leading 0"}),
    "no command": ("--json", {"command": None, "verdict": "usage", "file": "-", "status": 1, "sentence": "there is no command"}),
    "an unknown command": ("chek --json", {"verdict": "usage", "file": "-", "status": 1}),
    "no file": ("check --json b.dpj", {
        "verdict": "read-fault", "file": "b.dpj", "status": 5, "sentence": "b.dpj cannot be read: there is no such file"}),
}

EDITORS = {
    "check --editor r.dpj": ("r.dpj:4:20: refused: unknown\n", "", 2),
    "run r.dpj arg=1 --editor": ("r.dpj:4:20: refused: unknown\n", "", 2),
    "check --editor a.dpj": ("accepted\n", "", 0),
    "--editor run ./a.dpj": ("h\u00e9\n0\n./a.dpj:4:22: trap: divide\n", "", 3),
    "run --editor a.dpj arg=6": ("h\u00e9\n6\nresult 1\n", "", 0),
    "check --editor": ("-:1:1: refused: syntax\n", "", 2),
}

# Where a name that dpj writes is listed, outside of what explains it.
TRAPS = {"null", "index", "divide", "size", "stack"}
OTHERS = {"limit", "usage", "read-fault", "write-fault", "out-of-memory"}


def desk_of(of, **more):
    desk = Desk(of, **more)
    (desk.path / "a.dpj").write_bytes(TEXT)
    (desk.path / "r.dpj").write_bytes(REFUSED)
    return desk


def formed(tally, desk):
    """The two forms."""
    def of(what):
        words, wanted = OBJECTS[what]
        seen = desk.run(*words.split())
        got = json.loads(seen.out)
        # What an unknown command is told is tried elsewhere.
        return ({**got, "sentence": None} if "chek" in words else got), seen.out.count("\n"), seen.screen, seen.status == got["status"]

    wanted = {}
    for what, (words, known) in OBJECTS.items():
        command = next((word for word in words.split() if word in ("check", "run", "elide", "effects", "chek")), None)
        wanted[what] = {"command": command, "status": 0, **NOTHING, **known}, 1, "", True
    tally.all_equal(of, wanted)
    tally.all_equal(lambda words: desk.run(*words.split()), EDITORS)
    limited = json.loads(desk.run("run", "--json", "arg=1", "cells=1", "a.dpj").out)
    tally.equal("a limit", [limited[key] for key in ("verdict", "name", "status", "line", "sentence")],
                ["limit", "cells", 4, None, "It was the limit of cells: with cells=16777216 it ends."])
    unproved = desk_of(program(), kind="unproved").run("check", "--json", "a.dpj")
    tally.equal("unproved", (json.loads(unproved.out)["proved"], unproved.screen), (False, "dpj: this program is unproved; ./build makes the proved one\n"))
    seen = desk.run("check", "--json", "a.dpj", env=desk.without_python())
    tally.equal("an object without Python", seen, ("", "dpj: --json cannot be done: python3 is not on the PATH\n", 127))
    figures = "steps 7\\ncells 1\\nevents 3\\ntasks 1\\nrounds 3\\n"
    cost = json.loads(desk_of(f"printf '1\\nresult 5\\n{figures}'\n").run("cost", "--json", "a.dpj").out)
    tally.equal("the cost of a run", [cost[key] for key in ("verdict", "output", "result")], ["cost", "1\n" + figures.replace("\\n", "\n"), 5])
    cost = json.loads(desk_of(f"printf 'trap divide 1:41\\n{figures}'\nexit 3\n").run("cost", "--json", "a.dpj").out)
    tally.equal("the cost of a trap", [cost[key] for key in ("verdict", "name", "line", "column", "output")], ["trap", "divide", 1, 41, figures.replace("\\n", "\n")])
    short = desk_of("kill -KILL $$\n").run("run", "--json", "a.dpj")
    tally.equal("a program that was killed", (json.loads(short.out)["verdict"], short.status), ("killed", 137))


def explained(tally, desk):
    """Every name that dpj may write is explained in some sentences, in any letters; other words get the nearest name."""
    source = (TOP / "docs/REFUSALS.md").read_text(encoding="utf-8")
    names = set(re.findall(r"^## (.+)$", source, re.M)) | TRAPS | OTHERS
    listed = desk.run("explain")
    tally.equal("the names that are listed", ({line.split(" ")[0] for line in listed.out.splitlines()} - {""}, listed.status), (names, 0))

    order = sorted(names)
    seen = desk.run("explain", *(name.upper().replace("-", "_") for name in order))
    # A section begins with its name, and goes on with a blank line and a sentence.
    begun = [line for line, after, text in zip(*(seen.out.split("\n")[at:] for at in range(3))) if line in names and not after and text[:1].strip()]
    tally.equal("each name in capital letters", (begun, seen.screen, seen.status), (order, "", 0))
    tally.equal("marks of markdown", re.findall(r"\]\(|```|\*\*|##", seen.out), [])
    seen = desk.run("explain", "interfers")
    tally.equal("a name with a slip", (seen.out, seen.screen.split(";")[:2], seen.status),
                ("", ["dpj: no refusal, trap or status is named `interfers`", " did you mean `interferes`?"], 1))
    seen = desk.run("explain", "--mend")
    tally.equal("an option", (seen.out, seen.screen.split(";")[0], seen.status), ("", "dpj: no refusal, trap or status is named `--mend`", 1))
    seen = desk.run("explain", "cycle")
    tally.equal("a section", seen.out, """cycle

A class is its own superclass, through a chain. Place: the name after its
`extends`.

    class A extends B { }
    class B extends A { }
    class Main { int main(int n) { return 0; } }
    (dpj check: refused 1:17 cycle)

Let one of the classes extend nothing.

    class A extends B { }
    class B { }
    class Main { int main(int n) { return 0; } }
    (dpj check: accepted)
""")


def failing(tally, desk):
    """The status where standard input or output fails is the program's, also where something else stands between."""
    calls = {
        "run a.dpj arg=1 >/dev/full": 6, "run a.dpj arg=1 >&-": 6, "run a.dpj arg=1 --json >/dev/full": 6, "run a.dpj arg=1 --json >&-": 6,
        "check --editor r.dpj >/dev/full": 6, "explain cycle >/dev/full": 6, "explain cycle >&-": 6, "help >/dev/full": 6, "help >&-": 6,
        "version >/dev/full": 6, "check <&-": 5, "check --json <&-": 5, "check </": 5, "check --json </": 5}
    tally.all_equal(lambda words: desk.run("-c", f"./dpj {words} 2>/dev/null", launcher="sh").status, calls)
    unread = ("run a.dpj arg=1", "run a.dpj arg=1 --json", "explain", "help", "chekc")
    tally.all_equal(lambda words: status_unread(desk, words.split()), dict.fromkeys(unread, 6))


def status_unread(desk, words):
    """The status where whoever should read standard output has gone."""
    reading, writing = os.pipe()
    os.close(reading)
    done = subprocess.run(["./dpj", *words], cwd=desk.path, env=plain(), stdout=writing, stderr=subprocess.DEVNULL, check=False)
    os.close(writing)
    return done.returncode


def main():
    tally, desk = Tally("forms"), desk_of(program()).without_reasons()
    formed(tally, desk)
    explained(tally, desk)
    failing(tally, desk)
    return tally.close()


if __name__ == "__main__":
    sys.exit(main())
