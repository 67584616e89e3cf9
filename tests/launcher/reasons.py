"""Why a text is refused: what a terminal shows of it at once, `./dpj why`, and `./dpj check --all`.

    python3 tests/launcher/reasons.py

The screens are written here by hand. What why finds is tried in tests/why.
"""
import json
import re
import sys
import time

from support.desk import Desk, Tally, plain, program

BRANCHES = b"class Main {\n  region A, B;\n  int x in A;\n  int y in A;\n  int main(int n) {\n    cobegin { this.x = n; this.y = n; }\n    return 0;\n  }\n}\n"
UNKNOWN = b"class Main { int all;\n  int main(int n) { all = n; return 0; } }\n"
ALONE = b"class Main {\n  int main(int n) {\n\t\treturn m;\n  }\n}\n"
ACCEPTED = b"class Main { int main(int n) { return 6 / n; } }\n"
TWO = b"class Main {\n  int main(int n) {\n    m = n;\n    return true;\n  }\n}\n"

BRANCHES_REASON = """\
  6:15  this.x = n;  (branch 1 of the cobegin writes A)
  6:27  this.y = n;  (branch 2 of the cobegin writes A)
  `x` and `y` both lie in A.
  Mend: Put `y` into the region B.
  4:12  `B` in place of `A`
  With it the text is accepted. (./dpj why)
"""
UNKNOWN_REASON = """\
  2:21  all = n;  (`all` isn't declared)
  A bare name is a local or a formal; fields are written with their object.
  Mend: Write the field with its object.
  2:21  `this.all` in place of `all`
  With it the text is accepted. (./dpj why)
"""
# A statement that is the whole line that is shown isn't written again.
ALONE_REASON = "  3:3  `m` isn't declared\n  `m` is no local or formal here; in scope: `n`. (./dpj why)\n"
LITERAL = b'class Main { int main(int n) {\r\n  print("one\r\n  two"); return n; } }\r\n'
# What is put in stands before the end of the line, which is CR LF.
LITERAL_REASON = """\
  A text literal ends on its line, with a `"`.
  Mend: Put in what is missing:
  2:13  `"` put in
  With it the next fault is, in the changed text: refused 3:24 syntax
  (./dpj why)
"""
LATIN = b"class Main { int main(int n) {\n  /* fa\xe7on */ return 0; } }\n"
LATIN_REASON = "  The byte E7 begins no character of UTF-8: save the file as UTF-8. (./dpj why)\n"
TRACE = b"dpj-trace 1\narg 0 steps 5000000 cells 1048576\nevents 2\n0 2\nprogram\n"

# Words and a text, and what follows the sentence on the screen.
SHOWN = {
    "branches": ("check", BRANCHES, BRANCHES_REASON),
    "branches, run": ("run arg=5", BRANCHES, BRANCHES_REASON),
    "a name, listed": ("list", UNKNOWN, UNKNOWN_REASON),
    "a name, elided": ("elide", UNKNOWN, UNKNOWN_REASON),
    "a name alone on its line, traced": ("trace", ALONE, ALONE_REASON),
    "a name alone on its line, effects": ("effects", ALONE, ALONE_REASON),
    "a literal over two lines": ("check", LITERAL, LITERAL_REASON),
    "a byte that isn't UTF-8": ("check", LATIN, LATIN_REASON),
    "a replay": ("replay", TRACE + UNKNOWN, ""),
    "a byte order mark": ("check", b"\xef\xbb\xbf" + ACCEPTED, ""),
    "a trap": ("run", ACCEPTED, ""),
    "accepted": ("check", ACCEPTED, ""),
}

WHY = """\
u.dpj:2:21: refused: unknown
  2 |   int main(int n) { all = n; return 0; } }
                          ^
  2:21  all = n;
      `all` isn't declared
A bare name is a local or a formal; fields are written with their object.
Mend: Write the field with its object.
  2:21  `this.all` in place of `all`
  With it the text is accepted.
"""
ALL = """\
t.dpj:3:5: refused: unknown
  3 |     m = n;
          ^
"""

# Words, and what is written, said, and the status.
CALLS = {
    "why u.dpj": (WHY, "", 2),
    "why ./a.dpj": ("./a.dpj: accepted\n", "", 0),
    "why": ("-: accepted\n", "", 0),
    "check --all -": ("-: accepted\n", "", 0),
    "--all check a.dpj --editor": ("accepted\n", "", 0),
    "check t.dpj --all --editor": ("t.dpj:3:5: refused: unknown\nt.dpj:4:5: refused: type\n", "", 2),
    "why nothing.dpj": ("", "dpj: nothing.dpj cannot be read: there is no such file\n", 5),
    "check --all tools": ("", "dpj: tools cannot be read: it is a folder\n", 5),
}

# Where something fails, and the status.
FAILING = {
    "why u.dpj >/dev/full": 6, "why u.dpj >&-": 6, "why --json u.dpj >/dev/full": 6, "check --all u.dpj >/dev/full": 6, "check --all >&-": 6,
    "why <&-": 5, "why </": 5, "check --all <&-": 5, "check --all --json </": 5}

# A program that answers once, and then sleeps; and how long why by itself would wait for it at least.
SLOW = 'cat >/dev/null; [ -e asked ] && exec sleep 20\n: >asked\necho refused 1:1 unknown\nexit 2\n'
WAITED = 15


def filled(desk):
    for name, text in {"u.dpj": UNKNOWN, "a.dpj": ACCEPTED, "t.dpj": TWO, "it's b.dpj": UNKNOWN}.items():
        (desk.path / name).write_bytes(text)
    return desk


def shown(tally, desk):
    """On a terminal the reason stands below the sentence. Standard output is the program's alone, and so is the status."""
    bare = Desk(program()).without_reasons()

    def of(what):
        words, text, _ = SHOWN[what]
        seen, without = (it.show(*words.split(), text=text) for it in (desk, bare))
        return seen.screen.removeprefix(without.screen), (seen.out, seen.status) == (without.out, without.status)

    tally.all_equal(of, {what: (reason, True) for what, (_, _, reason) in SHOWN.items()})
    seen = desk.show("check", "it's b.dpj").screen.splitlines()
    tally.equal("how more is asked for of a file", seen[-1:], ["""  With it the text is accepted. (./dpj why 'it'"'"'s b.dpj')"""])
    narrow = desk.show("check", "u.dpj", columns=40).screen.splitlines()
    tally.equal("40 columns", (max(map(len, narrow)) <= 40, narrow[-1]), (True, "  (./dpj why u.dpj)"))


def bounded(tally):
    """A reason that takes too long isn't waited for."""
    desk = Desk(SLOW)
    seen = desk.show("check", text=b"x")
    tally.equal("a slow reason", ([line for line in seen.screen.splitlines() if "why" in line], seen.out, seen.status), ([], "refused 1:1 unknown\n", 2))
    (desk.path / "asked").unlink()
    began = time.monotonic()
    tally.equal("a slow reason in an object", json.loads(desk.run("check", "--json", text=b"x").out)["reason"], None)
    tally.equal("it isn't waited for", time.monotonic() - began < WAITED, True)


def called(tally, desk):
    """The two tools by way of the launcher, as a text, for editors, and as objects."""
    tally.all_equal(lambda words: desk.run(*words.split(), text=ACCEPTED), CALLS)
    every = desk.run("check", "--all", "t.dpj")
    tally.equal("every fault", (every.out.startswith(ALL), re.findall(r"^t\.dpj:.*", every.out, re.M), every.out.splitlines()[-1], every.status), (
        True, ["t.dpj:3:5: refused: unknown", "t.dpj:4:5: refused: type"], "2 faults; without them the text is accepted.", 2))
    reason = json.loads(desk.run("why", "--json", "u.dpj").out)
    tally.equal("the object of why", [reason[key] for key in ("file", "refused")] + [reason["mend"]["new"]], [
        "u.dpj", {"name": "unknown", "line": 2, "column": 21}, "this.all"])
    tally.equal("the reason in an object of check", json.loads(desk.run("check", "--json", "u.dpj").out)["reason"], reason)
    replayed = json.loads(desk.run("replay", "--json", text=TRACE + UNKNOWN).out)
    tally.equal("the reason in an object of replay", (replayed["name"], replayed["reason"]), ("unknown", None))
    faults = json.loads(desk.run("check", "--json", "t.dpj", "--all").out)
    tally.equal("the object of check --all", [(it["name"], it["line"]) for it in faults["faults"]] + [faults["complete"]], [
        ("unknown", 3), ("type", 4), True])
    typed = desk.show("why", typed=ACCEPTED + b"\x04")
    tally.equal("a text that is typed", (typed.out, typed.screen.split("\n")[0], typed.status), (
        "-: accepted\n", "dpj: the program is read from standard input, up to Ctrl-D", 0))


def failing(tally, desk):
    """Statuses where something fails, and what is said where something is missing."""
    tally.all_equal(lambda words: desk.run("-c", f"./dpj {words} 2>/dev/null", launcher="sh").status, FAILING)
    bare = desk.without_python()
    for words in ("why", "check --all"):
        seen = desk.run(*words.split(), "a.dpj", env=bare)
        tally.equal(f"{words} without Python", seen, ("", f"dpj: {words} needs python3, which is not on the PATH\n", 127))
    alone = Desk("exit 9\n", parts=("dpj",))
    tally.equal("without its tool", alone.run("why"), ("", f"dpj: why needs tools/why.py, which is not in {alone.path}\n", 127))
    silent = Desk("exit 9\n")
    said = "check ended with status 9 and said nothing that is known\n"
    for words, tool in (("why", "why"), ("check --all", "faults")):
        tally.equal(f"{words} of a program without an answer", silent.run(*words.split(), text=ACCEPTED), (
            "", f"{tool}: {silent.path}/out/proved/P/dpj {said}", 126))
    unproved = Desk(program(), kind="unproved").run("why", text=ACCEPTED, env=plain())
    tally.equal("an unproved program", unproved, ("-: accepted\n", "dpj: this program is unproved; ./build makes the proved one\n", 0))


def main():
    tally, desk = Tally("reasons"), filled(Desk(program()).be_patient())
    shown(tally, desk)
    bounded(tally)
    called(tally, desk)
    failing(tally, desk)
    return tally.close()


if __name__ == "__main__":
    sys.exit(main())
