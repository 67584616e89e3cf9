"""What a terminal shows of a refusal, a trap and a limit: the line with the caret below the place, and what it means.

    python3 tests/launcher/screens.py

The screens are written here by hand. What else is said of the reason of a refusal is tried in reasons.py, and left away here.
"""
import re
import sys

from support.desk import Desk, Tally, plain, program

SYNTAX = "syntax: The text isn't one of the grammar. (./dpj explain syntax)\n"
UNKNOWN = """unknown: A name isn't declared: a class, a region name, a region parameter, a
field, a method, a local or an index variable; or a constructor hasn't the name
of its class. (./dpj explain unknown)
"""
INTERFERES = """interferes: Two branches of a `cobegin`, or two iterations of a `foreach` or
`foreach_parts`, may touch one region, and one of them writes it.
(./dpj explain interferes)
"""
DIVIDE = "divide: The right operand of `/` or `%` is 0. (./dpj explain divide)\n"

TABBED = b"class Main {\n\tint x;\n\tint main(int n) {\n\t\tint k = 1;\tcobegin { this.x = 1; this.x = 2; }\n\t\treturn k;\n\t}\n}\n"
TABBED_SCREEN = """4 |         int k = 1;  cobegin { this.x = 1; this.x = 2; }
                        ^
"""
MANY = b"".join(b"print(%d); " % number for number in range(10, 99))

# What a Java programmer writes, or an editor leaves in a text; the words, the text, and the screen.
TEXTS = {
    "a for": ("check", b"class Main {\n  int main(int n) {\n    for (int k = 0; k < n; k++) print(k);\n    return n;\n  }\n}\n", """\
3 |     for (int k = 0; k < n; k++) print(k);
            ^
""" + SYNTAX),
    "a local without a value": ("check", b"class Main { int main(int n) {\n  int last;\n  last = n; return last; } }\n", """\
2 |   int last;
              ^
""" + SYNTAX),
    "a bare field": ("check", b"class Main { int all;\n  int main(int n) { all = n; return 0; } }\n", """\
2 |   int main(int n) { all = n; return 0; } }
                        ^
""" + UNKNOWN),
    "a field with a slip": ("check", b"class Main { int all;\n  int main(int n) { this.al = n; return 0; } }\n", """\
2 |   int main(int n) { this.al = n; return 0; } }
                             ^
""" + UNKNOWN),
    "a missing semicolon": ("check", b"class Main {\n  int main(int n) {\n    print(n)\n    return n;\n  }\n}\n", """\
4 |     return n;
        ^
""" + SYNTAX),
    "a missing brace": ("check", b"class Main {\n  int main(int n) {\n    if (n > 0) {\n    return n;\n  }\n}\n\n  \n", """\
6 | }
     ^ at the end of the text
""" + SYNTAX),
    "a missing brace, and no last line end": ("check", b"class Main {\n  int main(int n) { return n; }", """\
2 |   int main(int n) { return n; }
                                   ^ at the end of the text
""" + SYNTAX),
    "blanks alone": ("check", b"\n \n\t\n", "the text is blank\n" + SYNTAX),
    "nothing": ("check", b"", "the text is empty\n" + SYNTAX),
    "a text literal over two lines": ("check", b'class Main { int main(int n) {\n  print("one\n  two"); return n; } }\n', """\
2 |   print("one
                ^ at the end of the line
""" + SYNTAX),
    "a text literal over two lines that end in CR LF": ("check", b'class Main { int main(int n) {\r\n  print("one\r\n  two"); return n; } }\r\n', """\
2 |   print("one
                ^ at the end of the line
""" + SYNTAX),
    "tabs": ("check", TABBED, TABBED_SCREEN + INTERFERES),
    "tabs, and lines that end in CR LF": ("check", TABBED.replace(b"\n", b"\r\n"), TABBED_SCREEN + INTERFERES),
    "a byte order mark": ("check", b"\xef\xbb\xbfclass Main { int main(int n) { return 0; } }\n", """\
1 | \N{REPLACEMENT CHARACTER}class Main { int main(int n) { return 0; } }
    ^
syntax: The text begins with a byte order mark (the bytes EF BB BF), which
begins no program: save the file as UTF-8 without it. (./dpj explain syntax)
"""),
    "UTF-16": ("check", "class".encode("utf-16"), """\
1 | \N{REPLACEMENT CHARACTER}\N{REPLACEMENT CHARACTER}c\N{REPLACEMENT CHARACTER}l\N{REPLACEMENT CHARACTER}a\N{REPLACEMENT CHARACTER}s\N{REPLACEMENT CHARACTER}s\N{REPLACEMENT CHARACTER}
    ^
syntax: The text begins with a byte order mark of UTF-16: save the file as
UTF-8 without a mark. (./dpj explain syntax)
"""),
    "umlauts and a dash": ("check", "class Main { int main(int n) {\n  /* größer – als */ return m; } }\n".encode(), """\
2 |   /* größer – als */ return m; } }
                                ^
""" + UNKNOWN),
    # Each of the two takes two columns.
    "wide characters": ("check", 'class Main { int main(int n) {\n  print("漢字"); return m; } }\n'.encode(), """\
2 |   print("漢字"); return m; } }
                            ^
""" + UNKNOWN),
    # An e with an accent of its own, in one column.
    "a combining character": ("check", 'class Main { int main(int n) {\n  print("e\u0301"); return m; } }\n'.encode(), """\
2 |   print("e\u0301"); return m; } }
                         ^
""" + UNKNOWN),
    "controls of a terminal": ("check", b"class Main { int main(int n) {\n  /* \x1b[2J\x07\xc2\x9b */ return m; } }\n", """\
2 |   /* \N{REPLACEMENT CHARACTER}[2J\N{REPLACEMENT CHARACTER}\N{REPLACEMENT CHARACTER} */ return m; } }
                          ^
""" + UNKNOWN),
    "a change of direction": ("check", "class Main { int main(int n) {\n  /* \u202e */ return m; } }\n".encode(), """\
2 |   /* \N{REPLACEMENT CHARACTER} */ return m; } }
                     ^
""" + UNKNOWN),
    "a byte that isn't UTF-8": ("check", b"class Main { int main(int n) {\n  /* fa\xe7on */ return 0; } }\n", """\
2 |   /* fa\N{REPLACEMENT CHARACTER}on */ return 0; } }
           ^
""" + SYNTAX),
    "lines that end in CR alone": ("check", b"class Main {\rint main(int n) {\rreturn m; } }\r", """\
1 | class Main {\N{REPLACEMENT CHARACTER}int main(int n) {\N{REPLACEMENT CHARACTER}return m; } }
                                          ^
""" + UNKNOWN),
    "a long line": ("check", b"class Main { int main(int n) { " + MANY + b"return m; " + MANY + b"} }\n", """\
1 | …nt(95); print(96); print(97); print(98); return m; print(10); print(11);…
                                                     ^
""" + UNKNOWN),
    "a long line, and a place near its beginning": ("check", b"class Main { int main(int m) { return k; " + MANY + b"} }\n", """\
1 | class Main { int main(int m) { return k; print(10); print(11); print(12)…
                                          ^
""" + UNKNOWN),
    "a long line, and a place behind its end": ("check", b"class Main { int main(int n) { " + MANY, """\
1 | …(92); print(93); print(94); print(95); print(96); print(97); print(98);
                                                     at the end of the text ^
""" + SYNTAX),
    "a trap": ("run", b"class Main {\n\tint main(int n) {\n\t\tprint(7); return 1 / n;\n\t}\n}\n", """\
3 |         print(7); return 1 / n;
                               ^
""" + DIVIDE),
    "a trap of the elision": ("elide", b"class Main { int main(int n) { return 1 / n; } }\n", """\
1 | class Main { int main(int n) { return 1 / n; } }
                                            ^
""" + DIVIDE),
}

LIMIT_STEPS = "limit: It was the limit of steps: with steps=20000000 it ends.\n(./dpj explain limit)\n"
LIMIT_CELLS = "limit: It was the limit of cells: with cells=16777216 it ends.\n(./dpj explain limit)\n"
LOOP = b"class Main { int main(int n) { int k = 0; while (k < 9) { print(k); k = k + 1; } return k; } }\n"
ORDERED = LOOP.replace(b"print(k);", b"cobegin_nd { print(k); print(k); }")

# Words and a text, and the screen where a limit is met.
LIMITS = {
    "the limit of steps": ("run steps=9", LOOP, LIMIT_STEPS),
    "the limit of cells": ("elide cells=9", LOOP, LIMIT_CELLS),
    "both limits": ("run cells=9 steps=9", LOOP, (
        "limit: It was the limit of steps and cells: with steps=20000000 cells=16777216\nit ends. (./dpj explain limit)\n")),
    "a limit with an nd construct": ("run steps=9", ORDERED, (
        "limit: The run costs more than steps=9 or cells=1048576 allows; they can be set\n"
        "up to steps=20000000 and cells=16777216. (./dpj explain limit)\n")),
    "a limit of a demo": ("demo cells=1", b"", (
        "limit: The run costs more than steps=5000000 or cells=1 allows; they can be set\n"
        "up to steps=20000000 and cells=16777216. (./dpj explain limit)\n")),
}

ACCEPTED = b"class Main { int main(int n) { return 1 / n; } }\n"
TRACE = b"dpj-trace 1\narg 0 steps 5000000 cells 1048576\nevents 2\n0 2\nprogram\n"
# A trace, and the screen of its replay.
TRACES = {
    "a trace with another number of events": (TRACE.replace(b"events 2", b"events 3") + ACCEPTED, """\
5 | program
    ^
trace: What `replay` is given is no trace. (./dpj explain trace)
"""),
    "a trace whose program is refused": (TRACE + b"class Main {\nint main(int n) { return m; } }\n", """\
2 | int main(int n) { return m; } }
                             ^
""" + UNKNOWN),
    "a trace of a run that traps": (b"", """\
1 | class Main { int main(int n) { return 1 / n; } }
                                            ^
""" + DIVIDE),
}


def shown(tally, desk):
    """The texts above, read from a pipe. Standard output is what the program writes, byte for byte."""
    asked = program()

    def of(what):
        words, text, _ = TEXTS.get(what) or LIMITS[what]
        seen = desk.show(*words.split(), text=text)
        return seen.screen, desk.run(*words.split(), text=text, launcher=asked)[::2] == (seen.out, seen.status)

    tally.all_equal(of, {what: (screen, True) for what, (_, _, screen) in {**TEXTS, **LIMITS}.items()})


def replayed(tally, desk):
    """Replays count places in the trace or in the program that it holds, and a trace of a run that traps shows where."""
    written = desk.show("trace", text=ACCEPTED)
    tally.equal("a trace of a run that traps", written.screen, TRACES["a trace of a run that traps"][1])
    texts = {what: text or written.out.encode() for what, (text, _) in TRACES.items()}
    tally.all_equal(lambda what: desk.show("replay", text=texts[what]).screen, {what: screen for what, (_, screen) in TRACES.items()})


# A program whose `cost` traps where its argument is 1, and else meets a limit, which its `run` doesn't with higher ones.
FIGURES = "steps 9\ncells 1\nevents 4\ntasks 1\nrounds 4\n"
COSTLY = f"""cat >/dev/null
case $* in
    cost*arg=1*) printf '%s' 'trap divide 1:41\n{FIGURES}'; exit 3 ;;
    cost*) printf '%s' 'limit\n{FIGURES}'; exit 4 ;;
esac
"""


def costly(tally):
    """What `cost` answers is shown as what `run` does."""
    desk = Desk(COSTLY)
    tally.equal("a trap of cost", desk.show("cost", "arg=1", text=ACCEPTED), (f"trap divide 1:41\n{FIGURES}", TRACES["a trace of a run that traps"][1], 3))
    tally.equal("a limit of cost", desk.show("cost", "steps=9", text=LOOP), (f"limit\n{FIGURES}", LIMIT_STEPS, 4))


def narrow(line, columns, desk):
    """How a line is shown by a terminal of so many columns."""
    return desk.show("check", text=line, columns=columns).screen.split("\n")[:2]


def laid_out(tally, desk):
    """Narrow and coloured screens, a file in place of a pipe, a text that is typed, and an unproved program."""
    text = TEXTS["a bare field"][1]
    (desk.path / "a.dpj").write_bytes(text)
    screen = TEXTS["a bare field"][2]
    tally.equal("a file", desk.show("check", "a.dpj"), ("refused 2:21 unknown\n", screen, 2))
    tally.equal("30 columns", narrow(text, 30, desk), ["2 | … main(int n) { all = n…", "                    ^"])
    # A terminal that doesn't say how wide it is.
    tally.equal("no columns", narrow(text, 0, desk), screen.split("\n")[:2])
    coloured = desk.show("check", "a.dpj", env=plain(TERM="xterm")).screen
    tally.equal("colours", (coloured.count("\x1b[1m"), re.sub(r"\x1b\[1?m", "", coloured)), (2, screen))
    tally.equal("NO_COLOR", desk.show("check", "a.dpj", env=plain(TERM="xterm", NO_COLOR="1")).screen, screen)
    typed = desk.show("check", typed=b"class\n\x04").screen
    tally.equal("a text that is typed", typed, (
        "dpj: the program is read from standard input, up to Ctrl-D\nclass\n1 | class\n         ^ at the end of the text\n" + SYNTAX))
    unproved = Desk(program(), kind="unproved").without_reasons()
    said = "dpj: this program is unproved; ./build makes the proved one\n"
    tally.equal("an unproved program", unproved.show("check", text=text), ("refused 2:21 unknown\n", said + screen, 2))
    tally.equal("no terminal", desk.run("check", "a.dpj"), ("refused 2:21 unknown\n", "", 2))
    tally.equal("no Python", desk.show("check", "a.dpj", env=desk.without_python()),
                ("refused 2:21 unknown\n", "dpj: this answer is not explained: python3 is not on the PATH\n", 2))
    tally.equal("no Python, and nothing to explain", desk.show("run", text=LOOP, env=desk.without_python()).screen, "")


def main():
    tally, desk = Tally("screens"), Desk(program()).without_reasons()
    shown(tally, desk)
    replayed(tally, desk)
    laid_out(tally, desk)
    costly(tally)
    return tally.close()


if __name__ == "__main__":
    sys.exit(main())
