"""`./dpj view` hands its tool the text, the settings and the name of the page.

    python3 tests/launcher/view.py

What the page holds is tried in tests/view, and how it looks in a browser in tests/slow/pages.py.
"""
import sys

from support.desk import Desk, Tally

# A program that writes a run of its words, and of the text's first letters.
MADE = 'text=$(head -c 4)\nprintf "dpj-events 1\\narg 0 steps 1 cells 1\\nevents 2\\n1 0 print $* $text at 1:1\\n2 0 end 5\\nresult 5\\n"\n'
REFUSING = "echo refused 1:2 syntax\nexit 2\n"


def handed(tally):
    """What the program gets, and where the page goes."""
    desk = Desk(MADE)
    (desk.path / "a.dpj").write_text("text\n")
    for words, page, printed in (
        ("a.dpj", "a.html", "events text"), ("a.dpj arg=5 seed=1", "a.html", "events arg=5 seed=1 text"),
        ("workers=2 --output=b.html a.dpj", "b.html", "events workers=2 text"), ("--output=b.html", "b.html", "events give"),
        ("--output=b.html - steps=9", "b.html", "events steps=9 give"),
    ):  # fmt: skip
        seen = desk.run("view", *words.split(), text=b"given\n")
        tally.equal(words, (seen.out, seen.screen, seen.status), (f"{page}: 2 events of 1 task, result 5\n", "", 0))
        tally.equal(f"{words}: the page", f"1 0 print {printed} at 1:1" in (desk.path / page).read_text(), True)
        (desk.path / page).unlink()
    for words in ("view", "view --output=-", "view --output=- a.dpj"):
        tally.equal(words, desk.run(*words.split(), text=b"given\n").out.startswith("<!doctype html>\n"), True)


def answered(tally):
    """What is said where there is no page."""
    desk = Desk(REFUSING)
    (desk.path / "a.dpj").write_text("class\n")
    seen = desk.run("view", "a.dpj")
    tally.equal("a refusal", (seen.out, "1 | class" in seen.screen, seen.status, (desk.path / "a.html").exists()), ("refused 1:2 syntax\n", True, 2, False))
    tally.equal("no file", desk.run("view", "b.dpj", env=desk.without_python())[::2], ("", 5))
    seen = desk.run("view", "a.dpj", env=desk.without_python())
    tally.equal("no Python", seen, ("", "dpj: view needs python3, which is not on the PATH\n", 127))
    (desk.path / "tools" / "page" / "page.css").unlink()
    desk.script("out/proved/P/dpj", "#!/bin/sh\n" + MADE)
    tally.equal("a part is missing", desk.run("view", "a.dpj"), ("", "dpj: view needs tools/page/page.css, which is not there\n", 127))
    (desk.path / "tools" / "view.py").unlink()
    tally.equal("the tool is missing", desk.run("view", "a.dpj")[1:], (f"dpj: view needs tools/view.py, which is not in {desk.path}\n", 127))


def shown(tally):
    """On a terminal a page is only written to a file."""
    desk = Desk(MADE)
    (desk.path / "a.dpj").write_text("text\n")
    tally.equal("on a terminal", desk.show("view", "a.dpj").out, "a.html: 2 events of 1 task, result 5\n")


def main():
    tally = Tally("view")
    handed(tally)
    answered(tally)
    shown(tally)
    return tally.close()


if __name__ == "__main__":
    sys.exit(main())
