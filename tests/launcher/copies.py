"""The launcher where it is called through links, where parts of its folder are missing, and which program it takes.

    python3 tests/launcher/copies.py
"""
import os
import shutil
import sys

from support.desk import Desk, Tally, plain

# Programs that write which one they are.
PROVED, UNPROVED, MADE = ('echo "the %s one: $*"\n' % name for name in ("proved", "unproved", "made"))
SAID = "dpj: this program is unproved; ./build makes the proved one\n"


def chosen(tally):
    """The proved program goes before the unproved one, which goes before one that is made; nothing else is taken."""
    desk = Desk(PROVED)
    desk.script("out/unproved/U/dpj", "#!/bin/sh\n" + UNPROVED)
    desk.script("out/dpj", "#!/bin/sh\nexit 9\n")
    desk.script("out/proved/OLD/dpj", "#!/bin/sh\nexit 9\n")
    tally.equal("the proved one", desk.run("check"), ("the proved one: check\n", "", 0))
    tally.equal("version, proved", desk.run("version").out.split("\n")[1], "the program is proved")
    (desk.path / "out/proved/P/dpj").unlink()
    tally.equal("the unproved one", desk.run("check"), ("the unproved one: check\n", SAID, 0))
    tally.equal("version, unproved", desk.run("--version").out.split("\n")[1], "the program is unproved; ./build makes the proved one")
    (desk.path / "out/unproved/U/dpj").unlink()
    tally.equal("version, none", desk.run("--version").out.split("\n")[1],
                "the program is not made yet: the first call makes an unproved one, ./build the proved one")
    tally.equal("none, and nothing to make one", desk.run("check"),
                ("", f"dpj: there is no program in {desk.path}, and tools/unproved, which makes it, is missing\n", 127))
    desk.script("tools/unproved", f"#!/bin/sh\necho making >&2\nprintf '#!/bin/sh\\n%s' '{MADE}' >out/unproved/U/dpj\nchmod +x out/unproved/U/dpj\n")
    tally.equal("a wrong word makes none", desk.run("chekc").status, 1)
    tally.equal("one that is made", desk.run("check"), ("the made one: check\n", "making\n" + SAID, 0))
    tally.equal("it is made once", desk.run("check"), ("the made one: check\n", SAID, 0))
    (desk.path / "out/unproved/U/dpj").unlink()
    desk.script("tools/unproved", "#!/bin/sh\necho failing >&2\nexit 126\n")
    tally.equal("none could be made", desk.run("check"), ("", "failing\ndpj: there is no program to run\n", 126))
    desk.script("tools/sources", "#!/bin/sh\nexit 1\n")
    tally.equal("sources that aren't summed up", desk.run("check"),
                ("", f"dpj: the sources in {desk.path} could not be summed up: tools/sources is missing or failed\n", 127))


def linked(tally):
    """Through links all is as it was, wherever they stand."""
    desk = Desk(PROVED)
    links = desk.path.parent / "links of mine"
    links.mkdir()
    (links / "first").symlink_to(desk.path / "dpj")
    os.symlink("first", links / "second")
    tally.equal("a link to a link", desk.run("check", launcher=links / "second"), ("the proved one: check\n", "", 0))
    tally.equal("explain by a link", desk.run("explain", "cycle", launcher=links / "second").out.split("\n")[0], "cycle")
    on_path = plain(PATH=f"{links}:{plain()['PATH']}")
    (links / "dpj").symlink_to(desk.path / "dpj")
    refusing = Desk("echo refused 1:1 syntax\nexit 2\n").be_patient()
    (links / "refusing").symlink_to(refusing.path / "dpj")
    tally.equal("a link on the PATH", desk.run("check", launcher="dpj", env=on_path), ("the proved one: check\n", "", 0))
    screen = desk.show("check", text=b"x", launcher="refusing", env=on_path).screen
    tally.equal("how it is called is what is shown", screen, "1 | x\n    ^\nsyntax: The text isn't one of the grammar. (refusing explain syntax)\n"
                "  There stands `x`. (refusing why)\n")


def parted(tally):
    """Where parts are missing it works as far as it can, and says what is missing."""
    alone = Desk(None, parts=("dpj",))
    tally.equal("dpj alone", alone.run("check"), (
        "", f"dpj: there is no single program in {alone.path}, nor the sources to make it of; a link to the dpj of a whole folder works, and so does a copy "
            "of the folder\n", 127))
    tally.equal("help of dpj alone", alone.run("help").status, 0)
    tally.equal("explain of dpj alone", alone.run("explain", "cycle"), ("", f"dpj: explain needs tools/explain.py, which is not in {alone.path}\n", 127))
    tally.equal("version of dpj alone", alone.run("version").out.split("\n")[0], "dpj, of no repository")
    installed = Desk(PROVED, parts=("dpj",))
    tally.equal("dpj and a program", installed.run("check"), ("the proved one: check\n", "", 0))
    refusing = Desk("echo refused 1:1 syntax\nexit 2\n", parts=("dpj",))
    tally.equal("a refusal without tools", refusing.show("check", text=b"x"), (
        "refused 1:1 syntax\n", f"dpj: this answer is not explained: tools/show.py is not in {refusing.path}\n", 2))
    refusing = Desk("echo refused 1:1 syntax\nexit 2\n", parts=("dpj", "tools")).without_reasons()
    tally.equal("a refusal without documents", refusing.show("check", text=b"x").screen, (
        f"1 | x\n    ^\ndpj: syntax isn't explained, since {refusing.path} has no docs/REFUSALS.md and no docs/TRAPS.md\n"))
    tally.equal("explain without documents", refusing.run("explain", "cycle"), (
        "", f"dpj: not every name can be explained, since {refusing.path} has no docs/REFUSALS.md and no docs/TRAPS.md\n", 127))
    two = Desk(PROVED, parts=("dpj",))
    shutil.copytree(two.path / "out/proved/P", two.path / "out/proved/Q")
    tally.equal("two programs and no sources", two.run("check").status, 127)
    copied = Desk(PROVED)
    shutil.copytree(copied.path, copied.path.parent / "copy with all")
    tally.equal("a copy of all", copied.run("check", launcher=copied.path.parent / "copy with all" / "dpj"), ("the proved one: check\n", "", 0))


def main():
    tally = Tally("copies")
    chosen(tally)
    linked(tally)
    parted(tally)
    return tally.close()


if __name__ == "__main__":
    sys.exit(main())
