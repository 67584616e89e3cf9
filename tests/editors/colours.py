"""The colours of editors: the TextMate grammar and the Vim syntax file, tried over examples, or word by word against the language's keywords."""
import json
import os
import pathlib
import re
import shutil
import subprocess
import tempfile

from textmate import Grammar

HERE = pathlib.Path(__file__).resolve().parent
TOP = HERE.parent.parent
EDITORS = TOP / "editors"
SECONDS = 60

# Scopes of the TextMate grammar that a keyword may have.
OF_KEYWORDS = ("keyword.", "storage.", "constant.language.", "variable.language.", "support.function.")

# A text, and the groups of its words in Vim, in their order; `-` is none.
VIM_TEXT = [
    ("class Pair<region P, atomic region Q> extends Cell<P:Pair.First> {",
     "class=dpjStructure region=dpjRegionWord atomic=dpjNd extends=dpjStructure P=dpjRegion Pair.First=dpjRegion"),
    ("  int x in P:[i]:[?]:*;", "int=dpjType in=dpjRegionWord P=dpjRegion [i]=dpjIndex [?]=dpjIndex *=dpjIndex"),
    ("  int[]<Root:[i]>#i m(boolean b) reads Root:A writes Main.B:C { return 10 + 007; }",
     "int=dpjType Root=dpjRegionWord i=dpjIndex boolean=dpjType reads=dpjEffect A=dpjRegion writes=dpjEffect Main.B=dpjRegion C=dpjRegion"
     " return=dpjStatement 10=dpjNumber 007=dpjWrong"),
    ('  print("a \\n \\q // b"); // int', "print=dpjStatement a=dpjText \\n=dpjEscape \\q=dpjWrong //=dpjText //=dpjComment int=dpjComment"),
    ("  /* int", "int=dpjComment"),
    ("  int */ void f() pure { final int x = this.y; while (true) if (null == z) new A(); else { } }",
     "int=dpjComment void=dpjType pure=dpjEffect final=dpjModifier this=dpjConstant y=- while=dpjRepeat true=dpjBoolean if=dpjConditional"
     " null=dpjConstant new=dpjOperator else=dpjConditional"),
    ("  cobegin { foreach (int i in 0, 1) classes = 2; foreach_nd cobegin_nd foreach_parts }",
     "cobegin=dpjParallel foreach=dpjParallel in=dpjRegionWord 0=dpjNumber classes=- foreach_nd=dpjNd cobegin_nd=dpjNd foreach_parts=dpjParallel"),
]  # fmt: skip


def keywords():
    """The keywords, as docs/LANGUAGE.md lists them."""
    text = (TOP / "docs" / "LANGUAGE.md").read_text(encoding="utf-8")
    table = text.partition("\n## Keywords\n")[2].partition("\n## ")[0]
    return {word for row in table.splitlines() if row.startswith("| `") for word in re.findall(r"`(\w+)`", row.split("|")[1])}


def examples():
    """Each text of the table with its words and scopes."""
    lines, words = [], []
    for line in [*(HERE / "colours.txt").read_text(encoding="utf-8").splitlines(), "| "]:
        if line.startswith("| "):
            if words:
                yield "\n".join(lines) + "\n", words
                lines, words = [], []
            lines.append(line[2:])
        elif line and not line.startswith("; "):
            words.append(tuple(line.rsplit(" ", 1)))


def placed(text, words):
    """Each word with the place at which it stands behind those before it."""
    at = 0
    for word, want in words:
        found = re.compile(rf"(?<!\w){re.escape(word)}(?!\w)" if re.match(r"\w", word) else re.escape(word)).search(text, at)
        if not found:
            raise ValueError(f"{word} isn't in {text!r}")
        yield word, want, found.start()
        at = found.end()


def try_textmate(tally, _):
    """The TextMate grammar over the table, and each keyword by itself."""
    grammar = Grammar(json.loads((EDITORS / "textmate" / "dpj.tmLanguage.json").read_text(encoding="utf-8")))
    for text, words in examples():
        scopes = grammar.scopes(text)
        for word, want, at in placed(text, words):
            got = scopes[at][-1].removesuffix(".dpj") if scopes[at] else "-"
            tally.sees(f"the scope of `{word}` in {text.strip()!r}", got, want)
    for word in sorted(keywords()):
        got = grammar.scopes(f"{word} ;\n")[0]
        tally.sees(f"`{word}` is coloured as a keyword", bool(got) and got[-1].startswith(OF_KEYWORDS), True)
    for path in sorted((TOP / "examples").rglob("*.dpj")):
        wrong = {name for names in grammar.scopes(path.read_text(encoding="utf-8")) for name in names if name.startswith("invalid.")}
        tally.sees(f"nothing of {path.name} is wrong", wrong, set())
    return tally


def try_package(tally, _):
    """What VS Code reads points at files that are there, and they can be read."""
    folder = EDITORS / "textmate"
    package = json.loads((folder / "package.json").read_text(encoding="utf-8"))
    gives = package["contributes"]
    paths = [package["main"], gives["languages"][0]["configuration"], gives["grammars"][0]["path"]]
    tally.sees("the files of the extension", [path for path in paths if not (folder / path).is_file()], [])
    scope = json.loads((folder / gives["grammars"][0]["path"]).read_text(encoding="utf-8"))["scopeName"]
    tally.sees("the grammar's scope", gives["grammars"][0]["scopeName"], scope)
    json.loads((folder / gives["languages"][0]["configuration"]).read_text(encoding="utf-8"))
    return tally


def vim(lines, room, *commands):
    """What Vim writes to a file `out` of a folder after commands; the text stands in the file `a.dpj`."""
    (room / "a.dpj").write_text("\n".join(lines) + "\n")
    script = room / "script.vim"
    script.write_text("\n".join(commands) + "\nquitall!\n")
    start = ["vim", "-es", "-u", "NONE", "-i", "NONE", "-c", f"set runtimepath^={EDITORS / 'vim'}", "-c", "filetype on", "-c", "syntax on"]
    subprocess.run([*start, "-c", "edit a.dpj", "-S", script], cwd=room, stdin=subprocess.DEVNULL, capture_output=True, timeout=SECONDS, check=False)
    return (room / "out").read_text().splitlines() if (room / "out").exists() else []


def try_vim(tally, program):
    """The Vim files: in Vim where it is installed, and else by their words."""
    if not shutil.which("vim"):
        text = (EDITORS / "vim" / "syntax" / "dpj.vim").read_text(encoding="utf-8")
        known = {word for line in re.findall(r"^syntax keyword \w+ (.*)", text, re.M) for word in line.split() if word != "contained"}
        tally.sees("the keywords of the Vim file", known, keywords())
        return tally
    with tempfile.TemporaryDirectory() as name:
        try_vim_groups(tally, pathlib.Path(name))
    with tempfile.TemporaryDirectory() as name:
        try_vim_compiler(tally, pathlib.Path(name), program)
    return tally


def try_vim_groups(tally, room):
    """The group of each word of the example, and of each keyword."""
    lines = [text for text, _ in VIM_TEXT] + sorted(keywords())
    asked = []
    for number, (text, words) in enumerate(VIM_TEXT, 1):
        for word, want, at in placed(text, [tuple(word.rsplit("=", 1)) for word in words.split()]):
            asked.append((number, at + 1, want, f"`{word}` in {text.strip()!r}"))
    asked += [(number, 1, None, f"`{word}`") for number, word in enumerate(sorted(keywords()), len(VIM_TEXT) + 1)]
    pairs = ", ".join(f"[{line}, {column}]" for line, column, _, _ in asked)
    got = vim(lines, room, "let groups = []", f"for [line, column] in [{pairs}]",
              "  call add(groups, synIDattr(synID(line, column, 1), 'name'))", "endfor", "call add(groups, &filetype)", "call writefile(groups, 'out')")  # fmt: skip
    tally.sees("Vim answers", len(got), len(asked) + 1)
    if len(got) == len(asked) + 1:
        tally.sees("the type of the file", got[-1], "dpj")
        for group, (_, _, want, what) in zip(got, asked):
            tally.sees(f"Vim's group of {what}", group not in ("", "dpjNumber") if want is None else group or "-", True if want is None else want)


def try_vim_compiler(tally, room, program):
    """`:make` finds the place of a refusal; a script writes it as the launcher does."""
    script = room / "dpj"
    answer = f'"{program}" check <"$3" | sed "s/^refused \\([0-9:]*\\) /$3:\\1: refused: /"; echo "dpj: this program is unproved" >&2\n'
    script.write_text('#!/bin/sh\n[ "$1 $2" = "check --editor" ] || exit 1\n' + answer)
    script.chmod(0o755)
    got = vim(["class Main {", "  int main(int n) { return m; }", "}"], room, f"let g:dpj_program = '{script}'", "compiler dpj", "silent make!",
              "let found = filter(getqflist(), 'v:val.valid')",
              "call writefile(map(found, {_, it -> bufname(it.bufnr) . ' ' . it.lnum . ' ' . it.col . ' ' . it.text}), 'out')")  # fmt: skip
    tally.sees("what :make finds in Vim", got, ["a.dpj 2 28 unknown"])
