"""Texts with the summaries that `effects` writes, in place of the written ones: they are accepted, and ask for the same again.

    python3 tests/inferred.py [PROGRAM]

The texts are those of the cases, the examples and the documents that are accepted. PROGRAM is out/dpj where none is named. tests/run calls this.
The status is 1 where an answer differs.
"""
import concurrent.futures
import os
import pathlib
import re
import subprocess
import sys

TOP = pathlib.Path(__file__).resolve().parent.parent
TOKEN = re.compile(r'//[^\n]*|/\*.*?\*/|"(?:\\.|[^"\\\n])*"|\w+|\S', re.S)
SECONDS = 120

# The most bytes that a text may have.
MAX_TEXT = 1048576


def tokens_of(text):
    """The tokens of a text but for comments, each with where it begins and ends."""
    for found in TOKEN.finditer(text):
        if not found.group().startswith(("//", "/*")):
            yield found.group(), found.start(), found.end()


def headers(text):
    """Of each method and constructor its class, its name, and where its summary stands, between the formals and the body."""
    tokens, braces, name = list(tokens_of(text)), 0, None
    for at, (token, _, _) in enumerate(tokens):
        if braces == 0 and token == "class":
            name = tokens[at + 1][0]
        if braces == 1 and token == "(":
            # No brackets stand within those of formals.
            close = next(place for place in range(at, len(tokens)) if tokens[place][0] == ")")
            body = next(place for place in range(close, len(tokens)) if tokens[place][0] == "{")
            yield f"{name}.{tokens[at - 1][0]}", tokens[close][2], tokens[body][1]
        braces += {"{": 1, "}": -1}.get(token, 0)


def with_summaries(text, lines):
    """The text with these summaries, a line for each method and constructor."""
    pieces, done = [], 0
    for (name, start, end), line in zip(headers(text), lines, strict=True):
        member, _, summary = line.partition(" ")
        if member != name:
            raise ValueError(f"{member} stands where {name} was looked for")
        pieces += [text[done:start], f" {summary} "]
        done = end
    return "".join(pieces) + text[done:]


def effects(program, text):
    """What `effects` writes of a text, and its status."""
    done = subprocess.run([program, "effects"], input=text.encode("latin-1"), capture_output=True, timeout=SECONDS)
    return done.stdout.decode("latin-1"), done.returncode


def tried(program, source):
    """What is wrong with a text once its summaries are the inferred ones, which is empty where nothing is; None of a text
    that isn't accepted, or that has no room for them."""
    text = source.decode("latin-1")
    answer, status = effects(program, text)
    if status != 0:
        return None
    again = with_summaries(text, answer.splitlines())
    if len(again) > MAX_TEXT:
        return None
    got = effects(program, again)
    return "" if got == (answer, 0) else f"wanted {answer!r}, got {got} of {again!r}"


def campaign(program, sources):
    """How many of the accepted ones among these texts pass, and how many fail."""
    with concurrent.futures.ThreadPoolExecutor(os.cpu_count()) as pool:
        faults = [fault for fault in pool.map(lambda source: tried(program, source), sorted(set(sources))) if fault is not None]
    failed = [fault for fault in faults if fault]
    for fault in failed:
        print(f"failed inferred summaries: {fault}"[:600])
    print(f"inferred summaries: {len(faults)} texts that are accepted, {len(failed)} differ with them")
    return len(faults) - len(failed), len(failed)


def main():
    import cases

    program = pathlib.Path(sys.argv[1] if len(sys.argv) > 1 else TOP / "out" / "dpj")
    passed, failed = campaign(program, (case["source"] for case in cases.load([], True) if case["status"] != 2))
    print(f"{passed} passed, {failed} failed")
    return 1 if failed else 0


if __name__ == "__main__":
    sys.exit(main())
