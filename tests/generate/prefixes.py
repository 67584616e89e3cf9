"""Every prefix of an accepted program that ends with a token is refused as `syntax` at its end: a program begins with it. Those
that end with a class are programs of the grammar themselves, and are answered otherwise.

    python3 tests/generate/prefixes.py [PROGRAM]

The accepted programs are those of tests/cases and of examples/check. PROGRAM is out/dpj where none is named.
"""
import concurrent.futures
import json
import os
import pathlib
import re
import subprocess
import sys

TOP = pathlib.Path(__file__).resolve().parents[2]
TOKEN = re.compile(rb'//[^\n]*|/\*.*?\*/|"(?:[^"\\\n]|\\.)*"|\w+|[<>=!]=|&&|\|\||[^\s\w]', re.S)
COMMENT = re.compile(rb"//|/\*")


def prefixes(program):
    """Each prefix that ends with a token, and its answer: None where the prefix is a program of the grammar."""
    depth = 0
    for token in TOKEN.finditer(program):
        if COMMENT.match(token.group()):
            continue
        depth += (token.group() == b"{") - (token.group() == b"}")
        prefix = program[: token.end()]
        line, column = prefix.count(b"\n") + 1, len(prefix) - (prefix.rfind(b"\n") + 1) + 1
        is_whole = token.group() == b"}" and depth == 0
        yield prefix, None if is_whole else f"refused {line}:{column} syntax\n".encode()


def accepted_programs():
    for path in sorted((TOP / "tests" / "cases").rglob("*.json")):
        for case in json.loads(path.read_text(encoding="utf-8")):
            if case["stdout"] == "accepted\n" and isinstance(case.get("source"), str):
                yield case["source"].encode()
    for path in sorted((TOP / "examples" / "check").glob("*.dpj")):
        if path.with_suffix(".out").read_text() == "accepted\n":
            yield path.read_bytes()


def main():
    program = sys.argv[1] if len(sys.argv) > 1 else TOP / "out" / "dpj"
    # Programs that begin alike have most of their prefixes in common.
    wanted = dict(pair for text in accepted_programs() for pair in prefixes(text))
    if not wanted:
        sys.exit("tests/generate/prefixes.py: no accepted program is there")

    def answer(prefix):
        return subprocess.run([program, "check"], input=prefix, capture_output=True, timeout=60).stdout

    with concurrent.futures.ThreadPoolExecutor(os.cpu_count()) as pool:
        answers = pool.map(answer, wanted)
    failed = 0
    for (prefix, want), got in zip(wanted.items(), answers):
        is_right = got.endswith(b"\n") and b" syntax" not in got if want is None else got == want
        if not is_right:
            failed += 1
            print(f"failed: {len(prefix)} bytes: {prefix[-60:]!r}: wanted {want or 'no syntax fault'}, got {got}"[:300])
    print(f"{len(wanted) - failed} passed, {failed} failed")
    return 1 if failed else 0


if __name__ == "__main__":
    sys.exit(main())
