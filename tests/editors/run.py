#!/usr/bin/env python3
"""Tries what stands in editors/, and tools/language_server.py.

    tests/editors/run.py PROGRAM

PROGRAM is the path of the program dpj. The TextMate grammar is tried over a table written by hand (colours.txt), the Vim files in Vim where it is
installed, the language server over pipes, and the client for VS Code in node where that is installed, with a module in place of the editor. Writes a line for
each failure, and then `N passed, N failed`.
"""
import concurrent.futures
import pathlib
import sys

import colours
import talking


class Tally:
    """Counts what is so and what isn't."""

    def __init__(self):
        self.passed = self.failed = 0

    def sees(self, what, got, wanted):
        if got == wanted:
            self.passed += 1
            return
        self.failed += 1
        print(f"editors: {what}\n  wanted {wanted!r}\n  got    {got!r}")


def main(words):
    """Runs all; gives the status."""
    if len(words) != 1 or words[0] in ("-h", "--help"):
        print(__doc__.strip())
        return 0 if words else 1
    program = str(pathlib.Path(words[0]).resolve())
    parts = (colours.try_textmate, colours.try_package, colours.try_vim, talking.try_server, talking.try_pieces, talking.try_ends,
             talking.try_client)
    with concurrent.futures.ThreadPoolExecutor(len(parts)) as pool:
        tallies = list(pool.map(lambda part: part(Tally(), program), parts))
    passed, failed = sum(tally.passed for tally in tallies), sum(tally.failed for tally in tallies)
    print(f"{passed} passed, {failed} failed")
    return 1 if failed or not passed else 0


if __name__ == "__main__":
    sys.exit(main(sys.argv[1:]))
