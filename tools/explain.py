"""Explains what a refusal, a trap, a limit or a status means, and how it is mended.

    ./dpj explain [NAME ...]

The names are those that the program writes, in small or capital letters; without one all are listed. The texts are those of docs/REFUSALS.md
and docs/TRAPS.md. The status is 1 where a name isn't known, 127 where a document is missing, and 6 where standard output takes nothing.
"""
import argparse
import sys

import sections
from screen import bold, columns_of, has_colours, keep_closed, printable, tell, wrapped, write_all

USAGE, WRITE_FAULT, NO_DOCUMENT = 1, 6, 127
WIDEST = 100


def lines_of(section, columns, is_coloured):
    """A section as lines of a screen: paragraphs are wrapped, programs moved in, each with what dpj answers to it."""
    yield bold(section.name, is_coloured)
    for paragraph in section.paragraphs():
        yield ""
        if paragraph[0].startswith("```"):
            yield from (f"    {line}" for line in paragraph[1:-1])
            yield f"    ({paragraph[0].removeprefix('```')})"
        else:
            yield from wrapped(sections.plain(paragraph[0]), columns)


def listing(known, columns):
    """Each name with its sentence."""
    for name, section in known.items():
        yield from wrapped(section.sentence(), columns, initial_indent=f"{name:15} ", subsequent_indent=" " * 16)


def unknown(known, word):
    """What is said of a name that isn't known."""
    near = sections.nearest(known, word)
    guess = f"; did you mean `{near}`?" if near else ""
    return f"dpj: no refusal, trap or status is named `{printable(word)}`{guess}; the names are {', '.join(known)}"


def main():
    options = argparse.ArgumentParser(description=__doc__, formatter_class=argparse.RawDescriptionHelpFormatter)
    options.add_argument("names", nargs="*", metavar="NAME")
    given, others = options.parse_known_args()
    names = given.names + others
    keep_closed()
    known, missing = sections.load()
    if missing:
        tell([f"dpj: not every name can be explained, since {sections.TOP} has no {' and no '.join(missing)}"])
    columns, status = min(WIDEST, columns_of(1)), NO_DOCUMENT if missing else 0
    lines = [] if names else list(listing(known, columns))
    for word in names:
        section = sections.found(known, word)
        if section:
            lines += [*([""] if lines else []), *lines_of(section, columns, has_colours(1))]
        elif not missing:
            status = USAGE
            tell([unknown(known, word)])
    try:
        write_all(1, "".join(f"{line}\n" for line in lines).encode("utf-8"))
    except OSError:
        return WRITE_FAULT
    return status


if __name__ == "__main__":
    sys.exit(main())
