"""Asking the program whether a text is accepted."""

import subprocess
import time
from typing import NamedTuple, Optional

STATUS_REFUSED = 2


class Spent(Exception):
    """The questions or the time that were granted are used up."""


class NoAnswer(Exception):
    """The program said nothing that can be read as an answer."""


class Answer(NamedTuple):
    """An answer of `check`: accepted where there is no name."""

    name: Optional[str]
    line: int = 0
    column: int = 0
    offset: int = -1

    @property
    def accepted(self):
        return self.name is None

    def __str__(self):
        return "accepted" if self.accepted else f"refused {self.line}:{self.column} {self.name}"


class Asker:
    """Asks a program, each text once, as long as questions and time last."""

    def __init__(self, program, questions=400, seconds=10.0, spare=5.0):
        """`spare` is how much longer the answer to a question may take."""
        self.program = program
        self.spare = spare
        self.left = questions
        self.end = time.monotonic() + seconds
        self.known = {}

    def check(self, text):
        """The answer to a text, with the offset of its place."""
        if text not in self.known:
            if self.left <= 0 or self.is_late():
                raise Spent
            self.left -= 1
            self.known[text] = self.asked(text)
        return self.known[text]

    def is_late(self):
        return time.monotonic() > self.end

    def asked(self, text):
        """The answer of the program itself."""
        room = max(0.05, self.end - time.monotonic()) + self.spare
        try:
            made = subprocess.run([self.program, "check"], input=text.encode("latin-1"), capture_output=True, timeout=room, check=False)
        except subprocess.TimeoutExpired:
            raise Spent from None
        except OSError as fault:
            raise NoAnswer(f"{self.program} can't be run: {fault.strerror}") from None
        words = made.stdout.decode("latin-1").split()
        if made.returncode == 0 and words == ["accepted"]:
            return Answer(None)
        if made.returncode != STATUS_REFUSED or len(words) != 3 or words[0] != "refused":
            raise NoAnswer(f"{self.program} check ended with status {made.returncode} and said nothing that is known")
        line, column = (int(number) for number in words[1].split(":"))
        return Answer(words[2], line, column, offset_in(text, line, column))


def offset_in(text, line, column):
    """The offset of a place of a text."""
    start = 0
    for _ in range(line - 1):
        start = text.find("\n", start) + 1
        if start == 0:
            return len(text)
    return min(start + column - 1, len(text))
