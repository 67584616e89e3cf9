"""Messages of the language server protocol over two descriptors: JSON, each behind a header with its length."""
import json
import os
import select
import time

PIECE = 1 << 16
MOST = 64 << 20
HEADER_MOST = 1 << 14
PARSE_ERROR, NO_REQUEST = -32700, -32600


class Bad(Exception):
    """Bytes that are no message, with the code that is answered."""

    def __init__(self, code, text):
        super().__init__(text)
        self.code = code


class Closed(Exception):
    """Nobody writes or reads any more."""


class Reader:
    """Reads messages."""

    def __init__(self, descriptor):
        self.descriptor = descriptor
        self.data = bytearray()
        self.skipped = 0

    def next(self, seconds):
        """The next message; None where none comes in so many seconds."""
        until = time.monotonic() + seconds
        while True:
            message = self.taken()
            if message is not None:
                return message
            rest = until - time.monotonic()
            if rest <= 0 or not select.select([self.descriptor], [], [], rest)[0]:
                return None
            piece = os.read(self.descriptor, PIECE)
            if not piece:
                raise Closed
            self.data += piece

    def taken(self):
        """Takes a message off the bytes that have come; None where they are no whole one."""
        if self.skipped:
            gone = min(self.skipped, len(self.data))
            del self.data[:gone]
            self.skipped -= gone
        head, mark, _ = self.data.partition(b"\r\n\r\n")
        if not mark:
            if len(head) > HEADER_MOST:
                self.data.clear()
                raise Bad(PARSE_ERROR, "a header without an end")
            return None
        start = len(head) + len(mark)
        size = size_of(bytes(head))
        if size is None or size > MOST:
            del self.data[:start]
            self.skipped = size or 0
            raise Bad(PARSE_ERROR, "a header without a length" if size is None else "the message is too long")
        if len(self.data) < start + size:
            return None
        body = bytes(self.data[start : start + size])
        del self.data[: start + size]
        return message_of(body)


def size_of(head):
    """The length that a header says; None where it says none."""
    for line in head.split(b"\r\n"):
        name, _, value = line.partition(b":")
        if name.strip().lower() == b"content-length" and value.strip().isdigit() and len(value) < 20:
            return int(value)
    return None


def message_of(body):
    """The message that bytes are."""
    try:
        message = json.loads(body)
    except (ValueError, RecursionError):
        raise Bad(PARSE_ERROR, "no JSON") from None
    if not isinstance(message, dict):
        raise Bad(NO_REQUEST, "no object")
    return message


class Writer:
    """Writes messages."""

    def __init__(self, descriptor):
        self.descriptor = descriptor

    def write(self, message):
        body = json.dumps({"jsonrpc": "2.0", **message}).encode("ascii")
        left = memoryview(b"Content-Length: %d\r\n\r\n%s" % (len(body), body))
        try:
            while left:
                left = left[os.write(self.descriptor, left) :]
        except OSError:
            raise Closed from None
