#!/usr/bin/env python3
"""A language server for texts of dpj, over standard input and standard output.

Editors start this, and talk to it as the language server protocol says: messages are JSON, each behind a header with its length, and whole texts
are handed over when they change.

Diagnostics: the refusal of a text, a tenth of a second after its last change, with what tools/why.py finds in short time. Hover: on a refused
place what docs/REFUSALS.md says of it, on a keyword a sentence of docs/LANGUAGE.md. Completion: the declared regions, also as CLASS.REGION, and
the keywords; behind a dot fields and methods. Code actions: the mend of a refusal, where one was found.

Status: 0 after `shutdown` and `exit`, 1 where the client ends without them, 2 for words that are no call.
"""
import argparse
import os
import pathlib
import subprocess
import sys
import time

from reasons.asking import NoAnswer
from serving.framing import Bad, Closed, Reader, Writer
from serving.paper import Paper
from serving.refusals import refusal
from serving.words import explained, offered, word_at

TOP = pathlib.Path(__file__).resolve().parent.parent
DELAY, ALIVE_SECONDS, WHY_SECONDS = 0.1, 1, 0.25
ERROR_SHOWN = 1
FULL_TEXT = 1
NO_REQUEST, NO_METHOD, NO_PARAMETERS, INTERNAL, TOO_EARLY = -32600, -32601, -32602, -32603, -32002
CAPABILITIES = {
    "positionEncoding": "utf-16",
    "textDocumentSync": {"openClose": True, "change": FULL_TEXT},
    "hoverProvider": True,
    "completionProvider": {"triggerCharacters": [".", ":"]},
    "codeActionProvider": True,
}


class Refused(Exception):
    """A request that gets an error, with its code."""

    def __init__(self, code, text):
        super().__init__(text)
        self.code = code


def kept():
    """The program that ./dpj would take; None where it would make one."""
    try:
        made = subprocess.run([TOP / "tools" / "sources"], stdin=subprocess.DEVNULL, capture_output=True, text=True, check=False)
    except OSError:
        return None
    sums = dict(line.split(None, 1) for line in made.stdout.splitlines() if " " in line)
    found = (TOP / "out" / kind / sums.get(kind, "none") / "dpj" for kind in ("proved", "unproved"))
    return next((str(path) for path in found if os.access(path, os.X_OK)), None)


class Server:
    """The texts that are open, and what is answered to messages."""

    def __init__(self, program, seconds, reader, writer):
        self.program, self.seconds, self.reader, self.writer = program, seconds, reader, writer
        self.is_ready = self.is_shut = False
        self.client = None
        self.texts, self.versions, self.refusals = {}, {}, {}
        self.changed = {}
        self.shown = set()
        self.requests = {
            "initialize": self.initialize, "shutdown": self.shutdown, "textDocument/hover": self.hover,
            "textDocument/completion": self.completion, "textDocument/codeAction": self.actions,
        }  # fmt: skip
        self.notes = {"textDocument/didOpen": self.opened, "textDocument/didChange": self.changes, "textDocument/didClose": self.closed}

    def serve(self):
        """Serves until it is told to end; gives the status."""
        while True:
            try:
                message = self.reader.next(self.patience())
                if message is None:
                    self.idle()
                elif message.get("method") == "exit":
                    return 0 if self.is_shut else 1
                else:
                    self.take(message)
            except Bad as bad:
                self.writer.write({"id": None, "error": {"code": bad.code, "message": str(bad)}})

    def patience(self):
        """How long to wait for a message before something is to be done."""
        if not self.changed:
            return ALIVE_SECONDS
        return max(0, min(self.changed.values()) + DELAY - time.monotonic())

    def idle(self):
        """Diagnoses what has changed; without a client that lives this ends."""
        if self.client is not None and not is_alive(self.client):
            raise Closed
        now = time.monotonic()
        for uri in [uri for uri, when in self.changed.items() if when + DELAY <= now]:
            try:
                self.diagnose(uri)
            except (OSError, ValueError, LookupError, TypeError) as fault:
                self.show(f"the text isn't diagnosed: {fault!r}")

    def take(self, message):
        """Answers a request, or takes a note."""
        method, number = message.get("method"), message.get("id")
        if not isinstance(method, str):
            if "result" not in message and "error" not in message:
                self.writer.write({"id": number, "error": {"code": NO_REQUEST, "message": "no method"}})
            return
        try:
            result = self.called(method, message.get("params"), "id" in message)
            error = None
        except Refused as refused:
            error = {"code": refused.code, "message": str(refused)}
        except Closed:
            raise
        except (KeyError, TypeError, AttributeError, ValueError, IndexError) as fault:
            error = {"code": NO_PARAMETERS, "message": f"the parameters of {method}: {fault!r}"}
        except Exception as fault:  # noqa: BLE001
            # An editor that lost its server for one request would lose all the others too.
            error = {"code": INTERNAL, "message": f"{method}: {fault!r}"}
        if "id" in message:
            self.writer.write({"id": number, **({"error": error} if error else {"result": result})})

    def called(self, method, parameters, is_request):
        """The result of a message."""
        if not is_request:
            if self.is_ready and not self.is_shut and method in self.notes:
                self.notes[method](parameters)
            return None
        if method not in self.requests:
            raise Refused(NO_METHOD, f"{method} is unknown")
        if self.is_shut:
            raise Refused(NO_REQUEST, "the server is shut down")
        if not self.is_ready and method != "initialize":
            raise Refused(TOO_EARLY, "initialize comes first")
        return self.requests[method](parameters)

    def initialize(self, parameters):
        if self.is_ready:
            raise Refused(NO_REQUEST, "initialize comes once")
        process = (parameters or {}).get("processId")
        self.is_ready = True
        # A client that isn't seen here, as from inside a container, isn't watched.
        is_seen = isinstance(process, int) and process > 0 and is_alive(process)
        self.client = process if is_seen else None
        return {"capabilities": CAPABILITIES, "serverInfo": {"name": "dpj"}}

    def shutdown(self, _):
        self.is_shut = True

    def opened(self, parameters):
        document = parameters["textDocument"]
        self.put(document["uri"], document["text"], document.get("version"))

    def changes(self, parameters):
        document, changes = parameters["textDocument"], parameters["contentChanges"]
        paper = self.texts[document["uri"]]
        for change in changes:
            # Whole texts are asked for, but some clients send pieces all the same.
            paper = Paper(paper.edited(change["range"], change["text"]) if change.get("range") else change["text"])
        self.put(document["uri"], paper.text, document.get("version"))

    def put(self, uri, text, version):
        self.texts[uri], self.versions[uri] = Paper(text), version
        self.changed[uri] = time.monotonic()

    def closed(self, parameters):
        uri = parameters["textDocument"]["uri"]
        for table in (self.texts, self.versions, self.refusals, self.changed):
            table.pop(uri, None)
        self.publish(uri, [])

    def diagnose(self, uri):
        """Asks about a text, and tells what came out."""
        self.changed.pop(uri, None)
        self.refusals[uri] = None
        try:
            self.program = self.program or kept()
            if not self.program:
                raise NoAnswer(f"there is no program yet: call {TOP / 'dpj'} check once, which makes it")
            self.refusals[uri] = refusal(self.program, self.texts[uri], uri, self.seconds)
        except NoAnswer as fault:
            self.show(str(fault))
        found = self.refusals[uri]
        self.publish(uri, [found.diagnostic()] if found else [])

    def publish(self, uri, diagnostics):
        parameters = {"uri": uri, "diagnostics": diagnostics}
        if isinstance(self.versions.get(uri), int):
            parameters["version"] = self.versions[uri]
        self.writer.write({"method": "textDocument/publishDiagnostics", "params": parameters})

    def show(self, text):
        """Shows the user a text, once."""
        if text not in self.shown:
            self.shown.add(text)
            self.writer.write({"method": "window/showMessage", "params": {"type": ERROR_SHOWN, "message": f"dpj: {text}"}})

    def current(self, parameters):
        """The open text that parameters name, with its refusal."""
        uri = parameters["textDocument"]["uri"]
        if uri in self.changed:
            self.diagnose(uri)
        return uri, self.texts[uri], self.refusals.get(uri)

    def hover(self, parameters):
        _, paper, found = self.current(parameters)
        position = parameters["position"]
        word = word_at(paper, position)
        if found and found.holds(paper.offset(position)):
            return {"contents": {"kind": "markdown", "value": found.markdown()}, "range": paper.span(found.start, found.end)}
        told = explained(word[0]) if word else None
        return {"contents": {"kind": "markdown", "value": told}} if told else None

    def completion(self, parameters):
        paper = self.texts[parameters["textDocument"]["uri"]]
        return {"isIncomplete": False, "items": offered(paper, parameters["position"])}

    def actions(self, parameters):
        """The mend of a refusal that lies in the range."""
        uri, paper, found = self.current(parameters)
        wanted = (parameters.get("context") or {}).get("only")
        if wanted and not any("quickfix" == kind or "quickfix".startswith(f"{kind}.") for kind in wanted):
            return []
        start, end = (paper.offset(parameters["range"][side]) for side in ("start", "end"))
        if not found or not found.report["mend"] or end < found.start or found.end < start:
            return []
        edits = {"changes": {uri: list(found.edits())}}
        return [{"title": found.report["mend"]["text"], "kind": "quickfix", "diagnostics": [found.diagnostic()], "edit": edits}]


def is_alive(process):
    """Whether there is a process."""
    try:
        os.kill(process, 0)
    except ProcessLookupError:
        return False
    except OSError:
        return True
    return True


def main(words):
    """Serves one client; gives the status."""
    options = argparse.ArgumentParser(description=__doc__, formatter_class=argparse.RawDescriptionHelpFormatter)
    options.add_argument("program", nargs="?", help="the path of the program dpj; without it that is asked which ./dpj would take")
    options.add_argument("--why", type=float, default=WHY_SECONDS, metavar="SECONDS", help="how long reasons are looked for; %(default)s without it")
    given = options.parse_args(words)
    try:
        return Server(given.program, given.why, Reader(0), Writer(1)).serve()
    except (Closed, KeyboardInterrupt):
        return 1


if __name__ == "__main__":
    sys.exit(main(sys.argv[1:]))
