"""The language server, driven over pipes as an editor does it."""
import json
import os
import pathlib
import select
import shutil
import signal
import subprocess
import sys
import tempfile
import time

HERE = pathlib.Path(__file__).resolve().parent
TOP = HERE.parent.parent
SERVER = TOP / "tools" / "language_server.py"
PYTHON = (sys.executable, "-BEsS")
SECONDS = 30
# So that a busy machine finds the reasons too.
WAITING = ("--why", "20")
URI = "file:///a%20b.dpj"

ACCEPTED = "class Main { int main(int n) { return n; } }\n"
INTERFERES = """class Account {
  region Debit, Credit;
  int debit in Debit;
  int credit in Debit;
  void both(int n) writes Debit, Credit {
    cobegin { this.debit = n; this.credit = n; }
  }
}
class Main { int main(int n) { return n; } }
"""

# Texts, with the range at which each is refused: line and UTF-16 character of the beginning and the end, from 0, counted by hand.
PLACES = {
    "ascii": ("class Main {\n  int main(int n) { return m; }\n}\n", "unknown", (1, 27, 1, 28)),
    "tabs": ("class Main {\n\tint main(int n) {\n\t\treturn m;\n\t}\n}\n", "unknown", (2, 9, 2, 10)),
    "two bytes": ("class Main { int main(int n) { /* \u00e4\u00f6 */ return m; } }\n", "unknown", (0, 47, 0, 48)),
    "two units": ("class Main { int main(int n) { /* \U0001f600 */ return m; } }\n", "unknown", (0, 47, 0, 48)),
    "after a literal": ('class Main { int main(int n) { print("\u20ac\U0001f600"); return mm; } }\n', "unknown", (0, 52, 0, 54)),
    "crlf": ("class Main {\r\n  /* \u00e4 */ int main(int n) {\r\n    return m;\r\n  }\r\n}\r\n", "unknown", (2, 11, 2, 12)),
    "returns alone": ("class Main {\r  int main(int n) {\r    return m;\r  }\r}\r", "unknown", (2, 11, 2, 12)),
    "a letter": ("class Main { int main(int n) { \u00e4 = 1; return n; } }\n", "syntax", (0, 31, 0, 32)),
    "the end": ("class Main {\n  int main(int n) { return n; }\n", "syntax", (1, 30, 1, 31)),
    "nothing": ("", "syntax", (0, 0, 0, 0)),
    "half a pair": ("class Main { int main(int n) { /* \ud83d */ return m; } }\n", "unknown", (0, 46, 0, 47)),
    "a keyword": ("class Main {\n  int x;\n  int main(int n) { cobegin { this.x = 1; this.x = 2; } return 0; }\n}\n", "interferes", (2, 20, 2, 27)),
}


class Talk:
    """A server with its pipes."""

    def __init__(self, *words, **more):
        self.process = subprocess.Popen([*PYTHON, SERVER, *words], stdin=subprocess.PIPE, stdout=subprocess.PIPE, stderr=subprocess.PIPE, **more)
        self.data, self.number = b"", 0

    def raw(self, data):
        self.process.stdin.write(data)
        self.process.stdin.flush()

    def send(self, **message):
        body = json.dumps({"jsonrpc": "2.0", **message}).encode()
        self.raw(b"Content-Length: %d\r\n\r\n%s" % (len(body), body))

    def next(self):
        """The next message of the server; None where none comes."""
        until = time.monotonic() + SECONDS
        while True:
            head, mark, rest = self.data.partition(b"\r\n\r\n")
            size = int(head.split(b":")[1]) if mark else None
            if mark and len(rest) >= size:
                self.data = rest[size:]
                return json.loads(rest[:size])
            if not select.select([self.process.stdout], [], [], max(0, until - time.monotonic()))[0]:
                return None
            piece = os.read(self.process.stdout.fileno(), 65536)
            if not piece:
                return None
            self.data += piece

    def ask(self, method, params):
        """The answer to a request; notes in between are dropped."""
        self.number += 1
        self.send(id=self.number, method=method, params=params)
        while (message := self.next()) is not None:
            if message.get("id") == self.number:
                return message
        return {}

    def note(self, method, params):
        self.send(method=method, params=params)

    def diagnostics(self):
        """The next diagnostics."""
        while (message := self.next()) is not None:
            if message.get("method") == "textDocument/publishDiagnostics":
                return message["params"]
        return {"diagnostics": None}

    def start(self):
        answer = self.ask("initialize", {"processId": None, "rootUri": None, "capabilities": {}})
        self.note("initialized", {})
        return answer

    def put(self, text, version):
        if version == 1:
            self.note("textDocument/didOpen", {"textDocument": {"uri": URI, "languageId": "dpj", "version": 1, "text": text}})
        else:
            self.note("textDocument/didChange", {"textDocument": {"uri": URI, "version": version}, "contentChanges": [{"text": text}]})

    def end(self, shut=True):
        """The status after `exit`."""
        if shut:
            self.ask("shutdown", None)
        self.note("exit", None)
        self.process.communicate(timeout=SECONDS)
        return self.process.returncode


def at(line, character):
    return {"textDocument": {"uri": URI}, "position": {"line": line, "character": character}}


def bounds(found):
    """A range in four numbers."""
    return tuple(found[side][what] for side in ("start", "end") for what in ("line", "character"))


def edited(text, edits):
    """A text of ASCII with the edits of a mend."""
    lines = text.split("\n")
    for edit in sorted(edits, key=lambda one: bounds(one["range"]), reverse=True):
        line, start, last, end = bounds(edit["range"])
        lines[line : last + 1] = [lines[line][:start] + edit["newText"] + lines[last][end:]]
    return "\n".join(lines)


def try_places(tally, talk):
    """Where a refusal stands, in texts one after another; each is followed by an accepted one."""
    version = 0
    for name, (text, refusal, wanted) in PLACES.items():
        version += 1
        talk.put(text, version)
        found = talk.diagnostics()
        tally.sees(f"{name}: version and count", (found.get("version"), len(found["diagnostics"] or ())), (version, 1))
        for one in found["diagnostics"] or ():
            tally.sees(f"{name}: the refusal and its range", (one["code"], bounds(one["range"])), (refusal, wanted))
        version += 1
        talk.put(ACCEPTED, version)
        tally.sees(f"{name}: an accepted text", talk.diagnostics()["diagnostics"], [])
    return version


def try_reasons(tally, talk, program, version):
    """What is said of a refusal, and its mend."""
    talk.put(INTERFERES, version + 1)
    found = talk.diagnostics()["diagnostics"][0]
    tally.sees("a refusal begins with its name", found["message"].startswith("interferes: Two branches"), True)
    places = [bounds(one["location"]["range"])[:2] for one in found["relatedInformation"]]
    tally.sees("both statements are named", {(5, 14), (5, 30)} <= set(places), True)
    told = talk.ask("textDocument/hover", at(5, 6))["result"]
    tally.sees("hover on a refused place", (told["contents"]["value"].startswith("**interferes**: Two branches"), bounds(told["range"])), (True, (5, 4, 5, 11)))
    actions = talk.ask("textDocument/codeAction", {"textDocument": {"uri": URI}, "range": found["range"], "context": {"diagnostics": []}})["result"]
    tally.sees("a mend is offered", len(actions), 1)
    if actions:
        mended = edited(INTERFERES, actions[0]["edit"]["changes"][URI])
        answer = subprocess.run([program, "check"], input=mended.encode(), capture_output=True, timeout=SECONDS, check=False).stdout
        tally.sees("with the mend the text is accepted", answer, b"accepted\n")


def try_words(tally, talk):
    """Hover on keywords, and completion."""
    for line, character, wanted in ((5, 6, "interferes"), (4, 3, "`void`"), (0, 2, "`class`"), (4, 21, "`writes`"), (3, 15, "`in`")):
        told = talk.ask("textDocument/hover", at(line, character))["result"]
        tally.sees(f"hover at {line}:{character}", bool(told) and told["contents"]["value"].startswith(f"**{wanted}**: "), True)
    for line, character in ((2, 8), (99, 0), (7, 99)):
        tally.sees(f"hover at {line}:{character}", talk.ask("textDocument/hover", at(line, character))["result"], None)
    labels = {item["label"] for item in talk.ask("textDocument/completion", at(4, 26))["result"]["items"]}
    tally.sees("regions and keywords", {"Debit", "Credit", "Account.Debit", "cobegin", "foreach_nd", "Root"} <= labels, True)
    tally.sees("no other names", labels & {"both", "debit", "Account", "n"}, set())


# A text, and what hover says of its words.
KEYWORDS = "class Main { int main(int n) { print(1); foreach_nd (int i in 0, 2) { } foreach_parts (v, int k in a, n) { } return 0; } }\n"
SENTENCES = {
    31: "**`print`**: `print` writes an int",
    41: "**`foreach_nd`**: `cobegin_nd` and `foreach_nd` are",
    73: "**`foreach_parts`**: `foreach_parts (v, int k in a, n) S` cuts",
    13: "**`int`**: The types are `int`",
}


def try_sentences(tally, talk, version):
    """What hover says of keywords, though the text is refused elsewhere."""
    talk.put(KEYWORDS, version)
    talk.diagnostics()
    for character, wanted in SENTENCES.items():
        told = talk.ask("textDocument/hover", at(0, character))["result"]
        tally.sees(f"hover on {KEYWORDS[character:].split()[0]}", (told or {"contents": {"value": ""}})["contents"]["value"][: len(wanted)], wanted)


def try_bad(tally, talk):
    """What is no message, or no request, ends nothing."""
    talk.raw(b"Content-Length: 4\r\n\r\n{{{{")
    tally.sees("no JSON", talk.next()["error"]["code"], -32700)
    talk.raw(b"Content-Length: x\r\n\r\n")
    tally.sees("no length", talk.next()["error"]["code"], -32700)
    talk.raw(b"Content-Length: 2\r\n\r\n\xff\xff")
    tally.sees("no UTF-8", talk.next()["error"]["code"], -32700)
    talk.raw(b"Content-Length: 2\r\n\r\n[]")
    tally.sees("no object", talk.next()["error"]["code"], -32600)
    tally.sees("no such method", talk.ask("textDocument/rename", {})["error"]["code"], -32601)
    tally.sees("no parameters", talk.ask("textDocument/hover", {})["error"]["code"], -32602)
    tally.sees("a text that isn't open", talk.ask("textDocument/hover", {**at(0, 0), "textDocument": {"uri": "file:///no"}})["error"]["code"], -32602)
    for params in (None, 7, {"textDocument": 3}, {"textDocument": {"uri": [], "text": 3}}):
        talk.note("textDocument/didOpen", params)
        talk.note("textDocument/didChange", params)
    talk.note("$/unknown", {})
    tally.sees("it goes on", talk.ask("textDocument/completion", at(0, 0)).get("result", {}).get("isIncomplete"), False)


# A text with members, and what is offered at places of its lines: labels that have to be there, and labels that may not.
MEMBERS = """class Top<region P> { int high in P; int rise(int by) reads P { return by; } }
class Low<region Q> extends Top<Q> {
  region Deep;
  int low in Q:Deep;
  Low(int n) writes Q:Deep { this.low = n; }
  int sink(Top<Q> top) reads Q { return top.high + this.low; } // this.low
}
class Main { int own; int main(int n) { print("this.own"); return n; } }
"""
OFFERED = {
    "behind this": ((5, 56), {"low", "high", "rise", "sink"}, {"own", "main", "Low", "by", "n", "while", "Deep"}),
    "behind a local": ((5, 45), {"low", "high", "rise", "sink", "own", "main"}, {"Deep", "while", "P"}),
    "behind a colon": ((3, 15), {"Deep", "Q", "P"}, {"while", "low"}),
    "in a comment": ((5, 73), set(), {"low", "while", "Deep"}),
    "in a literal": ((7, 52), set(), {"own", "while", "Deep"}),
    "elsewhere": ((6, 1), {"Deep", "Low.Deep", "class"}, {"low", "own"}),
}


def try_offers(tally, talk, version):
    """What completion offers, by what stands before the place."""
    talk.put(MEMBERS, version)
    talk.diagnostics()
    for name, ((line, character), wanted, others) in OFFERED.items():
        labels = {item["label"] for item in talk.ask("textDocument/completion", at(line, character))["result"]["items"]}
        tally.sees(f"completion {name}", (wanted - labels, others & labels), (set(), set()))


def try_pieces(tally, program):
    """Changes in pieces, messages in pieces, and what is asked twice or dropped."""
    talk = Talk(program, *WAITING)
    # No process has this number.
    tally.sees("a client that isn't seen", "result" in talk.ask("initialize", {"processId": (1 << 22) + 1, "capabilities": {}}), True)
    tally.sees("initialize twice", talk.ask("initialize", {"processId": None})["error"]["code"], -32600)
    talk.put("class Main { /* \U0001f600 */ int main(int amount) { return amount; } }\n", 1)
    tally.sees("an accepted text", talk.diagnostics()["diagnostics"], [])
    change = {"range": {"start": {"line": 0, "character": 54}, "end": {"line": 0, "character": 56}}, "text": "uo"}
    talk.note("textDocument/didChange", {"textDocument": {"uri": URI, "version": 2}, "contentChanges": [change]})
    found = talk.diagnostics()
    tally.sees("a change of a range", (found["version"], [bounds(one["range"]) for one in found["diagnostics"]]), (2, [(0, 52, 0, 58)]))
    for kinds, count in ((["refactor"], 0), (["source.organizeImports"], 0), (["quickfix"], 1), ([], 1)):
        asked = {"textDocument": {"uri": URI}, "range": found["diagnostics"][0]["range"], "context": {"diagnostics": [], "only": kinds}}
        talk.note("$/cancelRequest", {"id": 1000})
        tally.sees(f"mends of the kinds {kinds}", len(talk.ask("textDocument/codeAction", asked)["result"]), count)
    body = json.dumps({"jsonrpc": "2.0", "id": "a", "method": "textDocument/completion", "params": at(0, 0)}).encode()
    message = b"content-type: application/vscode-jsonrpc; charset=utf-8\r\ncontent-length: %d\r\n\r\n%s" % (len(body), body)
    for piece in (message[:5], message[5:90], message[90:] + message):
        talk.raw(piece)
        time.sleep(0.05)
    tally.sees("two messages in three pieces", [talk.next().get("id") for _ in range(2)], ["a", "a"])
    tally.sees("exit", talk.end(), 0)
    return tally


def try_ends(tally, program):
    """How a server ends."""
    talk = Talk(program)
    tally.sees("before initialize", talk.ask("textDocument/hover", at(0, 0))["error"]["code"], -32002)
    tally.sees("exit without shutdown", talk.end(shut=False), 1)
    talk = Talk(program)
    talk.start()
    talk.process.stdin.close()
    tally.sees("the client closes its pipe", talk.process.wait(SECONDS), 1)
    # The client dies, and its pipes are held open by another.
    client = subprocess.Popen(["sleep", "60"])
    talk = Talk(program)
    talk.ask("initialize", {"processId": client.pid, "capabilities": {}})
    client.send_signal(signal.SIGKILL)
    client.wait()
    tally.sees("the client dies", talk.process.wait(SECONDS), 1)
    talk = Talk("/no/such/program")
    talk.start()
    talk.put(ACCEPTED, 1)
    tally.sees("there is no such program", talk.next()["method"], "window/showMessage")
    tally.sees("exit", talk.end(), 0)
    done = subprocess.run([*PYTHON, SERVER, "a", "b", "c"], capture_output=True, timeout=SECONDS, check=False)
    tally.sees("words that are no call", done.returncode, 2)
    return tally


def try_client(tally, program):
    """The client for VS Code, in node, with a module in place of the editor."""
    node = shutil.which("node")
    if not node:
        return tally
    with tempfile.TemporaryDirectory() as room:
        text = pathlib.Path(room) / "a.dpj"
        text.write_text(INTERFERES)
        command = [node, HERE / "client.js", json.dumps([*PYTHON, str(SERVER), program, *WAITING]), text]
        done = subprocess.run(command, capture_output=True, text=True, timeout=SECONDS, check=False)
    tally.sees("the client for VS Code", (done.stdout.splitlines(), done.stderr, done.returncode), (
        ["diagnostics 1 interferes 5:4-5:11", "hover **interferes**", "completion Account.Debit 19", "mend Credit", "diagnostics 0", "ended"], "", 0))
    return tally


def try_server(tally, program):
    """What a server answers while it goes on."""
    talk = Talk(program, *WAITING)
    answer = talk.start()["result"]["capabilities"]
    tally.sees("positions", answer["positionEncoding"], "utf-16")
    version = try_places(tally, talk)
    try_reasons(tally, talk, program, version)
    try_words(tally, talk)
    try_sentences(tally, talk, version + 2)
    try_offers(tally, talk, version + 3)
    try_bad(tally, talk)
    talk.note("textDocument/didClose", {"textDocument": {"uri": URI}})
    tally.sees("a closed text has no diagnostics", talk.diagnostics()["diagnostics"], [])
    talk.ask("shutdown", None)
    tally.sees("after shutdown", talk.ask("textDocument/hover", at(0, 0)).get("error", {}).get("code"), -32600)
    tally.sees("exit after shutdown", talk.end(shut=False), 0)
    return tally
