#!/usr/bin/env python3
"""What a reader has to believe of the clauses of `dpj`: the definitions that they reach by name, in an order in which they can be read.

    python3 tests/reading.py            the list of the promise (`promised`, `replayed`), and of what the other clauses reach besides
    python3 tests/reading.py CLAUSE..   the list of these clauses
    python3 tests/reading.py --write    writes the lists into the documents
    python3 tests/reading.py --check    the status is 1 where the documents have other lists; tests/run calls this

A line of a list has the lines of a module of `specs/` that are reached, and what the module says of itself. Imports, comments and blanks don't
count, nor does what std defines. Types of the code that definitions name count by themselves. Names are told by their spelling, so a local
variable may reach a definition of its name: the figures are upper bounds. The documents have each list, and numbers, between marks.
"""
import collections
import functools
import pathlib
import re
import signal
import sys

TOP = pathlib.Path(__file__).resolve().parent.parent
CALL = TOP / "crates/tool_top/src/call.rt"
DOCUMENTS = ["README.md", "docs/PROOFS.md", "docs/THEOREM.md", "docs/DECISIONS.md"]
CRATES = (TOP / "crates.txt").read_text()
ORDER = [line.partition(":")[0] for line in CRATES.split("\n") if ":" in line and line[0] != "#"]
PROMISE = ["promised", "replayed"]
MEND = "run tests/reading.py --write"

USE = re.compile(r"(?:pub )?(?:ghost )?use Rattle\.(\w+)\.specs\.([^\s{;]+?)(?:\.\{(.*)\})?(?: as (\S+?))?;?$")
NAME = re.compile(r"[A-Za-z_][\w'-]*(?:\.[A-Za-z_][\w'-]*)*")
BEGINS = re.compile(r"(?:abbrev|unfoldable|opaque|pub|record|data|mutual|module)\b")
DEFINES = re.compile(r"\s*(?:(?:abbrev|unfoldable|opaque|pub|mutual|record|data|module) )+([^\s:({,]+(?:, [^\s:({,]+)*)\s*(?:[:({]|where|$)")
CONSTRUCTS = re.compile(r"\s+([^\s:({,=]+(?:, [^\s:({,=]+)*) : ")
MARKED = re.compile(r"<!-- reading: ([\w-]+) -->(.*?)<!-- end -->", re.S)


def file_of(crate, name):
    return TOP / f"crates/{crate}/specs/{name.replace('.', '/')}.antt"


@functools.lru_cache(None)
def is_module(crate, name):
    return crate in ORDER and file_of(crate, name).is_file()


def first_sentence(comment):
    """What a comment that several lines begin with says first, without what marks these lines."""
    return re.split(r"\.(?:\s|$)", re.sub(r"\n(?:--|//!) ", " ", comment[comment.index(" ") + 1 :]))[0]


class Piece:
    """A definition, or several that are defined at once."""

    def __init__(self, module, line):
        self.module, self.lines = module, [line]

    def names(self):
        """The names that it defines, with those of the constructors of data; a field is reached with its record."""
        for line in self.lines[:1] if re.match(r"(pub )?record ", self.lines[0]) else self.lines:
            found = DEFINES.match(line) or CONSTRUCTS.match(line)
            yield from found[1].split(", ") if found else ()

    @functools.cached_property
    def reached(self):
        return self.module.imports.named("\n".join(self.lines), self.module.pieces.get)


class TypeOfCode(collections.namedtuple("TypeOfCode", "crate file name")):
    """A type of the code, which has as many lines as its declaration."""

    def count(self):
        source = TOP / "crates" / self.crate / "src" / f"{self.file}.rt"
        declared = rf"^(?:pub(?:\(\w+\))? )?(?:struct|enum) {self.name}\b(?:[^\n]*[;}}]$|.*?^\}})"
        missing = f"tests/reading.py: {source.relative_to(TOP)}: no type {self.name}, which definitions name"
        found = re.search(declared, source.read_text(), re.S | re.M) or sys.exit(missing)
        return sum(1 for line in found[0].split("\n") if line.strip() and not line.strip().startswith("//"))


class Imports:
    """What the imports of a file bring into scope: single names, and whole modules by an alias."""

    def __init__(self, lines):
        self.single, self.whole, self.modules = {}, {}, set()
        for found in filter(None, map(USE.match, lines)):
            crate, path, names, alias = found.groups()
            pairs, parts = [name.split(" as ") for name in re.split(r", *", names or alias or "") if name], path.split(".")
            size = next((size for size in range(len(parts), 0, -1) if is_module(crate, ".".join(parts[:size]))), 0)
            if parts[0] == "declared" and crate in ORDER:
                at = next(at for at, part in enumerate(parts) if part[0].isupper())
                self.single.update({pair[-1]: TypeOfCode(crate, "/".join(parts[1:at]), parts[at]) for pair in pairs})
            elif size:
                # A path that goes on behind the module names a definition in it.
                module = crate, ".".join(parts[:size])
                self.modules.add(module)
                if names is None and size == len(parts):
                    self.whole[alias] = module
                else:
                    self.single.update({pair[-1]: (module, [*parts[size:], pair[0]][0]) for pair in pairs})

    def single_named(self, name):
        """The piece or type that an imported name means, also one that is handed on by another module."""
        target = self.single.get(name)
        return target if target is None or isinstance(target, TypeOfCode) else module_of(*target[0]).piece(target[1])

    def named(self, text, own=lambda name: None):
        """The pieces and types that a text names, by imports or by names of its `own` module."""
        reached = set()
        for name in set(NAME.findall(text)):
            first, _, rest = name.partition(".")
            reached |= {self.single_named(first), own(first)}
            if first in self.whole and rest:
                reached.add(module_of(*self.whole[first]).piece(rest.split(".")[0]))
        return reached - {None}


class Module:
    """A file of definitions."""

    def __init__(self, crate, name):
        self.crate, self.path, pieces = crate, name.replace(".", "/"), []
        self.text = file_of(crate, name).read_text()
        self.imports = Imports(self.text.split("\n"))
        for line in self.text.split("\n"):
            if not line.strip() or line.strip().startswith("--") or re.match(r"\s*(pub )?(use|mod) ", line):
                continue
            if BEGINS.match(line) or not pieces:
                pieces.append(Piece(self, line))
            else:
                pieces[-1].lines.append(line)
        self.pieces = {name: piece for piece in reversed(pieces) for name in piece.names()}

    def piece(self, name):
        return self.pieces.get(name) or self.imports.single_named(name)


module_of = functools.lru_cache(None)(Module)


def clauses():
    """What each clause of `dpj` reaches."""
    text = CALL.read_text()
    found = re.search(r"^pub fn dpj\b.*?^\{", text, re.S | re.M) or sys.exit(f"tests/reading.py: {CALL.relative_to(TOP)}: no function dpj")
    imports, parts = Imports(text.split("\n")), re.split(r"^ *ensures (\w+) ", re.sub(r"//.*", "", found[0]), flags=re.M)
    return {name: closure(imports.named(says)) for name, says in zip(parts[1::2], parts[2::2])}


def closure(start):
    seen, todo = set(), list(start)
    while todo:
        one = todo.pop()
        if one not in seen:
            seen.add(one)
            todo.extend(one.reached if isinstance(one, Piece) else ())
    return seen


@functools.lru_cache(None)
def depth(module):
    """How many modules of its crate stand below a module, one on the other."""
    return max((1 + depth(module_of(*one)) for one in module.imports.modules if one[0] == module.crate), default=0)


class List:
    """What is reached, by modules in reading order."""

    def __init__(self, reached):
        types = [one for one in reached if isinstance(one, TypeOfCode)]
        counted = collections.Counter()
        for piece in reached - set(types):
            counted[piece.module] += len(piece.lines)
        in_order = sorted(counted, key=lambda module: (ORDER.index(module.crate), depth(module), module.path))
        self.modules, self.lines = [(module, counted[module]) for module in in_order], sum(counted.values())
        self.sums = f"{self.lines} lines of {len(counted)} modules, and {len(types)} types of the code in {sum(map(TypeOfCode.count, types))} lines"

    def show(self, title):
        print(f"{title}: {self.sums}")
        for module, lines in self.modules:
            print(f"{lines:6}  {module.crate + '/specs/' + module.path:34}  {first_sentence(module.text)}")

    def table(self, head, row, part, says):
        """A row for each value of `row`, with the lines of its parts."""
        rows = collections.defaultdict(collections.Counter)
        for module, lines in self.modules:
            rows[row(module)][part(module)] += lines
        written = [head, "|---|---|---|---|"]
        for name, parts in rows.items():
            written.append(f"| `{name}` | {says(name)} | {', '.join(f'`{one}` {size}' for one, size in parts.items())} | {sum(parts.values())} |")
        return "\n".join(written)

    def by_crates(self):
        says = lambda crate: first_sentence((TOP / "crates" / crate / "src/lib.rt").read_text())
        return self.table("| Crate | What it is | Its modules, with their lines | Lines |", lambda module: module.crate, lambda module: module.path, says)

    def by_families(self):
        says = dict(re.findall(r"# (\w+_): (.*)", CRATES)).get
        head = "| Family | What it is about | Its crates, with their lines | Lines |"
        return self.table(head, lambda module: module.crate.partition("_")[0] + "_", lambda module: module.crate, says)


def lists():
    """The list of the promise, that of the rest, and what stands in the documents by the name of its mark."""
    each = clauses()
    promise = set().union(*(each[name] for name in PROMISE))
    first, rest = List(promise), List(set().union(*each.values()) - promise)
    alone = " and ".join(f"`{name}` alone {List(each[name]).lines}" for name in PROMISE)
    parts = {"promise": f"\n{first.by_crates()}\n\nIn all {first.sums}; {alone}.\n", "rest": f"\n{rest.by_families()}\n\nIn all {rest.sums}.\n"}
    return first, rest, {**parts, "promise-lines": str(first.lines), "rest-lines": str(rest.lines)}


def faults_of(texts, parts):
    """Where the documents say something else than the definitions."""
    for document, text in texts.items():
        for found in MARKED.finditer(text):
            if found[2] != parts.get(found[1]):
                yield f"{document}:{text.count(chr(10), 0, found.start()) + 1}: `{found[1]}` isn't what the clauses reach; {MEND}"
    for name in parts:
        if not any(f"<!-- reading: {name} -->" in text for text in texts.values()):
            yield f"docs/PROOFS.md:1: there are no marks `<!-- reading: {name} --><!-- end -->`; put them where `{name}` belongs, and {MEND}"


def main(words):
    if words and words[0] in ("--help", "-h"):
        print(__doc__.strip())
    elif words and words[0] in ("--write", "--check"):
        parts, texts = lists()[2], {document: (TOP / document).read_text() for document in DOCUMENTS}
        if words[0] == "--write":
            for document, text in texts.items():
                texts[document] = MARKED.sub(lambda found: f"<!-- reading: {found[1]} -->{parts.get(found[1], found[2])}<!-- end -->", text)
                (TOP / document).write_text(texts[document])
        faults = list(faults_of(texts, parts))
        sys.stderr.writelines(f"tests/reading.py: {fault}\n" for fault in faults)
        return 1 if faults else 0
    elif words:
        each = clauses()
        if not each.keys() >= set(words):
            sys.exit(f"tests/reading.py: the clauses of dpj are {', '.join(each)}")
        List(set().union(*(each[word] for word in words))).show(" ".join(words))
    else:
        for title, shown in zip(["the promise", "\nwhat the other clauses reach besides"], lists()):
            shown.show(title)
    return 0


if __name__ == "__main__":
    signal.signal(signal.SIGPIPE, signal.SIG_DFL)
    sys.exit(main(sys.argv[1:]))
