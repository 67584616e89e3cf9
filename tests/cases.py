"""The program against worked cases: what it writes and its status.

    tests/run [--only WORD] [--show] [FILE.json ..]

A case is an object with "name", "words", "source", "stdout" and "status"; its name says the rule that it tries, and no two
cases share one. The source is a text, or is made:
{"pad": TEXT, "to": N} is TEXT and then spaces up to N bytes, {"repeat": TEXT, "times": N} repeats TEXT,
{"classes": N} is N empty classes, and "source_hex" gives the bytes in hex. With no FILE, every tests/cases/KIND/RULE.json is run;
every examples/NAME.dpj, which must write examples/NAME.out with status 0; every examples/check/NAME.dpj, for which `check`
must answer NAME.out, and where NAME.ran is there, `run` and `elide` on 10 what that holds; every examples/kernels/NAME.dpj, which
writes NAME.ran on 40, elided, by 1, 4 and 64 workers, and by rounds; every program of README.md, docs/*.md
and examples/README.md, which stands in a fence that begins with ```dpj check: ANSWER, ```dpj run: LINE, LINE or ```dpj elide: LINE, LINE;
and prefixes of accepted programs (tests/generate/prefixes.py), of three examples where the program is unproved. Where it is proved, random
programs follow (tests/generate/random_programs.py), programs with random schedules (tests/oracle/schedules.py), a few in orders that were worked out
(tests/oracle/worked_orders.py), programs with seeds and their costs (tests/oracle/seeds.py), the short ones among all programs within just
the limits that they cost (tests/oracle/costs.py), and the accepted texts with their inferred summaries (tests/inferred.py), each of
which passes or fails; `--only random` asks for these alone. It is an error, and no pass, where a fence isn't understood or no case is left.

The program is out/dpj where ./build or the gate made it of these sources; else it is built once, unproved, by `rt try`.
"""
import argparse
import collections
import concurrent.futures
import json
import os
import pathlib
import re
import subprocess
import sys
import tempfile

import inferred
from generate import prefixes, random_programs
from oracle import costs, schedules, seeds, worked_orders

TOP = pathlib.Path(__file__).resolve().parent.parent
CASES = TOP / "tests" / "cases"
PROVED = TOP / "out" / "dpj"
CRATE = TOP / "crates" / "tool_cli"
SECONDS = 120

# The examples whose prefixes are tried on an unproved program, which is slow to ask.
CUT = ("squares", "two_regions", "parts")

# How each kernel is run: it writes the same in every way.
KERNEL_WAYS = ("elide", "run workers=1", "run workers=4", "run workers=64", "run mode=rounds")

# What may follow the three marks that open a fence, other than nothing: words for the program, and the lines that it answers.
FENCE = re.compile(
    r"dpj ((?:check|run|elide)(?: [a-z]+=[-\w]+)*): "
    r"(accepted|refused \d+:\d+ [a-z-]+|(?:-?\w+, )*result -?\d+|(?:-?\w+, )*trap [a-z]+ \d+:\d+|limit)"
)
STATUSES = {"refused": 2, "trap": 3, "limit": 4}


def bytes_of(case):
    """The bytes that a case gives to the program."""
    if "source_hex" in case:
        return bytes.fromhex(case["source_hex"])
    source = case.get("source", "")
    if isinstance(source, str):
        return source.encode()
    if "pad" in source:
        return source["pad"].encode().ljust(source["to"], b" ")
    if "classes" in source:
        return "".join(f"class C{number:05d}{{ }}\n" for number in range(source["classes"])).encode()
    return source["repeat"].encode() * source["times"]


def from_json(path):
    file = path.resolve()
    name = file.relative_to(CASES) if file.is_relative_to(CASES) else file.name
    for case in json.loads(path.read_text(encoding="utf-8")):
        yield {
            "name": f"{name}: {case['name']}",
            "words": case["words"],
            "source": bytes_of(case),
            "stdout": case["stdout"].encode(),
            "status": case["status"],
        }


def from_example(path):
    return {
        "name": f"examples: {path.name}",
        "words": ["run"],
        "source": path.read_bytes(),
        "stdout": path.with_suffix(".out").read_bytes(),
        "status": 0,
    }


def checked(name, source, answer):
    """A text for `check`, with the line that it answers."""
    return {
        "name": name,
        "words": ["check"],
        "source": source,
        "stdout": answer,
        "status": 0 if answer == b"accepted\n" else 2,
    }


def from_checked_example(path):
    return checked(f"examples/check: {path.name}", path.read_bytes(), path.with_suffix(".out").read_bytes())


def from_run_example(path, ways, argument):
    """An accepted example, run on an argument in several ways, with what it writes in each."""
    for way in ways:
        yield {
            "name": f"{path.parent.relative_to(TOP)}: {path.stem}, {way}",
            "words": [*way.split(), f"arg={argument}"],
            "source": path.with_suffix(".dpj").read_bytes(),
            "stdout": path.read_bytes(),
            "status": 0,
        }


def fences(path):
    """Each fence of a document: its first line's number, the heading above it, what follows its marks, and its lines."""
    heading, opened = path.stem, None
    for number, line in enumerate(path.read_text(encoding="utf-8").split("\n"), 1):
        if not line.lstrip().startswith(("```", "~~~")):
            if opened:
                opened[3].append(line)
            elif line.startswith("#"):
                heading = line.lstrip("# ")
        elif opened is None:
            opened = (number, heading, line.removeprefix("```"), [])
        elif line == "```":
            yield opened
            opened = None
        else:
            sys.exit(f"{path.relative_to(TOP)}:{number}: a fence inside of a fence")
    if opened:
        sys.exit(f"{path.relative_to(TOP)}:{opened[0]}: a fence that isn't closed")


def from_document(path):
    """The programs of a document, each with the words and the answer in the line that opens its fence."""
    for number, heading, info, lines in fences(path):
        found = FENCE.fullmatch(info)
        if found is None and (info or any(line.startswith("class ") for line in lines)):
            sys.exit(f"{path.relative_to(TOP)}:{number}: a fence that isn't understood: {info or 'a program without its answer'}")
        if found:
            words, answer = found.groups()
            yield {
                "name": f"{path.relative_to(TOP)}, {heading}, line {number}",
                "words": words.split(),
                "source": "".join(f"{line}\n" for line in lines).encode(),
                "stdout": (answer.replace(", ", "\n") + "\n").encode(),
                "status": STATUSES.get(answer.split(", ")[-1].split()[0], 0),
            }


def unmended(path):
    """The first refusal that a document has a heading for, but no program that is refused so, or none that is accepted."""
    answers = collections.defaultdict(list)
    for _, heading, info, _ in fences(path):
        answers[heading].append(info.split(" ")[-1])
    # The text of the first would have a megabyte, no program is known that gets the second, and the others are of traces.
    names = set(re.findall(r"^## (.+)$", path.read_text(encoding="utf-8"), re.M)) - {"too-long", "trace", "schedule"}
    return next((name for name in sorted(names) if not {name, "accepted"} <= set(answers[name])), None)


def from_prefixes(programs):
    """The prefixes of accepted programs that end with a token, but for those that are programs of the grammar themselves."""
    answers = dict(pair for program in programs for pair in prefixes.prefixes(program))
    for number, (prefix, answer) in enumerate(answers.items()):
        if answer:
            yield checked(f"prefix {number}, that ends with {prefix[-12:]!r}", prefix, answer)


def load(files, is_proved):
    if files:
        return [case for file in files for case in from_json(pathlib.Path(file))]
    cases = [case for file in sorted(CASES.rglob("*.json")) for case in from_json(file)]
    cases += [from_example(file) for file in sorted((TOP / "examples").glob("*.dpj"))]
    cases += [from_checked_example(file) for file in sorted((TOP / "examples" / "check").glob("*.dpj"))]
    cases += [case for file in sorted((TOP / "examples" / "check").glob("*.ran")) for case in from_run_example(file, ("run", "elide"), 10)]
    cases += [case for file in sorted((TOP / "examples" / "kernels").glob("*.ran")) for case in from_run_example(file, KERNEL_WAYS, 40)]
    missing = unmended(TOP / "docs" / "REFUSALS.md")
    if missing:
        sys.exit(f"docs/REFUSALS.md: {missing} has no program that is refused so, or none that is mended")
    documents = [TOP / "README.md", TOP / "examples" / "README.md", *sorted((TOP / "docs").glob("*.md"))]
    cases += [case for file in documents for case in from_document(file)]
    few = ((TOP / "examples" / "check" / f"{name}.dpj").read_bytes() for name in CUT)
    return cases + list(from_prefixes(prefixes.accepted_programs() if is_proved else few))


def is_fresh():
    """Whether ./build or the gate made the proved program of the sources as they are."""
    if not PROVED.exists():
        return False
    made = PROVED.stat().st_mtime_ns
    folders = [folder for kind in ("src", "specs", "proofs") for folder in (TOP / "crates").glob(f"*/{kind}")]
    inside = [path for folder in folders for path in folder.rglob("*")]
    return all(path.stat().st_mtime_ns <= made for path in folders + inside + [TOP / "crates.txt"])


def ask(case):
    """What the proved program writes, and its status."""
    try:
        done = subprocess.run([PROVED, *case["words"]], input=case["source"], capture_output=True, timeout=SECONDS)
        return done.stdout, done.returncode
    except subprocess.TimeoutExpired:
        return f"(no answer in {SECONDS} s)".encode(), None


def run_proved(cases):
    with concurrent.futures.ThreadPoolExecutor(os.cpu_count()) as pool:
        for case, got in zip(cases, pool.map(ask, cases)):
            case["got"] = got


def run_unproved(cases):
    """Builds the program once with `rt try`, which compares each output by itself."""
    with tempfile.TemporaryDirectory() as folder:
        for number, case in enumerate(cases):
            base = pathlib.Path(folder) / f"{number:05d}"
            base.write_bytes(case["source"])
            base.with_suffix(".stdout").write_bytes(case["stdout"])
            if case["words"]:
                base.with_suffix(".args").write_text("".join(word + "\n" for word in case["words"]))
        done = subprocess.run(["rt", "try", "--cases", folder], cwd=CRATE, capture_output=True, text=True, errors="replace")
    lines = re.findall(r"^case=(\d+) (.*)$", done.stderr + done.stdout, re.M)
    if not lines:
        sys.exit(done.stderr[-3000:] + "\ntests/run: the program was not built")
    for number, line in lines:
        case = cases[int(number)]
        status = re.search(r"run=ended status=(\d+)", line)
        written = case["stdout"] if "output=expected" in line else b"(something else)"
        case["got"] = (written, int(status.group(1)) if status else None)


def wants_campaigns(options, is_proved):
    """Whether the campaigns are to be made. In them a program is asked for many times, so an unproved one is too slow."""
    is_wanted = not options.files and re.search(options.only or "", "random programs and schedules, and inferred summaries")
    if is_wanted and not is_proved:
        print("tests/run: random programs and schedules, costs and inferred summaries are left out, since the sources run unproved")
    return is_wanted and is_proved


def campaigns(cases, shows):
    """How many random programs, programs with random schedules or within their costs and texts with inferred summaries passed, and how many failed."""
    sources = (case["source"] for case in cases if case["status"] != 2)
    counts = (
        random_programs.campaign(PROVED, shows=shows), schedules.campaign(PROVED), worked_orders.campaign(PROVED), seeds.campaign(PROVED),
        costs.campaign(PROVED, cases), inferred.campaign(PROVED, sources))
    return tuple(map(sum, zip(*counts)))


def main():
    options = argparse.ArgumentParser(description=__doc__, formatter_class=argparse.RawDescriptionHelpFormatter)
    options.add_argument("--only")
    options.add_argument("--show", action="store_true")
    options.add_argument("files", nargs="*")
    options = options.parse_args()
    is_proved = is_fresh()
    loaded = load(options.files, is_proved)
    twice = [name for name, count in collections.Counter(case["name"] for case in loaded).items() if count > 1]
    if twice:
        sys.exit(f"tests/run: two cases are named {twice[0]}")
    cases = [case for case in loaded if re.search(options.only or "", case["name"])]
    has_campaigns = wants_campaigns(options, is_proved)
    if not cases and not has_campaigns:
        sys.exit(f"tests/run: no case is left{f' whose name has {options.only}' if options.only else ''}")
    if is_proved:
        run_proved(cases)
    else:
        print("tests/run: the sources are newer than the proved program, so they run unproved, which takes ten minutes and more", flush=True)
        run_unproved(cases)
    passed, failed = campaigns(loaded, options.show) if has_campaigns else (0, 0)
    for case in cases:
        wanted, got = (case["stdout"], case["status"]), case.get("got", (b"(not run)", None))
        if got != wanted:
            failed += 1
            print(f"failed {case['name']}: {' '.join(case['words'])}: wanted {wanted}, got {got}"[:400])
            continue
        passed += 1
        if options.show:
            print(f"passed {case['name']}")
    print(f"{passed} passed, {failed} failed")
    return 1 if failed else 0


if __name__ == "__main__":
    sys.exit(main())
