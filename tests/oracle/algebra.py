#!/usr/bin/env python3
"""The table of the trials of the algebra (`disjoint.rt`): pairs of region paths with what they mean and what the rules say.

A path is written as a letter for its head (R for Root, p and q for parameters) and a letter for each element:
A B C names, 0 1 literal indices, u v variables, w the renamed copy of v, ? any index, * any elements, l m local
regions. A row is `PATH OTHER CONSTRAINTS ANSWERS`. The answers are letters:
    I  in every environment the first path matches only regions that the other matches
    i  the rule of inclusion says that the first path lies in the other
    D  in no environment is there a region that both match
    d  the rules of disjointness say that the two are disjoint
What a path means is decided by itself, over environments: with one put in, a path is a regular expression over the
elements of regions, and questions on two of them are answered by walking both at once. The rules are read here once
more, straight from their words, by plain backtracking. Nothing of the program under test is used.
"""
import itertools
import random
import sys

NAMES, LITS, LOCALS = "ABC", "01", "lm"
ELEMENTS = NAMES + LITS + "uvw?*" + LOCALS

CONSTRAINTS = [
    [],
    [("p", "q")],
    [("p*", "q*")],
    [("p*", "RA*")],
    [("RA*", "p*"), ("q", "RB")],
]

# ---- the rules


def is_index(x):
    return x in "01uvw?"


def is_local(x):
    return x in "lm"


def lies(a, b):
    """The list a lies in the list b, by the words of the rule."""
    if not b:
        return not a
    if b[0] == "*" and lies(a, b[1:]):
        return True
    if a and b[0] == "*" and not is_local(a[0]) and lies(a[1:], b):
        return True
    return bool(a) and (a[0] == b[0] or (b[0] == "?" and is_index(a[0]))) and lies(a[1:], b[1:])


def included(a, b):
    if a[0] == b[0]:
        return lies(a[1:], b[1:])
    return a[0] != "R" and b[0] == "R" and b[1:2] == "*" and lies(a[1:], b[1:])


def distinct(x, y):
    if "*" in (x, y) or x == y:
        return False
    kind = lambda e: "name" if e in NAMES else "local" if is_local(e) else "index"
    if kind(x) != kind(y):
        return True
    if kind(x) != "index":
        return True
    return (x in LITS and y in LITS) or {x, y} == {"v", "w"}


def pair_before_star(a, b):
    for x, y in zip(a, b):
        if x == "*" or y == "*":
            return False
        if distinct(x, y):
            return True
    return False


def by_length(a, b):
    """a has no `*` and m elements, b more than m that aren't `*`."""
    if "*" in a[1:] or not (a[0] == b[0] or a[0] == "R"):
        return False
    return sum(x != "*" for x in b[1:]) > len(a) - 1


def disjoint(a, b, given):
    if a[0] == b[0] and pair_before_star(a[1:], b[1:]):
        return True
    if by_length(a, b) or by_length(b, a):
        return True
    if pair_before_star(a[:0:-1], b[:0:-1]):
        return True
    return any(
        (included(a, r) and included(b, s)) or (included(a, s) and included(b, r)) for r, s in given
    )


# ---- the meaning: symbols of regions are names, numbers and made local regions

REGIONS = ["", "A", "B", "C", "0", "AB", "BA", "A0", "Z"]
MADE = {"l": "x", "m": "y"}
SYMBOLS = "ABCZ" + "0123" + "xyz"
NUMBERS = "0123"


def fits(element, symbol):
    """Whether one element of a path with the environment put in fits one symbol."""
    if element == "?":
        return symbol in NUMBERS
    if element == "*":
        return symbol not in "xyz"
    return element == symbol


def put(path, env):
    head = "" if path[0] == "R" else env[path[0]]
    return head + "".join(env.get(e, MADE.get(e, e)) for e in path[1:])


def ways(pattern, at):
    """The positions that are reached from one without a symbol."""
    seen = {at}
    while at < len(pattern) and pattern[at] == "*":
        at += 1
        seen.add(at)
    return seen


def after(pattern, positions, symbol):
    found = set()
    for at in positions:
        if at < len(pattern) and fits(pattern[at], symbol):
            found |= ways(pattern, at if pattern[at] == "*" else at + 1)
    return frozenset(found)


def walk(p, q):
    """Every pair of position sets that some region leads to."""
    start = (frozenset(ways(p, 0)), frozenset(ways(q, 0)))
    seen, todo = {start}, [start]
    while todo:
        here = todo.pop()
        yield here
        for symbol in SYMBOLS:
            there = (after(p, here[0], symbol), after(q, here[1], symbol))
            if there[0] and there not in seen:
                seen.add(there)
                todo.append(there)


def common(p, q):
    return any(len(p) in s and len(q) in t for s, t in walk(p, q))


def matches_less(p, q):
    return all(len(q) in t for s, t in walk(p, q) if len(p) in s)


def environments(paths, given):
    used = set("".join(paths)) | set("".join(r + s for r, s in given))
    letters = [e for e in "pquvw" if e in used]
    choices = [REGIONS if e in "pq" else NUMBERS for e in letters]
    for values in itertools.product(*choices):
        env = dict(zip(letters, values))
        if "v" in env and "w" in env and env["v"] == env["w"]:
            continue
        if all(dyn_disjoint(put(r, env), put(s, env)) for r, s in given):
            yield env


def dyn_disjoint(a, b):
    """The rules without constraints over paths of a run. Symbols of a run that the rules' words don't have letters
    for are only in environments: Z is a name, 2 and 3 are numbers, x y z are local regions."""
    spell = str.maketrans("Zxyz23", "\u0393\u03bb\u03bc\u03bd\u0392\u0394")
    kind = lambda e: "index" if e in "0123?" else "local" if e in "xyz" else "name"
    apart = lambda x, y: x != y and (kind(x) != kind(y) or (kind(x) != "index" or "?" not in (x, y)))
    def front(s, t):
        for x, y in zip(s, t):
            if x == "*" or y == "*":
                return False
            if apart(x, y):
                return True
        return False
    longer = lambda s, t: "*" not in s and sum(x != "*" for x in t) > len(s)
    return front(a, b) or front(a[::-1], b[::-1]) or longer(a, b) or longer(b, a)


# ---- the pairs


def paths():
    """All short paths, and longer ones drawn at random, with a fixed seed."""
    draw = random.Random(20260)
    short = [h + "".join(t) for h in "Rpq" for n in (0, 1) for t in itertools.product(ELEMENTS, repeat=n)]
    long = set()
    while len(long) < 400:
        kinds = draw.choice(["AB*", "AB0?*", ELEMENTS, "Al*m", "A*?01", "uvw*?"])
        long.add(draw.choice("RRRpq") + "".join(draw.choice(kinds) for _ in range(draw.randint(2, 4))))
    return short, sorted(long)


def loosened(draw, path):
    """The path with an element or two made wider, or its parameter under the root."""
    for _ in range(draw.randint(1, 2)):
        at = draw.randrange(0, len(path))
        if at == 0:
            path = path if path[0] == "R" else draw.choice(["R*", path[0] + "*"]) + path[1:]
        elif path[at] in "01uvw" and draw.random() < 0.5:
            path = path[:at] + "?" + path[at + 1:]
        else:
            path = path[:at] + "*" + path[at + draw.randint(0, 2):]
    return path


def chosen():
    draw = random.Random(7)
    short, long = paths()
    rows = [(a, b, 0) for a, b in [
        ("RA*", "RAB"), ("RAu", "RAv"), ("RAv", "RAw"), ("p", "RA"), ("p", "R*"), ("pA", "R*A"), ("RA?", "RA0"),
        ("RA*B", "RA*C"), ("R*AB", "R*CB"), ("pAB", "RA"), ("RA", "pAB"), ("Rl", "R*"), ("Rl0", "Rm*"),
        ("Rl*", "R*"), ("RlA", "Rl*"), ("p*A", "q*B"), ("R*A*", "RBA*C"), ("RAAB", "R*AB"), ("RABAB", "R*AB"),
        ("Rll", "R*l"), ("RlAl", "R*l"), ("RAl", "R*l*"),
    ]]
    while len(rows) < 520:
        pool = draw.choice([short, long, long])
        a, b = draw.choice(pool), draw.choice(pool)
        kind = draw.random()
        if kind < 0.3 and len(a) > 1:
            at = draw.randrange(1, len(a))
            b = a[:at] + draw.choice(ELEMENTS) + a[at + draw.randint(0, 1):]
        elif kind < 0.7:
            b = loosened(draw, a)
        g = draw.randrange(len(CONSTRAINTS)) if {a[0], b[0]} & {"p", "q"} else 0
        row = (a, b[:5], g) if draw.random() < 0.7 else (b[:5], a, g)
        if row not in rows:
            rows.append(row)
    return rows


def main():
    unsound = 0
    for a, b, g in chosen():
        given = CONSTRAINTS[g]
        envs = list(environments([a, b], given))
        put_in = [(put(a, e), put(b, e)) for e in envs]
        answers = ""
        means_in = all(matches_less(p, q) for p, q in put_in)
        means_apart = not any(common(p, q) for p, q in put_in)
        rule_in, rule_apart = included(a, b), disjoint(a, b, given)
        answers += "I" if means_in else ""
        answers += "i" if rule_in else ""
        answers += "D" if means_apart else ""
        answers += "d" if rule_apart else ""
        if (rule_in and not means_in) or (rule_apart and not means_apart):
            unsound += 1
            print("unsound:", a, b, given, file=sys.stderr)
        print(a, b, g, answers or "-")
    return 1 if unsound else 0


if __name__ == "__main__":
    sys.exit(main())
