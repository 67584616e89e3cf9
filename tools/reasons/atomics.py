"""Mends of nd constructs: atomic blocks, atomic regions, and marks in summaries."""

from .leaving import Edit, instead, is_around
from .world import default_of, is_named


def atomic_blocks(report, found):
    """The accesses of an nd construct: blocks around them, marks in summaries, and regions that are atomic."""
    both = list(dict.fromkeys(found.pair))
    plain = [access for access in both if not access.marked]
    declared = list(dict.fromkeys(edit for access in both for edit in made_atomic(found, access)))
    if plain:
        listed = ", ".join(f"`{found.text[access.node.start : access.node.end]}`" for access in plain)
        report.say(f"Not every access that interferes is inside an atomic block: {listed}.")
    if declared:
        report.say(f"{found.region(found.pair[0])} isn't an atomic region.")
    if not plain and not declared:
        return dropped_marks(report, found)
    region = ["declare its region `atomic region`"] if declared else []
    marked = [access for access in plain if mark_of(found, access)]
    edits = blocks(found.text, found.body, [access for access in plain if access not in marked])
    edits += [edit for access in marked for edit in mark_of(found, access)]
    if marked and report.mends(sentence(["mark the effect in the summary", *region]), edits + declared, quiet=True):
        if report.mend["answer"] == "accepted":
            return True
    edits = blocks(found.text, found.body, plain)
    what = ["put an atomic block around it"] if plain else []
    return bool(edits + declared) and report.mends(sentence(what + region), edits + declared)


def nd_construct(report, found):
    """Blocks in branches of a construct that promises one result: the one that lets them come in any order."""
    fork, keyword = found.fork, found.fork.keyword
    if fork.parts.get("part") or not all(access.marked for access in found.pair):
        return False
    report.say(
        f"The accesses are in atomic blocks, but a {keyword} promises one result, whatever the order of its branches. Under {keyword}_nd blocks may come"
        " in any order, and the result may depend on it."
    )
    return report.mends(f"Use `{keyword}_nd`.", [Edit(fork.start, fork.start + len(keyword), f"{keyword}_nd")], quiet=True)


def sentence(parts):
    text = " and ".join(parts) + "."
    return text[0].upper() + text[1:]


def blocks(text, body, accesses):
    """Edits that put atomic blocks around the statements of accesses."""
    edits = []
    for statement in dict.fromkeys(access.statement for access in accesses):
        if "then" in statement.parts or "body" in statement.parts:
            continue
        if statement.kind == "local":
            edits += declared_before(text, body, statement)
            continue
        edits += [Edit(statement.start, statement.start, "atomic { "), Edit(statement.end, statement.end, " }")]
    return edits


def mark_of(found, access):
    """The edit by which the item of a summary that an access is by gets its mark."""
    met = found.body.callee(access.node)
    if not met or met[1].summary.items is None:
        return []
    by_item = [other for other in found.body.accesses if other.node is access.node]
    path = met[1].summary.items[by_item.index(access)][1]
    return [Edit(path.start, path.start, "atomic ")]


def dropped_marks(report, found):
    """Blocks inside a construct that promises one result: it drops their marks, so the block goes around it."""
    for access in dict.fromkeys(found.pair):
        inner = [node for node in found.fork.walk() if node.kind in ("cobegin", "foreach") and node is not found.fork and is_around(node, access.statement)]
        if not inner or inner[0].keyword.endswith("_nd"):
            continue
        keyword, place = inner[0].keyword, "{}:{}".format(*report.source.place(inner[0].start))
        report.name(inner[0].start, inner[0].start + len(keyword), "drops the marks of the blocks in it")
        report.say(f"The {keyword} of {place} promises one result, so it drops the marks of atomic blocks in it: the block goes around the {keyword}.")
        edits = [Edit(inner[0].start, inner[0].start, "atomic { "), Edit(inner[0].end, inner[0].end, " }")]
        edits += [Edit(node.start, node.block.start, "") for node in inner[0].walk() if node.kind == "atomic"]
        if report.mends(f"Put an atomic block around the {keyword}.", edits, quiet=True):
            return True
    return False


def declared_before(text, body, node):
    """Edits by which a local gets its value in an atomic block after its declaration."""
    value = text[node.value.start : node.value.end]
    return [instead(node.value, default_of(body.type(node.type))), Edit(node.end, node.end, f" atomic {{ {node.name} = {value}; }}")]


def made_atomic(found, access):
    """The edit by which the region name at the end of a path is declared atomic."""
    names = [element for element in access.path if is_named(element)]
    if len(names) < 2:
        return []
    owner, _, region = names[-1].rpartition(".")
    node = found.world.classes.get(owner)
    for member in node.members if node else []:
        if member.kind == "regions" and not member.atomic and region in [token.text for token in member.names]:
            return [Edit(member.start, member.start, "atomic ")]
    return []
