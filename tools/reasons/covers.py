"""Why a summary doesn't cover a body or another summary: the statements, and a summary that is accepted."""

from .alone import Alone, name_of, summaries_of, summary_for, summary_text
from .atomics import blocks
from .branches import method_at
from .leaving import Edit, Leaving, applied, headers_of, instead, quiet
from .mends import sibling_paths
from .typed import Body
from .world import ROOT, default_of, heads_of, put

STATEMENTS_AT_MOST = 8


def explain_summary(report, world):
    """Fills in a report on `summary`."""
    class_node, method = method_at(world, report.answer.offset)
    if method is None:
        return
    body = Body(world, class_node, method)
    found = uncovered(report, body)
    for access in found:
        shown = world.show(access.path, class_node.name, body.heads)
        role = f"{access.kind} {shown}" + (f" ({access.says})" if access.says else "") + ", which the summary doesn't cover"
        report.name(*head_span(access.statement), role, access.node)
    for access in found:
        if access.says.endswith("has no summary"):
            report.say(f"{access.says[:1].upper()}{access.says[1:]}, so calling it counts as `writes Root:*`. Give it one first.")
        elif access.path == ("Root",):
            report.say(f"`{report.source.text[access.node.start : access.node.end]}` lies in Root, as what is declared without `in R` does.")
    if callee_mend(report, world, body, found) or field_mend(report, body, found) or block_mend(report, body, found):
        return
    summary_mend(report, body, found)


def head_span(node):
    """A statement, of one with a body its head."""
    for part in ("then", "body"):
        if part in node.parts:
            return node.start, node.parts[part].start
    return node.start, node.end


def uncovered(report, body):
    """The accesses that aren't covered: each that is refused when it stands alone in the body."""
    source, method = report.source, body.method
    alone = Alone(source.text, body)
    found, asked = [], {}
    for access in body.accesses:
        key = (access.kind, access.path, access.marked)
        if key not in asked:
            asked[key] = is_refused_alone(report, body, alone, access)
        if asked[key]:
            found.append(access)
    if found:
        return one_each(found)
    return least(report, body)


def one_each(accesses):
    """One access for each node, without reads of what the same statement writes."""
    written_there = {(id(access.statement), access.path) for access in accesses if access.kind == "writes"}
    kept = {}
    for access in accesses:
        if access.kind == "writes" or (id(access.statement), access.path) not in written_there:
            kept.setdefault(id(access.node), access)
    return list(kept.values())[:STATEMENTS_AT_MOST]


def is_refused_alone(report, body, alone, access):
    """Whether a body with this access alone is refused as well, by asking."""
    leaving = Leaving(report.asker, report.source.text, report.answer)
    statement = alone.statement(access)
    if statement is None:
        return False
    if access.marked:
        statement = f"atomic {statement}"
    edits = []
    replaced, result = access.statement, body.type(body.method.result) if body.method.result else None
    for node in body.method.body.walk():
        edits += without(node, replaced, statement, default_of(result))
    text, offset = leaving.with_edits(edits)
    answer = report.asker.check(text)
    return answer.name == report.answer.name and answer.offset == offset


def without(node, kept, statement, result):
    """Edits that leave out what a statement does, and put one in place of the kept one; what is returned becomes a default."""
    if node.kind == "return":
        edits = [instead(node.value, result)] if node.value is not None else []
        return edits + ([Edit(node.start, node.start, f"{{ {statement} "), Edit(node.end, node.end, " }")] if node is kept else [])
    if node is not kept:
        return quiet(node)
    if node.kind == "local":
        return [Edit(node.start, node.start, statement + " ")] + quiet(node)
    if headers_of(node):
        return [Edit(node.start, node.start, "{ " + statement), Edit(node.end, node.end, " }")] + quiet(node)
    return [instead(node, statement)]


def least(report, body):
    """The accesses of the least statements that are refused, by leaving out."""
    leaving = Leaving(report.asker, report.source.text, report.answer)
    leaving.reduce(body.method.body)
    return [access for access in body.accesses if leaving.lives(access.node)][:STATEMENTS_AT_MOST]


def callee_mend(report, world, body, found):
    """Methods without a summary that are called: theirs are tried."""
    lacking = []
    for access in found:
        if access.says.endswith("has no summary"):
            lacking.append(body.callee(access.node))
    lacking = list(dict.fromkeys(lacking))
    if not lacking:
        return False
    ways = zip(*(summaries_of(world, *met) for met in lacking))
    tried = [[Edit(method.summary.end, method.summary.end, f" {summary}") for (_, method), summary in zip(lacking, way)] for way in ways]
    return report.best_of(f"Write a summary for {', '.join(name_of(*met) for met in lacking)}.", tried)


def field_mend(report, body, found):
    """Fields without a region, where the summary names one: they may have been meant to lie there."""
    paths = [":".join(path.elements) for _, path, _ in body.method.summary.items or []]
    fields, owners = [], []
    for access in found:
        if access.node.kind == "field_of" and access.path == ("Root",):
            met = body.world.member(body.types.get(id(access.node.of)), "field", access.node.name)
            if met and met[1].region is None and met[1] not in fields:
                fields.append(met[1])
                owners.append(met[0])
    if not fields or len(fields) != len({access.node.name for access in found}):
        return False
    paths = paths if all(owner is body.class_node for owner in owners) else []
    paths += [path for owner in owners for path in sibling_paths(report.source.text, owner)]
    names = ", ".join(f"`{field.name}`" for field in fields)
    ways = [[Edit(field.end - 1, field.end - 1, f" in {path}") for field in fields] for path in dict.fromkeys(paths)]
    if not report.best_of(f"Declare {names} in a region.", ways):
        return False
    for field in fields:
        report.name(field.start, field.end, "declared without a region, so it lies in Root")
    return True


def written_items(world, body):
    """The items of a method's summary as they are written: reads and writes."""
    reads, writes = [], []
    for kind, path, marked in body.method.summary.items or []:
        shown = ("atomic " if marked else "") + ":".join(path.elements)
        (writes if kind == "writes" else reads).append(shown)
    return reads, writes


def block_mend(report, body, found):
    """What the summary promises to do in atomic blocks alone and the body does outside of them: blocks are tried."""
    promised = [body.path(path) for _, path, marked in body.method.summary.items or [] if marked]
    plain = [access for access in found if access.path in promised and not access.marked]
    if not plain:
        return False
    report.say("The summary has the mark `atomic`, which promises that this is done in atomic blocks alone.")
    return report.mends("Put an atomic block around it.", blocks(report.source.text, body, plain), quiet=True)


def summary_mend(report, body, found):
    """The written summary with what is missing, and if that doesn't do, with all that the body does."""
    world, method, source = body.world, body.method, report.source
    heads = heads_of(body.class_node, method)
    reads, writes = written_items(world, body)
    more_reads, more_writes = summary_for(world, body, found)
    writes_now = writes + [item for item in more_writes if item not in writes]
    reads_now = [item for item in reads + more_reads if item not in writes_now]
    wanted = [summary_text(list(dict.fromkeys(reads_now)), writes_now)]
    if any(access.marked for access in found):
        wanted.append(summary_text(*summary_for(world, body, body.accesses, marks=True)))
    wanted.append(summary_text(*summary_for(world, body, body.accesses)))
    wanted.append("writes " + ", ".join(sorted(f"{head}:*" for head in heads)) if heads else "writes Root:*")
    wanted.append("writes Root:*")
    old = source.text[method.summary.start : method.summary.end].strip()
    ways = [
        [instead(method.summary, summary) if old else Edit(method.summary.end, method.summary.end, " " + summary)]
        for summary in dict.fromkeys(wanted)
    ]
    return report.best_of("Widen the summary." if old else "Write a summary.", ways)


def explain_override(report, world):
    """Fills in a report on `override-effect`."""
    class_node, method = method_at(world, report.answer.offset)
    met = world.overridden(class_node.name, method.name) if method else None
    if not met:
        return
    owner, top = met
    source = report.source
    mine, theirs = (source.text[node.summary.start : node.summary.end].strip() for node in (method, top))
    report.name(method.start, method.body.start, f"the overriding method: {written(mine)}")
    report.name(top.start, top.body.start, f"the method of {owner.name} that it overrides: {written(theirs)}")
    report.say("Who calls the overridden method counts on its summary, so the overriding one does no more.")
    theirs = summary_of_top(world, class_node, owner, top) if theirs else theirs
    edit = Edit(method.summary.start, method.summary.end, " " + theirs) if not mine else instead(method.summary, theirs)
    if theirs and report.mends(f"`{theirs}` for {class_node.name}.{method.name} as well.", [edit]):
        if report.mend["answer"] == "accepted":
            return
    widened(report, world, (class_node, method), (owner, top))


def summary_of_top(world, class_node, owner, top):
    """The summary of an overridden method as it is written in the class of the overriding one."""
    heads = heads_of(owner, top)
    met = world.member(("class", class_node.parent, args_of_parent(world, class_node)), "method", top.name)
    given = met[2] if met else {}
    reads, writes = [], []
    for kind, path, marked in top.summary.items or []:
        shown = world.show(put(world.path(path, owner.name, heads), given), class_node.name, heads_of(class_node))
        (writes if kind == "writes" else reads).append(("atomic " if marked else "") + shown)
    return summary_text(reads, writes)


def args_of_parent(world, class_node):
    """The paths that a class gives its superclass."""
    args = tuple(world.path(arg, class_node.name, heads_of(class_node)) for arg in class_node.parent_args)
    return args or (ROOT,) * len(world.classes[class_node.parent].params)


def written(summary):
    return f"`{summary}`" if summary else "no summary, which is `writes Root:*`"


def widened(report, world, overriding, overridden):
    """The summary of the overridden method with what the overriding one does."""
    body = Body(world, *overriding)
    asked = {}
    for access in body.accesses:
        key = (access.kind, access.path, access.marked)
        if key not in asked:
            asked[key] = is_beyond(report, world, body, access)
        if asked[key]:
            shown = world.show(access.path, overriding[0].name, body.heads)
            report.name(*head_span(access.statement), f"{access.kind} {shown}, which the summary of the overridden method doesn't cover", access.node)
    owner, top = overridden
    top_body = Body(world, owner, top)
    reads, writes = written_items(world, top_body)
    names = dict(zip([name for name, _ in overriding[0].params], [name for name, _ in owner.params]))
    mapped = [access._replace(path=(names.get(access.path[0], access.path[0]),) + access.path[1:]) for access in body.accesses]
    more_reads, more_writes = summary_for(world, top_body, mapped)
    writes = writes + [item for item in more_writes if item not in writes]
    summary = summary_text([item for item in dict.fromkeys(reads + more_reads) if item not in writes], writes)
    if top.summary.items is not None:
        report.mends(f"Or `{summary}` for {owner.name}.{top.name}.", [instead(top.summary, summary)])




def is_beyond(report, world, body, access):
    """Whether the overridden method's summary doesn't cover an access, by asking: as the whole summary of the overriding method."""
    summary, method = summary_text(*summary_for(world, body, [access], marks=True)), body.method
    edit = instead(method.summary, summary) if method.summary.items is not None else Edit(method.summary.end, method.summary.end, " " + summary)
    text, offset = applied(report.source.text, [edit], report.answer.offset)
    answer = report.asker.check(text)
    return (answer.name, answer.offset) == (report.answer.name, offset)
