"""Mends of elements of arrays that aren't told apart: by their indices, or by the region of the array."""

from .leaving import Edit, instead
from .source import fresh_region


def indexed_array(found, of):
    """Edits by which each element of an array without an index name, a local or a field, gets a region of its own."""
    declared, created = None, []
    if of.kind == "name":
        for node in found.body.method.body.walk():
            if node.kind == "local" and node.name == of.name:
                declared = node.type
            value = node.parts.get("value") if node.kind in ("local", "assign") else None
            name = node.name if node.kind == "local" else node.target.parts.get("name") if node.kind == "assign" else None
            created += [value] if value is not None and name == of.name and value.kind == "new_array" else []
    elif of.kind == "field_of":
        met = found.world.member(found.body.types.get(id(of.of)), "field", of.name)
        declared = met[1].type if met else None
        assigned = [node for node in found.world.program.walk() if node.kind == "assign" and node.target.kind == "field_of"]
        created = [node.value for node in assigned if node.target.name == of.name and node.value.kind == "new_array"]
    if declared is None or len(declared.suffixes) != 1 or declared.suffixes[0][1] is not None:
        return []
    return with_index(found, declared, created)


def with_index(found, declared, created):
    """Edits that put an index name into the type of an array and into its creations."""
    text = found.text
    taken = {token.text for token in found.report.source.tokens}
    name = found.fork.parts.get("name") or next(name for name in ("i", "j", "k", "l", "at", "index") if name not in taken)
    path = declared.suffixes[0][0]
    tail = f"<{text[path.start : path.end] if path else 'Root'}:[{name}]>#{name}"
    args = f"<{', '.join(text[arg.start : arg.end] for arg in declared.args)}>" if declared.args else ""
    edits = [instead(declared, f"{declared.base}{args}[]{tail}")]
    for value in created:
        element, length = (text[part.start : part.end] for part in (value.element, value.length))
        edits.append(instead(value, f"new {element}[{length}]{tail}"))
    return edits


def own_index(report, found):
    """Elements and objects that are the same in every iteration, or may be, by what their paths say of the index."""
    if not found.is_loop or ("Root", "*") in [access.path for access in found.pair]:
        return False
    for access in dict.fromkeys(found.pair):
        if is_one_object(found, access):
            report.say(
                f"`{found.text[access.node.of.start : access.node.of.end]}` is an object of {found.region(access)} in every iteration. An array by"
                " index, as `C<R:[i]>[]<R:[i]>#i`, has an object of a region of its own at each."
            )
            return False
        if access.node.kind == "element" and of_element(report, found, access):
            return True
    if not found.fork.part:
        not_apart(report, found)
    return False


def is_one_object(found, access):
    """Whether what is accessed is of an element of an array, in a region that has nothing of the loop's variable."""
    node = access.node
    is_member = node.kind in ("field_of", "call") and node.of.kind == "element"
    return is_member and not any(element[0] == "[" for element in access.path)


def of_element(report, found, access):
    """An element of an array in one region, or at an index that says nothing; whether a mend was found."""
    node, fork = access.node, found.fork
    if (found.body.types.get(id(node.of)) or ("part",))[0] == "part":
        return False
    array = found.text[node.of.start : node.of.end]
    if is_in_one_region(found, node.of):
        if fork.part:
            report.say(f"`{array}` is cut into parts here, and only what is done through `{fork.part}` is told apart: another element may be of any part.")
            return False
        report.say(
            f"All elements of `{array}` lie in {found.region(access)}. An array whose region has an index, `T[]<R:[i]>#i`, tells its elements apart."
        )
        edits = indexed_array(found, node.of)
        return bool(edits) and report.mends("Let the region of an element depend on its index.", edits, quiet=True)
    for part in (node, node.of):
        if part.kind == "element" and says_nothing(found, access, part.index):
            report.say(
                f"The index `{found.text[part.index.start : part.index.end]}` isn't the variable of the loop itself, so the element may be any:"
                f" {shown_path(found, access.path)}. Only `[{fork.name}]` is told apart in two iterations."
            )
            return False
    return False


def is_in_one_region(found, of):
    """Whether an array has all its elements in one region."""
    its_type = found.body.types.get(id(of))
    return bool(its_type) and its_type[0] == "array" and its_type[3] is None and not any(element[0] == "[" for element in its_type[2])


def says_nothing(found, access, index):
    """Whether an index is neither a number nor an index variable that is known where the construct stands."""
    while index.kind == "paren":
        index = index.value
    local = found.body.scopes[id(access.statement)].get(index.name) if index.kind == "name" else None
    is_known = local is not None and local.is_index and local.name in known_indices(found)
    return index.kind != "int" and not is_known


def known_indices(found):
    """The index variables that are in scope at the construct, with its own."""
    scope = found.body.scopes.get(id(found.fork), {})
    return {name for name, local in scope.items() if local.is_index} | {found.fork.parts.get("name")}


def seen_path(found, path):
    """A path as it is seen from the construct: an index variable of a loop inside it is any index."""
    known = known_indices(found)
    is_inner = [element[0] == "[" and element[1:-1].isidentifier() and element[1:-1] not in known for element in path]
    return tuple("[?]" if inner else element for element, inner in zip(path, is_inner))


def shown_path(found, path):
    return found.world.show(seen_path(found, path), found.body.class_node.name, found.body.heads)


def not_apart(report, found):
    """Says where two paths with indices may meet, or that nothing in them depends on the loop's variable."""
    one, two = (seen_path(found, access.path) for access in found.pair)
    own = f"[{found.fork.name}]"
    if found.pair[0] is found.pair[1] and not {own, "[?]", "*"} & set(one):
        report.say(
            f"Nothing in {found.region(found.pair[0])} depends on `{found.fork.name}`, so all iterations touch the same. Put results into an array"
            " by index and put them together after the loop, or use foreach_nd with an atomic block."
        )
    may_be_equal(report, found)


def may_be_equal(report, found):
    """Says why two paths that have different indices at one place may be one region."""
    one, two = (seen_path(found, access.path) for access in found.pair)
    differing = [(left, right) for left, right in zip(one, two) if left != right]
    if differing and all(element[0] == "[" for element in differing[0]):
        names = [element[1:-1].isidentifier() for element in differing[0]]
        why = "`[?]` stands for any index" if "[?]" in differing[0] else "two index variables may be equal" if all(names) else (
            "an index variable may have any value")  # fmt: skip
        report.say(f"{shown_path(found, one)} and {shown_path(found, two)} may be one region, since {why}.")


def in_branches(report, found):
    """Two elements of one array in two branches; whether a mend was found."""
    one, two = (access.node for access in found.pair)
    if found.is_loop or one.kind != "element" or two.kind != "element":
        return False
    for access in dict.fromkeys(found.pair):
        index = found.text[access.node.index.start : access.node.index.end]
        if is_in_one_region(found, access.node.of):
            return of_element(report, found, access)
        if says_nothing(found, access, access.node.index):
            report.say(f"The index `{index}` is neither a number nor an index variable, so the element may be any: {found.region(access)}.")
    may_be_equal(report, found)
    return False


def table_region(report, found):
    """An array that lies in the atomic region of its objects: another region for the array, which the iterations only read."""
    for access in dict.fromkeys(found.pair):
        of = found.body.types.get(id(access.node.of)) if access.node.kind == "element" else None
        if access.kind != "reads" or not of or of[0] != "array" or of[1][0] != "class" or of[2] not in of[1][2]:
            continue
        array = found.text[access.node.of.start : access.node.of.end]
        report.say(
            f"`{array}` lies in {found.world.show(of[2], found.body.class_node.name)}, as its objects do, and reading it is no atomic access. Let the"
            " array lie in a region of its own, which is only read here."
        )
        owner = found.body.class_node
        names = [token.text for member in owner.members if member.kind == "regions" and not member.atomic for token in member.names]
        new = fresh_region(report.source, "table")
        for name in [*names, new]:
            edits = array_moved(found, access.node.of, name)
            if edits and name == new:
                edits.append(Edit(owner.opened + 1, owner.opened + 1, f" region {new};"))
            if edits and report.mends(f"Put the array `{array}` into the region {name}.", edits, quiet=True):
                return True
    return False


def array_moved(found, of, name):
    """Edits by which a local array lies in another region, by its declaration."""
    for node in found.body.method.body.walk():
        if of.kind == "name" and node.kind == "local" and node.name == of.name and node.value.kind == "new_array" and node.value.path:
            path, index = node.type.suffixes[-1]
            if path is None or index is None:
                return []
            return [instead(path, f"{name}:[{index}]"), instead(node.value.path, f"{name}:[{node.value.index}]")]
    return []
