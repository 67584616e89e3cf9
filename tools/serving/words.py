"""Keywords and names: what the documents say of a keyword, and what may be written at a place."""
import pathlib
import re

import sections
from reasons.source import KEYWORDS, tokens_of

DOCUMENT = pathlib.Path(__file__).resolve().parents[2] / "docs" / "LANGUAGE.md"
HEADING = re.compile(r"^#{2,3} (.*)$", re.M)
LINK = re.compile(r"\]\(#([a-z0-9-]+)\)")
METHOD, FIELD, KEYWORD, REGION = 2, 5, 14, 20
CLASS_BEFORE = re.compile(r"([A-Za-z_]\w*)\.\w*$")
DOT_BEFORE = re.compile(r"[\w\])]\s*\.\s*\w*$")
COLON_BEFORE = re.compile(r":\s*\w*$")


def anchor_of(heading):
    """The anchor of a heading in a document."""
    return re.sub(r"[^a-z0-9 -]", "", heading.lower()).replace(" ", "-")


def documented():
    """The sections of the language's document, by their anchors; none where it isn't there."""
    try:
        text = DOCUMENT.read_text(encoding="utf-8")
    except OSError:
        return {}
    parts = HEADING.split(text)
    return {anchor_of(name): sections.Section(name, body.split("\n")) for name, body in zip(parts[1::2], parts[2::2])}


def sentences_of(section):
    """The sentences of a section, without its programs and tables."""
    for paragraph in section.paragraphs():
        if not paragraph[0].startswith(("```", "|")):
            yield from re.split(r"(?<=\.) (?=[A-Z`])", sections.plain(paragraph[0]))


def sentence_of(keyword, of_row):
    """The first sentence of a row's sections that begins with a keyword, or else one that has it, or the first of all, with its section."""
    found = [(sentence, section) for section in of_row for sentence in sentences_of(section)]
    for form in (rf"(?:`\w+` and )?`{keyword}\b", rf".*`{keyword}(?:[ .][^`{{]*)?`"):
        for sentence, section in found:
            if re.match(form, sentence):
                return sentence, section
    return found[0]


def explained(word):
    """What the document says of a keyword, as markdown; None of what is no keyword, or isn't in its table."""
    known = documented()
    table = known.get("keywords")
    for row in table.lines if table else ():
        cells = row.split("|")
        if len(cells) > 2 and f"`{word}`" in cells[1]:
            # Behind a semicolon stand sections of one of the row's keywords.
            linked = [known[anchor] for anchor in LINK.findall(cells[2].partition(";")[0]) if anchor in known]
            sentence, section = sentence_of(word, linked) if linked else ("", None)
            return f"**`{word}`**: {sentence}\n\n[{section.name}]({DOCUMENT.as_uri()}#{anchor_of(section.name)})" if section else None
    return None


def word_at(paper, position):
    """The word at a position, with the numbers of its first character and of the one behind it; None where there is none."""
    index = paper.index(position)
    start, end = index, index
    while start and re.match(r"\w", paper.text[start - 1]):
        start -= 1
    while end < len(paper.text) and re.match(r"\w", paper.text[end]):
        end += 1
    return (paper.text[start:end], start, end) if start < end else None


def regions_of(text):
    """The region names that a text declares, each with the class that does; None is the class of parameters and of local regions."""
    found, holder, depth = [], None, 0
    tokens = tokens_of(text)
    for number, token in enumerate(tokens):
        depth += (token.text == "{") - (token.text == "}")
        after = tokens[number + 1 :]
        if token.text == "class" and after and after[0].kind == "name":
            holder = after[0].text
        elif token.text == "region":
            is_class_name = depth == 1 and (number == 0 or tokens[number - 1].text not in ("<", ",") and not is_parameter(tokens, number))
            found += [(name, holder if is_class_name else None) for name in names_in(after)]
    return list(dict.fromkeys(found))


def is_parameter(tokens, number):
    """Whether `region` at a number is a region parameter, behind `atomic`."""
    return number > 1 and tokens[number - 1].text == "atomic" and tokens[number - 2].text in ("<", ",")


def names_in(tokens):
    """The names of a list at the beginning of tokens."""
    for token in tokens:
        if token.kind == "name" and token.text not in KEYWORDS:
            yield token.text
        elif token.text != ",":
            return


def members_of(text):
    """The fields and methods that a text declares, each with its class and its kind."""
    found, holder, depth, skips = [], None, 0, False
    tokens = tokens_of(text)
    for token, after in zip(tokens, tokens[1:]):
        if token.text == "class" and depth == 0:
            holder = after.text
        elif depth == 1 and token.text in ("region", "in"):
            # What follows up to the semicolon, or in a list of parameters, are names of regions.
            skips = True
        elif depth == 1 and token.kind == "name" and token.text not in KEYWORDS and token.text != holder:
            if after.text == "(":
                found.append((token.text, holder, METHOD))
            elif after.text in (";", "in") and not skips:
                found.append((token.text, holder, FIELD))
        if token.text in (";", "{", "}", ">"):
            skips = False
        depth += (token.text == "{") - (token.text == "}")
    return list(dict.fromkeys(found))


def chain_at(text, index):
    """The class that holds a character, and its superclasses."""
    parents = dict(re.findall(r"\bclass\s+(\w+)(?:\s*<[^{]*?>)?\s+extends\s+(\w+)", text))
    names, chain = re.findall(r"\bclass\s+(\w+)", text[:index]), []
    name = names[-1] if names else None
    while name and name not in chain:
        chain.append(name)
        name = parents.get(name)
    return chain


def offered(paper, position):
    """What may be written at a position: behind the name of a class and a dot its regions, behind another dot fields and methods, behind a colon
    regions, in a comment or a text nothing, and elsewhere all regions and the keywords."""
    index = paper.index(position)
    text, before = paper.latin(), paper.text[:index]
    line = before[before.rfind("\n") + 1 :]
    if line.count('"') % 2 or "//" in line or before.rfind("/*") > before.rfind("*/"):
        return []
    found, owner = regions_of(text), CLASS_BEFORE.search(before)
    own = [name for name, holder in found if owner and holder == owner[1]]
    if own:
        return [{"label": name, "kind": REGION, "detail": f"a region of {owner[1]}"} for name in own]
    if DOT_BEFORE.search(before):
        chain = chain_at(paper.text, index) if owner and owner[1] == "this" else None
        members = [member for member in members_of(text) if chain is None or member[1] in chain]
        return [{"label": name, "kind": kind, "detail": f"of {holder}"} for name, holder, kind in members]
    items = {}
    for name, holder in found:
        items.setdefault(name, {"label": name, "kind": REGION, "detail": f"a region of {holder}" if holder else "a region"})
        if holder:
            items[f"{holder}.{name}"] = {"label": f"{holder}.{name}", "kind": REGION, "detail": f"a region of {holder}"}
    if COLON_BEFORE.search(before):
        return list(items.values())
    return [*items.values(), *({"label": word, "kind": KEYWORD} for word in sorted(KEYWORDS))]
