"""What the crates above can see of a source file.

They read its definitions, its types, the heads of its functions with their contracts, and of its proofs the statements of those
files that another crate cites. A body, a proof, and a statement that only its own file can cite aren't seen; nor are comments, and
of what is imported only the names that stand in what is seen. The layout is that of `rt fmt`.
"""
import functools
import os
import re

# The first line of a function, where `rt fmt` has laid it out, and its indentation.
FUNCTION = re.compile(r"( *)(?:pub(?:\([^)]*\))? )?(?:[a-z]+ )*fn \w")
# What is stated and then proved: a name, and what holds. A definition has a word before its name.
STATED = re.compile(r"( *)(pub )?([^\s:(){}]+) :(?: |$)")
IMPORTS = {".rt": re.compile(r"^ *(?:ghost )?use ([^;]*);", re.M), ".antt": re.compile(r"^ *use (.*)$", re.M)}
WORD = re.compile(r"[^\s(){}\[\],;.:&<>]+")


def is_left_of(margin, line):
    return bool(line.strip()) and not line.startswith(margin)


def functions_of(text):
    """The functions of a text as `rt fmt` lays it out: the number of the first line, of the body's brace and of the last line."""
    lines, found, at = text.split("\n"), [], 0
    while at < len(lines):
        begins = FUNCTION.match(lines[at])
        margin = begins[1] if begins and not lines[at].endswith((";", "}")) else None
        at += 1
        if margin is None:
            continue
        beyond = next((it for it in range(at, len(lines)) if FUNCTION.match(lines[it]) or is_left_of(margin, lines[it])), len(lines))
        body = next((it for it in range(at - 1, beyond) if lines[it].endswith("{") and re.match(margin + r"\S", lines[it])), None)
        end = next((it for it in range(body or at, len(lines)) if lines[it] == margin + "}"), None)
        if body is not None and end is not None:
            found.append((at, body + 1, end + 1))
            at = end + 1
    return found


def without_bodies(text):
    lines = text.split("\n")
    for first, body, last in functions_of(text):
        # (a body under no contract is kept: nothing says that callers see less of it)
        if any(it.lstrip().startswith("ensures") for it in lines[first:body]):
            lines[body:last] = [""] * (last - body)
    return lines


def end_of(margin, lines, at):
    """The first line after this one that doesn't go on with it."""
    inside = (f"{margin}  ", f"{margin}}}", f"{margin})")
    return next((it for it in range(at + 1, len(lines)) if not lines[it].startswith(inside)), len(lines))


def without_proofs(text):
    lines, at = text.split("\n"), 0
    while at < len(lines):
        stated = STATED.match(lines[at])
        if not stated:
            at += 1
            continue
        margin, is_exported, name = stated.groups()
        begins = ends = end_of(margin, lines, at)
        while ends < len(lines) and lines[ends].startswith((f"{margin}{name} ", f"{margin}unfolding ")):
            ends = end_of(margin, lines, ends)
        if ends > begins:
            first = begins if is_exported else at
            lines[first:ends] = [""] * (ends - first)
        at = ends
    return lines


def paths_in(tree, before=""):
    """The names of an import, each with its path."""
    depth, start, parts = 0, 0, []
    for at, letter in enumerate(tree + ","):
        depth += (letter == "{") - (letter == "}")
        if letter == "," and depth == 0:
            parts.append(tree[start:at].strip())
            start = at + 1
    for part in filter(None, parts):
        head, brace, rest = part.partition("{")
        if brace:
            yield from paths_in(rest[:rest.rindex("}")], before + head)
        else:
            path, _, other = part.partition(" as ")
            yield other or re.split(r"[.:]", path)[-1], before + path


def text_of(path):
    with open(path, encoding="utf-8") as it:
        return it.read()


def while_it_stands(read):
    """Reads a file once, and once more whenever it has changed."""
    kept = functools.cache(lambda path, changed: read(path))
    return lambda path: kept(path, os.stat(path).st_mtime_ns)


def imports_in(kind, text):
    return {it for tree in IMPORTS[kind].findall(text) for it in paths_in(tree)}


@while_it_stands
def of_file(path):
    """What can be seen of a file, and what it imports for that: names, each with its path."""
    text, kind = text_of(path), path[path.rindex("."):]
    lines = without_bodies(text) if kind == ".rt" else without_proofs(text)
    kept = "\n".join(line for line in lines if not line.lstrip().startswith(("--", "//")))
    seen = "\n".join(line for line in IMPORTS[kind].sub("", kept).split("\n") if line.strip())
    words = set(WORD.findall(seen))
    return seen, sorted(it for it in imports_in(kind, kept) if it[0] in words or it[0] == "TheVariants")


@while_it_stands
def cited_by(path):
    return {it for _, it in imports_in(path[path.rindex("."):], text_of(path))}


def place_of(path):
    """The crate of a file, and its place in it."""
    return path.partition("/crates/")[2].split("/", 1)


def proof_in(cited, proofs):
    """The file of proofs, of those by their modules, in which what has this path stands."""
    parts = cited.split(".")
    return next((proofs[it] for it in (".".join(parts[:end]) for end in range(len(parts) - 1, 3, -1)) if it in proofs), None)


def of_files(crate, files):
    """What the crate has, and what it can see of the crates below, by the files of all."""
    below = [it for it in files if place_of(it)[0] != crate]
    places = {it: place_of(it) for it in below}
    proofs = {f"Rattle.{name}.{rest[:-5].replace('/', '.')}": it for it, (name, rest) in places.items() if rest.startswith("proofs/")}
    # (those that another crate cites, and those by which these say what they state)
    left = {proof_in(it, proofs) for path in files for it in cited_by(path) if it.split(".")[1:2] != place_of(path)[:1]}
    taken = {None}
    while left - taken:
        path = (left - taken).pop()
        taken.add(path)
        left |= {proof_in(it, proofs) for _, it in of_file(path)[1]}
    for it in files:
        if it not in places:
            yield it, text_of(it)
        elif it in taken or not places[it][1].startswith("proofs/"):
            yield it, of_file(it)
