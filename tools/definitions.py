"""Makes docs/DEFINITIONS.md: the words in which the promises of docs/PROMISES.md are stated.

usage: python3 tools/definitions.py [--check | --read FILE..]

A word is listed where it occurs in a clause that a headline of PROMISES names, or what both ends agree on, in a
condition of such a call, or where these sections link to its definition: with the first clause of the comment above
it, below the first section that uses it; one without a comment isn't. The head of the page, up to the mark, is written
by hand. With --check nothing is written, and the status is 1 where the page isn't current, or where PROMISES names a
clause that a function doesn't have.

With --read the files of definitions are printed on which the contracts in these files of Rattle stand, a line a crate:
a file comes after all that it uses.
"""
import collections
import os
import re
import sys

TOP = os.path.join(os.path.dirname(os.path.abspath(__file__)), "..")
PAGE = "docs/DEFINITIONS.md"
MARK = "<!-- From here on made by tools/definitions.py. -->\n"
WORD = r"[A-Za-z_][A-Za-z0-9_']*"
HEADLINE = re.compile(r"^The headline|agree$")
DEFINITION = re.compile(r"(?:abbrev pub|unfoldable pub|pub record|pub data)\s+(\S+)")


def text_of(path):
    with open(os.path.join(TOP, path), encoding="utf-8") as it:
        return it.read()


def definitions():
    """Of each public definition of the crates' specs, by crate and name: its module, and what its comment says."""
    found = {}
    for crate in crates():
        folder = f"crates/{crate}/specs"
        for name in sorted(os.listdir(os.path.join(TOP, folder))) if os.path.isdir(os.path.join(TOP, folder)) else []:
            comment = []
            for line in text_of(f"{folder}/{name}").split("\n"):
                line = line.strip()
                if line.startswith("--"):
                    comment.append(line[2:].strip())
                    continue
                words = DEFINITION.match(line)
                if words:
                    found.setdefault((crate, words[1]), (name[:-5], clause(" ".join(comment))))
                comment = []
    return found


def clause(comment):
    """The first sentence, without sections of RFCs, which docs/RFC7450.md has; of a list with semicolons what
    introduces it by a colon, where that is more than three words, or else its first item."""
    comment = re.sub(r"\s*\((?:RFC|section)[^()]*\)", "", comment)
    first = before(comment, r"\. (?=[A-Z`])").rstrip(".")
    item = before(first, r"; ")
    head = before(item, r": ")
    return head if item != first and len(head.split()) > 3 else item


def before(text, mark):
    """The text before the first such mark that isn't within backticks, or all of it."""
    for found in re.finditer(mark, text):
        if text[: found.start()].count("`") % 2 == 0:
            return text[: found.start()]
    return text


def crates():
    lines = [it.partition("#")[0].strip() for it in text_of("crates.txt").split("\n")]
    return [it.split(":")[0].split()[0] for it in lines if it]


def imported(text):
    """The crate of each name that a file imports from some crate's specs."""
    found = {}
    for crate, names in re.findall(r"use Rattle\.(\w+)\.specs\.(.*?)(?:;|\n(?!\s))", text + "\n", re.S):
        for name in re.findall(WORD, names):
            found.setdefault(name, crate)
    return found


def clauses_of(text, name):
    """Label and text of each clause of the functions of this name; a condition has no label."""
    start = rf"\bfn {re.escape(name)}\b"
    parts = re.findall(rf"{start}(.*?)\n\s*\{{(?:\}})?\n|{start}(.*?);\n", text, re.S)
    contract = "\n".join("".join(part) for part in parts)
    found = re.findall(r"\b(ensures|requires)\s*(\w*)\s*\{(.*?)(?=\bensures\b|\brequires\b|\Z)", contract, re.S)
    return [(None if kind == "requires" else label, body) for kind, label, body in found]


def links_of(section):
    """Each link of a section of PROMISES, with the labels after it; where there are none, all its clauses count."""
    for part in re.split(r"; | \| |, over ", section):
        labels = re.search(r"\): ((?:`\w+`(?:, )?)+)", part)
        for name, path in re.findall(r"\[`([^`]+)`\]\(\.\./([^)#]+)\)", part):
            yield name, path, re.findall(r"\w+", labels[1]) if labels else None


def cited():
    """Of each section of PROMISES the names in the clauses that it names, and the definitions that it links to, with
    their crates."""
    for section in text_of("docs/PROMISES.md").split("\n## ")[1:]:
        found = set()
        for label, path, labels in links_of(section):
            text, name = text_of(path), label.split("::")[-1]
            crate = path.split("/")[1]
            if path.endswith(".antt"):
                there = re.findall(r"^\s+(?:pub )?(\w+) :(?= |$)", text, re.M)
            else:
                source, clauses = imported(text), clauses_of(text, name)
                there = [it for it, _ in clauses]
            for lost in sorted(set(labels or []) - set(there)):
                sys.exit(f"docs/PROMISES.md: {label} has no clause {lost}")
            if path.endswith(".antt"):
                found.add((crate, name))
                continue
            for clause_label, clause_text in clauses:
                if labels is None or clause_label is None or clause_label in labels:
                    found |= {(source.get(word, crate), word) for word in re.findall(WORD, clause_text)}
        yield section.partition("\n")[0], found


def link(label, crate, module):
    return f"[{label}](../crates/{crate}/specs/{module}.antt)"


def with_comments(known, names):
    """A line a word; one without a link is in the file of the one above it."""
    lines, file = [], None
    for crate, name in names:
        module, says = known[crate, name]
        word = f"`{name}`" if (crate, module) == file else link(f"`{name}`", crate, module)
        lines.append(f"- {word}: {says}")
        file = crate, module
    return lines


def page():
    known, seen, lines = definitions(), set(), []
    for section, found in cited():
        if HEADLINE.search(section):
            names = [it for it in known if it in found - seen and known[it][1]]
            lines += ["", f"## {section}", ""] + with_comments(known, names)
            seen |= found
    return text_of(PAGE).partition(MARK)[0] + MARK + "\n".join(lines) + "\n"


def files_used(text):
    """The files of definitions that a file names, as crate and module."""
    for crate, names in re.findall(r"use Rattle\.(\w+)\.specs\.(.*?)(?:;|\n(?!\s))", text + "\n", re.S):
        names = names.strip().removeprefix("{").removesuffix("}") if names.startswith("{") else names
        count = 1
        while count:
            names, count = re.subn(r"\{[^{}]*\}", "", names)
        for module in re.findall(r"(?:^|,)\s*(\w+)", names):
            if os.path.exists(os.path.join(TOP, f"crates/{crate}/specs/{module}.antt")):
                yield crate, module


def add_used(text, done, found):
    """Puts what a file stands on at the end of `found`, each after all that it uses itself."""
    for crate, module in files_used(text):
        if (crate, module) not in done:
            done.add((crate, module))
            add_used(text_of(f"crates/{crate}/specs/{module}.antt"), done, found)
            found.append((crate, module))


def print_files(paths):
    found, by_crate = [], collections.defaultdict(list)
    for path in paths:
        add_used(text_of(os.path.relpath(path, TOP)), {*found}, found)
    for crate, module in found:
        by_crate[crate].append(module)
    for crate in crates():
        if crate in by_crate:
            print(f"{crate}: {', '.join(by_crate[crate])}")
    lines = sum(text_of(f"crates/{crate}/specs/{module}.antt").count("\n") for crate, module in found)
    print(f"{len(found)} files of crates/CRATE/specs, {lines} lines")
    return 0


def main():
    if sys.argv[1:2] == ["--read"]:
        return print_files(sys.argv[2:])
    made = page()
    if sys.argv[1:] == ["--check"]:
        if made != text_of(PAGE):
            print(f"{PAGE} isn't current: python3 tools/definitions.py makes it")
            return 1
        return 0
    with open(os.path.join(TOP, PAGE), "w", encoding="utf-8") as it:
        it.write(made)
    return 0


sys.exit(main())
