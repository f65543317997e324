#!/usr/bin/env python3
"""Checks the relative links of the repository's documents: tools/check-links.py [FOLDER]

Of each .md file below FOLDER, which is the repository without it (out/ is left out), every link that names no other
site must lead to a file or a folder of the repository, and its anchor to a heading of that document by GitHub's rules,
or to a line `#L12` of a file of another kind. Each broken one is printed as FILE:LINE, and the status is 1 if any is.
"""
import pathlib
import re
import sys
import urllib.parse

FENCE = re.compile(r"^ {0,3}(`{3,}|~{3,})[^\n]*\n.*?(?:^ {0,3}\1[`~]*[ \t]*$|\Z)", re.MULTILINE | re.DOTALL)
COMMENT = re.compile(r"<!--.*?-->", re.DOTALL)
CODE = re.compile(r"(?<!`)(`+)(?!`)((?:(?!\n\s*\n).)+?)(?<!`)\1(?!`)", re.DOTALL)
HEADING = re.compile(r"^ {0,3}#{1,6}[ \t]+(.*?)(?:[ \t]+#+)?[ \t]*$", re.MULTILINE)
UNDERLINED = re.compile(r"^(?! {0,3}(?:[-*+>|#]|\d+\.))(\S[^\n]*)\n {0,3}(?:=+|-+)[ \t]*$", re.MULTILINE)
NAMED = re.compile(r"<a\s[^>]*?(?:name|id)=[\"']([^\"']+)[\"']", re.IGNORECASE)
INLINE = re.compile(r"\]\(\s*(?:<([^>\n]*)>|([^()\s]*(?:\([^()\s]*\)[^()\s]*)*))(?:\s+(?:\"[^\"]*\"|'[^']*'))?\s*\)")
REFERENCE = re.compile(r"^ {0,3}\[[^\]\n]+\]:[ \t]*(?:<([^>\n]*)>|(\S+))[ \t]*(?:[\"'(].*)?$", re.MULTILINE)
SCHEME = re.compile(r"[A-Za-z][A-Za-z0-9+.-]*:|//")


def blanked(match):
    """As many lines and characters, with nothing in them that could be a link."""
    return re.sub(r"[^\n]", " ", match.group())


def prose(text):
    """The text without its code blocks and comments."""
    return COMMENT.sub(blanked, FENCE.sub(blanked, text))


def slug(heading):
    """The anchor of a heading: its text in lower case, with hyphens for spaces, and of the rest only letters, digits,
    hyphens and underscores."""
    code = []

    def kept(match):
        code.append(match.group(2).strip())
        return f"\0{len(code) - 1}\0"

    text = CODE.sub(kept, heading)
    text = re.sub(r"!?\[([^\]]*)\](?:\([^)]*\)|\[[^\]]*\])", r"\1", text)
    text = re.sub(r"<[^>]+>|\\(?=[^\w\s])|\*", "", text)
    text = re.sub(r"(?<!\w)(_{1,2})(\S(?:.*?\S)?)\1(?!\w)", r"\2", text)
    text = re.sub(r"\0(\d+)\0", lambda match: code[int(match.group(1))], text)
    return re.sub(r"[^\w\- ]", "", text.strip().lower()).replace(" ", "-")


def anchors(path, known={}):
    """The anchors of a document; of equal headings the later ones end in -1, -2 and so on."""
    if path not in known:
        text = prose(path.read_text(encoding="utf-8"))
        found, counts = set(NAMED.findall(text)), {}
        matches = [match for kind in (HEADING, UNDERLINED) for match in kind.finditer(text)]
        for _, heading in sorted((match.start(), match.group(1)) for match in matches):
            name = slug(heading)
            while (whole := name + (f"-{counts[name]}" if counts.get(name) else "")) in found:
                counts[name] = counts.get(name, 0) + 1
            counts[name] = counts.get(name, 0) + 1
            found.add(whole)
        known[path] = found
    return known[path]


def fault(root, document, link):
    """What is wrong with a link of a document, or nothing."""
    name, _, anchor = urllib.parse.unquote(link).partition("#")
    target = document if not name else (root / name[1:] if name[0] == "/" else document.parent / name).resolve()
    if not target.is_relative_to(root) or not target.exists():
        return "there is no such file"
    if not anchor:
        return None
    if target.suffix == ".md":
        return None if anchor in anchors(target) else "there is no such heading"
    line = re.fullmatch(r"L(\d+)(?:-L(\d+))?", anchor)
    if target.is_file() and line and int(line.group(2) or line.group(1)) <= len(target.read_bytes().splitlines()):
        return None
    return "there is no such line"


def main():
    root = (pathlib.Path(sys.argv[1]) if len(sys.argv) > 1 else pathlib.Path(__file__).parent.parent).resolve()
    documents = [path for path in sorted(root.rglob("*.md")) if not {"out", ".git"} & set(path.relative_to(root).parts)]
    links = broken = 0
    for document in documents:
        text = CODE.sub(blanked, prose(document.read_text(encoding="utf-8")))
        matches = [match for kind in (INLINE, REFERENCE) for match in kind.finditer(text)]
        for start, link in sorted((match.start(), match.group(1) or match.group(2) or "") for match in matches):
            why = None if SCHEME.match(link) else fault(root, document, link)
            links, broken = links + 1, broken + bool(why)
            if why:
                print(f"{document.relative_to(root)}:{text.count(chr(10), 0, start) + 1}: {link}: {why}")
    print(f"{len(documents)} documents, {links} links, {broken} broken")
    return 1 if broken or not documents else 0


sys.exit(main())
