#!/usr/bin/env python3
"""Respells the repository's own names, after the toolchain's port script, once:

    python3 tools/respell.py

Words are in snake case: `codeFound` becomes `code_found`. A dash stays where it joins a definition's name to what a law
says of it, as in `count-append`, and becomes `_` elsewhere, as in `atom_first`. Names of src/, strings and comments' plain
words stay. Names that would fall together are printed, and nothing is written then.
"""
import collections
import glob
import os
import re
import sys

# Words of the toolchain's library that laws of this repository are named after.
KIT_WORDS = """compare cond eqb ltb leb get_or length map reverse take drop head_d suc zero foldr append code set_at
filter concat""".split()
# Laws that would fall together with a definition of their crate, and names of the library that an own name has in it.
LAWS = {("lines", "is_digit"): "hex_digit_of-small", ("text", "opening-fault"): "opening_fault-is"}
KIT_NAMES = {"getD": "get_or", "headD": "head_d"}
# Names that are spelled alike and never meet in one file.
APART = set("isDigit is_digit noKind no_kind noNumber no_number no-places noPlaces oneMore one_more".split()
            + ["opening-fault", "openingFault"])
# A file that the toolchain gives another meaning.
FILE = ("crates/rules/specs/Contracts.antt", "crates/rules/specs/Allowed.antt", "rules.specs.Contracts", "rules.specs.Allowed")
FIELDS = set()
DECLARED = re.compile(
    r"^\s*(?:(?:pub|abbrev|unfoldable)\s+)*(?:(record|data)\s+)?([^\s:(){}λ.,;]+)\s*(?:[({].*)?:(?!:)")
TOKEN = re.compile(r"[^\W\d][\w'′]*(?:-[\w'′◌≤<≡+*]+)*")
RUST_TOKEN = re.compile(r"[^\W\d]\w*(?:-[\w◌≤<≡+*]+)*")
HUMP = re.compile(r"(?<=[a-z0-9'])(?=[A-Z])|(?<=[A-Z])(?=[A-Z][a-z])")


def files(pattern):
    return [p for p in sorted(glob.glob(pattern, recursive=True)) if "/out/" not in p]


def crate_of(path):
    return path.split("/")[1] if path.startswith("crates/") else ""


def snake(segment):
    if segment in KIT_NAMES:
        return KIT_NAMES[segment]
    if not re.match(r"[a-z_]", segment) or not re.search(r"[A-Z]", segment):
        return segment
    return HUMP.sub("_", segment).lower()


def declared(path):
    for line in open(path, encoding="utf-8"):
        found = DECLARED.match(line)
        if found and not line.lstrip().startswith("--"):
            yield found.group(2)


def fields():
    """The fields of records under proofs/."""
    found = set()
    for path in files("crates/*/proofs/**/*.antt"):
        depth = None
        for line in open(path, encoding="utf-8"):
            indent = len(line) - len(line.lstrip())
            if depth is not None and line.strip() and indent <= depth:
                depth = None
            if re.match(r"\s*(?:pub\s+)?record\b.*\bwhere\s*$", line):
                depth = indent
            elif depth is not None and DECLARED.match(line):
                found.add(DECLARED.match(line).group(2))
    return found


def own_names():
    """The words of specs/, the laws of proofs/, and what the files of functions' proofs declare."""
    words, laws, goals = set(KIT_WORDS), set(), set()
    for path in files("crates/*/specs/**/*.antt"):
        words |= set(declared(path))
    for path in files("crates/*/proofs/*.antt"):
        laws |= set(declared(path))
    for path in files("crates/*/proofs/*/**/*.antt"):
        goals |= set(declared(path))
    return words, laws, goals


def respelled(name, words):
    segments = [snake(s) for s in name.split("-")]
    if len(segments) == 1:
        return segments[0]
    if re.search(r"[A-Z]", "".join(segments)) and not re.match(r"[A-Z]", segments[0]):
        return "-".join(segments)
    for k in range(len(segments) - 1, 0, -1):
        prefix = "_".join(segments[:k])
        if prefix in words or re.match(r"[A-Z]", prefix):
            return prefix + "-" + "_".join(segments[k:])
    return "_".join(segments)


def mapping():
    words, laws, goals = own_names()
    spelled = {snake(w) for w in words}
    table = {}
    for name in sorted(words | laws):
        new = respelled(name, spelled)
        if new != name:
            table[name] = new
    return table, words | laws | goals


def split_code(line, mark):
    """The line in parts, each with its kind: code, text in quotes, or comment."""
    parts, k, start = [], 0, 0
    while k < len(line):
        if line.startswith(mark, k) and (mark == "//" or k == 0 or line[k - 1] in " \t"):
            parts.append((line[start:k], "code"))
            parts.append((line[k:], "comment"))
            return parts
        if line[k] == '"':
            end = k + 1
            while end < len(line) and line[end] != '"':
                end += 2 if line[end] == "\\" else 1
            parts.append((line[start:k], "code"))
            parts.append((line[k:end + 1], "text"))
            k = start = end + 1
        else:
            k += 1
    parts.append((line[start:], "code"))
    return parts


def turn_token(token, table, before):
    if token in FIELDS and token in table:
        return table[token]
    if token in table:
        # A step or a goal that the toolchain names stays, as in `c.bond-first.result`.
        if "-" in token and before.endswith(".") and re.search(r"(?:^|[^\w'])[a-z][\w'₀-₉-]*(?:\.[\w'-]+)*\.$", before):
            return token
        return table[token]
    return "-".join(snake(s) for s in token.split("-"))


def turn_code(text, table, token):
    out, at = [], 0
    for found in token.finditer(text):
        out.append(text[at:found.start()])
        out.append(turn_token(found.group(), table, text[:found.start()]))
        at = found.end()
    return "".join(out) + text[at:]


def turn_comment(text, table):
    return TOKEN.sub(lambda m: "-".join(snake(s) for s in m.group().split("-"))
                     if "-" not in m.group() or m.group() in table else m.group(), text)


def turn_line(line, mark, table):
    token = TOKEN if mark == "--" else RUST_TOKEN
    return "".join(turn_code(part, table, token) if kind == "code" else turn_comment(part, table) if kind == "comment" else part
                   for part, kind in split_code(line, mark))


def turn_page(text, table):
    """A page of docs/: what stands between backticks."""
    return re.sub(r"`[^`\n]+`", lambda m: TOKEN.sub(
        lambda t: table.get(t.group(), t.group()), m.group()), text)


def main():
    FIELDS.update(fields())
    table, names = mapping()
    by_new = collections.defaultdict(set)
    for name in names:
        by_new[table.get(name, name)].add(name)
    together = {new: sorted(old) for new, old in by_new.items() if len(old) > 1 and not set(old) <= APART}
    for new, old in sorted(together.items()):
        print("fall together:", new, old)
    if together and "--force" not in sys.argv:
        return 1
    if "--list" in sys.argv:
        for old, new in sorted(table.items()):
            print(old, new)
        return 0
    for pattern, mark in (("crates/*/**/*.antt", "--"), ("crates/*/src/**/*.rt", "//")):
        for path in files(pattern):
            text = open(path, encoding="utf-8").read()
            here = {**table, **{old: new for (crate, old), new in LAWS.items() if crate == crate_of(path)}}
            text = text.replace(FILE[2], FILE[3])
            new = "".join(turn_line(line, mark, here) for line in text.splitlines(keepends=True))
            open(path, "w", encoding="utf-8").write(new)
    os.rename(FILE[0], FILE[1])
    index = "crates/rules/specs/Lib.antt"
    lines = open(index, encoding="utf-8").read().replace("pub mod Contracts", "pub mod Allowed")
    open(index, "w", encoding="utf-8").write(lines)
    for path in ["README.md"] + files("docs/*.md"):
        text = open(path, encoding="utf-8").read()
        new = turn_page(text, table)
        if new != text:
            open(path, "w", encoding="utf-8").write(new)
    return 0


if __name__ == "__main__":
    sys.exit(main())
