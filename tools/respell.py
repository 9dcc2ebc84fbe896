#!/usr/bin/env python3
"""Spells the repository's own definitions and lemmas as today's Rattle does: words in snake case, types in camel case.

usage: python3 tools/respell.py            at the top of the repository, once, right after the kit's port.py
       python3 tools/respell.py --table    prints the table, old name and new, and changes nothing

It goes by the names that specs/ and proofs/ declare. A name of the source, of the library, or one that Rattle makes is none of those.
It rewrites .antt and .rt files, the texts of the must-fail edits, and names between back quotes in the pages.
"""

import glob
import os
import re
import sys

WORD = re.compile(r"[^\s(){}.;,:@\"«»\[\]\\|`]+")
MADE = ("Proof.antt", "Answers.antt", "Invariants.antt")
SIGNATURE = re.compile(
    r"(?m)^( *)(?:unfoldable |abbrev )?(?:pub )?((?:record |data )?)([^\s:(){}.;,]+)((?: [({][^\n]*)?) :\s"
)
KEYWORDS = {"use", "module", "unfolding", "where", "let", "in", "record", "data", "elim", "open"}
# Old names for which the rules give no good name: they would fall together with a word that stands in the same file.
IN_A_CRATE = {"disk": {"block_size": "block_size_is"}}


def read(path):
    with open(path, encoding="utf-8", newline="") as it:
        return it.read()


def files(*patterns):
    found = {it for one in patterns for it in glob.glob(one, recursive=True)}
    return sorted(it for it in found if "/out/" not in it and "/target/" not in it)


def without_comments(text):
    return re.sub(r"--[^\n]*", "", text)


def declared():
    """Yields each name declared in specs/ and in the lemma files: the name, its kind, its type, and whether specs/ has it."""
    for path in files("crates/*/specs/**/*.antt", "crates/*/proofs/**/*.antt"):
        if os.path.basename(path) in MADE:
            continue
        text = without_comments(read(path))
        lines = list(SIGNATURE.finditer(text))
        record_at = None
        for at, found in enumerate(lines):
            indent, kind, name, params = len(found[1]), found[2].strip(), found[3], found[4]
            if record_at is not None and indent <= record_at:
                record_at = None
            if name in KEYWORDS or name == "_":
                continue
            if kind:
                record_at = indent
                yield name, "type", path
                continue
            if record_at is not None and indent > record_at:
                yield name, "field", path
                continue
            end = lines[at + 1].start() if at + 1 < len(lines) else len(text)
            body = text[found.end() : end]
            stop = re.search(r"(?m)^ *(?:unfolding\b|%s[ \n])|\n\s*\n" % re.escape(name), body)
            type_of = " ".join((body[: stop.start()] if stop else body).split())
            is_type = re.search(r"(?:^|→ |\) )Type(?: \d+)?$", type_of)
            yield name, "type" if is_type else "word", path


def snake(part):
    return re.sub(r"(?<=[a-z0-9γνσ])([A-Z])", lambda it: "_" + it[1].lower(), part)


def upper(part):
    return part[0].upper() + part[1:]


def table():
    """Returns the old names with their new ones. Where a field or a lemma would get a definition's name, it ends in _is or _lem."""
    kinds, homes = {}, {}
    for name, kind, path in declared():
        kinds.setdefault(name, set()).add(kind)
        homes.setdefault(name, set()).add(path)

    def spelled(name):
        if kinds[name] == {"type"}:
            return "".join(upper(it) for it in name.split("-"))
        head = snake(name) if name[0].islower() else name
        return re.sub(r"(?<=\w)-(?=[\w'])", "_", head)

    own = [it for it in kinds if re.search(r"[a-z]", it) and re.fullmatch(r"[\w'-]+", it)]
    new = {it: spelled(it) for it in own}
    definitions = {new[it] for it in own if "-" not in it and "word" in kinds[it] and any("/specs/" in p for p in homes[it])}
    for name in own:
        if "-" in name and new[name] in definitions:
            new[name] += "_is" if "field" in kinds[name] else "_lem"
    return {old: to for old, to in new.items() if old != to}, kinds, homes


def brought(text):
    """The names that a file brings from the library: those keep their spelling in it."""
    own = {os.path.basename(it) for it in glob.glob("crates/*")}
    out = set()
    for found in re.finditer(r"(?m)^(?:ghost )?(?:pub )?use ([^\s{]+)\{([^}]*)\}", text):
        parts = found[1].split(".")
        if parts[0] != "Rattle" or parts[1] not in own:
            out.update(it.split(" as ")[0].strip() for it in found[2].split(","))
    return out


def turned(text, new, comments):
    kept = brought(text)
    new = {old: to for old, to in new.items() if old not in kept}

    def one(found):
        return new.get(found[0], found[0])

    def comment(found):
        return WORD.sub(lambda it: new[it[0]] if it[0] in new and re.search(r"[a-z][A-Z]", it[0]) else it[0], found[0])

    out, last = [], 0
    for found in re.finditer(r"%s[^\n]*|\"(?:[^\"\\\n]|\\.)*\"" % comments, text):
        out += [WORD.sub(one, text[last : found.start()]), comment(found) if found[0].startswith(comments) else found[0]]
        last = found.end()
    return "".join(out) + WORD.sub(one, text[last:])


def page_turned(text, new):
    """Turns the names between back quotes, where the whole is names."""
    return re.sub(r"`[^`\n]+`", lambda it: WORD.sub(lambda w: new.get(w[0], w[0]), it[0]), text)


def edit_turned(text, new):
    line = r"(?m)^(old|new): .*$"
    is_logic = re.search(r"(?m)^file: (specs|proofs)/", text)
    return re.sub(line, lambda it: turned(it[0], new, "--" if is_logic else "//"), text)


def main():
    new, kinds, homes = table()
    if sys.argv[1:] == ["--table"]:
        for old, to in sorted(new.items()):
            print(f"{old}\t{to}\t{'/'.join(sorted(kinds[old]))}\t{' '.join(sorted(homes[old]))}")
        return
    texts = [
        (files("crates/*/specs/**/*.antt", "crates/*/proofs/**/*.antt"), lambda t: turned(t, new, "--")),
        (files("crates/*/src/**/*.rt"), lambda t: turned(t, new, "//")),
        (files("crates/*/must-fail/*.edit"), lambda t: edit_turned(t, new)),
        (files("*.md", "docs/**/*.md", "tests/**/*.md", "host/**/*.md"), lambda t: page_turned(t, new)),
    ]
    for paths, turn in texts:
        for path in paths:
            text = now = read(path)
            for crate, names in IN_A_CRATE.items():
                if path.startswith(f"crates/{crate}/") and path.endswith(".antt"):
                    now = WORD.sub(lambda it: names.get(it[0], it[0]), now)
            now = turn(now)
            if now != text:
                with open(path, "w", encoding="utf-8", newline="") as it:
                    it.write(now)


if __name__ == "__main__":
    main()
