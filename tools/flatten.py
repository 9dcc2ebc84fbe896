#!/usr/bin/env python3
"""In Proof.antt files, reads the fields of earlier states from the state at hand, which has them all.

usage: python3 tools/flatten.py FILE..

`let made = c.before.before in made.tag.ensures` becomes `c.tag.ensures`. A state that is passed on to a lemma stays as it is.
"""

import re
import sys

PLACE_FUNCTION = re.compile(r"(?m)^(?:abbrev )?(?:pub )?([\w'-]+) : tie\.[^→\n]*→ tie\.[^→\n]*\n\1 (\w+) = [\w.'() -]*$")
NAME = r"(?<![\w.'-])%s"


def group_end(text, at):
    """The end of the parenthesis that opens at the place."""
    depth = 0
    for k in range(at, len(text)):
        depth += (text[k] == "(") - (text[k] == ")")
        if depth == 0:
            return k + 1
    return len(text)


def is_state(text, states, functions):
    """Whether the text is a state: a variable of one, a step back from it, or a place function's value."""
    words = text.replace("(", " ").replace(")", "").split()
    if not words:
        return False
    last = re.sub(r"(\.before)*\Z", "", words[-1])
    return last in states and all(it in functions for it in words[:-1])


def flattened(body, states, functions, c):
    """Reads each field of a state from c."""
    for name in states:
        body = re.sub(NAME % re.escape(name) + r"(?:\.before)*(?=\.(?!before)[a-zA-Z])", c, body)
    at = body.find("(")
    while at >= 0:
        end = group_end(body, at)
        tail = re.match(r"(?:\.before)*(?=\.(?!before)[a-zA-Z])", body[end:])
        if tail and is_state(body[at:end], states, functions):
            body = body[:at] + c + body[end + tail.end() :]
        at = body.find("(", at + 1)
    return body


def declaration(text, functions):
    head = re.search(r"(?m)^([\w'-]+) (\w+)((?: \w+)*) =", text)
    if not head or "tie.spec" in text or PLACE_FUNCTION.search(text):
        return text
    c, body = head[2], text[head.end() :]
    states = [c]
    for bound in re.finditer(r"let ([\w'-]+) = ([\w.'() -]+?) in(?=\s)", body):
        if is_state(bound[2], states, functions):
            states.append(bound[1])
    body = flattened(body, states, functions, c)
    for name in reversed(states[1:]):
        if not re.search(NAME % re.escape(name) + r"(?![\w'-]| = )", body):
            body = re.sub(r"\s*let %s = [\w.'() -]+? in(?=\s)" % re.escape(name), "", body, count=1)
    return text[: head.end()] + body


def body_flattened(body):
    functions = {it[1] for it in PLACE_FUNCTION.finditer(body)}
    parts = re.split(r"(\n\n(?=(?:--|\S)))", body)
    return "".join(it if it.isspace() else declaration(it, functions) for it in parts)


def without_unused(body):
    """Drops the place functions that nothing names any more, with the comment above each."""
    while True:
        for found in PLACE_FUNCTION.finditer(body):
            if len(re.findall(NAME % re.escape(found[1]) + r"(?![\w'-])", body)) == 2:
                start = re.search(r"(?m:^--[^\n]*\n)*\Z", body[: found.start()]).start()
                body = (body[:start].rstrip("\n") + "\n\n" if body[:start].strip() else "") + body[found.end() :].lstrip("\n")
                break
        else:
            return body


def main():
    for path in sys.argv[1:]:
        with open(path, encoding="utf-8") as it:
            text = it.read()
        head, body = re.match(r"((?:--[^\n]*\n|use [^\n]*\n|\s*\n)*)(.*)", text, re.S).groups()
        now = head + without_unused(body_flattened(body))
        if now != text:
            with open(path, "w", encoding="utf-8") as it:
                it.write(now)


if __name__ == "__main__":
    main()
