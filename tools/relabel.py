#!/usr/bin/env python3
"""Writes the labels of an older Rattle in a crate's Proof.antt files as today's: needs, places, steps, loops.

usage: python3 tools/relabel.py NAMES CRATE
NAMES is the names.json that `rt check --generated DIR --old-names` writes for the crate, and CRATE the crate's folder. It changes only
the files proofs/**/Proof.antt. What a label does not tell (a step that is gone, an argument of `tie.spec` more) is left as it is.
"""

import glob
import json
import os
import re
import sys

import flatten

FIELD = re.compile(r"(?<=[\w)′'₀-₉])\.([^\s(){}.;,]+)")
TIE = re.compile(r"\btie\.([^\s(){}.;,]+)")
plain = lambda it: it.replace("_", "-")


def spellings(word):
    """A label as it stands, and as it stood where a script took it for a name of specs/: new_IsWord of new-word, is_frozen_is of is-frozen."""
    yield plain(word)
    yield plain(re.sub(r"_(is|lem)\Z", "", word))
    yield plain(re.sub(r"_?Is([A-Z])", lambda it: "-" + it[1].lower(), word))
    yield plain(word).lower()


def looked_up(word, table):
    return next((table[it] for it in spellings(word) if it in table), None)


def tables(of):
    """The functions or cycle's needs, places, steps and loops by their old names, with dashes for underscores."""
    needs = {plain(old): new for old, new in of["needs"]}
    places = {plain(one[0]): new for one, new in zip(of["places"], of["places_by_name"])}
    fields = {}
    for one in of["places"]:
        old, new = one[2]
        if old:
            fields[plain(old)] = new
    loops = {plain(one[0][0]): one[0][1] for one in of["loops"]}
    return needs, places, fields, loops


def split_terms(text):
    """The arguments of a call: terms apart at the outermost blanks."""
    out, depth, at = [], 0, 0
    for k, it in enumerate(text + " "):
        depth += (it in "([{") - (it in ")]}")
        if it.isspace() and depth == 0:
            out += [text[at:k]] if text[at:k].strip() else []
            at = k + 1
        if depth < 0:
            return out + ([text[at:k].strip()] if text[at:k].strip() else [])
    return [it.strip() for it in out]


def by_position(body, needs, loops):
    """Gives each answer that `tie.spec` names the need at its position, where there are as many as the function has."""
    found = re.search(r"\(\s*tie\.spec(?=\s)", body)
    if not found:
        return body
    terms = split_terms(body[found.end() :])
    given = terms[2 * loops :]
    if len(given) != len(needs):
        return body
    for term, need in zip(given, needs):
        if re.fullmatch(r"[\w'-]+", term):
            body = re.sub(r"(?m)^(%s :\s+)tie\.Need-[^\s(){}.;,]+" % re.escape(term), lambda it: f"{it[1]}tie.Need-{need}", body)
    return body


def steps_back(body, of):
    """Counts anew how many steps a function from one place to an earlier one goes back."""

    def one(found):
        steps = steps_between(of, found["from"], found["to"])
        return found[0] if steps is None else found["head"] + found["var"] + ".before" * steps

    return re.sub(
        r"(?m)^(?P<head>(?:abbrev )?(?:pub )?(?P<name>[\w'-]+) : tie\.(?P<from>[^\s→]+)[^→\n]*→ tie\.(?P<to>[^\s→]+)[^→\n]*\n(?P=name) (?P<var>\w+) = )[\w.'() -]*$",
        one,
        body,
    )


def steps_between(of, place, to):
    """How many steps lie between a place and an earlier one, or None."""
    old = [one[0] for one in of["places"]]
    above = [old.index(one[1]) if one[1] else None for one in of["places"]]
    at, steps = (of["places_by_name"].index(place) if place in of["places_by_name"] else None), 0
    while at is not None and of["places_by_name"][at] != to:
        # An arm is one step today, where it was several.
        for _ in range(of["arms"][at][1] if of["arms"][at] else 1):
            at = above[at] if at is not None else None
        steps += 1
    return steps if at is not None else None


def arm_facts(body, of):
    """The facts of an arm, by the names that they have below it."""
    labels = {one[2][0]: one[2][1] for one in of["places"]}
    for arm in of["arms"]:
        for name, step, path in arm[2] if arm else []:
            if path and step in labels:
                old = ".".join([labels[step], *path])
                body = re.sub(r"(?<=\w)(?:\.before)*\.%s(?![\w-])" % re.escape(old), f".{arm[0]}.{name}", body)
    return body


def passed_on(text, of, place, lemmas, functions, c):
    """Counts anew the steps to each state that is passed to a lemma over an earlier place."""
    states = [c]
    for bound in re.finditer(r"let ([\w'-]+) = ([\w.'() -]+?) in(?=\s)", text):
        if flatten.is_state(bound[2], states, functions):
            states.append(bound[1])
    for lemma, to in lemmas.items():
        steps = steps_between(of, place, to)
        if steps is None:
            continue
        at = 0
        while True:
            found = re.compile(flatten.NAME % re.escape(lemma) + r" (?=[\w(])").search(text, at)
            if not found:
                break
            start = at = found.end()
            end = flatten.group_end(text, start) if text[start] == "(" else start + re.match(r"[\w'-]+", text[start:]).end()
            end += re.match(r"(?:\.before)*", text[end:]).end()
            if flatten.is_state(text[start:end], states, functions) and not text.startswith(".", end):
                text = text[:start] + c + ".before" * steps + text[end:]
    for name in reversed(states[1:]):
        if not re.search(flatten.NAME % re.escape(name) + r"(?![\w'-]| = )", text):
            text = re.sub(r"\s*let %s = [\w.'() -]+? in(?=\s)" % re.escape(name), "", text, count=1)
    return text


def recounted(body, of):
    functions = {it[1] for it in flatten.PLACE_FUNCTION.finditer(body)}
    lemmas = dict(re.findall(r"(?m)^(?:abbrev )?([\w'-]+) :\s+\(\w+ : tie\.([^\s)→]+)", body))
    for name, place in re.findall(r"(?m)^(?:abbrev )?([\w'-]+) : tie\.([^\s→]+)[^→\n]*→", body):
        if name not in functions:
            lemmas[name] = place
    at_need = {new: place for (_, new), (_, place) in zip(of["needs"], of["asked_at"])}
    out = []
    for part in re.split(r"(\n\n(?=(?:--|\S)))", body):
        head = re.search(r"(?m)^([\w'-]+) (\w+)((?: \w+)*) =", part)
        need = re.search(r"tie\.Need-([^\s(){}.;,]+)", part)
        place = at_need.get(need[1]) if need else lemmas.get(head[1]) if head else None
        if "tie.spec" in part:
            part = in_place_of_needs(part, of, lemmas, functions, at_need)
        elif head and place and not flatten.PLACE_FUNCTION.search(part):
            part = part[: head.end()] + passed_on(part[head.end() :], of, place, lemmas, functions, head[2])
        out.append(part)
    return "".join(out)


def in_place_of_needs(part, of, lemmas, functions, at_need):
    """The answers that stand in `tie.spec` itself: each at its need's place."""
    found = re.search(r"\(\s*tie\.spec(?=\s)", part)
    terms = split_terms(part[found.end() :])
    needs = [new for _, new in of["needs"]]
    given = terms[2 * len(of["loops"]) :]
    if len(given) != len(needs):
        return part
    for term, need in zip(given, needs):
        binds = re.match(r"\(λ (\w+)", term)
        if binds:
            now = flatten.flattened(term, [binds[1]], functions, binds[1])
            now = passed_on(now, of, at_need[need], lemmas, functions, binds[1])
            part = part.replace(term, now, 1)
    return part


def last_values(body, of):
    """What a call left in an argument, by the parameter's name."""
    for _, _, (_, label), callee, _ in of["places"]:
        params = of["params"].get(callee) if callee else None
        if params:
            body = re.sub(
                r"\.%s\.(?:new|last)((?:\.1)*)\.0(?![\w.])" % re.escape(label),
                lambda it: f".{label}.new.{params[it[1].count('1')]}" if it[1].count("1") < len(params) else it[0],
                body,
            )
    return body


def relabelled(text, of, name):
    needs, places, fields, loops = tables(of)
    known = set(places.values()) | set(fields.values())

    def tie(found):
        word = found[1]
        for head in ("Need-", "the-"):
            to = looked_up(word[len(head) :], needs) if word.startswith(head) else None
            if to:
                return f"tie.{head}{to}"
        for head in ("invariant-", "decreases-"):
            if word.startswith(head) and plain(word[len(head) :]) in loops:
                return f"tie.{head}{loops[plain(word[len(head):])]}"
        return f"tie.{looked_up(word, places) or word}"

    def field(found):
        if found[1] in ("type-inv", "well-formed", "loan-name"):
            return "." + found[1].replace("-", "_")
        return "." + (found[1] if found[1] in known else looked_up(found[1], fields) or found[1])

    head, body = re.match(r"((?:--[^\n]*\n|use [^\n]*\n|\s*\n)*)(.*)", text, re.S).groups()
    body = TIE.sub(tie, body)
    of_source = re.compile(r"(?:\btie|\.(?:args|ranges|requires|ensures|new|auto|type_inv|loop-[^\s.]*))\Z")

    def in_place(found):
        """A label, unless it is a name of the source: below args and the like, or that of a known fact, which is read by .given."""
        if of_source.search(body, max(0, found.start() - 40), found.start()):
            return found[0]
        now = field(found)
        is_known = re.fullmatch(r"%s(-\S+)?-\d+" % re.escape(found[0]), now)
        return found[0] if is_known and not body.startswith(".given", found.end()) else now

    body = FIELD.sub(in_place, body)
    body = by_position(body, [new for _, new in of["needs"]], len(of["loops"]))
    # Today a test of `!x` says what it says of x.
    body = re.sub(r"(\.(?:if|loop)[^\s.]*)\.taken\b", r"\1.true", body)
    body = re.sub(r"(\.(?:if|loop)[^\s.]*)\.left\b", r"\1.false", body)
    body = re.sub(r"\beq-(?:true|false)_of_not-eq-(?:true|false)' (?=[\w.-]+\.(?:true|false)\b)", "", body)
    body = re.sub(r"(?<=[\w)])\.pre\b", ".requires", body)
    body = re.sub(r"(?<=[\w)])\.inv\b", ".invariant", body)
    body = last_values(arm_facts(body, of), of)
    body = flatten.without_unused(recounted(flatten.body_flattened(steps_back(body, of)), of))
    dashed = plain(name) + "-spec"
    body = re.sub(r"(?<![\w.-])%s(?![\w-])" % re.escape(dashed), name + "_spec", body)
    return head + body


def main():
    names, crate = sys.argv[1:]
    with open(names, encoding="utf-8") as it:
        of_all = json.load(it)
    by_path = {}
    for module, of in of_all.items():
        if module.endswith(".Lts"):
            by_path[module.split("-proofs.", 1)[1][: -len(".Lts")]] = of
    for path in sorted(glob.glob(f"{crate}/proofs/**/Proof.antt", recursive=True)):
        home = os.path.relpath(os.path.dirname(path), f"{crate}/proofs").replace("/", ".")
        of = by_path.get(home)
        if not of:
            print("left:", path)
            continue
        with open(path, encoding="utf-8") as it:
            text = it.read()
        now = relabelled(text, of, home.split(".")[-1])
        if now != text:
            with open(path, "w", encoding="utf-8") as it:
                it.write(now)


if __name__ == "__main__":
    main()
