#!/usr/bin/env python3
"""Spells the names of this repository's own definitions and lemmas in snake case: `storedSort` is `stored_sort`, `byte-keep` is `byte_keep`.

usage: tools/port_names.py        at the top of the repository, once, right after the kit's port.py

Renamed is what a file of specs/ or proofs/ itself declares (not what a function's own folder of proofs/ does: Rattle makes those names).
A name that is spelled like one that stands in one of its files already, or like another that is renamed, gets the ending `_lem` (or `_fact`, where `_lem` is taken).
Functions of src/, strings, comments in plain words, inputs and outputs keep their names.
It prints each name that did not get the plain spelling, and writes all of them to tools/port_names.tsv: old, a tab, new.
"""

import collections
import os
import re

WORD = re.compile(r'[^\s(){}.;,@"«»]+')
USE = re.compile(r"\buse ([^\s;{]+)(\{[^;]*?\}(?=;|[ \t]*$))?(?: as ([^\s;]+))?", re.M)
DECLARED = re.compile(
    r"(?m)^ *(?:(?:abbrev|unfoldable|pub|data|record|mutual|\|) +)*([^\s(){}.;,@\"«»:]+)(?: +\{[^{}\n]*\})*(?: +\([^()\n]*\))* +: "
)
ANTT_COMMENT = re.compile(r"--[^\n]*")
RUST_COMMENT = re.compile(r"//[^\n]*")
SPAN = re.compile(r"`[^`\n]+`")
OF_A_FUNCTION = re.compile(r"crates/[^/]+/proofs/[^/]+/")


def files():
    for folder, dirs, names in os.walk("crates"):
        dirs[:] = sorted(d for d in dirs if d != "out")
        for name in sorted(names):
            if name.endswith((".antt", ".rt")):
                yield os.path.join(folder, name)


def in_snake_case(name):
    name = name.replace("getD", "get_or")
    name = re.sub(r"(?<=[a-z0-9])([A-Z])", lambda m: "_" + m[1].lower(), name)
    return name.replace("-", "_")


def table(texts):
    own = set(os.listdir("crates"))
    declared, found, outside = set(), collections.defaultdict(set), set()
    for path, text in texts.items():
        for head, items, _ in USE.findall(text):
            steps = head.strip(".").split(".")
            if not (steps[0] == "Rattle" and len(steps) > 1 and steps[1] in own):
                outside.update(WORD.findall(items) or steps[-1:])
        comment = ANTT_COMMENT if path.endswith(".antt") else RUST_COMMENT
        code = comment.sub(" ", text)
        if path.endswith(".antt") and not OF_A_FUNCTION.match(path):
            declared.update(DECLARED.findall(code))
        for word in WORD.findall(code):
            found[word].add(path)
    turned = {}
    for name in declared:
        if name[0].islower() and name not in outside and in_snake_case(name) != name:
            turned[name] = in_snake_case(name)
    wanted = collections.Counter(turned.values())
    for name, new in sorted(turned.items(), key=lambda it: ("-" in it[0], it)):
        alone = wanted[new] == 1 or "-" not in name
        if not alone or found[name] & found.get(new, set()):
            ending = "_fact" if new + "_lem" in turned.values() else "_lem"
            turned[name] = new + ending
            print(f"{name} is {new}{ending}")
    assert len(set(turned.values())) == len(turned), "two names would be one"
    for name, new in turned.items():
        both = found[name] & found.get(new, set())
        assert not both, (name, new, both)
    return turned


def turn(text, names, comment):
    respell = lambda part: WORD.sub(lambda m: names.get(m[0], m[0]), part)
    in_span = lambda m: respell(m[0][1:-1]).join("``")

    def in_comment(part):
        part = SPAN.sub(in_span, part)
        return re.sub(r"\b[a-z]+[A-Z]\w*", lambda m: names.get(m[0], m[0]), part)

    out, at = [], 0
    for m in comment.finditer(text):
        out += [respell(text[at : m.start()]), in_comment(m[0])]
        at = m.end()
    return "".join(out + [respell(text[at:])])


def main():
    texts = {}
    for path in files():
        with open(path, encoding="utf-8") as f:
            texts[path] = f.read()
    names = table(texts)
    turned = 0
    for path, text in texts.items():
        comment = ANTT_COMMENT if path.endswith(".antt") else RUST_COMMENT
        new = turn(text, names, comment)
        if new != text:
            turned += 1
            with open(path, "w", encoding="utf-8") as f:
                f.write(new)
    with open("tools/port_names.tsv", "w", encoding="utf-8") as f:
        f.writelines(f"{old}\t{new}\n" for old, new in sorted(names.items()))
    print(f"{len(names)} names, {turned} files")


if __name__ == "__main__":
    main()
