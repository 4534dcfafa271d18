#!/usr/bin/env python3
"""Respells the repository's own definitions and lemmas: words in snake case, types in camel case.

usage: python3 tools/respell_names.py        at the top of the repository, once, right after the kit's own port script

A definition or a lemma is what a file of specs/ or proofs/ declares. Goals and facts that Rattle makes keep their names:
they stand behind `goal.` or follow a dot, and a goal's answer has the type `goal.NAME`. Functions of src/, strings,
inputs and outputs are left alone. The script says which names fall together, and writes nothing if any do.
"""

import os
import re
import sys

WORD = r"[^\s(){}.,;:@\"`]+"
DECLARED = re.compile(rf"^\s*(?:abbrev |unfoldable |pub )*({WORD})\s*:(?!\s*goal\.)", re.M)
TYPE = re.compile(rf"^\s*(?:pub )?(?:data|record)\s+({WORD})", re.M)
GOAL = re.compile(rf"^\s*(?:abbrev |pub )*({WORD})\s*:\s*goal\.", re.M)


def files(root):
    for folder, dirs, names in os.walk(os.path.join(root, "crates")):
        dirs[:] = sorted(d for d in dirs if d not in ("out", ".git"))
        for name in sorted(names):
            if name.endswith((".rt", ".antt")):
                yield os.path.join(folder, name)


def plain(text):
    """A text without its comments and strings, line for line."""
    return re.sub(r'"(?:\\.|[^"\\])*"', '""', re.sub(r"(?m)(^|\s)(--|//).*$", "", text))


def respelled(name):
    parts = name.split("-")
    if name[0].isupper():
        return "".join(p[:1].upper() + p[1:] for p in parts)
    return "_".join(parts)


def own_names(texts):
    names, goals = set(), set()
    for path, text in texts.items():
        if path.endswith(".antt"):
            bare = plain(text)
            names |= set(DECLARED.findall(bare)) | set(TYPE.findall(bare))
            goals |= set(GOAL.findall(bare))
    return {n for n in names - goals if re.fullmatch(r"[A-Za-z][\w'-]*-[\w'-]+", n)}


def main():
    root = os.getcwd()
    texts = {}
    for path in files(root):
        with open(path, encoding="utf-8") as f:
            texts[path] = f.read()
    turned = {n: respelled(n) for n in own_names(texts)}
    taken = {}
    for old, new in turned.items():
        taken.setdefault(new, set()).add(old)
    clash = [f"{new}: {', '.join(sorted(olds))}" for new, olds in sorted(taken.items()) if len(olds) > 1]
    for path, text in texts.items():
        if path.endswith(".antt"):
            bare = plain(text)
            for name in (set(DECLARED.findall(bare)) | set(TYPE.findall(bare))) & set(taken):
                clash.append(f"{name}: declared already in {os.path.relpath(path, root)}")
        else:
            for name in set(re.findall(r"\b(?:fn|struct|enum|trait)\s+(\w+)", text)) & set(taken):
                print(f"look: {os.path.relpath(path, root)} has an item {name}, as {', '.join(taken[name])} is spelled now")
    if clash:
        print("\n".join("falls together: " + c for c in clash))
        return 1
    # behind a dot a name is a field or a goal that Rattle makes, but for a path of modules and a record's own field
    pattern = re.compile("(?<![\\w'-])(" + "|".join(re.escape(n) for n in sorted(turned, key=len, reverse=True)) + ")(?![\\w'-])")
    changed = 0
    for path, text in texts.items():
        new = pattern.sub(lambda m: turned[m.group(1)], text)
        if new != text:
            changed += 1
            with open(path, "w", encoding="utf-8") as f:
                f.write(new)
    print(f"{len(turned)} names respelled in {changed} files")
    return 0


if __name__ == "__main__":
    sys.exit(main())
