#!/usr/bin/env python3
"""Respells the definitions and lemmas of this repository in today's form, once, after the kit's
port.py: words in snake case, types and modules as they are, `_lem` where a lemma would have the
name of a definition. Functions of src/, strings, inputs and outputs keep their names.
Run at the top of the repository: python3 tools/respell.py"""
import collections
import glob
import re

TOKEN = re.compile(r"[A-Za-z][A-Za-z0-9_'₀-₉]*(?:-[A-Za-z0-9_'₀-₉]+)*")
DECLARED = re.compile(
    r"\s*(?:(?:abbrev|unfoldable|opaque|pub|ruleset)\s+)*([A-Za-z][^\s:{}()]*)\s*:\s")
FUNCTION = re.compile(r"\bfn ([a-z][a-z0-9_]*)")


def files(*patterns):
    return sorted(f for p in patterns for f in glob.glob(p, recursive=True))


def code_of(line):
    """The line without its comment."""
    if line.lstrip().startswith("--"):
        return ""
    return re.split(r"\s--\s", line)[0]


def snake(name):
    name = name.replace("-", "_")
    return re.sub(r"([a-z0-9'])([A-Z])", lambda m: m[1] + "_" + m[2].lower(), name)


def is_camel(name):
    return name[0].islower() and "-" not in name and re.search("[A-Z]", name)


def is_kebab(name):
    return name[0].islower() and "-" in name


def declared_names(paths):
    names = set()
    for path in paths:
        for line in open(path):
            found = DECLARED.match(code_of(line))
            if found:
                names.add(found[1])
    return names


def function_names(paths):
    return {m for p in paths for m in FUNCTION.findall(open(p).read())}


# lemmas that port.py has respelled, to what is now the name of a definition
LEMMAS = {"none_of": "none_of_lem", "value_in": "value_in_lem", "last_ok": "last_ok_lem"}

# what Rattle itself makes, whose dashes stay
MADE = re.compile(r"(invariant|decreases|loop|if|in|returns|overflow|index|bounds|Need|After)\d*-")


def renamings(antt, rust):
    declared = declared_names(antt)
    functions = function_names(rust)
    new = {}
    for name in declared:
        if is_camel(name):
            new[name] = snake(name)
    taken = set(new.values()) | {n for n in declared if "-" not in n and not is_camel(n)}
    for name in sorted(declared):
        if is_kebab(name) and not MADE.match(name):
            plain = snake(name)
            new[name] = plain if name.endswith("-spec") or plain not in taken else plain + "_lem"
    fall = collections.Counter(new.values())
    for name, to in sorted(new.items()):
        if fall[to] > 1:
            print(f"falls together: {name} as {to}")
    # a step of a proof is named for the function that is called there
    calls = {}
    for function in functions:
        if "_" in function:
            calls[function.replace("_", "-")] = function
            first = function.replace("_", "-", 1)
            calls[first[0].upper() + first[1:]] = function
    return new, calls


def respelled(text, new, calls, antt):
    lines = []
    for line in text.split("\n"):
        kept = line if antt else None

        def put(match):
            name = match[0]
            before = line[:match.start()]
            if antt and before.endswith(".") and not before.endswith(".."):
                bare = re.match(r"(.*?)(\d*)$", name)
                if name in calls:
                    return calls[name]
                if bare[1] in calls and bare[2]:
                    return calls[bare[1]] + "-" + bare[2]
            elif antt and name in LEMMAS:
                return LEMMAS[name]
            return new.get(name, name)

        lines.append(TOKEN.sub(put, line))
    return "\n".join(lines)


def main():
    antt = files("crates/*/specs/**/*.antt", "crates/*/proofs/**/*.antt")
    rust = files("crates/*/src/*.rt")
    edits = files("crates/*/must-fail/*.edit")
    new, calls = renamings(antt, rust)
    changed = 0
    for path in antt + rust + edits:
        text = open(path).read()
        to = respelled(text, new, calls, path.endswith(".antt"))
        if to != text:
            open(path, "w").write(to)
            changed += 1
    print(f"respelled: {len(new)} names in {changed} files")


if __name__ == "__main__":
    main()
