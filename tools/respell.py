#!/usr/bin/env python3
"""Spells the repository's own definitions and lemmas in snake case, as `greatest_price` for `greatest-price`, and
`kind_letter` for `kindLetter`.

usage: tools/respell.py [--check]      (in the repository's root)

Run once, after the kit's own script, when the repository came over to a newer Rattle. It goes by the text: a name that
specs/ or proofs/ declare gets an underscore for each dash and before each capital, wherever it stands. A dash stays where
it joins two names, as in `sum-cons`, and in the names that Rattle makes of code (`loop-i-preserved`, `returns-in-None`).
A name that would meet another one in some file stops the script, which then has written nothing. --check writes nothing.
"""
import os
import re
import sys

WORD = re.compile(r"[^\s(){}.;,@\"«»`]+")
DECLARED = re.compile(r"^\s*(?:abbrev |unfoldable |pub )*(\S*-\S*|[a-z][a-z0-9]*[A-Z]\w*)(?: \{[^{}]*\})* :\s*(\S*)")
LOCAL = re.compile(r"(?:\blet |\()([a-z][\w']*-[\w'-]*)(?= [:=])")
# a dash that joins two names: a lemma's left side, the outer one first
JOINED = {
    "sum-cons": "sum-cons",
    "sum-filled": "sum-filled",
    "length-filled": "length-filled",
    "resting-cons": "resting-cons",
    "resting-filled": "resting-filled",
    "resting-remaining": "resting-remaining",
    "gets-append": "gets-append",
    "gets-cons": "gets-cons",
    "map-gets": "map-gets",
    "take-set-held": "take-set_held",
}
# a name that would meet the name of a function in src/ that means something else
OTHERWISE = {"every-price": "every_price_range"}
# names that meet the name of the function in src/ that answers what they define
MIRRORS = {"within_limits"}


def files(endings):
    for folder, dirs, names in os.walk("crates"):
        dirs[:] = sorted(d for d in dirs if d != "out")
        for name in sorted(names):
            if name.endswith(endings):
                yield os.path.join(folder, name)


def read(path):
    with open(path, encoding="utf-8") as f:
        return f.read()


def spelled(name):
    if name in JOINED or name in OTHERWISE:
        return (JOINED | OTHERWISE)[name]
    words = re.sub(r"(?<=[a-z0-9])[A-Z]", lambda m: "_" + m[0].lower(), name) if name[0].islower() and "-" not in name else name
    return words.replace("-", "_")


def declared():
    """The names with a dash that specs/ and proofs/ declare, without the goals of functions."""
    own, goals = set(), set()
    for path in files((".antt",)):
        for line in read(path).split("\n"):
            m = DECLARED.match(line)
            if m and not line.lstrip().startswith(("--", "let ")):
                (goals if m.group(2).startswith("goal.") else own).add(m.group(1))
            own.update(LOCAL.findall(line))
    return own - goals


def turned(text, table, path):
    """The text with each name of the table in its new spelling, and the words that stand in it."""
    out, last = [], 0
    for m in WORD.finditer(text):
        word = m.group()
        if word not in table:
            continue
        # behind a dot stands a field, or a name that Rattle makes of code
        if m.start() and text[m.start() - 1] == "." and re.search(r"\bc(\.[^\s()]+)*\.$", text[: m.start()].rsplit("\n", 1)[-1]) and path.endswith("Answers.antt"):
            continue
        out += [text[last : m.start()], table[word]]
        last = m.end()
    return "".join(out) + text[last:]


def main():
    table = {n: spelled(n) for n in declared() if spelled(n) != n}
    new = {}
    for path in files((".antt", ".rt", ".edit")):
        text = read(path)
        after = turned(text, table, path)
        if after == text:
            continue
        words = set(WORD.findall(text))
        meets = sorted(table[w] for w in words if w in table and table[w] in words and table[w] not in MIRRORS)
        if meets:
            print(f"{path}: these names would meet others: {' '.join(meets)}", file=sys.stderr)
            return 1
        new[path] = after
    for path, text in new.items():
        if "--check" not in sys.argv:
            with open(path, "w", encoding="utf-8") as f:
                f.write(text)
    print(f"{len(table)} names, {len(new)} files")
    return 0


sys.exit(main())
