#!/usr/bin/env python3
"""Brings the names of this repository's definitions and lemmas to one spelling: words in snake case, types and facts in camel case.

usage: python3 tools/port_names.py     at the top of the repository, once, right after the toolchain's port.py

A name that begins with a capital letter is a type or a fact: First-write becomes FirstWrite. Every other name that was joined by a dash
gets an underscore: packed-size becomes packed_size. Only names that the repository itself defines are touched: in specs/, in proofs/, and
in the contracts and ghost imports of src/. Comments, strings, code, must-fail edits and documents stay as they are. The script stops and
writes nothing if two names would fall together.
"""

import glob
import re
import sys

NAME = r"[^\s(){}\[\],;.@\"«»|]+"
DEFINITION = re.compile(
    r"^( *)((?:abbrev|unfoldable) +)?(pub +)?((?:data|record|ruleset) +)?(pub +)?(" + NAME + r")((?: +" + NAME + r")*)((?: *\([^)]*\)| *\{[^}]*\})*) *:(?=\s)", re.M
)
DECLARED = re.compile(r"^ *(?:pub +)?(?:data|record|ruleset) +(" + NAME + r")", re.M)
ALIAS = re.compile(r"(?<=\sas )(" + NAME + r")")


def antt_files():
    return sorted(glob.glob("crates/*/specs/**/*.antt", recursive=True) + glob.glob("crates/*/proofs/**/*.antt", recursive=True))


def without_comments(text):
    return re.sub(r"(?m)(^|\s)--( .*)?$", r"\1", text)


def respelled(name):
    if name[0].isupper():
        return "".join(part[:1].upper() + part[1:] for part in name.split("-"))
    return name.replace("-", "_")


def joined(name):
    return bool(re.fullmatch(r"[^\W\d_][\w'₀-₉]*(-[\w'₀-₉]+)+", name))


def own_names(texts):
    """Each name with a dash that these files define, and each name that they take from a library."""
    own, taken, plain = set(), set(), set()
    for text in texts:
        bare = without_comments(text)
        for m in DEFINITION.finditer(bare):
            if bare[m.end() : m.end() + 60].strip().startswith("goal."):
                continue
            for name in [m.group(6)] + m.group(7).split():
                (own if joined(name) else plain).add(name)
        for m in DECLARED.finditer(bare):
            (own if joined(m.group(1)) else plain).add(m.group(1))
        for m in re.finditer(r"use +(\S+?)\.\{([^}]*)\}", bare):
            for item in m.group(2).split(","):
                parts = item.strip().split(" as ")
                if m.group(1).startswith("Rattle.std") or m.group(1).startswith("borrow"):
                    taken.add(parts[-1].strip())
        own |= {m.group(1) for m in ALIAS.finditer(bare) if joined(m.group(1))}
    return own - taken, taken, plain


def turned(text, names):
    def token(m):
        return names.get(m.group(0), m.group(0))

    return re.sub(NAME, token, text)


def turned_antt(text, names):
    out = []
    for line in text.split("\n"):
        m = re.search(r"(?:^|\s)--(?:\s|$)", line)
        at = m.start() if m else len(line)
        out.append(turned(line[:at], names) + line[at:])
    return "\n".join(out)


CLAUSE = re.compile(r"^\s*(ghost use\b.*|(?:pub )?ghost \w+( [^:=]*)?[:=].*|(?:requires|ensures)\b.*)$")


def turned_source(text, names):
    """Contracts, ghost members and ghost imports: from the line that begins one to the line where its braces close."""
    out, depth, inside = [], 0, False
    for line in text.split("\n"):
        if not inside and CLAUSE.match(line):
            inside, depth = True, 0
        if not inside:
            out.append(line)
            continue
        out.append(turned(line, names))
        depth += line.count("{") - line.count("}")
        if depth <= 0:
            inside = False
    return "\n".join(out)


def main():
    antt = {f: open(f, encoding="utf-8").read() for f in antt_files()}
    source = {f: open(f, encoding="utf-8").read() for f in sorted(glob.glob("crates/*/src/**/*.rt", recursive=True))}
    own, taken, plain = own_names(list(antt.values()))
    for text in source.values():
        for m in re.finditer(r"ghost use +\S+?\.\{([^}]*)\}", text):
            own |= {n for n in (i.strip().split(" as ")[-1] for i in m.group(1).split(",")) if joined(n) and " as " in m.group(1)} - taken
    own -= {n for n in own if n in taken}
    names = {n: respelled(n) for n in own}
    clash = [(n, w) for n, w in names.items() if w in taken or w in plain or sum(v == w for v in names.values()) > 1]
    for n, w in sorted(clash):
        print(f"clash: {n} would become {w}, which is a name already")
    if clash and "--anyway" not in sys.argv:
        return 1
    for f, text in antt.items():
        new = turned_antt(text, names)
        if new != text:
            open(f, "w", encoding="utf-8").write(new)
    for f, text in source.items():
        new = turned_source(text, names)
        if new != text:
            open(f, "w", encoding="utf-8").write(new)
    for n in sorted(names):
        print(f"{n} -> {names[n]}")
    return 0


if __name__ == "__main__":
    raise SystemExit(main())
