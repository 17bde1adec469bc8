#!/usr/bin/env python3
"""Spells this repository's own definitions and lemmas as the library spells its own: in snake case, facts in camel case.

usage: tools/spell.py [ROOT]

Run once, after the library's own scripts. A name is the repository's own if a file of specs/ or of proofs/ (a function's proof file aside)
declares it. In a file that brings a name of the same spelling from the library, that name stays. Strings stay, and so does code.
"""

import collections
import glob
import os
import re
import sys

DECLARES = re.compile(r"^\s*(?:abbrev |unfoldable |pub |private )*([^\W\d][^\s(){}:;,.]*)(?: \{[^}]*\})* : (.*)")
TOKEN = re.compile(r"[^\s(){}\[\];,.@«»\"|`]+")
USES = re.compile(r"^(?:ghost )?use ([^;{\n]*?)(?:\.\{([^}]*)\})?;?$", re.M)
SKIPS = re.compile(r'"(?:\\.|[^"\\])*"|b?\'(?:\\.|[^\'\\])\'')


def files(root, *patterns):
    for pattern in patterns:
        for path in sorted(glob.glob(os.path.join(root, pattern), recursive=True)):
            if "/out/" not in path and "/target/" not in path:
                yield path


def text_of(path):
    with open(path, encoding="utf-8") as f:
        return f.read()


def new_name(name, is_fact):
    if is_fact:
        return "".join(part[:1].upper() + part[1:] for part in re.split("[-_]", name))
    return name.replace("-", "_")


def declared(root):
    """The repository's own names, each with whether it is a fact: a definition whose type ends in a type of facts."""
    names = {}
    for path in files(root, "crates/*/specs/**/*.antt", "crates/*/proofs/**/*.antt"):
        if os.path.basename(path) in ("Proof.antt", "Answers.antt", "Invariants.antt"):
            continue
        for line in text_of(path).split("\n"):
            found = DECLARES.match(line)
            if found:
                name = found.group(1)
                is_fact = bool(re.search(r"(?:^|→ |\}\s*→ )Type 0\s*$", found.group(2))) and not line.startswith(" ")
                names[name] = names.get(name, False) or is_fact
    return names


def brought(text, own):
    """The names that a file brings from elsewhere than the repository's crates."""
    names = set()
    for found in USES.finditer(text):
        parts = found.group(1).split(".")
        if parts[0] == "Rattle" and len(parts) > 1 and parts[1] in own:
            continue
        for item in (found.group(2) or "").split(","):
            words = item.split(" as ")
            names.update(word.strip() for word in words[:1])
    return names


def main():
    root = sys.argv[1] if len(sys.argv) > 1 else "."
    own = {line.split(":")[0].split()[0] for line in text_of(os.path.join(root, "crates.txt")).split("\n") if re.match(r"\w+( staticlib)?:", line)}
    names = declared(root)
    table = {}
    for name, is_fact in names.items():
        new = new_name(name, is_fact and (name[0].islower() or "-" in name))
        if new != name:
            table[name] = new
    both = collections.Counter(table.values())
    for old, new in sorted(table.items()):
        if both[new] > 1 or new in names:
            print(f"falls together: {old} and another as {new}: stays")
            del table[old]
    changed = 0
    used = collections.Counter()
    for path in files(root, "crates/*/specs/**/*.antt", "crates/*/proofs/**/*.antt", "crates/*/src/**/*.rt", "crates/*/must-fail/*.edit", "docs/**/*.md", "README.md", "tools/*.py"):
        text = text_of(path)
        keep = brought(text, own)

        def turn(found):
            word = found.group(0)
            if word in table and word not in keep:
                used[word] += 1
                return table[word]
            return word

        if path.endswith(".rt"):
            out, at = [], 0
            for skip in SKIPS.finditer(text):
                out.append(TOKEN.sub(turn, text[at : skip.start()]))
                out.append(skip.group(0))
                at = skip.end()
            out.append(TOKEN.sub(turn, text[at:]))
            new = "".join(out)
        else:
            new = TOKEN.sub(turn, text)
        if new != text:
            changed += 1
            with open(path, "w", encoding="utf-8") as f:
                f.write(new)
    print(f"{len(table)} names, {sum(used.values())} places, {changed} files")


if __name__ == "__main__":
    main()
