#!/usr/bin/env python3
"""Spells the repository's own names as today's Rattle does: definitions, lemmas, fields and constructors in snake case.

usage: tools/spelling.py          at the top of a checkout of the old spelling, after port.py, once

A name is the repository's own in a file that declares it or imports it from one of the crates. Names that Rattle makes in
proofs of functions, Rust names and names of libraries stay. A name that would meet another gets the one of EXCEPT. The pages
name theorems in backticks: these are turned too. It prints what it turned, and each place where two names fall together.
"""

import collections
import os
import re
import sys

WORD = r"[^\s(){}.;,@\"«»]+"
DECLARED = re.compile(rf"(?m)^ *((?:\w+ )*?)({WORD})((?: {WORD})*?)((?: \{{[^{{}}\n]*\}}| \([^()\n]*\))*) :(?=\s)")
USE = re.compile(r"\b(?:ghost )?use ([^\s;{]+?)\.?(?:\{([^}]*)\})(?: as [^\s;]+)?")
CODE = re.compile(r"(?m)--[^\n]*")

# A lemma that would have its function's name, and names that differ in a dash alone.
EXCEPT = {
    "leaf-bare": "leaf_bare_lem", "leaf-counted": "leaf_counted_lem", "sign-is": "sign_is_lem", "insert-at": "insert_at_lem",
    "remove-at": "remove_at_lem", "in_cell": "in_cell_lem", "along-x": "along_x_lem", "along-y": "along_y_lem",
    "along-z": "along_z_lem", "room_of": "room_of_lem", "or-none": "or_none_lem", "empty-is": "empty_is_lem",
    "slot-of": "slot_of_lem", "kid-bit": "kid_bit_lem", "val-bit": "val_bit_lem", "combined-sign": "combined_sign_lem",
    "taken-end": "taken_end_lem", "settled-end": "settled_end_lem", "combined-end": "combined_end_lem",
    "fillSigns-lookup": "fill_signs_lookup_lem", "fillSigns-twice": "fill_signs_twice_lem",
    "fillSigns-empty": "fill_signs_empty_lem", "negative-is": "negative_is_lem",
}


def snake(name):
    words = re.sub(r"(?<=[a-z0-9])[A-Z]", lambda m: "_" + m[0].lower(), name)
    return words.replace("-", "_")


def files(top, *endings):
    for folder, dirs, names in os.walk(top):
        dirs[:] = sorted(d for d in dirs if d not in ("out", "target", ".git", "drafts"))
        for name in sorted(names):
            if name.endswith(endings):
                yield os.path.join(folder, name)


def read(path):
    with open(path, encoding="utf-8") as f:
        return f.read()


def of_function(path):
    """Whether the file lies in the folder of a function's proof."""
    parts = path.split(os.sep)
    at = parts.index("crates")
    return parts[at + 2] == "proofs" and len(parts) > at + 4


def declared_in(text):
    found = set()
    for m in DECLARED.finditer(CODE.sub("", text)):
        found.update([m[2], *m[3].split()])
    return found


def main():
    crates = sorted(os.listdir("crates"))
    texts = {p: read(p) for p in files("crates", ".antt", ".rt")}
    own, fields = set(), set()
    for path, text in texts.items():
        if path.endswith(".antt") and not of_function(path):
            own |= {n for n in declared_in(text) if n[0].islower()}
            code = CODE.sub("", text)
            for m in re.finditer(r"(?m)^( *)(?:pub )?record .*?where\n((?:\1 +.*\n|\s*\n)*)", code):
                fields |= {n for n in declared_in(m[2])}
    table = {n: EXCEPT.get(n, snake(n)) for n in own}
    table = {a: b for a, b in table.items() if a != b}
    turned, met = collections.Counter(), []
    for path, text in texts.items():
        code = CODE.sub("", text) if path.endswith(".antt") else text
        ours, theirs = set(), set()
        for where, names in USE.findall(code):
            steps = where.strip(".").split(".")
            mine = steps[0] == "Rattle" and len(steps) > 1 and steps[1] in crates
            for name in names.split(","):
                words = name.split()
                if words:
                    (ours if mine else theirs).add(words[0])
        if path.endswith(".antt"):
            here = declared_in(text)
            if of_function(path):
                theirs |= here - ours
            else:
                ours |= here
        else:
            ours |= set(table)
        made = of_function(path)
        seen = set(re.findall(WORD, code))

        def new_of(word, behind_dot):
            if word not in table or (word in theirs and word not in ours):
                return None
            if behind_dot:
                # Behind a dot stands a field, or a name of a module that is brought in whole.
                return table[word] if word in fields or not made else None
            return table[word] if word in ours or not made else None

        def turn(m):
            new = new_of(m[0], m.start() > 0 and m.string[m.start() - 1] == ".")
            if new is None:
                return m[0]
            turned[m[0]] += 1
            if new in seen:
                met.append(f"{path}: {m[0]} and {new}")
            return new

        parts = re.split(r"(--[^\n]*|//[^\n]*|\"[^\"\n]*\")", text)
        for i, part in enumerate(parts):
            if i % 2 == 0:
                parts[i] = re.sub(WORD, turn, part)
            elif part[0] != '"':
                parts[i] = re.sub(r"`[^`]*`", lambda s: re.sub(rf"{WORD[:-2]}`]+", lambda m: table.get(m[0], m[0]), s[0]), part)
        new = "".join(parts)
        if new != text:
            with open(path, "w", encoding="utf-8") as f:
                f.write(new)
    now = {table.get(n, n) for n in own}

    def in_page(m):
        """The pages also have names that port.py turned."""
        return table.get(m[0]) or (snake(m[0]) if snake(m[0]) in now else m[0])

    for path in files(".", ".md"):
        text = read(path)
        new = re.sub(r"`[^`\n]*`", lambda s: re.sub(rf"{WORD[:-2]}`*]+", in_page, s[0]), text)
        if new != text:
            with open(path, "w", encoding="utf-8") as f:
                f.write(new)
    print(f"spelling: {len(turned)} names of {len(table)}, at {sum(turned.values())} places")
    for line in sorted(set(met)):
        print(f"spelling: fall together: {line}")


main()
