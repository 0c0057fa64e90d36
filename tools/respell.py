#!/usr/bin/env python3
"""Gives the repository's own definitions and lemmas the spelling of today's Rattle, and the crate `log` a name of its own.

Run it once, at the top of a checkout, right after the kit's own script:

    python3 tools/respell.py            rewrites the files in place
    python3 tools/respell.py --list     prints each old name with its new one, and names that fall together

A definition, lemma, field, constructor or ghost member that specs/, proofs/ or a ghost line declares in camel case or with a
dash is written in snake case; a fact with a capital keeps it and loses its dash. Functions of src/, goals that the prover
names, strings, inputs and outputs keep their names. The kit has a library named `log`, so the crate is `raft_log`.
"""
import os
import re
import sys

# Where the rule below would let two names fall together.
BY_HAND = {
    "best-known": "best_known_lem",
    "commit-at": "commit_at_lem",
    "copy-from": "copy_from_lem",
    "copy-put": "copy_put_lem",
    "last-from": "last_from_lem",
    "put-at": "put_at_lem",
    "getD-put": "get_or-put",
    "eqZ": "same_int",
    "decides-eqZ": "decides_same_int",
}
# Names that only one file gives: aliases of imports, and a name bound in a proof.
LOCAL = {
    "callWhen": "call_when",
    "copied-to": "copied_to",
    "led-by": "led_by",
    "most-known": "most_known",
    "openSession": "open_session",
    "reactTo": "reaction_to",
}
OLD_CRATE, NEW_CRATE = "log", "raft_log"
# What stands on either side of a whole name.
EDGE = r"[\s(){}\[\];:,.|@⟦⟧`∙←]"


def files(kinds):
    for folder, dirs, names in os.walk("crates"):
        dirs[:] = sorted(d for d in dirs if d != "out")
        for name in sorted(names):
            if name.endswith(kinds):
                yield os.path.join(folder, name)


def declared():
    """The names that specs/, proofs/ and ghost lines declare, but for answers to goals."""
    found = set()
    for path in files((".antt",)):
        for line in open(path, encoding="utf8"):
            if line.strip().startswith("--") or re.search(r":\s*goal\.", line):
                continue
            m = re.match(r"\s*(?:abbrev |unfoldable )?(?:pub )?(?:data |record )?([^\s(){}:.,]+)(?:\s+[({].*)?\s*:\s", line)
            if m:
                found.add(m.group(1))
    for path in files((".rt",)):
        found.update(re.findall(r"ghost (\w+)\s*[:=]", open(path, encoding="utf8").read()))
    return found


def snake(name):
    if name in BY_HAND:
        return BY_HAND[name]
    if name[0].isupper():
        return "".join(p[0].upper() + p[1:] for p in name.split("-"))
    name = re.sub(r"(?<=[a-z0-9])([A-Z])", lambda m: "_" + m.group(1).lower(), name)
    return name.replace("-", "_")


def renamed():
    names = declared()
    return {n: snake(n) for n in sorted(names) if re.match(r"[A-Za-z]", n) and n.isascii() and snake(n) != n}, names


def turn(text, table):
    return "".join(table.get(piece, piece) for piece in re.split(rf"({EDGE})", text))


def crate_paths(path, text):
    text = text.replace(f"Rattle.{OLD_CRATE}.", f"Rattle.{NEW_CRATE}.")
    if path.endswith((".rt", ".edit")):
        text = re.sub(rf"(?<![\w.:]){OLD_CRATE}::", f"{NEW_CRATE}::", text)
    return text


def main():
    table, names = renamed()
    table = {**table, **LOCAL}
    if "--list" in sys.argv:
        for old, new in table.items():
            print(f"{old} {new}" + ("   FALLS TOGETHER" if new in names or list(table.values()).count(new) > 1 else ""))
        return
    for path in list(files((".antt", ".rt", ".edit"))):
        text = open(path, encoding="utf8").read()
        new = crate_paths(path, turn(text, table))
        if new != text:
            open(path, "w", encoding="utf8").write(new)
    old_folder, new_folder = f"crates/{OLD_CRATE}", f"crates/{NEW_CRATE}"
    if os.path.isdir(old_folder):
        os.rename(old_folder, new_folder)
    lines = open("crates.txt", encoding="utf8").read().split("\n")
    lines = [l if l.startswith("#") else re.sub(rf"\b{OLD_CRATE}\b", NEW_CRATE, l) for l in lines]
    open("crates.txt", "w", encoding="utf8").write("\n".join(lines))


main()
