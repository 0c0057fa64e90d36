#!/usr/bin/env python3
"""Lists the lines of src/ where an older form may stand, one list for each point of docs/DESIGN-PASS.md.

    python3 tools/places.py             the count of each list
    python3 tools/places.py 3           the lines of list 3
    python3 tools/places.py --at REV    the same of a commit

A list is a pattern, so it finds too much: the page says which lines are places and what became of each.
"""
import re
import subprocess
import sys

FORMS = {
    "1a": ("a flag in a struct", r"^\s+(pub )?[a-z_]+: bool"),
    "1b": ("a small number that an own function answers", r"^\s*(pub )?fn [a-z_]+(<.*>)?\(.*\) -> (u8|u16|u32|usize)\b"),
    "1c": ("a class, layer, kind or code as a number", r"\b(class|layer|kind|code|fault): u(8|16|32)\b"),
    "1d": ("an own enum", r"^\s*(pub )?enum "),
    "2a": ("the same call of a check, written out", r"if !?[a-z.]*(fits|seats_fit)\(.*\{|client >= "),
    "2b": ("functions that differ in a word or a number", None),
    "3": ("a loop", r"^\s*(for|while|loop)\b.*\{\s*$"),
    "4a": ("an impl of equality, order, conversion or text", r"^impl.* (PartialEq|Eq|PartialOrd|Ord|Clone|Default|From<.*>|TryFrom<.*>|fmt::Display) for "),
    "4b": ("equality by hand", r"fn same\w*[(<]"),
    "4c": ("text or a number of an enum by hand", r"fn \w+\(.*\) -> (&'static str|u8)\b"),
    "4d": ("zeros written out", r"(session|number|index|holders|client|star): 0,"),
    "5a": ("a fact in a contract that speaks of two arguments", r"requires .*\{ (Shaped|TableShaped) "),
    "5b": ("entries lent beside the logs or the service", r"entries: &('a )?(mut )?\[Entry<"),
    "5c": ("messages or kept values lent beside the service", r"(messages|kept): &(mut )?\["),
    "6a": ("an array in a struct", r"^\s+pub [a-z_]+: \[.*; [0-9]+\]"),
    "6b": ("a count or length in a struct", r"^\s+(pub )?(count|length|lengths|size|seats): "),
    "7": ("a choice by match among steps or kinds", r"match (call|f\.code|name|m\.body|part|sought|self\.0\.body)\b"),
    "8": ("a file of answers or invariants", None),
}


def git(*args):
    return subprocess.run(["git", *args], capture_output=True, text=True, check=True).stdout


def files(rev, pattern):
    names = git("ls-tree", "-r", "--name-only", rev).split("\n") if rev else git("ls-files", "-co", "--exclude-standard").split("\n")
    return [n for n in names if re.fullmatch(pattern, n)]


def text(rev, name):
    if rev:
        return git("show", rev + ":" + name)
    try:
        with open(name) as f:
            return f.read()
    except FileNotFoundError:
        return ""


def shape(body):
    """A function's body with names of functions, types and numbers left out."""
    body = re.sub(r"//.*", "", body)
    body = re.sub(r"\bfn \w+", "fn", body)
    body = re.sub(r"\b[A-Z]\w*\b|\b[ui](8|16|32|64|size)\b|\b\d[\d_]*\b|\b[a-z_]\w*(?=\()", "X", body)
    return re.sub(r"\s+", " ", body)


def functions(source):
    """Each function with a body: its line and its text without clauses."""
    lines = source.split("\n")
    for i, line in enumerate(lines):
        m = re.match(r"(\s*)(pub )?fn (\w+)", line)
        if not m:
            continue
        out = []
        for j in range(i, len(lines)):
            out.append(lines[j])
            if lines[j].rstrip() == m.group(1) + "}" or lines[j].rstrip().endswith(";") and "{" not in "".join(out):
                break
        yield i + 1, m.group(3), "\n".join(x for x in out if not re.match(r"\s*(requires|ensures)\b", x))


def places(point, rev):
    if point == "8":
        return [(n, 1, "") for n in files(rev, r"crates/\w+/proofs/.+/(Answers|Invariants|Proof)\.antt")]
    sources = [(n, text(rev, n)) for n in files(rev, r"crates/\w+/src/.+\.rt")]
    found = []
    if point == "2b":
        seen = {}
        for n, source in sources:
            for line, name, body in functions(source):
                if body.count("\n") >= 2:
                    seen.setdefault(shape(body), []).append((n, line, name))
        for group in seen.values():
            if len(group) > 1:
                found += group
        return found
    pattern = re.compile(FORMS[point][1])
    for n, source in sources:
        lines = source.split("\n")
        found += [(n, i + 1, x.strip()) for i, x in enumerate(lines) if pattern.search(x)]
    return found


def main():
    args = sys.argv[1:]
    rev = None
    if "--at" in args:
        k = args.index("--at")
        rev = args[k + 1]
        del args[k:k + 2]
    for point, (what, _) in FORMS.items():
        if args and not any(point.startswith(a) for a in args):
            continue
        found = places(point, rev)
        print(f"{point}: {what}: {len(found)}")
        if args:
            for n, line, x in found:
                print(f"  {n}:{line}: {x}")


main()
