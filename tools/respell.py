#!/usr/bin/env python3
"""respell.py: brings this repository's own definitions and lemmas to snake case, once, behind the kit's port.py.

A name that is declared in specs/ or proofs/ in camel case or with dashes gets underscores: `orRank` becomes `or_rank`, `ranks-next`
becomes `ranks_next`. Types and modules stay, and so does what the source or the kit names. Where a definition and a lemma fall
together, the lemma gets `_lem`. Comments and pages are turned where they quote a name.
"""
import collections
import glob
import os
import re
import sys

TOKEN = re.compile(r"[^\s(){}\[\],;.\"`|«»λ:=]+")
DECLARED = re.compile(r"^\s*(?:(?:abbrev|pub|unfoldable|pattern)\s+)*([^\s(){}:]+)\s+:\s*(.*)")
IMPORT = re.compile(r"use ([\w.]+)\.\{([^}]*)\}")
KEYWORDS = {"record", "data", "use", "let", "module"}


def snake(name):
    name = name.replace("′", "'")
    name = re.sub(r"(?<=[a-z0-9?])-(?=[a-zA-Z0-9])", "_", name)
    return re.sub(r"(?<=[a-z0-9])([A-Z])", lambda m: "_" + m.group(1).lower(), name)


def is_camel(name):
    return bool(re.search(r"[a-z0-9][A-Z]", name))


def proof_texts():
    return sorted(glob.glob("crates/*/specs/**/*.antt", recursive=True) + glob.glob("crates/*/proofs/**/*.antt", recursive=True))


def sources():
    return sorted(glob.glob("crates/*/src/**/*.rt", recursive=True))


def plain(line, mark):
    """A line without its comment."""
    at = line.find(mark)
    return line if at < 0 else line[:at]


def declared():
    """The names that the files declare: of a proof of a function, not what answers a goal."""
    names = set()
    for path in proof_texts():
        walk = path.endswith("/Proof.antt")
        with open(path) as file:
            for line in file:
                m = DECLARED.match(plain(line, "--"))
                if not m or m.group(1) in KEYWORDS or m.group(1)[0].isupper():
                    continue
                name, rest = m.groups()
                if walk and (rest.startswith("tie.") or re.search(r"[-_]spec$", name)):
                    continue
                names.add(name)
    return names


def foreign():
    """The names that the files take from the kit."""
    crates = set(os.listdir("crates"))
    names = set()
    for path in proof_texts() + sources():
        with open(path) as file:
            for m in IMPORT.finditer(file.read()):
                parts = m.group(1).split(".")
                if not (parts[0] == "Rattle" and parts[1] in crates):
                    names |= {name.split(" as ")[0].strip() for name in m.group(2).split(",")}
    return names


def new_names():
    kit = foreign()
    groups = collections.defaultdict(list)
    for name in declared() - kit:
        groups[snake(name)].append(name)
    names = {}
    for target, group in groups.items():
        definitions = [name for name in group if is_camel(name)]
        # Of names that fall together one keeps the plain spelling: the definition, or what port.py made of one.
        keeper = definitions[0] if definitions else target if target in group or target in kit else group[0]
        for name in group:
            new = target if name == keeper else target + "_lem"
            if new != name:
                names[name] = new
    return names


def turned(text, names, only_quoted):
    def one(m):
        word = m.group(0)
        if only_quoted and not is_camel(word):
            return word
        return names.get(word, word)
    return TOKEN.sub(one, text)


def turn_comment(text, names):
    """In a comment: each word in camel case, and what stands between back quotes."""
    parts = text.split("`")
    return "`".join(turned(part, names, k % 2 == 0) for k, part in enumerate(parts))


def turn_file(path, names, mark):
    spelled = {name: new for name, new in names.items() if snake(name) != name} if path.endswith(".rt") else names
    with open(path) as file:
        lines = file.read().split("\n")
    out = []
    for line in lines:
        code = plain(line, mark)
        new = turned(code, spelled, False)
        if path.endswith("/Proof.antt"):
            new = TOKEN.sub(lambda m: snake(m.group(0)) if m.group(0).endswith("-spec") else m.group(0), new)
        out.append(new + turn_comment(line[len(code):], spelled))
    write(path, "\n".join(out))


def turn_page(path, names):
    with open(path) as file:
        text = file.read()
    spelled = {name: new for name, new in names.items() if is_camel(name) or "-" in name}
    write(path, turn_comment(text, spelled))


def turn_edit(path, names):
    with open(path) as file:
        lines = file.read().split("\n")
    spelled = {name: new for name, new in names.items() if snake(name) != name}
    out = []
    for line in lines:
        kind = line.split(" ")[0]
        out.append(turned(line, spelled, False) if kind in ("old:", "new:") else turn_comment(line, spelled))
    write(path, "\n".join(out))


def write(path, text):
    with open(path) as file:
        if file.read() == text:
            return
    with open(path, "w") as file:
        file.write(text)


def main():
    os.chdir(os.path.join(os.path.dirname(os.path.abspath(__file__)), "..") if len(sys.argv) < 2 else sys.argv[1])
    names = new_names()
    for path in proof_texts():
        turn_file(path, names, "--")
    for path in sources():
        turn_file(path, names, "//")
    for path in sorted(glob.glob("crates/*/must-fail/*.edit")):
        turn_edit(path, names)
    for path in sorted(glob.glob("docs/*.md") + glob.glob("*.md") + glob.glob("include/*.h")):
        if os.path.basename(path) != "PORT.md":
            turn_page(path, names)
    print(f"respell: {len(names)} names")


if __name__ == "__main__":
    main()
