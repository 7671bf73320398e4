#!/usr/bin/env python3
"""Spells this repository's own definitions and lemmas as the library's are spelled: values and lemmas in snake case,
modules in camel case, a prime as an apostrophe.

usage: tools/respell.py [--look]      at the top of the repository, after port.py, before any edit by hand

It goes by text over crates/*/specs, crates/*/proofs and what contracts and comments say in crates/*/src, and over the
must-fail edits of those. Functions of src/, exported C names, strings, inputs and outputs keep their names. With --look it
writes nothing, and prints the names that would fall together.
"""

import collections
import glob
import os
import re
import sys

# A name, with its dashes: a name of antt's may have them.
NAME = r"[A-Za-z_][A-Za-z0-9_'′₀-₉]*(?:-[A-Za-z0-9_'′₀-₉]+)*"
ANTT = re.compile(r'--[^\n]*|"(?:[^"\\\n]|\\.)*"|' + r"(?<![A-Za-z0-9_'′₀-₉])" + NAME)
RUST = re.compile(r'//[^\n]*|b?"(?:[^"\\]|\\.)*"|b?\'(?:[^\'\\\n]|\\(?:x[0-9A-Fa-f]{2}|u\{[^}]*\}|.))\'|(?<![A-Za-z0-9_])0[xX][0-9A-Fa-f_]+|(?<![A-Za-z0-9_])' + NAME)
# Names that the rule would spell badly (none so far).
OWN = {}
# A lemma that would now have its function's name, with the crate in whose proofs it is used.
LEMMAS = {
    "option_ends": ["same_line", "same_at", "same_ends"],
    "profile": ["last_name"],
    "startup_record": ["laid_out", "no_room"],
    "telnet_feed": ["no_room"],
    "claims": ["by_number"],
}


def snake(part):
    """camelCase as snake_case; any other spelling as it is."""
    if part in OWN:
        return OWN[part]
    if not re.match(r"[a-z]", part) or not re.search(r"[A-Z]", part):
        return part
    part = re.sub(r"([a-z])([0-9]+)$", r"\1_\2", part) if re.search(r"[A-Z].*[a-z][0-9]{2,}$", part) else part
    part = re.sub(r"(?<=[a-z0-9])([A-Z]+)(?=[^a-z]|$)", lambda m: "_" + m.group(1).lower(), part)
    return re.sub(r"(?<=[a-z0-9])([A-Z])", lambda m: "_" + m.group(1).lower(), part).lower() if re.search(r"[A-Z]", part) else part


def spelled(name):
    if name.startswith('"'):
        return name
    return "-".join(snake(p) for p in name.replace("′", "'").split("-"))


COMMENT = re.compile(r"(?<![A-Za-z0-9_'′₀-₉\"\\])" + NAME + r"(?!\")")


def in_antt(text):
    def one(m):
        w = m.group(0)
        return re.sub(COMMENT, lambda n: spelled(n.group(0)), w) if w.startswith("--") else spelled(w)

    text = re.sub(ANTT, one, text)
    return re.sub(r"(Rattle\.\w+\.(?:specs|proofs)\.)internal\b", r"\1Internal", text)


def in_rust(text):
    def one(m):
        w = m.group(0)
        if w.startswith("//"):
            return re.sub(r"(?<![A-Za-z0-9_\\'\"])[a-z][A-Za-z0-9]*(?![A-Za-z0-9_'\"])", lambda n: snake(n.group(0)), w)
        if w[0] in "\"'" or w[:2] in ("b\"", "b'") or re.match(r"0[xX]", w):
            return w
        return spelled(w)

    text = re.sub(RUST, one, text)
    return re.sub(r"(Rattle\.\w+\.specs\.)internal\b", r"\1Internal", text)


def in_edit(text):
    out = []
    which = ""
    for line in text.split("\n"):
        m = re.match(r"(file|old|new): ?(.*)$", line, re.S)
        if m and m.group(1) == "file":
            which = m.group(2).strip()
            line = "file: " + which.replace("/internal/", "/Internal/")
        elif m:
            turn = in_antt if which.endswith(".antt") else in_rust
            line = m.group(1) + ": " + turn(m.group(2))
        out.append(line)
    return "\n".join(out)


def files():
    for d in ("specs", "proofs"):
        yield from ((p, in_antt) for p in sorted(glob.glob(f"crates/*/{d}/**/*.antt", recursive=True)))
    yield from ((p, in_rust) for p in sorted(glob.glob("crates/*/src/**/*.rt", recursive=True)))
    yield from ((p, in_edit) for p in sorted(glob.glob("crates/*/must-fail/*.edit")))


def look():
    """The names that would fall together, in one file or among what the repository declares."""
    declared = collections.defaultdict(set)
    for path, _ in files():
        with open(path, encoding="utf-8") as f:
            text = f.read()
        names = set(ANTT.findall(text))
        by = collections.defaultdict(set)
        for n in names:
            by[spelled(n)].add(n)
        for to, froms in sorted(by.items()):
            if len(froms) > 1:
                print(f"{path}: {' '.join(sorted(froms))} -> {to}")
        for m in re.finditer(r"^(?:abbrev |unfoldable |pub |data |record |  pub )+(" + NAME + r")", text, re.M):
            declared[spelled(m.group(1))].add((m.group(1), path))
    for to, froms in sorted(declared.items()):
        if len({n for n, _ in froms}) > 1:
            print(f"declared: {to}: " + ", ".join(sorted(f"{n} in {p}" for n, p in froms)))


def main(argv):
    if argv == ["--look"]:
        return look()
    # the lemmas get their names in the first run alone: after it their functions have the names that they had
    with open("crates/refusal/specs/Refusal.antt", encoding="utf-8") as f:
        first = "noRoom" in f.read()
    for path, turn in list(files()):
        with open(path, encoding="utf-8", newline="") as f:
            old = f.read()
        new = old
        crate, folder = path.split("/")[1:3]
        if first and folder == "proofs":
            for lemma in LEMMAS.get(crate, []):
                new = re.sub(r"(?<![\w.'-])" + lemma + r"(?![\w'-])", lemma + "_lem", new)
        new = turn(new)
        if new != old:
            with open(path, "w", encoding="utf-8", newline="") as f:
                f.write(new)
    for d in sorted(glob.glob("crates/*/specs/internal")):
        os.rename(d, os.path.join(os.path.dirname(d), "Internal"))
        if os.path.exists(d + ".antt"):
            os.rename(d + ".antt", os.path.join(os.path.dirname(d), "Internal.antt"))
    for p in sorted(glob.glob("crates/*/specs/**/*.antt", recursive=True)):
        with open(p, encoding="utf-8") as f:
            old = f.read()
        new = re.sub(r"^((?:pub )?mod )internal$", r"\1Internal", old, flags=re.M)
        if new != old:
            with open(p, "w", encoding="utf-8") as f:
                f.write(new)


if __name__ == "__main__":
    main(sys.argv[1:])
