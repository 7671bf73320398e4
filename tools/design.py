#!/usr/bin/env python3
"""Counts the places of docs/DESIGN-PASS.md in crates/*/src.

    python3 tools/design.py [folder]         the counts, point by point
    python3 tools/design.py [folder] -v      each place too

Two functions are twins where their bodies are one text after each number is written N, each text in quotes S, each
constant (CAPITALS) K, and each other name by its first place in the body. Bodies of fewer than 14 tokens are left out.
"""
import collections
import glob
import itertools
import re
import sys

VERBOSE = "-v" in sys.argv
ROOT = next((a for a in sys.argv[1:] if a != "-v"), ".")
FILES = sorted(glob.glob(ROOT + "/crates/*/src/**/*.rt", recursive=True))
TEXTS = {path: open(path, encoding="utf-8").read() for path in FILES}
TOKEN = re.compile(r"""b?"(?:\\.|[^"\\])*"|b?'(?:\\.|[^'\\])'|[A-Za-z_][A-Za-z0-9_]*|0x[0-9A-Fa-f_]+|[0-9][0-9_]*|[^\sA-Za-z0-9]""")
KEEP = set("let mut if else while for in loop match return true false as fn usize u8 u16 u32 u64 bool self Self Some None Ok Err".split())


def short(path):
    return path.split("crates/")[1].replace("/src/", " ")


def say(name, places):
    print("%4d  %s" % (len(places), name))
    if VERBOSE:
        for place in places:
            print("        " + place)


def lines(pattern, only=None):
    found = []
    for path, text in TEXTS.items():
        if only and only not in path:
            continue
        for i, line in enumerate(text.split("\n"), 1):
            if re.search(pattern, line):
                found.append("%s:%d %s" % (short(path), i, line.strip()))
    return found


def fields(pattern):
    """Fields of structs whose line fits a pattern."""
    found = []
    for path, text in TEXTS.items():
        for m in re.finditer(r"struct (\w+)[^{;]*\{\n(.*?)^\}", text, re.M | re.S):
            for line in m.group(2).split("\n"):
                if re.search(pattern, line):
                    found.append("%s %s: %s" % (short(path), m.group(1), line.strip()))
    return found


def functions(text):
    for m in re.finditer(r"^( *)(?:pub(?:\(crate\))? )?(?:extern \"C\" )?fn (\w+)", text, re.M):
        indent = m.group(1)
        line_end = text.find("\n", m.end())
        if text[m.end():line_end].rstrip().endswith("{"):
            start = line_end - 1
        else:
            start = text.find("\n" + indent + "{", m.end()) + 1
        end = text.find("\n" + indent + "}", start)
        if start > 0 and end > 0:
            yield m.group(2), text[m.end():start], text[start:end]


def shape(body):
    names, out = {}, []
    for t in TOKEN.findall(re.sub(r"//.*", "", body)):
        if t[0].isdigit():
            out.append("N")
        elif t[0] in "\"'" or t[:2] in ('b"', "b'"):
            out.append("S")
        elif re.fullmatch(r"[A-Z][A-Z0-9_]*", t):
            out.append("K")
        elif re.fullmatch(r"[A-Za-z_]\w*", t) and t not in KEEP:
            out.append(names.setdefault(t, "v%d" % len(names)))
        else:
            out.append(t)
    return tuple(out)


def twins():
    groups = collections.defaultdict(list)
    for path, text in TEXTS.items():
        for name, _, body in functions(text):
            s = shape(body)
            if len(s) >= 14:
                groups[s].append(short(path) + " " + name)
    return ["%d: %s" % (len(g), "; ".join(g)) for g in sorted(groups.values(), key=lambda g: (-len(g), g)) if len(g) > 1]


def by_crate(count):
    """Counts things of each crate, and gives those that three or more functions have."""
    out = []
    for crate in sorted({path.split("crates/")[1].split("/")[0] for path in FILES}):
        seen = collections.Counter()
        for path, text in TEXTS.items():
            if "crates/%s/" % crate in path:
                count(text, seen)
        out += ["%s: %d functions: %s" % (crate, n, k) for k, n in seen.items() if n >= 3]
    return out


def facts(text, seen):
    for m in re.finditer(r"requires (?:\w+ )?\{(.*?)\}\s*\n", text, re.S):
        body = " ".join(m.group(1).split())
        for fact in {x.strip(" ()") for x in re.split(r" × ", body)}:
            seen[fact] += 1


def together(text, seen):
    for _, head, _ in functions(text):
        m = re.match(r"(?:<[^(]*>)?\((.*?)\)(?: ->|\s*$|\n| \{)", head, re.S)
        if m:
            names = [re.sub(r"&'\w+ ", "&", x.strip()) for x in m.group(1).replace("\n", " ").split(",") if ":" in x]
            for three in itertools.combinations(names, 3):
                seen[", ".join(three)] += 1


print("1. Enums of the shape of Option or Result, flags and numbers")
say("enums", lines(r"^\s*(pub(\(crate\))? )?enum "))
say("variants that hold a number of refusal", lines(r"^    (Refused|Fault|Stop|Number)\(u8\),"))
say("variants that say that nothing is there", lines(r"^    (Nothing|Absent|LookUp),"))
numbered = fields(r"(number|refusal): u8,")
say("fields `number` or `refusal` of type u8 outside the structs for C (Tv..)", [f for f in numbered if " Tv" not in f])
say("the same in the structs for C", [f for f in numbered if " Tv" in f])
say("constants that number a refusal or a kind of what is sent", lines(r"^(pub )?const [A-Z_0-9]+: u8 = [0-9]+;", "/refusal/") + lines(r"^const (NOTHING|ON|OFF): u8"))
say("truth values in a struct", fields(r": bool,"))
print("2. Twins")
groups = twins()
say("groups of twins, of %d functions" % sum(int(g.split(":")[0]) for g in groups), groups)
print("3. Loops")
say("while and loop", lines(r"^\s*(while|loop)\b"))
say("of these with an index that is counted or moved by hand", lines(r"^\s*while \w+(\.\w+)* (<|<=|>) |^\s*while [0-9]+ <"))
say("for", lines(r"^\s*for "))
say("all, any, map, fold, zip, position, copy_from_slice, fill", lines(r"\.(all|any|map|fold|zip|position|copy_from_slice|fill|map_or|chunks_exact)\("))
print("4. Equality, order, copying, conversion and printing by hand")
say("functions that number or name an enum", lines(r"fn \w*(_number|_named|code_of|number_of)\("))
say("From, TryFrom, Display, Default and `as u8`", lines(r"impl (From|TryFrom|fmt::Display|Default)|derive\(.*(PartialEq|Default)| as u8$|\bas u8\b.*//"))
print("5. Facts and parameters")
say("facts in the `requires` of three or more functions of a crate", by_crate(facts))
say("three parameters of three or more functions of a crate", by_crate(together))
print("6. Buffers with a length beside them")
say("arrays in a struct", fields(r": \[\w+; "))
print("7. Which step to run")
say("matches on a number or letter", lines(r"match (number|letter|what|step|kind|i|n) \{"))
print("8. Proofs")
antt = [p for p in glob.glob(ROOT + "/crates/*/proofs/**/*.antt", recursive=True)]
print("%4d  files of answers, %d of invariants, %d lines of proofs" % (
    sum(p.endswith("/Answers.antt") for p in antt), sum(p.endswith("/Invariants.antt") for p in antt),
    sum(open(p, encoding="utf-8").read().count("\n") for p in antt)))
