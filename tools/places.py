#!/usr/bin/env python3
"""Lists the places in crates/*/src that older forms would leave there, so that a count can be made again.

Usage: tools/places.py [KIND ..]    with no KIND, how many lines each kind has
Kinds: enums numbers rewrapped flags twins loops by-hand conversions repeated together buffers switches proofs
"""
import re
import sys
from collections import defaultdict
from difflib import SequenceMatcher
from itertools import combinations
from pathlib import Path

ROOT = Path(__file__).resolve().parent.parent
SOURCES = sorted(p for p in ROOT.glob("crates/*/src/**/*.rt") if "tests" not in p.name and "by_theme" not in p.name)

KEPT = {"if", "else", "let", "match", "return", "for", "in", "while", "self", "Some", "None", "Ok", "Err"}

LINES = {
    "enums": r"^\s*(pub(\(\w+\))? )?enum \w+",
    "numbers": r", u8>|\b(number|pile|kind|MISPLACED): u\d+|fn number|^\s*[\w:]+ => \d+,|^\s*\d+ => |^\s*\w+ = \d+,|<u8, \w+Fault>",
    "rewrapped": r"return None;|None => None|Ok\((\w+)\) => Ok\(|Err\((\w+)\) => Err\(|return Err\(",
    "flags": r"-> bool|Result<bool",
    "loops": r"^\s*('\w+: )?(for|while|loop)\b",
    "by-hand": r"\+= 1\b",
    "conversions": r"\bas u\w+|\bu\w+::from\(|fn (number|about|lay|from|try_from|fmt|eq|cmp|clone)\b",
    "buffers": r"\[\w+; \w+\]|^\s*(pub )?(len|size|seats): u",
    "switches": r"match (side|pile|call|kind)\b|\bdyn |impl Fn|: Fn(Once|Mut)?\(",
}


def code_lines():
    for path in SOURCES:
        for number, line in enumerate(path.read_text().splitlines(), 1):
            if not line.lstrip().startswith("//"):
                yield f"{path.relative_to(ROOT)}:{number}", line


def functions():
    """Each function with a body: where, name, parameters, clauses, body."""
    for path in SOURCES:
        lines = path.read_text().splitlines()
        for start, line in enumerate(lines):
            if not (found := re.match(r"(\s*)[^/]*?\bfn (\w+)", line)):
                continue
            end = start
            while not (lines[end].endswith(";") or re.search(r"(^\s*|[^}] )\{$", lines[end])):
                end += 1
            if lines[end].endswith(";"):
                continue
            close = next(k for k in range(end + 1, len(lines)) if lines[k] == found[1] + "}")
            head = " ".join(lines[start : end + 1])
            clauses = re.findall(r"(?:requires|ensures)(?: \w+)? \{ (.*) \}", "\n".join(lines[start:end]))
            parameters = re.search(r"\((.*?)\)(?: ->| \{| requires| ensures| *$)", head)
            where = f"{path.relative_to(ROOT)}:{start + 1}"
            yield where, found[2], parameters[1] if parameters else "", clauses, "\n".join(lines[end + 1 : close])


def shape(body):
    """A body's tokens, with names, numbers and texts told only as such."""
    tokens = re.findall(r'"[^"]*"|\w+|[^\w\s]', re.sub(r"//.*", "", body))
    return ["_" if re.match(r'[\w"]', t) and t not in KEPT else t for t in tokens]


def twins():
    """Pairs of functions whose bodies have nearly one shape."""
    shapes = [(f"{where} {name}", shape(body)) for where, name, _, _, body in functions()]
    shapes = [(name, tokens) for name, tokens in shapes if len(tokens) >= 8]
    return [
        f"{first} ~ {second}"
        for (first, a), (second, b) in combinations(shapes, 2)
        if SequenceMatcher(None, a, b).ratio() >= 0.9
    ]


def repeated():
    """Clauses that stand in three or more functions."""
    clauses = defaultdict(list)
    for where, name, _, found, _ in functions():
        for clause in found:
            clauses[clause].append(name)
    return [f"{len(names)} {clause}: {', '.join(names)}" for clause, names in clauses.items() if len(names) >= 3]


def together():
    """Pairs of parameters, by name and type, that three or more functions take side by side."""
    pairs = defaultdict(list)
    for where, name, parameters, _, _ in functions():
        typed = [" ".join(p.split()) for p in parameters.split(",") if ":" in p]
        for first, second in zip(typed, typed[1:]):
            pairs[first, second].append(name)
    return [f"{len(names)} ({a}, {b}): {', '.join(names)}" for (a, b), names in pairs.items() if len(names) >= 3]


def proofs():
    """Each proof file with its number of lines."""
    files = sorted(ROOT.glob("crates/*/proofs/**/*.antt"))
    return [f"{p.relative_to(ROOT)}: {len(p.read_text().splitlines())}" for p in files if p.name != "Lib.antt"]


def places(kind):
    if kind in LINES:
        return [f"{where}: {line.strip()}" for where, line in code_lines() if re.search(LINES[kind], line)]
    return {"twins": twins, "repeated": repeated, "together": together, "proofs": proofs}[kind]()


def main():
    kinds = sys.argv[1:]
    for kind in kinds or [*LINES, "twins", "repeated", "together", "proofs"]:
        found = places(kind)
        if kinds:
            print(*found, sep="\n")
        print(f"{kind}: {len(found)}")


main()
