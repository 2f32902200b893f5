#!/usr/bin/env python3
"""Brings this repository's own definitions and lemmas to snake case: `waiting-choice` becomes `waiting_choice`, and a
prime `′` an apostrophe. Run once, at the top, after the toolchain's own port script. It goes by whole names: those that a
signature or a record field in specs/ or proofs/ declares. Names of the library and names that the checker makes for goals
and steps keep their dashes; so do comments, strings and file names. It prints the names that would fall together."""
import collections
import glob
import re
import sys

WORD = re.compile(r"[^\s(){}\[\];,.«»⌜⌝λ|↦]+")
ANSWER_FILES = ("Answers.antt", "Invariants.antt", "Choices.antt", "Proof.antt")


def own_crates():
    lines = open("crates.txt").read().split("\n")
    return {re.split(r"[\s:]", line)[0] for line in lines if ":" in line and not line.startswith("#")}


def antt_code(line):
    """The part of a line before its comment."""
    return re.split(r"(?:^|(?<=\s))--", line, maxsplit=1)[0]


def declared(files):
    """The names that this repository declares, and those that it imports from elsewhere."""
    own, others = set(), set()
    crates = own_crates()
    for file in files:
        text = "\n".join(antt_code(line) for line in open(file).read().split("\n"))
        for use in re.finditer(r"^use ([^\n{]+?)\.\{([^}]*)\}\s*$", text, re.M):
            parts = use.group(1).split(".")
            if not (parts[0] == "Rattle" and parts[1] in crates):
                others |= {name.split(" as ")[0].strip() for name in use.group(2).split(",")}
        for line in text.split("\n"):
            found = re.match(r"\s*(?:abbrev )?(?:unfoldable )?(?:pub )?([^\s():]+)\s*:\s(.*)$", line)
            goal = found and file.endswith(ANSWER_FILES) and re.match(r"(goal|given)\.", found.group(2))
            if found and not goal:
                own.add(found.group(1))
    return own, others


def spelled(name):
    return name.replace("-", "_")


def renamed(text, names):
    return WORD.sub(lambda m: names.get(m.group(0), m.group(0)).replace("′", "'"), text)


def renamed_antt(text, names):
    out = []
    for line in text.split("\n"):
        code = antt_code(line)
        out.append(renamed(code, names) + line[len(code):])
    return "\n".join(out)


def renamed_source(text, names):
    """Source of a crate, or an edit of it: comments and strings stay."""
    parts = re.split(r'(//[^\n]*|"(?:[^"\\\n]|\\.)*")', text)
    return "".join(part if at % 2 else renamed(part, names) for at, part in enumerate(parts))


def main():
    antt = sorted(glob.glob("crates/*/specs/**/*.antt", recursive=True) + glob.glob("crates/*/proofs/**/*.antt", recursive=True))
    source = sorted(glob.glob("crates/*/src/**/*.rt", recursive=True) + glob.glob("crates/*/must-fail/*.edit"))
    own, others = declared(antt)
    names = {name: spelled(name) for name in own if re.search(r"[\w′]-[\w]", name) and name not in others}
    met = collections.defaultdict(set)
    for name in own | others:
        met[names.get(name, name).replace("′", "'")].add(name)
    for together in met.values():
        if len(together) > 1:
            print("fall together:", *sorted(together))
    if "--look" in sys.argv:
        return
    for file, rename in [(f, renamed_antt) for f in antt] + [(f, renamed_source) for f in source]:
        before = open(file).read()
        after = rename(before, names)
        if after != before:
            open(file, "w").write(after)


main()
