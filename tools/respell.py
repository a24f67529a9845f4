#!/usr/bin/env python3
"""tools/respell.py [--dry]: respells the names of this repository's own definitions and lemmas after port.py has run:
words in snake case, facts and types in camel case. In proof files it also respells what the check makes from names of
the source, which keep their spelling there. Functions of src/ keep their names. Run it once, at the top."""

import collections
import glob
import os
import re
import sys

MODIFIERS = r"(?:(?:unfoldable|abbrev|pub|data|record|ruleset) )*"
SIGNATURE = re.compile(r"^\s*" + MODIFIERS + r"([^\s:(){}\[\].,;=λ]+)\s*(?:[({].*)?:(?=\s|$)")
USE = re.compile(r"use ([\w.·]+)\.\{([^}]*)\}")
TOKEN = re.compile(r"[^\s(){}\[\];,.λ\"⌜⌝|]+")
ACRONYMS = {"RA": "Ra", "TSO": "Tso", "SC": "Sc", "COH": "Coh"}
OLD_WORDS = {"valueAfter": "value_after", "getD": "get_or"}
# where the plain respelling would fall together with a word of the library
APART = {"bit-and": "bit_of_and", "bit-or": "bit_of_or", "Sound-prop": "sound_prop"}


def own(module):
    match = re.match(r"Rattle\.(\w+)", module)
    return match and os.path.isdir(os.path.join("crates", match.group(1)))


def respelled(name):
    """A fact or a type in camel case, any other name in snake case."""
    if name in APART:
        return APART[name]
    parts = name.split("-")
    if name[0].isupper():
        return "".join(ACRONYMS.get(p, p[:1].upper() + p[1:]) for p in parts)
    return "_".join(OLD_WORDS.get(p, p) for p in parts)


def read(path):
    with open(path, encoding="utf-8") as file:
        return file.read()


def files(pattern):
    return sorted(p for p in glob.glob("crates/*/" + pattern, recursive=True) if "/out/" not in p)


def names_of(proofs, sources):
    """The names that are declared here, and those that come from elsewhere or are made by the check."""
    declared, others = {}, set()
    for path in proofs + sources:
        for module, names in USE.findall(read(path)):
            if not own(module) or module.endswith((".Goals", ".Given")):
                others.update(n.strip().split(" as ")[0].strip() for n in names.split(","))
    for path in proofs:
        for line in read(path).split("\n"):
            match = SIGNATURE.match(line)
            if not match or line.strip().startswith("--"):
                continue
            if re.match(r"\s*(goal|given)\.", line[match.end():]):
                others.add(match.group(1))
            elif re.search("[A-Za-z]", match.group(1)):
                declared[match.group(1)] = path
    for path in proofs + sources:
        for alias in re.findall(r"(?<=[\w'] as )[A-Za-z][\w'-]*", read(path)):
            declared.setdefault(alias, path)
    return declared, others


def made(token, parts):
    """The spelling of a name that the check makes: a dash joins its parts, and each part keeps its own spelling."""
    token = re.sub(r"·(\d+)$", r"-\1", token)
    token = re.sub(r"(^|-)([iI]n)-(ok|err|default)(?=-|$)", r"\1\2_\3", token)
    token = re.sub(r"^(overflow)-(add|sub|mul|neg|shl|shr|cast|step)(?=-)", r"\1_\2", token)
    token = re.sub(r"^(nonzero)-(div|rem)(?=-)", r"\1_\2", token)
    token = re.sub(r"^(slice|offset)-bounds(?=-)", r"\1_bounds", token)
    token = re.sub(r"^invariant-of(?=-)", "invariant_of", token)
    for dashed, name in parts:
        if dashed in token:
            token = re.sub(r"(?<![\w'])" + re.escape(dashed) + r"(?![\w'])", name, token)
    return token


def identifiers(paths):
    """Names of the source with an underscore, the longest first, each with the dashed form that older proofs have."""
    found = set()
    for path in paths:
        text = re.sub(r"//.*", "", read(path))
        found.update(re.findall(r"(?<![\w'])[a-z][a-z0-9]*(?:_[a-z0-9]+)+(?![\w'])", text))
    return sorted(((n.replace("_", "-"), n) for n in found), key=lambda pair: -len(pair[0]))


def main():
    proofs = files("specs/**/*.antt") + files("proofs/**/*.antt")
    sources = files("src/**/*.rt")
    declared, others = names_of(proofs, sources)
    renamed = {n: respelled(n) for n in declared if ("-" in n or "·" in n or n in OLD_WORDS) and n not in others}
    renamed = {old: new for old, new in renamed.items() if old != new}
    clauses = {}
    for path in sources:
        for name in re.findall(r"(?:ensures|requires|ghost)\*? (\w+_\w+)\s*[{:]", read(path)):
            clauses[name.replace("_", "-")] = name
    for new, olds in falls_together(renamed, declared, others):
        print(f"falls together: {new}: {', '.join(olds)}")
    if "--dry" in sys.argv:
        return
    for path in proofs + sources:
        crate = path.split(os.sep)[1]
        parts = identifiers([s for s in sources if s.split(os.sep)[1] == crate])
        made_here = "/proofs/" in path

        def turn(match):
            token = match.group(0)
            if token in renamed:
                return renamed[token]
            if not made_here or ("-" not in token and "·" not in token):
                return token
            return clauses.get(token) or made(token, parts)

        before = read(path)
        after = "\n".join(TOKEN.sub(turn, line) if turns else line for line, turns in lines_to_turn(path, before))
        if after != before:
            with open(path, "w", encoding="utf-8") as file:
                file.write(after)


def lines_to_turn(path, text):
    """Each line, and whether names are turned in it: in a source in clauses and ghost items alone."""
    deep = 0
    for line in text.split("\n"):
        inside = deep > 0 or re.match(r"\s*(pub )?(ghost|requires|ensures)\b", line)
        if inside:
            deep = max(0, deep + line.count("{") - line.count("}"))
        yield line, not re.match(r"\s*(//|--)", line) and (inside or path.endswith(".antt"))


def falls_together(renamed, declared, others):
    by_new = collections.defaultdict(list)
    for old, new in renamed.items():
        by_new[new].append(old)
    for new, olds in sorted(by_new.items()):
        more = [f"{new} ({'declared in ' + declared[new] if new in declared else 'from elsewhere'})"] if new in declared or new in others else []
        if len(olds) + len(more) > 1:
            yield new, [f"{o} ({declared[o]})" for o in olds] + more


main()
