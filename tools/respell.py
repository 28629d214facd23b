#!/usr/bin/env python3
"""Respells the repository's own definitions and lemmas, once, as this Rattle's library spells its own: words in snake case, a dash only
between two names, a field of a record without a dash. Functions of src/, exported C names, strings and byte literals keep theirs.

    tools/respell.py            respells crates/ (specs, proofs, clauses, edits) and the names in README, CONTRIBUTING and docs/
    tools/respell.py --list     prints old and new name, and changes nothing
"""
import glob
import re
import sys

# In .rt a byte literal is one character; in .antt b' is a name with a prime.
WORD = r"""(?<![\w'\-])[A-Za-z_][\w'\-]*"""
STRING = r'''b?"(?:[^"\\\n]|\\.)*"'''
BYTE = r"""b'(?:[^'\\\n]|\\.)'"""
IN_ANTT = re.compile(f"{STRING}|{WORD}", re.ASCII)
IN_RT = re.compile(f"{STRING}|{BYTE}|{WORD}", re.ASCII)
DECLARED = re.compile(r"((?:(?:abbrev|unfoldable|pub|data|record|opaque) )*)([A-Za-z_][\w'\-]*)(?=[ :])")
FIELD = re.compile(r"^ +pub ([a-z][\w'\-]*)")
# Two names that would fall together.
BY_HAND = {
    "nameRow": "row_of_name",
    "ofAnswer": "verdict_of_answer",
    "ofOutcome": "verdict_of_outcome",
    "ofPut": "verdict_of_put",
    "ofReading": "verdict_of_reading",
    "ofReplayed": "verdict_of_replayed",
    "ofTaken": "verdict_of_taken",
    "ofWriting": "verdict_of_writing",
    "verdictOf": "verdict_of",
}
LIBRARY = "length append take drop map filter sum get_or set cond among suc min max tab".split()
CASE = re.compile(r"^  ([a-z][\w'\-]*) :")


def words_of(path):
    return IN_RT if path.endswith(".rt") else IN_ANTT


def sources(*kinds):
    found = []
    for kind in kinds:
        found += glob.glob(f"crates/*/{kind}", recursive=True)
    return sorted(f for f in found if "/out/" not in f)


def read(path):
    with open(path, encoding="utf-8") as f:
        return f.read()


def snake(part):
    """A word of a name in snake case; a word that begins with a capital is a type's or a constant's and stays."""
    if not part or not part[0].islower():
        return part
    return re.sub(r"(?<=[a-z0-9])_?([A-Z])", lambda m: "_" + m.group(1).lower(), part)


def camel_to_snake(name):
    return "-".join(snake(p) for p in name.split("-"))


def declared(paths):
    names = set()
    for path in paths:
        for line in read(path).splitlines():
            if line.startswith(("use ", "pub use ", "ghost ", "--", "//", " ", "unfolding", "mod ", "pub mod ")):
                continue
            m = DECLARED.match(line)
            if m:
                names.add(m.group(2))
    return names


def members(paths):
    names = set()
    for path in paths:
        for line in read(path).splitlines():
            m = FIELD.match(line) or CASE.match(line)
            if m:
                names.add(m.group(1))
    return names


def plan():
    specs = sources("specs/**/*.antt")
    lemmas = sources("proofs/*.antt")
    proofs = [f for f in sources("proofs/**/*.antt") if f not in lemmas]
    code = sources("src/**/*.rt")
    tokens = set()
    for path in specs + lemmas + proofs + code + sources("must-fail/*.edit"):
        tokens |= {m.group() for m in words_of(path).finditer(read(path)) if not m.group().startswith(('"', 'b"'))}
    functions = set()
    for path in code:
        functions |= set(re.findall(r"\bfn ([a-z]\w*)", read(path)))
    own_specs = declared(specs) | members(specs)
    own_lemmas = (declared(lemmas) | members(lemmas)) - own_specs
    in_proofs = declared(proofs)
    words = {camel_to_snake(n) for n in declared(specs)} | functions | set(LIBRARY)
    words -= set("at back is past self".split())

    new = dict(BY_HAND)
    for t in sorted(tokens - set(new)):
        if camel_to_snake(t) != t and t not in own_lemmas:
            new[t] = camel_to_snake(t)
    from_camels = set(new.values())
    for t in sorted(n for n in own_specs - set(new) if "-" in n):
        new[t] = camel_to_snake(t).replace("-", "_")
    taken = tokens | set(new.values())
    for t in sorted(own_lemmas - in_proofs):
        parts = camel_to_snake(t).split("-")
        name = parts[0]
        for left, right in zip(parts, parts[1:]):
            name += ("-" if left in words and right in words else "_") + right
        if name == t:
            continue
        if name in taken and not (name in members(lemmas) and name not in from_camels):
            name += "_lem"
        new[t] = name
        taken.add(name)
    for t in sorted(in_proofs - set(new)):
        if camel_to_snake(t) != t:
            new[t] = camel_to_snake(t)
    # a lemma that has the name a definition gets
    fall_together = {t: t + "_lem" for t in own_lemmas if t not in new and t in from_camels}
    members_of_types = {t for t in new if "-" in t and t in own_specs | members(lemmas)}
    return new, members_of_types, own_specs | own_lemmas, fall_together


# What port.py turns in specs/ and does not in an edit's lines.
IN_EDITS = [
    (r"Rattle·(\w+)\.specs", r"Rattle.\1.specs"),
    (r"\bgetD\b|\bget_d\b", "get_or"),
    (r"\((\w+ \w+) \.(\w+)\)", r"(\1).\2"),
    (r"\bltb (?=most_?[dD]epth depth)", "nat_lt "),
]


def part_lemmas(path, text, fall_together):
    """In the files that declare such a lemma or bring it from proofs/, it gets a name of its own."""
    if not path.endswith(".antt") or "/proofs/" not in path:
        return text
    brought = set()
    for m in re.finditer(r"^use Rattle\.\w+\.proofs\.[^{\n]*\{([^}]*)\}", text, re.M):
        brought |= {w.strip() for w in m.group(1).split(",")}
    here = {t for t in fall_together if t in brought or t in declared([path]) | members([path])}

    def one(m):
        t = m.group()
        return fall_together[t] if t in here and text[m.start() - 1:m.start()] != "." else t

    return IN_ANTT.sub(one, text) if here else text


def part_types(path, text):
    """What the standing frames tell of an address's type: the question on a type has the shorter name."""
    here = path.endswith("history/specs/Standing.antt") or re.search(r"^use Rattle\.history\.specs\.Standing\.\{[^}]*\btype_of\b", text, re.M)
    if not here:
        return text
    return IN_ANTT.sub(lambda m: "standing_type" if m.group() == "type_of" and text[m.start() - 1:m.start()] != "." else m.group(), text)


def respell(path, text, new, fields):
    def one(m):
        t = m.group()
        if t not in new:
            return t
        if "-" in t and t not in fields and camel_to_snake(t) == t:
            line = text[text.rfind("\n", 0, m.start()) + 1:m.start()]
            if text[m.start() - 1:m.start()] == "." and not line.startswith(("use ", "pub use ", "ghost use ")):
                return t
        return new[t]

    return words_of(path).sub(one, text)


def main():
    new, fields, known, fall_together = plan()
    if "--list" in sys.argv:
        for t in sorted(new):
            print(t, new[t])
        for t in sorted(fall_together):
            print(t, fall_together[t], "(in the files that declare or bring it)")
        return
    for path in sources("specs/**/*.antt", "proofs/**/*.antt", "src/**/*.rt", "must-fail/*.edit"):
        text = read(path)
        changed = text
        if path.endswith(".edit"):
            for old, now in IN_EDITS:
                changed = re.sub(old, now, changed)
        changed = respell(path, part_lemmas(path, part_types(path, changed), fall_together), new, fields)
        if changed != text:
            with open(path, "w", encoding="utf-8") as f:
                f.write(changed)
    in_words = {t: n for t, n in new.items() if t in known}
    for path in ["README.md", "CONTRIBUTING.md"] + sorted(glob.glob("docs/*.md")):
        text = read(path)
        changed = respell(path, text, in_words, in_words)
        if changed != text:
            with open(path, "w", encoding="utf-8") as f:
                f.write(changed)


if __name__ == "__main__":
    main()
